//! Runs cases: document 01's refusals and `pass`, and document 02's refusal of a
//! minimum queue time, around the kernel's `advance`, which is the published one,
//! or the one with document 02's requests where a case has what only that knows.

use std::io::{self, BufRead, Write};

use crate::backtest::kernel::glue as published;
use crate::case::{
    AWAIT_DECISION, BEFORE_MATCH, Case, Config, EVENT, Fill, LONG, OBS_QUEUED, Reader, State, Stop,
    TERMINAL, put_line, put_state,
};
use crate::requests::kernel::glue as requests;

/// The log: it holds the first `room` events and counts all.
pub struct Log {
    pub room: u64,
    pub events: Vec<[u64; EVENT]>,
    pub count: u64,
}

/// Which kernel runs: the one that the case asks for, or always the one with the
/// requests.
#[derive(Clone, Copy, PartialEq)]
pub enum Which {
    Asked,
    Requests,
}

enum Prepared {
    Published(published::Prepared),
    Requests(requests::Prepared),
}

impl Prepared {
    fn new(config: &Config, rows: &[u64], which: Which) -> Self {
        if which == Which::Requests || config.ceiling > 0 {
            return Self::Requests(requests::prepare(config, rows));
        }
        Self::Published(published::prepare(config, rows))
    }

    fn advance(&self, s: &mut State, log: &mut Log) {
        match self {
            Self::Published(with) => published::advance(with, s, log),
            Self::Requests(with) => requests::advance(with, s, log),
        }
    }
}

/// A call's answer: 0, or the refusal.
fn advance(case: &Case, with: &Prepared, s: &mut State, log: &mut Log) -> u64 {
    if !case.rows.len().is_multiple_of(5) {
        return 101;
    }
    if s.overfull() {
        return 102;
    }
    // N11: no minimum queue time, whether the rule would come to ask for it or not.
    if let Fill::Queue { min: 1.., .. } = case.config.fill {
        return 115;
    }
    with.advance(s, log);
    0
}

fn pass(s: &mut State) -> u64 {
    if s.overfull() {
        return 102;
    }
    if s.phase != AWAIT_DECISION {
        return 103;
    }
    if s.resume != BEFORE_MATCH && s.resume != OBS_QUEUED {
        return 104;
    }
    let Some(step) = s.step.checked_add(1) else {
        return 105;
    };
    s.step = step;
    s.phase = s.resume;
    0
}

/// FNV-1a of 64 bits over words, each as 8 bytes, the lowest first.
struct Sum(u64);

impl Sum {
    fn new() -> Self {
        Self(0xcbf2_9ce4_8422_2325)
    }
    fn take(&mut self, words: &[u64; EVENT]) {
        for byte in words.iter().flat_map(|w| w.to_le_bytes()) {
            self.0 = (self.0 ^ u64::from(byte)).wrapping_mul(0x100_0000_01b3);
        }
    }
}

/// Advances and passes by turns until Terminal or a refusal. Each `advance`
/// has the whole log; the sum is over what each one's log holds.
fn turns(case: &Case, with: &Prepared, s: &mut State, log: &mut Log) -> (u64, u64, Sum) {
    let mut sum = Sum::new();
    let mut count = 0;
    loop {
        log.events.clear();
        log.count = 0;
        let answer = advance(case, with, s, log);
        count += log.count;
        for event in &log.events {
            sum.take(event);
        }
        if answer != 0 || s.phase == TERMINAL {
            return (answer, count, sum);
        }
        let answer = pass(s);
        if answer != 0 {
            return (answer, count, sum);
        }
    }
}

/// Runs the calls of one case and writes their outcome.
pub fn case(out: &mut Vec<u8>, case: &Case, log: &mut Log, which: Which) {
    out.extend_from_slice(b"case ");
    out.extend_from_slice(case.name.as_bytes());
    out.push(b'\n');
    let with = Prepared::new(&case.config, &case.rows, which);
    let mut s = case.state.clone();
    log.room = case.log.map_or(LONG, |words| words / EVENT as u64);
    for call in &case.calls {
        log.events.clear();
        log.count = 0;
        put_line(out, "call", &[*call]);
        if *call == 2 {
            let (answer, count, sum) = turns(case, &with, &mut s, log);
            put_line(out, "answer", &[answer]);
            put_line(out, "count", &[count]);
            put_line(out, "sum", &[sum.0]);
        } else {
            let answer = match call {
                0 => advance(case, &with, &mut s, log),
                _ => pass(&mut s),
            };
            put_line(out, "answer", &[answer]);
            put_line(out, "count", &[log.count]);
            put_line(out, "kept", &[log.events.len() as u64]);
            for event in &log.events {
                put_line(out, "event", event);
            }
        }
        put_state(out, &s);
    }
    out.extend_from_slice(b"end\n");
}

/// Reads cases and writes outcomes; false after a bad line.
pub fn all(from: impl BufRead, mut to: impl Write, which: Which) -> io::Result<bool> {
    let mut reader = Reader::new(from);
    let mut out = Vec::new();
    let mut log = Log {
        room: 0,
        events: Vec::new(),
        count: 0,
    };
    loop {
        out.clear();
        match reader.case() {
            Ok(read) => case(&mut out, &read, &mut log, which),
            Err(Stop::End) => {
                to.flush()?;
                return Ok(true);
            }
            Err(Stop::Bad(line)) => {
                writeln!(to, "bad {line}")?;
                to.flush()?;
                return Ok(false);
            }
            Err(Stop::Io(error)) => return Err(error),
        }
        to.write_all(&out)?;
    }
}
