//! A case and its state as plain numbers, and their text.

use std::io::{self, BufRead};

pub const ORD: usize = 8;
pub const MSG: usize = 16;
pub const DLV: usize = 24;
pub const OBS: usize = 16;

/// Words of one event in the log.
pub const EVENT: usize = 12;
/// Events in a log that is long enough.
pub const LONG: u64 = 2048;

macro_rules! record {
    ($(#[$doc:meta])* $name:ident, $words:literal, $label:literal, $($field:ident),*) => {
        $(#[$doc])*
        #[derive(Debug, Clone, Copy, Default, PartialEq, Eq)]
        pub struct $name { $(pub $field: u64),* }

        impl Entry for $name {
            type Words = [u64; $words];
            const LABEL: &'static str = $label;
            fn words(&self) -> [u64; $words] { [$(self.$field),*] }
            fn from_words([$($field),*]: [u64; $words]) -> Self { Self { $($field),* } }
        }
    };
}

/// An entry of a list: one line of numbers.
pub trait Entry: Copy + PartialEq {
    type Words: AsRef<[u64]> + AsMut<[u64]> + Zeros;
    const LABEL: &'static str;
    fn words(&self) -> Self::Words;
    fn from_words(words: Self::Words) -> Self;
}

/// Zeros of any length.
pub trait Zeros {
    fn zeros() -> Self;
}

impl<const N: usize> Zeros for [u64; N] {
    fn zeros() -> Self {
        [0; N]
    }
}

record!(
    Order, 8, "order", id, side, price, qty, filled, state, active, cancel
);
record!(
    /// `kind` 0 Activate, 1 Cancel, 2 Expire; what follows `id` is 0 for the last two.
    Msg, 12, "msg",
    eff, seq, kind, id, side, price, qty, filled, state, active, cancel, life
);
record!(
    Delivery, 19, "delivery", at, ts, seq, order, side, kind, origin, pending, price, qty, last,
    cum, has, fts, fexec, forder, fside, fprice, fqty
);
record!(Obs, 2, "obs", ready, row);
record!(Open, 2, "open", id, awaiting);

impl Order {
    pub fn remaining(&self) -> u64 {
        self.qty.saturating_sub(self.filled)
    }
    fn good(&self) -> bool {
        self.side <= 1 && (1..=5).contains(&self.state) && self.cancel <= 1
    }
}

impl Msg {
    pub fn activate(eff: u64, seq: u64, order: Order, life: u64) -> Self {
        let [a, b, c, d, e, f, g, h] = order.words();
        Self::from_words([eff, seq, 0, a, b, c, d, e, f, g, h, life])
    }
    pub fn cancel(eff: u64, seq: u64, id: u64) -> Self {
        Self {
            eff,
            seq,
            kind: 1,
            id,
            ..Self::default()
        }
    }
    pub fn expire(eff: u64, seq: u64, id: u64) -> Self {
        Self {
            kind: 2,
            ..Self::cancel(eff, seq, id)
        }
    }
    /// The order of an activation.
    pub fn order(&self) -> Order {
        let [_, _, _, order @ .., _] = self.words();
        Order::from_words(order)
    }
    fn good(&self) -> bool {
        match self.kind {
            0 => self.order().good(),
            1 => *self == Self::cancel(self.eff, self.seq, self.id),
            2 => *self == Self::expire(self.eff, self.seq, self.id),
            _ => false,
        }
    }
}

impl Delivery {
    fn good(&self) -> bool {
        let words = self.words();
        self.side <= 1
            && self.kind <= 5
            && self.origin <= 1
            && self.pending <= 1
            && match self.has {
                0 => words[13..] == [0; 6],
                1 => self.fside <= 1,
                _ => false,
            }
    }
}

/// A count and the entries below it, at most as many as the capacity.
#[derive(Debug, Clone, PartialEq, Eq)]
pub struct List<T> {
    pub count: u64,
    pub items: Vec<T>,
}

impl<T> Default for List<T> {
    fn default() -> Self {
        Self::of(Vec::new())
    }
}

impl<T> List<T> {
    pub fn of(items: Vec<T>) -> Self {
        Self {
            count: items.len() as u64,
            items,
        }
    }
    pub fn push(&mut self, item: T) {
        self.items.push(item);
        self.count = self.items.len() as u64;
    }
    pub fn insert(&mut self, index: usize, item: T) {
        self.items.insert(index, item);
        self.count = self.items.len() as u64;
    }
    pub fn truncate(&mut self, len: usize) {
        self.items.truncate(len);
        self.count = self.items.len() as u64;
    }
}

#[derive(Debug, Clone, Copy, PartialEq, Eq)]
pub enum Fill {
    Immediate,
    Queue { rate: u64, per: u64, min: u64 },
}

#[derive(Debug, Clone)]
pub struct Config {
    pub quantum: u64,
    pub observation: u64,
    pub ack: u64,
    pub jitter: u64,
    pub ceiling: u64,
    pub s_max: u64,
    pub fill: Fill,
}

pub const BEFORE_MATCH: u64 = 1;
pub const OBS_QUEUED: u64 = 3;
pub const AWAIT_DECISION: u64 = 4;
pub const TERMINAL: u64 = 5;

#[derive(Debug, Clone)]
pub struct State {
    pub phase: u64,
    pub resume: u64,
    pub cursor: u64,
    pub cur_row: Option<u64>,
    pub now: u64,
    pub step: u64,
    /// The status and, if halted, the halt's number.
    pub status: [u64; 2],
    pub rng: u64,
    pub stamp_seq: u64,
    pub next_msg_seq: u64,
    pub next_exec_id: u64,
    pub last_delivery: u64,
    pub last_observed: u64,
    pub orders: List<Order>,
    pub msgs: List<Msg>,
    pub awaiting: List<Order>,
    pub deliveries: List<Delivery>,
    pub observed: List<Obs>,
    pub account: List<Open>,
    pub position: i64,
    /// Live lots, Buy and Sell.
    pub live: [u64; 2],
    pub mark2: Option<u64>,
    pub agent: i64,
    pub last_obs_row: Option<u64>,
    pub local_rejects: u64,
    pub delivered_fills: u64,
    pub halts: u64,
    pub venue_fills: u64,
    pub eof_msgs: u64,
    pub eof_obs: u64,
}

impl State {
    /// A state with nothing in it, in ObsQueued with no row.
    pub fn new() -> Self {
        Self {
            phase: OBS_QUEUED,
            resume: OBS_QUEUED,
            cursor: 0,
            cur_row: None,
            now: 0,
            step: 0,
            status: [0, 0],
            rng: 1,
            stamp_seq: 0,
            next_msg_seq: 0,
            next_exec_id: 0,
            last_delivery: 0,
            last_observed: 0,
            orders: List::default(),
            msgs: List::default(),
            awaiting: List::default(),
            deliveries: List::default(),
            observed: List::default(),
            account: List::default(),
            position: 0,
            live: [0, 0],
            mark2: None,
            agent: 0,
            last_obs_row: None,
            local_rejects: 0,
            delivered_fills: 0,
            halts: 0,
            venue_fills: 0,
            eof_msgs: 0,
            eof_obs: 0,
        }
    }

    /// Whether a count is above its list's capacity.
    pub fn overfull(&self) -> bool {
        self.orders.count > ORD as u64
            || self.msgs.count > MSG as u64
            || self.awaiting.count > ORD as u64
            || self.deliveries.count > DLV as u64
            || self.observed.count > OBS as u64
            || self.account.count > ORD as u64
    }
}

#[derive(Debug, Clone)]
pub struct Case {
    pub name: String,
    pub config: Config,
    /// The log's length in words; none: long enough.
    pub log: Option<u64>,
    /// The rows' words.
    pub rows: Vec<u64>,
    pub state: State,
    pub calls: Vec<u64>,
}

// Writing.

pub fn put_number(out: &mut Vec<u8>, mut n: u64) {
    let mut digits = [0u8; 20];
    let mut at = digits.len();
    loop {
        at -= 1;
        digits[at] = b'0' + (n % 10) as u8;
        n /= 10;
        if n == 0 {
            break;
        }
    }
    out.extend_from_slice(&digits[at..]);
}

pub fn put_line(out: &mut Vec<u8>, label: &str, numbers: &[u64]) {
    out.extend_from_slice(label.as_bytes());
    for n in numbers {
        out.push(b' ');
        put_number(out, *n);
    }
    out.push(b'\n');
}

fn put_signed(out: &mut Vec<u8>, label: &str, n: i64) {
    out.extend_from_slice(label.as_bytes());
    out.push(b' ');
    if n < 0 {
        out.push(b'-');
    }
    put_number(out, n.unsigned_abs());
    out.push(b'\n');
}

fn option(value: Option<u64>) -> [u64; 2] {
    match value {
        Some(n) => [1, n],
        None => [0, 0],
    }
}

fn put_list<T: Entry>(out: &mut Vec<u8>, label: &str, list: &List<T>) {
    put_line(out, label, &[list.count]);
    for item in &list.items {
        put_line(out, T::LABEL, item.words().as_ref());
    }
}

pub fn put_state(out: &mut Vec<u8>, s: &State) {
    put_line(out, "phase", &[s.phase]);
    put_line(out, "resume", &[s.resume]);
    put_line(out, "cursor", &[s.cursor]);
    put_line(out, "currow", &option(s.cur_row));
    put_line(out, "now", &[s.now]);
    put_line(out, "step", &[s.step]);
    put_line(out, "status", &s.status);
    put_line(out, "rng", &[s.rng]);
    put_line(out, "stampseq", &[s.stamp_seq]);
    put_line(out, "nextmsg", &[s.next_msg_seq]);
    put_line(out, "nextexec", &[s.next_exec_id]);
    put_line(out, "lastdelivery", &[s.last_delivery]);
    put_line(out, "lastobserved", &[s.last_observed]);
    put_list(out, "orders", &s.orders);
    put_list(out, "msgs", &s.msgs);
    put_list(out, "awaiting", &s.awaiting);
    put_list(out, "deliveries", &s.deliveries);
    put_list(out, "observed", &s.observed);
    put_list(out, "account", &s.account);
    put_signed(out, "position", s.position);
    put_line(out, "livebuy", &[s.live[0]]);
    put_line(out, "livesell", &[s.live[1]]);
    put_line(out, "mark2", &option(s.mark2));
    put_signed(out, "agent", s.agent);
    put_line(out, "lastobsrow", &option(s.last_obs_row));
    put_line(out, "localrejects", &[s.local_rejects]);
    put_line(out, "deliveredfills", &[s.delivered_fills]);
    put_line(out, "halts", &[s.halts]);
    put_line(out, "venuefills", &[s.venue_fills]);
    put_line(out, "eofmsgs", &[s.eof_msgs]);
    put_line(out, "eofobs", &[s.eof_obs]);
}

pub fn put_case(out: &mut Vec<u8>, case: &Case) {
    out.extend_from_slice(b"case ");
    out.extend_from_slice(case.name.as_bytes());
    out.push(b'\n');
    let c = &case.config;
    put_line(out, "quantum", &[c.quantum]);
    put_line(out, "observation", &[c.observation]);
    put_line(out, "ack", &[c.ack]);
    put_line(out, "jitter", &[c.jitter]);
    put_line(out, "ceiling", &[c.ceiling]);
    put_line(out, "smax", &[c.s_max]);
    match c.fill {
        Fill::Immediate => put_line(out, "fill", &[0, 0, 0, 0]),
        Fill::Queue { rate, per, min } => put_line(out, "fill", &[1, rate, per, min]),
    }
    put_line(out, "log", &option(case.log));
    put_line(out, "rows", &[case.rows.len() as u64]);
    for row in case.rows.chunks(5) {
        put_line(out, "row", row);
    }
    put_state(out, &case.state);
    put_line(out, "calls", &[case.calls.len() as u64]);
    for call in &case.calls {
        put_line(out, "call", &[*call]);
    }
    out.extend_from_slice(b"end\n");
}

// Reading.

/// Why no case could be read.
pub enum Stop {
    /// The text has ended after a whole case.
    End,
    /// This line is not as it should be.
    Bad(u64),
    /// The text could not be read.
    Io(io::Error),
}

pub struct Reader<R> {
    from: R,
    line: Vec<u8>,
    number: u64,
}

type Got<T> = Result<T, Stop>;

fn decimal(digits: &[u8]) -> Option<u64> {
    if digits.is_empty() {
        return None;
    }
    digits.iter().try_fold(0u64, |sum, d| {
        let d = d.is_ascii_digit().then(|| u64::from(d - b'0'))?;
        sum.checked_mul(10)?.checked_add(d)
    })
}

impl<R: BufRead> Reader<R> {
    pub fn new(from: R) -> Self {
        Self {
            from,
            line: Vec::new(),
            number: 0,
        }
    }

    /// Reads a line and drops its newline; false at the end of the text.
    fn next(&mut self) -> Got<bool> {
        self.line.clear();
        self.number += 1;
        let read = self
            .from
            .read_until(b'\n', &mut self.line)
            .map_err(Stop::Io)?;
        if read > 0 && self.line.pop() != Some(b'\n') {
            return self.bad();
        }
        Ok(read > 0)
    }

    fn bad<T>(&self) -> Got<T> {
        Err(Stop::Bad(self.number))
    }

    fn check(&self, good: bool) -> Got<()> {
        if good { Ok(()) } else { self.bad() }
    }

    fn good<T>(&self, value: Option<T>) -> Got<T> {
        value.ok_or(Stop::Bad(self.number))
    }

    /// Reads a line of exactly as many numbers as `to` has places.
    fn numbers(&mut self, label: &str, to: &mut [u64]) -> Got<()> {
        if !self.next()? {
            return self.bad();
        }
        let mut fields = self.line.split(|b| *b == b' ');
        self.check(fields.next() == Some(label.as_bytes()))?;
        for place in to {
            let n = fields.next().and_then(decimal);
            *place = self.good(n)?;
        }
        self.check(fields.next().is_none())
    }

    fn number(&mut self, label: &str) -> Got<u64> {
        let mut n = [0];
        self.numbers(label, &mut n)?;
        Ok(n[0])
    }

    fn option(&mut self, label: &str) -> Got<Option<u64>> {
        let mut n = [0; 2];
        self.numbers(label, &mut n)?;
        match n {
            [0, 0] => Ok(None),
            [1, n] => Ok(Some(n)),
            _ => self.bad(),
        }
    }

    fn signed(&mut self, label: &str) -> Got<i64> {
        if !self.next()? {
            return self.bad();
        }
        let text = self.line.strip_prefix(label.as_bytes());
        let text = text.and_then(|rest| rest.strip_prefix(b" "));
        let n = text.and_then(|text| match text.strip_prefix(b"-") {
            Some(digits) => 0i64.checked_sub_unsigned(decimal(digits)?),
            None => 0i64.checked_add_unsigned(decimal(text)?),
        });
        self.good(n)
    }

    fn word(&mut self, label: &str, good: impl Fn(u64) -> bool) -> Got<u64> {
        let n = self.number(label)?;
        self.check(good(n))?;
        Ok(n)
    }

    fn list<T: Entry>(
        &mut self,
        label: &str,
        capacity: usize,
        good: impl Fn(&T) -> bool,
    ) -> Got<List<T>> {
        let count = self.number(label)?;
        let live = usize::try_from(count).map_or(capacity, |n| n.min(capacity));
        let mut items = Vec::with_capacity(live);
        for _ in 0..live {
            let mut words = T::Words::zeros();
            self.numbers(T::LABEL, words.as_mut())?;
            let item = T::from_words(words);
            self.check(good(&item))?;
            items.push(item);
        }
        Ok(List { count, items })
    }

    /// The next case.
    pub fn case(&mut self) -> Got<Case> {
        if !self.next()? {
            return Err(Stop::End);
        }
        let name = self
            .line
            .strip_prefix(b"case ")
            .filter(|name| !name.is_empty() && !name.contains(&b' '))
            .and_then(|name| String::from_utf8(name.to_vec()).ok());
        let name = self.good(name)?;
        let mut config = Config {
            quantum: self.number("quantum")?,
            observation: self.number("observation")?,
            ack: self.number("ack")?,
            jitter: self.number("jitter")?,
            ceiling: self.number("ceiling")?,
            s_max: self.number("smax")?,
            fill: Fill::Immediate,
        };
        let mut fill = [0; 4];
        self.numbers("fill", &mut fill)?;
        config.fill = match fill {
            [0, 0, 0, 0] => Fill::Immediate,
            [1, rate, per, min] => Fill::Queue { rate, per, min },
            _ => return self.bad(),
        };
        let log = self.option("log")?;
        let words = self.number("rows")?;
        let mut rows = Vec::new();
        let mut left = words;
        while left > 0 {
            let n = left.min(5);
            let mut row = [0; 5];
            self.numbers("row", &mut row[..n as usize])?;
            rows.extend_from_slice(&row[..n as usize]);
            left -= n;
        }
        let state = self.state()?;
        let calls = self.number("calls")?;
        let calls = (0..calls)
            .map(|_| self.word("call", |n| n <= 2))
            .collect::<Got<Vec<u64>>>()?;
        self.numbers("end", &mut [])?;
        Ok(Case {
            name,
            config,
            log,
            rows,
            state,
            calls,
        })
    }

    fn state(&mut self) -> Got<State> {
        let phase = |n| matches!(n, 1 | 3 | 4 | 5);
        Ok(State {
            phase: self.word("phase", phase)?,
            resume: self.word("resume", phase)?,
            cursor: self.number("cursor")?,
            cur_row: self.option("currow")?,
            now: self.number("now")?,
            step: self.number("step")?,
            status: {
                let mut status = [0; 2];
                self.numbers("status", &mut status)?;
                self.check(matches!(status, [0..=2, 0] | [3, 5..=7]))?;
                status
            },
            rng: self.number("rng")?,
            stamp_seq: self.number("stampseq")?,
            next_msg_seq: self.number("nextmsg")?,
            next_exec_id: self.number("nextexec")?,
            last_delivery: self.number("lastdelivery")?,
            last_observed: self.number("lastobserved")?,
            orders: self.list("orders", ORD, Order::good)?,
            msgs: self.list("msgs", MSG, Msg::good)?,
            awaiting: self.list("awaiting", ORD, Order::good)?,
            deliveries: self.list("deliveries", DLV, Delivery::good)?,
            observed: self.list("observed", OBS, |_: &Obs| true)?,
            account: self.list("account", ORD, |o: &Open| o.awaiting <= 1)?,
            position: self.signed("position")?,
            live: [self.number("livebuy")?, self.number("livesell")?],
            mark2: self.option("mark2")?,
            agent: self.signed("agent")?,
            last_obs_row: self.option("lastobsrow")?,
            local_rejects: self.number("localrejects")?,
            delivered_fills: self.number("deliveredfills")?,
            halts: self.number("halts")?,
            venue_fills: self.number("venuefills")?,
            eof_msgs: self.number("eofmsgs")?,
            eof_obs: self.number("eofobs")?,
        })
    }
}
