//! Makes cases, each from a kind, a seed and its index alone.

use std::io::{self, Write};

use crate::case::{Case, Config, Fill, put_case};
use chance::Chance;

mod chance;
mod edge;
mod replay;
mod wild;

/// Once in so many cases a short log, else one that is long enough.
fn log(r: &mut Chance, once_in: u64) -> Option<u64> {
    r.once_in(once_in).then(|| match r.below(3) {
        0 => r.below(60),
        1 => 12 * r.below(12),
        _ => 12 * r.range(1, 12) - 1,
    })
}

/// The case, one in four with a ceiling drawn, which may be 0. It is drawn behind
/// the rest of the case, which is what it was before there were any.
fn with_ceiling(r: &mut Chance, mut case: Case) -> Case {
    fn drawn(r: &mut Chance, config: &Config) -> u64 {
        let ns = r.below(6).saturating_mul(config.quantum);
        match r.below(8) {
            0 => 1,
            1 => r.extreme(),
            2 => ns.saturating_sub(1),
            3 => ns.saturating_add(1),
            _ => ns,
        }
    }
    if r.once_in(4) {
        case.config.ceiling = drawn(r, &case.config);
    }
    case
}

/// The case, in five cases of six without the minimum queue time that it has:
/// `advance` refuses one. It is drawn behind the ceiling: the rest of the case is
/// what it was when a minimum was a rule.
fn few_minima(r: &mut Chance, mut case: Case) -> Case {
    if let Fill::Queue { min: min @ 1.., .. } = &mut case.config.fill
        && !r.once_in(6)
    {
        *min = 0;
    }
    case
}

/// Writes the cases from index `first` on; false if there is no such kind.
pub fn cases(
    kind: &str,
    seed: u64,
    first: u64,
    count: u64,
    mut to: impl Write,
) -> io::Result<bool> {
    let edges = edge::Edges::new();
    let mut out = Vec::new();
    for index in first..first.saturating_add(count) {
        out.clear();
        let case = match kind {
            "replay" => {
                let r = &mut Chance::new(seed, index);
                let case = replay::case(r, format!("replay.{seed}.{index}"));
                let case = with_ceiling(r, case);
                few_minima(r, case)
            }
            "wild" => {
                let r = &mut Chance::new(!seed, index);
                let case = wild::case(r, format!("wild.{seed}.{index}"));
                let case = with_ceiling(r, case);
                few_minima(r, case)
            }
            "edge" => edges.case(seed, index),
            _ => return Ok(false),
        };
        put_case(&mut out, &case);
        to.write_all(&out)?;
    }
    to.flush()?;
    Ok(true)
}
