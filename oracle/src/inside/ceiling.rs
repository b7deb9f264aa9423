//! N5 of document 02, a second writing of it: no delay is longer than the
//! ceiling. It stands in the place of the published `delayed`.

use super::config::ValidatedConfig;
use super::state::{HaltReason, KernelState};

pub(super) fn delayed<const ORD: usize, const MSG: usize, const DLV: usize, const OBS: usize>(
    cfg: &ValidatedConfig,
    s: &mut KernelState<ORD, MSG, DLV, OBS>,
    at: u64,
    base_q: u64,
) -> Result<u64, HaltReason> {
    let latency = &cfg.latency;
    let ceiling = latency.ceiling_ns;
    let jitter = s.rng_latency.draw(latency.jitter_q);
    // Exact, then none past 64 bits: the sum first, whatever the quantum is.
    let quanta = u64::try_from(u128::from(base_q) + u128::from(jitter)).ok();
    let ns = quanta.and_then(|quanta| {
        u64::try_from(u128::from(quanta) * u128::from(latency.quantum_ns)).ok()
    });
    let ns = match ns {
        Some(ns) if ceiling == 0 || ns <= ceiling => ns,
        _ if ceiling > 0 => ceiling,
        _ => return Err(HaltReason::TimeOverflow),
    };
    at.checked_add(ns).ok_or(HaltReason::TimeOverflow)
}
