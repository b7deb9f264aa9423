//! Stands for the kernel's `hedge`: the names that step.rs and state.rs use.
//! A kernel alone has no hedge, so none of it is ever called.

use crate::types::action::Dir;

use super::gate::GateState;
use super::grid::Unit;

pub struct HedgeEvent;

pub(super) struct CombinedCheck;

impl CombinedCheck {
    pub(super) fn admits_quoted(
        &self,
        _gate: &GateState,
        _tick: &Unit,
        _lot: &Unit,
        _dir: Dir,
        _price: u64,
        _lots: u64,
    ) -> Option<bool> {
        None
    }
}
