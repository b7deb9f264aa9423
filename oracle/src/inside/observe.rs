//! Stands for the kernel's `observe` and for `FinancialKernel`: what encode.rs
//! names. Neither encoding nor decoding is ever called.

use super::config::ValidatedConfig;
use super::data::KernelDataset;
use super::encode::Writer;
use super::state::Status;

pub struct FinancialKernel<
    'a,
    const ORD: usize,
    const MSG: usize,
    const DLV: usize,
    const OBS: usize,
> {
    pub(super) cfg: ValidatedConfig,
    pub(super) data: &'a KernelDataset,
}

pub(super) fn write_status(_w: &mut Writer, _status: Status) {}
