use super::{is_price_row, Estimator};
use crate::fault::{Cause, SetFault};
use crate::task::Task;

/// Holds nothing and answers 0.
pub struct Blind;

impl Estimator for Blind {
    const KIND: u8 = 1;

    fn set(&mut self, task: &Task, row: &mut [u32], layer: u16) -> Result<(), SetFault> {
        if is_price_row(task, row) {
            Ok(())
        } else {
            Err(Self::fault(Cause::Row, layer))
        }
    }

    fn estimate(&mut self, _: &Task, _: &[u8]) -> Option<u32> {
        Some(0)
    }
}
