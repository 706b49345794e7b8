use super::{is_price_row, layers_below, Estimator};
use crate::fault::{Cause, SetFault};
use crate::task::Task;

/// Offers the second what the first left and answers the sum.
pub struct Partition<A, B> {
    a: A,
    b: B,
    set: bool,
}

impl<A, B> Partition<A, B> {
    pub fn new(a: A, b: B) -> Self {
        Partition { a, b, set: false }
    }
}

impl<A: Estimator, B: Estimator> Estimator for Partition<A, B> {
    const KIND: u8 = 4;

    fn set(&mut self, task: &Task, row: &mut [u32], layer: u16) -> Result<(), SetFault> {
        self.set = false;
        if !is_price_row(task, row) {
            return Err(Self::fault(Cause::Row, layer));
        }
        let (layer_a, layer_b) = layers_below(layer);
        let offered = row.to_vec();
        self.a.set(task, row, layer_a)?;
        if let Err(fault) = self.b.set(task, row, layer_b) {
            row.copy_from_slice(&offered);
            return Err(fault);
        }
        self.set = true;
        Ok(())
    }

    fn estimate(&mut self, task: &Task, row: &[u8]) -> Option<u32> {
        if !self.set {
            return Some(0);
        }
        let a = self.a.estimate(task, row)?;
        let b = self.b.estimate(task, row)?;
        Some(a.saturating_add(b))
    }
}
