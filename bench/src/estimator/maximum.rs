use super::{is_price_row, layers_below, Estimator};
use crate::fault::{Cause, SetFault};
use crate::task::Task;

/// Offers both the same prices and answers the greater estimate.
pub struct Maximum<A, B> {
    a: A,
    b: B,
    set: bool,
}

impl<A, B> Maximum<A, B> {
    pub fn new(a: A, b: B) -> Self {
        Maximum { a, b, set: false }
    }
}

impl<A: Estimator, B: Estimator> Estimator for Maximum<A, B> {
    const KIND: u8 = 3;

    fn set(&mut self, task: &Task, row: &mut [u32], layer: u16) -> Result<(), SetFault> {
        self.set = false;
        if !is_price_row(task, row) {
            return Err(Self::fault(Cause::Row, layer));
        }
        let (layer_a, layer_b) = layers_below(layer);
        let mut left_by_a = row.to_vec();
        self.a.set(task, &mut left_by_a, layer_a)?;
        self.b.set(task, row, layer_b)?;
        for (left, left_by_a) in row.iter_mut().zip(left_by_a) {
            *left = left_by_a.min(*left);
        }
        self.set = true;
        Ok(())
    }

    fn estimate(&mut self, task: &Task, row: &[u8]) -> Option<u32> {
        if !self.set {
            return Some(0);
        }
        let a = self.a.estimate(task, row)?;
        let b = self.b.estimate(task, row)?;
        Some(a.max(b))
    }
}
