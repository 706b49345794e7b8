//! Estimators: lower bounds on the cost of plans, and prices held and left.

mod blind;
mod maximum;
mod partition;
mod projection;

pub use blind::Blind;
pub use maximum::Maximum;
pub use partition::Partition;
pub use projection::{Projection, MAX_PATTERN, MAX_RANKS, NO_DISTANCE};

use crate::fault::{Cause, SetFault};
use crate::task::{Task, MAX_PRICE};

pub trait Estimator {
    /// The kind number that faults carry.
    const KIND: u8;

    /// Sets the estimator on a task. It holds a part of each price in the row and leaves the rest there;
    /// refused, it is unset and the row stands.
    fn set(&mut self, task: &Task, row: &mut [u32], layer: u16) -> Result<(), SetFault>;

    /// At most the cost of every plan from the state at held prices; absent only if there is no plan. 0 if
    /// unset, or if the row is no state.
    fn estimate(&mut self, task: &Task, row: &[u8]) -> Option<u32>;

    fn fault(cause: Cause, layer: u16) -> SetFault {
        SetFault { cause, kind: Self::KIND, layer }
    }
}

/// Whether a row has one price of at most 65,535 an operator.
fn is_price_row(task: &Task, row: &[u32]) -> bool {
    row.len() == task.operators().len() && row.iter().all(|&price| price <= MAX_PRICE)
}

/// The numbers of the two layers below.
fn layers_below(layer: u16) -> (u16, u16) {
    let first = layer.saturating_mul(2);
    (first, first.saturating_add(1))
}
