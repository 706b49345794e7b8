//! Cases of a comparison: texts made from seeds, and the reference's answers about them.

use crate::damage::{damage_model, damage_text};
use crate::estimator::{Blind, Estimator, Projection, MAX_RANKS};
use crate::fault::{Cause, TextFault};
use crate::generate::{any_shape, model_of, Shape};
use crate::ours::{Counts, ProjectionNumbers, SearchNumbers};
use crate::random::Random;
use crate::search::{Outcome, Search};
use crate::task::Task;

pub struct Case {
    pub seed: u64,
    pub text: Vec<u8>,
    /// How the text was made.
    pub origin: String,
    /// For choices of the comparison itself.
    pub random: Random,
}

/// The text of a seed, of a shape of its own or of the given one; so many in a hundred are damaged.
pub fn case(seed: u64, shape: Option<Shape>, damaged: u64) -> Case {
    let mut random = Random::new(seed);
    let shape = shape.unwrap_or_else(|| any_shape(&mut random));
    let mut model = model_of(shape, &mut random);
    let mut origin = format!("{shape:?}");
    let mut text;
    if (random.below(100) as u64) < damaged {
        if random.chance(1, 4) {
            origin += ", ";
            origin += damage_model(&mut random, &mut model);
            text = model.text();
        } else {
            text = model.text();
            for _ in 0..*random.pick(&[1, 1, 1, 2, 3]) {
                origin += ", ";
                origin += damage_text(&mut random, &mut text);
            }
        }
    } else {
        text = model.text();
    }
    Case { seed, text, origin, random }
}

pub fn counts(task: &Task) -> Counts {
    [task.variables().len(), task.goal().len(), task.operators().len(), task.entry_count()]
        .map(|count| count as u32)
}

/// The reference's blind search with one advance; if refused, the cause number.
pub fn search_numbers(task: &Task, capacity: usize, expansions: u64) -> Result<SearchNumbers, u64> {
    let mut row = vec![0; task.operators().len()];
    let mut search = Search::open(task, capacity);
    let Ok(go_ahead) = search.start(&mut Blind, &mut row) else {
        return Err(u64::from(Cause::Room.number()));
    };
    let report = search.advance(&mut Blind, go_ahead, expansions).expect("a started search is running");
    let (outcome, find) = match report.outcome {
        Outcome::More(_) => (0, (0, 0)),
        Outcome::Found(find) => (1, (u64::from(find.node), u64::from(find.cost))),
        Outcome::None => (2, (0, 0)),
        Outcome::Full => (3, (0, 0)),
    };
    Ok(SearchNumbers {
        outcome,
        bound: report.bound,
        expansions: report.expansions,
        nodes: search.node_count() as u64,
        find,
    })
}

/// The reference's projection on the task's prices, or the cause number.
pub fn projection_numbers(task: &Task, pattern: &[u8]) -> Result<ProjectionNumbers, u8> {
    let prices: Vec<u32> = task.operators().iter().map(|operator| operator.price).collect();
    let mut left = prices.clone();
    let mut projection = Projection::new(pattern, MAX_RANKS);
    projection.set(task, &mut left, 1).map_err(|fault| fault.cause.number())?;
    let held = prices.iter().zip(left).map(|(price, left)| price - left).collect();
    Ok(ProjectionNumbers { table: projection.table().to_vec(), held })
}

/// A pattern, at times one that is refused.
pub fn any_pattern(random: &mut Random, variables: usize) -> Vec<u8> {
    let length = random.between(0, variables.min(9));
    let mut pattern: Vec<u8> = (0..variables as u8).collect();
    random.shuffle(&mut pattern);
    pattern.truncate(length);
    if !random.chance(1, 10) {
        pattern.sort_unstable();
    }
    if random.chance(1, 20) {
        pattern.push(*random.pick(&[variables as u8, 0, 32, 255]));
    }
    pattern
}

/// A fault with its operator, for messages.
pub fn shown_fault(fault: &TextFault) -> String {
    match fault.operator {
        None => fault.to_string(),
        Some(operator) => format!("{fault} in operator {operator}"),
    }
}
