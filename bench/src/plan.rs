//! The program: from a task text to what is printed.

use crate::estimator::{Partition, Projection, MAX_PATTERN};
use crate::fault::{Cause, TextFault};
use crate::reader::read;
use crate::search::{Outcome, Search};
use crate::task::Task;

pub const CAPACITY: usize = 2048;
pub const BUFFER: usize = 65_536;
pub const ADVANCE: u64 = 1000;
/// The most ranks of each of the two projections.
pub const RANKS: usize = 4096;

#[derive(Clone, Debug, PartialEq, Eq)]
pub enum Answer {
    /// The plan text.
    Plan(Vec<u8>),
    NoPlan,
    Full,
    Text(TextFault),
    /// A fault without a line: SHORT, or ROOM if the capacity is 0.
    Other(Cause),
}

impl Answer {
    /// What the program prints.
    pub fn printed(&self) -> Vec<u8> {
        match self {
            Answer::Plan(text) => text.clone(),
            Answer::NoPlan => b"no plan\n".to_vec(),
            Answer::Full => b"full\n".to_vec(),
            Answer::Text(fault) => format!("{fault}\n").into_bytes(),
            Answer::Other(cause) => format!("{}\n", cause.name()).into_bytes(),
        }
    }

    /// A word for tallies.
    pub fn label(&self) -> &'static str {
        match self {
            Answer::Plan(_) => "plan",
            Answer::NoPlan => "no plan",
            Answer::Full => "full",
            Answer::Text(fault) => fault.cause.name(),
            Answer::Other(cause) => cause.name(),
        }
    }
}

/// What the program answers to a text.
pub fn plan(text: &[u8]) -> Answer {
    plan_with(text, CAPACITY)
}

/// What the program would answer if its search had another capacity.
pub fn plan_with(text: &[u8], capacity: usize) -> Answer {
    match read(text) {
        Ok(task) => solve(&task, capacity),
        Err(fault) => Answer::Text(fault),
    }
}

/// Each pattern takes the next variables, from 0, while it has at most 8 and at most 4,096 ranks.
pub fn patterns(task: &Task) -> [Vec<u8>; 2] {
    let mut next = 0;
    [(); 2].map(|()| {
        let mut pattern = Vec::new();
        let mut ranks = 1;
        while let Some(variable) = task.variables().get(usize::from(next)) {
            ranks *= usize::from(variable.domain);
            if pattern.len() == MAX_PATTERN || ranks > RANKS {
                break;
            }
            pattern.push(next);
            next += 1;
        }
        pattern
    })
}

fn solve(task: &Task, capacity: usize) -> Answer {
    let [first, second] = patterns(task);
    let mut estimator = Partition::new(Projection::new(&first, RANKS), Projection::new(&second, RANKS));
    let mut row = vec![0; task.operators().len()];
    let mut search = Search::open(task, capacity);
    let mut go_ahead = match search.start(&mut estimator, &mut row) {
        Ok(go_ahead) => go_ahead,
        Err(crate::search::StartFault::Search(cause)) => return Answer::Other(cause),
        Err(crate::search::StartFault::Estimator(fault)) => return Answer::Other(fault.cause),
    };
    loop {
        let report = search
            .advance(&mut estimator, go_ahead, ADVANCE)
            .expect("a started search with its go-ahead is running");
        match report.outcome {
            Outcome::More(returned) => go_ahead = returned,
            Outcome::None => return Answer::NoPlan,
            Outcome::Full => return Answer::Full,
            Outcome::Found(find) => {
                let mut buffer = vec![0; BUFFER];
                return match search.write_plan(find, &mut buffer) {
                    Ok(length) => {
                        buffer.truncate(length);
                        Answer::Plan(buffer)
                    }
                    Err(cause) => Answer::Other(cause),
                };
            }
        }
    }
}
