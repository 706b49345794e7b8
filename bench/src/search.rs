//! A* with reopening.

use crate::estimator::Estimator;
use crate::fault::{Cause, SetFault};
use crate::queue::{Entry, Queue};
use crate::task::{Operator, Task};

pub const MAX_CAPACITY: usize = 65_535;

#[derive(Clone, Copy, Debug, PartialEq, Eq)]
pub enum Status {
    Fresh,
    Running,
    Found,
    None,
    Full,
}

/// The right to advance a search. An advance takes it and hands it back only with "more" or a refusal.
#[derive(Debug)]
pub struct GoAhead(());

/// The goal state's node and its path cost.
#[derive(Clone, Copy, Debug, PartialEq, Eq)]
pub struct Find {
    pub node: u32,
    pub cost: u32,
}

#[derive(Debug)]
pub enum Outcome {
    More(GoAhead),
    Found(Find),
    None,
    Full,
}

#[derive(Debug)]
pub struct Report {
    pub outcome: Outcome,
    /// The greatest f of an entry taken so far.
    pub bound: u64,
    /// Expansions since opening.
    pub expansions: u64,
}

#[derive(Clone, Copy, Debug, PartialEq, Eq)]
pub enum StartFault {
    /// ORDER, ROOM or ROW of the search itself.
    Search(Cause),
    Estimator(SetFault),
}

struct Node {
    g: u32,
    parent: u32,
    operator: u16,
}

#[derive(Clone, Copy)]
struct Open {
    f: u64,
    estimate: u32,
    node: u32,
}

impl Entry for Open {
    type Key = u128;

    fn item(&self) -> usize {
        self.node as usize
    }

    fn key(&self) -> u128 {
        u128::from(self.f) << 64 | u128::from(self.estimate) << 32 | u128::from(self.node)
    }
}

pub struct Search<'s, 't> {
    task: &'s Task<'t>,
    capacity: usize,
    status: Status,
    nodes: Vec<Node>,
    states: States,
    queue: Queue<Open>,
    bound: u64,
    expansions: u64,
    find: Option<Find>,
}

impl<'s, 't> Search<'s, 't> {
    /// Opens a search with room for `capacity` nodes, at most 65,535.
    pub fn open(task: &'s Task<'t>, capacity: usize) -> Self {
        let capacity = capacity.min(MAX_CAPACITY);
        Search {
            task,
            capacity,
            status: Status::Fresh,
            nodes: Vec::with_capacity(capacity),
            states: States::new(task.variables().len(), capacity),
            queue: Queue::new(capacity),
            bound: 0,
            expansions: 0,
            find: None,
        }
    }

    pub fn status(&self) -> Status {
        self.status
    }

    pub fn bound(&self) -> u64 {
        self.bound
    }

    pub fn expansions(&self) -> u64 {
        self.expansions
    }

    pub fn node_count(&self) -> usize {
        self.nodes.len()
    }

    /// Writes the task's prices into the row, sets the estimator on them and queues the initial state.
    pub fn start<E: Estimator>(&mut self, estimator: &mut E, row: &mut [u32]) -> Result<GoAhead, StartFault> {
        let operators = self.task.operators();
        if self.status != Status::Fresh {
            return Err(StartFault::Search(Cause::Order));
        }
        if self.capacity == 0 {
            return Err(StartFault::Search(Cause::Room));
        }
        if row.len() != operators.len() {
            return Err(StartFault::Search(Cause::Row));
        }
        for (price, operator) in row.iter_mut().zip(operators) {
            *price = operator.price;
        }
        estimator.set(self.task, row, 1).map_err(StartFault::Estimator)?;

        let initial = self.task.initial_state();
        self.states.find_or_add(&initial);
        self.nodes.push(Node { g: 0, parent: 0, operator: 0 });
        self.queue_node(estimator, 0, 0, &initial);
        self.status = Status::Running;
        Ok(GoAhead(()))
    }

    /// Makes up to `n` expansions. A search that is not running gives the go-ahead back with ORDER.
    pub fn advance<E: Estimator>(
        &mut self,
        estimator: &mut E,
        go_ahead: GoAhead,
        n: u64,
    ) -> Result<Report, (Cause, GoAhead)> {
        if self.status != Status::Running {
            return Err((Cause::Order, go_ahead));
        }
        let outcome = self.run(estimator, go_ahead, n);
        self.status = match outcome {
            Outcome::More(_) => Status::Running,
            Outcome::Found(find) => {
                self.find = Some(find);
                Status::Found
            }
            Outcome::None => Status::None,
            Outcome::Full => Status::Full,
        };
        Ok(Report { outcome, bound: self.bound, expansions: self.expansions })
    }

    fn run<E: Estimator>(&mut self, estimator: &mut E, go_ahead: GoAhead, n: u64) -> Outcome {
        let task = self.task;
        let mut state = vec![0; task.variables().len()];
        let mut successor = state.clone();
        for _ in 0..n {
            let Some(Open { f, node, .. }) = self.queue.take() else {
                return Outcome::None;
            };
            self.bound = self.bound.max(f);
            state.copy_from_slice(self.states.get(node));
            let g = self.nodes[node as usize].g;
            if task.has_goal(&state) {
                return Outcome::Found(Find { node, cost: g });
            }
            self.expansions += 1;
            for (operator, number) in task.operators().iter().zip(0..) {
                if task.applies(operator, &state) {
                    successor.copy_from_slice(&state);
                    task.change(operator, &mut successor);
                    if !self.reach(estimator, &successor, node, g, operator, number) {
                        return Outcome::Full;
                    }
                }
            }
        }
        Outcome::More(go_ahead)
    }

    /// Reaches a state from a parent by an operator. Says no if it needs a node and none is left.
    #[inline]
    fn reach<E: Estimator>(
        &mut self,
        estimator: &mut E,
        state: &[u8],
        parent: u32,
        parent_g: u32,
        operator: &Operator,
        number: u16,
    ) -> bool {
        let reached = Node { g: parent_g + operator.price, parent, operator: number };
        let g = reached.g;
        match self.states.find_or_add(state) {
            Place::Held(node) => {
                let held = &mut self.nodes[node as usize];
                if g < held.g {
                    *held = reached;
                    self.queue_node(estimator, node, g, state);
                }
            }
            Place::Added(node) => {
                self.nodes.push(reached);
                self.queue_node(estimator, node, g, state);
            }
            Place::Full => return false,
        }
        true
    }

    /// Queues a node if its estimate is a number, else drops it.
    fn queue_node<E: Estimator>(&mut self, estimator: &mut E, node: u32, g: u32, state: &[u8]) {
        match estimator.estimate(self.task, state) {
            Some(estimate) => {
                let f = u64::from(g) + u64::from(estimate);
                self.queue.put(Open { f, estimate, node });
            }
            None => self.queue.drop(node as usize),
        }
    }

    /// The operators on the path to a node, in order.
    fn path(&self, node: u32) -> Vec<u16> {
        let mut path = Vec::new();
        let mut node = node;
        while node != 0 {
            let Node { parent, operator, .. } = self.nodes[node as usize];
            path.push(operator);
            node = parent;
        }
        path.reverse();
        path
    }

    /// The plan of a find, as operator numbers.
    pub fn plan(&self, find: Find) -> Result<Vec<u16>, Cause> {
        if self.find == Some(find) {
            Ok(self.path(find.node))
        } else {
            Err(Cause::Other)
        }
    }

    /// Writes the plan of a find and answers the text's length; bytes beyond it stay.
    pub fn write_plan(&self, find: Find, buffer: &mut [u8]) -> Result<usize, Cause> {
        let plan = self.plan(find)?;
        let names = plan.iter().map(|&i| self.task.operators()[usize::from(i)].name);
        let last = format!("; cost = {} (general cost)\n", find.cost);
        let length = names.clone().map(|name| name.len() + 3).sum::<usize>() + last.len();
        let mut rest = buffer.get_mut(..length).ok_or(Cause::Short)?;
        for name in names {
            for part in [b"(", name, b")\n"] {
                rest = put_bytes(rest, part);
            }
        }
        put_bytes(rest, last.as_bytes());
        Ok(length)
    }
}

/// Puts bytes at a buffer's start and returns what follows them.
fn put_bytes<'b>(buffer: &'b mut [u8], bytes: &[u8]) -> &'b mut [u8] {
    let (part, rest) = buffer.split_at_mut(bytes.len());
    part.copy_from_slice(bytes);
    rest
}

/// The states held, by node number, with a hash index over them.
struct States {
    width: usize,
    capacity: usize,
    /// The rows one after another.
    rows: Vec<u8>,
    count: u32,
    /// Node numbers under open addressing with linear probing; a power of two of places, at most half
    /// of them used.
    index: Vec<u32>,
}

enum Place {
    Held(u32),
    Added(u32),
    Full,
}

const EMPTY: u32 = u32::MAX;

impl States {
    fn new(width: usize, capacity: usize) -> Self {
        States {
            width,
            capacity,
            rows: Vec::with_capacity(width * capacity),
            count: 0,
            index: vec![EMPTY; (2 * capacity).next_power_of_two()],
        }
    }

    fn get(&self, node: u32) -> &[u8] {
        let start = node as usize * self.width;
        &self.rows[start..start + self.width]
    }

    fn find_or_add(&mut self, row: &[u8]) -> Place {
        let mask = self.index.len() - 1;
        let mut place = hash(row) & mask;
        loop {
            let node = self.index[place];
            if node == EMPTY {
                break;
            }
            if self.get(node) == row {
                return Place::Held(node);
            }
            place = (place + 1) & mask;
        }
        let node = self.count;
        if node as usize == self.capacity {
            return Place::Full;
        }
        self.index[place] = node;
        self.rows.extend_from_slice(row);
        self.count += 1;
        Place::Added(node)
    }
}

/// A multiplicative hash of a row, eight bytes at a time.
fn hash(row: &[u8]) -> usize {
    const FACTOR: u64 = 0x9e37_79b9_7f4a_7c15;
    let mut chunks = row.chunks_exact(8);
    let mut hash = 0u64;
    let mut mix = |word: u64| hash = (hash.rotate_left(5) ^ word).wrapping_mul(FACTOR);
    for chunk in &mut chunks {
        mix(u64::from_le_bytes(chunk.try_into().expect("eight bytes")));
    }
    let rest = chunks.remainder();
    if !rest.is_empty() {
        mix(rest.iter().rev().fold(0, |word, &byte| word << 8 | u64::from(byte)));
    }
    (hash ^ hash >> 32) as usize
}
