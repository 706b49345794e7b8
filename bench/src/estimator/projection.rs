use super::{is_price_row, Estimator};
use crate::fault::{Cause, SetFault};
use crate::queue::{Entry, Queue};
use crate::task::Task;

pub const MAX_PATTERN: usize = 8;
pub const MAX_RANKS: usize = 65_536;
/// The table's entry for a rank from which no abstract goal is reached.
pub const NO_DISTANCE: u32 = u32::MAX;

/// Distances in the abstract task of a few variables.
pub struct Projection {
    pattern: Vec<u8>,
    /// For how many ranks there is room.
    room: usize,
    /// The task's number of ranks a step of each pattern variable's value makes.
    strides: Vec<u32>,
    /// Distance of each rank; empty while unset.
    table: Vec<u32>,
}

impl Projection {
    /// Made with a pattern and room for so many ranks.
    pub fn new(pattern: &[u8], room: usize) -> Self {
        Projection { pattern: pattern.to_vec(), room, strides: Vec::new(), table: Vec::new() }
    }

    pub fn pattern(&self) -> &[u8] {
        &self.pattern
    }

    pub fn table(&self) -> &[u32] {
        &self.table
    }

    /// The number of ranks, if the pattern is one and its ranks have room.
    fn ranks(&self, task: &Task) -> Result<usize, Cause> {
        let variables = task.variables();
        let rising = self.pattern.windows(2).all(|pair| pair[0] < pair[1]);
        let known = self.pattern.iter().all(|&v| usize::from(v) < variables.len());
        if self.pattern.len() > MAX_PATTERN || !rising || !known {
            return Err(Cause::Pattern);
        }
        let ranks =
            self.pattern.iter().map(|&v| u64::from(variables[usize::from(v)].domain)).product::<u64>();
        if ranks > MAX_RANKS.min(self.room) as u64 {
            return Err(Cause::Table);
        }
        Ok(ranks as usize)
    }
}

impl Estimator for Projection {
    const KIND: u8 = 2;

    fn set(&mut self, task: &Task, row: &mut [u32], layer: u16) -> Result<(), SetFault> {
        self.table.clear();
        if !is_price_row(task, row) {
            return Err(Self::fault(Cause::Row, layer));
        }
        let ranks = self.ranks(task).map_err(|cause| Self::fault(cause, layer))?;
        let abstraction = Abstraction::new(task, &self.pattern, row);
        abstraction.distances(ranks, &mut self.table);
        abstraction.take_held_prices(&self.table, row);
        self.strides = abstraction.strides;
        Ok(())
    }

    fn estimate(&mut self, task: &Task, row: &[u8]) -> Option<u32> {
        if self.table.is_empty() || !task.is_state(row) {
            return Some(0);
        }
        let rank: usize = self
            .pattern
            .iter()
            .zip(&self.strides)
            .map(|(&v, &stride)| row.get(usize::from(v)).map_or(0, |&x| usize::from(x)) * stride as usize)
            .sum();
        // A rank of another task than the one set on may have no entry.
        self.table.get(rank).copied().filter(|&distance| distance != NO_DISTANCE)
    }
}

/// The task cut down to a pattern.
///
/// An abstract state is handled as its rank or as its digits: one byte of a word for each pattern
/// variable, the first one in the lowest byte.
struct Abstraction {
    domains: Vec<u32>,
    strides: Vec<u32>,
    goal: Facts,
    /// The operators that set a pattern variable.
    operators: Vec<AbstractOperator>,
}

/// A set of abstract facts: the digits under the mask.
#[derive(Clone, Copy, Default)]
struct Facts {
    mask: u64,
    digits: u64,
}

impl Facts {
    fn add(&mut self, place: usize, value: u8) {
        self.mask |= 0xff << (8 * place);
        self.digits |= u64::from(value) << (8 * place);
    }

    fn hold_in(&self, digits: u64) -> bool {
        digits & self.mask == self.digits
    }
}

struct AbstractOperator {
    /// What holds after it: its conditions and the values it sets.
    after: Facts,
    /// What is added to the rank after it for the rank before it, if every free effect started from 0.
    back: i32,
    price: u32,
    number: u32,
    /// Effects without a required value, as places in the pattern: any value may have been there.
    free: Vec<u8>,
}

#[derive(Clone, Copy)]
struct Label {
    distance: u32,
    rank: u32,
}

impl Entry for Label {
    type Key = u64;

    fn item(&self) -> usize {
        self.rank as usize
    }

    fn key(&self) -> u64 {
        u64::from(self.distance) << 32 | u64::from(self.rank)
    }
}

impl Abstraction {
    fn new(task: &Task, pattern: &[u8], row: &[u32]) -> Self {
        let domains: Vec<u32> =
            pattern.iter().map(|&v| u32::from(task.variables()[usize::from(v)].domain)).collect();
        let mut strides = vec![1; domains.len()];
        for place in (1..domains.len()).rev() {
            strides[place - 1] = strides[place] * domains[place];
        }
        let place_of = |variable: u8| pattern.iter().position(|&v| v == variable);

        let mut goal = Facts::default();
        for fact in task.goal() {
            if let Some(place) = place_of(fact.variable) {
                goal.add(place, fact.value);
            }
        }

        let mut operators = Vec::new();
        for (number, &price) in row.iter().enumerate() {
            let mut after = Facts::default();
            let mut back = 0;
            let mut free = Vec::new();
            let mut sets = false;
            for effect in task.effects(number) {
                if let Some(place) = place_of(effect.variable) {
                    sets = true;
                    after.add(place, effect.after);
                    let before = effect.required.unwrap_or(0);
                    back += (i32::from(before) - i32::from(effect.after)) * strides[place] as i32;
                    if effect.required.is_none() {
                        free.push(place as u8);
                    }
                }
            }
            if !sets {
                // It leads from every rank to the same one: no distance rests on it, and it holds 0.
                continue;
            }
            for fact in task.conditions(number) {
                if let Some(place) = place_of(fact.variable) {
                    after.add(place, fact.value);
                }
            }
            operators.push(AbstractOperator { after, back, price, number: number as u32, free });
        }
        Abstraction { domains, strides, goal, operators }
    }

    fn digits(&self, rank: u32) -> u64 {
        let mut digits = 0;
        let mut rest = rank;
        for (&stride, place) in self.strides.iter().zip(0..) {
            digits |= u64::from(rest / stride) << (8 * place);
            rest %= stride;
        }
        digits
    }

    /// Each rank's least cost to an abstract goal: Dijkstra's algorithm from the goals backwards.
    fn distances(&self, ranks: usize, table: &mut Vec<u32>) {
        table.clear();
        table.resize(ranks, NO_DISTANCE);
        let mut queue = Queue::new(ranks);
        for rank in 0..ranks as u32 {
            if self.goal.hold_in(self.digits(rank)) {
                table[rank as usize] = 0;
                queue.put(Label { distance: 0, rank });
            }
        }
        while let Some(Label { distance, rank }) = queue.take() {
            let digits = self.digits(rank);
            for operator in &self.operators {
                if operator.after.hold_in(digits) {
                    let longer = distance + operator.price;
                    self.for_each_source(operator, rank, |source| {
                        let known = &mut table[source as usize];
                        if longer < *known {
                            *known = longer;
                            queue.put(Label { distance: longer, rank: source });
                        }
                    });
                }
            }
        }
    }

    /// Replaces each price by what is left of it: an operator holds the greatest difference of distances
    /// that one of its steps makes, if that is above 0.
    fn take_held_prices(&self, table: &[u32], row: &mut [u32]) {
        let mut held = vec![0; row.len()];
        for (&distance, rank) in table.iter().zip(0..) {
            if distance == NO_DISTANCE {
                continue;
            }
            let digits = self.digits(rank);
            for operator in &self.operators {
                if operator.after.hold_in(digits) {
                    let held = &mut held[operator.number as usize];
                    // A rank that leads to one with a distance has a distance too.
                    self.for_each_source(operator, rank, |source| {
                        *held = table[source as usize].saturating_sub(distance).max(*held);
                    });
                }
            }
        }
        for (price, held) in row.iter_mut().zip(held) {
            *price -= held;
        }
    }

    /// Calls `visit` with every rank from which the operator leads to `rank`.
    #[inline]
    fn for_each_source(&self, operator: &AbstractOperator, rank: u32, mut visit: impl FnMut(u32)) {
        let base = (rank as i32 + operator.back) as u32;
        match operator.free[..] {
            [] => visit(base),
            [place] => {
                let place = usize::from(place);
                for value in 0..self.domains[place] {
                    visit(base + value * self.strides[place]);
                }
            }
            _ => self.for_each_free(&operator.free, base, &mut visit),
        }
    }

    fn for_each_free(&self, free: &[u8], base: u32, visit: &mut impl FnMut(u32)) {
        let Some((&place, rest)) = free.split_first() else {
            return visit(base);
        };
        let place = usize::from(place);
        for value in 0..self.domains[place] {
            self.for_each_free(rest, base + value * self.strides[place], visit);
        }
    }
}
