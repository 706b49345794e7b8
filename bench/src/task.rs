//! Tasks, states and operators.

use std::ops::Range;

pub const MAX_VARIABLES: usize = 32;
pub const MAX_DOMAIN: usize = 255;
pub const MAX_OPERATORS: usize = 256;
pub const MAX_ENTRIES: usize = 4096;
pub const MAX_PRICE: u32 = 65_535;

#[derive(Clone, Debug, PartialEq, Eq)]
pub struct Variable<'t> {
    pub name: &'t [u8],
    /// The lines with the names of the values, each with its line end.
    pub value_lines: &'t [u8],
    /// How many values there are, 1 to 255.
    pub domain: u8,
    pub initial: u8,
}

impl<'t> Variable<'t> {
    pub fn value_names(&self) -> impl Iterator<Item = &'t [u8]> {
        let lines = self.value_lines.strip_suffix(b"\n").unwrap_or(self.value_lines);
        lines.split(|&byte| byte == b'\n')
    }
}

#[derive(Clone, Copy, Debug, PartialEq, Eq)]
pub struct Fact {
    pub variable: u8,
    pub value: u8,
}

#[derive(Clone, Copy, Debug, PartialEq, Eq)]
pub struct Effect {
    pub variable: u8,
    pub required: Option<u8>,
    pub after: u8,
}

#[derive(Clone, Debug, PartialEq, Eq)]
pub struct Operator<'t> {
    pub name: &'t [u8],
    pub price: u32,
    pub(crate) conditions: Range<usize>,
    pub(crate) effects: Range<usize>,
    /// Conditions and required values together, in `Task::needs`.
    pub(crate) needs: Range<usize>,
}

/// A task that keeps all rules; only the reader makes one.
#[derive(Clone, Debug, Default, PartialEq, Eq)]
pub struct Task<'t> {
    pub(crate) variables: Vec<Variable<'t>>,
    pub(crate) goal: Vec<Fact>,
    pub(crate) operators: Vec<Operator<'t>>,
    pub(crate) conditions: Vec<Fact>,
    pub(crate) effects: Vec<Effect>,
    pub(crate) needs: Vec<Fact>,
}

impl<'t> Task<'t> {
    pub fn variables(&self) -> &[Variable<'t>] {
        &self.variables
    }

    pub fn operators(&self) -> &[Operator<'t>] {
        &self.operators
    }

    pub fn goal(&self) -> &[Fact] {
        &self.goal
    }

    pub fn conditions(&self, operator: usize) -> &[Fact] {
        &self.conditions[self.operators[operator].conditions.clone()]
    }

    pub fn effects(&self, operator: usize) -> &[Effect] {
        &self.effects[self.operators[operator].effects.clone()]
    }

    /// Goal facts, conditions and effects.
    pub fn entry_count(&self) -> usize {
        self.goal.len() + self.conditions.len() + self.effects.len()
    }

    pub fn initial_state(&self) -> Vec<u8> {
        self.variables.iter().map(|v| v.initial).collect()
    }

    pub fn is_state(&self, row: &[u8]) -> bool {
        row.len() == self.variables.len()
            && row.iter().zip(&self.variables).all(|(&value, v)| value < v.domain)
    }

    /// Whether a state is a goal state.
    pub fn has_goal(&self, state: &[u8]) -> bool {
        has_facts(state, &self.goal)
    }

    /// Whether an operator applies to a state.
    #[inline]
    pub fn applies(&self, operator: &Operator<'t>, state: &[u8]) -> bool {
        has_facts(state, &self.needs[operator.needs.clone()])
    }

    /// Sets the values after.
    #[inline]
    pub fn change(&self, operator: &Operator<'t>, state: &mut [u8]) {
        for effect in &self.effects[operator.effects.clone()] {
            state[usize::from(effect.variable)] = effect.after;
        }
    }

    /// Applies an operator by its number to a row if both are the task's and the operator applies; says
    /// whether it did. Otherwise the row stays.
    pub fn apply(&self, number: usize, row: &mut [u8]) -> bool {
        match self.operators.get(number) {
            Some(operator) if self.is_state(row) && self.applies(operator, row) => {
                self.change(operator, row);
                true
            }
            _ => false,
        }
    }
}

#[inline]
fn has_facts(state: &[u8], facts: &[Fact]) -> bool {
    facts.iter().all(|fact| state[usize::from(fact.variable)] == fact.value)
}
