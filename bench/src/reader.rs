//! Reads a task text.
//!
//! The reader works from the top and stops at the first fault. Every line is first cut off (CUT, then
//! BYTE), then compared or parsed (WORD or NUMBER), then its numbers are tested (RANGE), then repeated
//! variables (TWICE), then the records left (ROOM).

use crate::fault::{Cause, TextFault};
use crate::task::{
    Effect, Fact, Operator, Task, Variable, MAX_DOMAIN, MAX_ENTRIES, MAX_OPERATORS, MAX_PRICE, MAX_VARIABLES,
};

pub const MAX_TEXT: usize = 65_536;

/// How many records a caller hands; more than the greatest task needs are never used.
#[derive(Clone, Copy, Debug)]
pub struct Records {
    pub variables: usize,
    pub operators: usize,
    pub entries: usize,
}

impl Records {
    pub const ALL: Records =
        Records { variables: MAX_VARIABLES, operators: MAX_OPERATORS, entries: MAX_ENTRIES };
}

/// Reads a text with room for the greatest task.
pub fn read(text: &[u8]) -> Result<Task<'_>, TextFault> {
    read_with(text, Records::ALL)
}

/// Reads a text with room for so many records.
pub fn read_with(text: &[u8], records: Records) -> Result<Task<'_>, TextFault> {
    if text.len() > MAX_TEXT {
        return Err(TextFault { cause: Cause::Long, line: 0, operator: None });
    }
    let mut reader = Reader {
        text,
        at: 0,
        line: 0,
        operator: None,
        entries_left: records.entries.min(MAX_ENTRIES),
        task: Task::default(),
    };
    reader.read(records)?;
    Ok(reader.task)
}

struct Reader<'t> {
    text: &'t [u8],
    /// Where the next line starts.
    at: usize,
    /// The number of the line cut off last.
    line: u32,
    operator: Option<u16>,
    entries_left: usize,
    task: Task<'t>,
}

type Step<T> = Result<T, TextFault>;

impl<'t> Reader<'t> {
    fn read(&mut self, records: Records) -> Step<()> {
        for word in ["begin_version", "3", "end_version", "begin_metric", "1", "end_metric"] {
            self.word(word)?;
        }

        let variables = self.count(1, MAX_VARIABLES)?;
        self.task.variables.reserve_exact(variables);
        for number in 0..variables {
            self.word("begin_variable")?;
            if number >= records.variables {
                return self.fault(Cause::Room);
            }
            self.variable()?;
        }

        self.word("0")?;

        self.word("begin_state")?;
        for v in 0..variables {
            let [value] = self.numbers()?;
            self.task.variables[v].initial = self.value(value, v)?;
        }
        self.word("end_state")?;

        self.word("begin_goal")?;
        let mut used = 0;
        for _ in 0..self.count(0, variables)? {
            let fact = self.fact(&mut used)?;
            self.task.goal.push(fact);
        }
        self.word("end_goal")?;

        let operators = self.count(0, MAX_OPERATORS)?;
        self.task.operators.reserve_exact(operators);
        for number in 0..operators {
            self.operator = Some(number as u16);
            self.word("begin_operator")?;
            if number >= records.operators {
                return self.fault(Cause::Room);
            }
            self.operator()?;
        }
        self.operator = None;

        self.word("0")?;

        if self.at < self.text.len() {
            self.line += 1;
            return self.fault(Cause::After);
        }
        Ok(())
    }

    /// The lines of a variable after `begin_variable`.
    fn variable(&mut self) -> Step<()> {
        let name = self.cut_line()?;
        self.word("-1")?;
        let domain = self.count(1, MAX_DOMAIN)?;
        let first = self.at;
        for _ in 0..domain {
            self.cut_line()?;
        }
        let value_lines = &self.text[first..self.at];
        self.word("end_variable")?;
        let domain = domain as u8;
        self.task.variables.push(Variable { name, value_lines, domain, initial: 0 });
        Ok(())
    }

    /// The lines of an operator after `begin_operator`.
    fn operator(&mut self) -> Step<()> {
        let variables = self.task.variables.len();
        let conditions = self.task.conditions.len();
        let effects = self.task.effects.len();
        let needs = self.task.needs.len();
        let mut used = 0;

        let name = self.cut_line()?;
        for _ in 0..self.count(0, variables)? {
            let fact = self.fact(&mut used)?;
            self.task.conditions.push(fact);
            self.task.needs.push(fact);
        }
        for _ in 0..self.count(0, variables)? {
            let effect = self.effect(&mut used)?;
            self.task.effects.push(effect);
            if let Some(value) = effect.required {
                self.task.needs.push(Fact { variable: effect.variable, value });
            }
        }
        let price = self.count(0, MAX_PRICE as usize)? as u32;
        self.word("end_operator")?;
        self.task.operators.push(Operator {
            name,
            price,
            conditions: conditions..self.task.conditions.len(),
            effects: effects..self.task.effects.len(),
            needs: needs..self.task.needs.len(),
        });
        Ok(())
    }

    /// A line of variable and value. Bit v of `used` says that variable v came before.
    fn fact(&mut self, used: &mut u32) -> Step<Fact> {
        let [variable, value] = self.numbers()?;
        let v = self.in_range(variable, 0, self.task.variables.len() - 1)?;
        let value = self.value(value, v)?;
        self.entry(v, used)?;
        Ok(Fact { variable: v as u8, value })
    }

    /// A line of 0, variable, required value or -1, value after.
    fn effect(&mut self, used: &mut u32) -> Step<Effect> {
        let [zero, variable, required, after] = self.numbers()?;
        self.in_range(zero, 0, 0)?;
        let v = self.in_range(variable, 0, self.task.variables.len() - 1)?;
        let required = match required {
            MINUS_ONE => None,
            value => Some(self.value(value, v)?),
        };
        let after = self.value(after, v)?;
        self.entry(v, used)?;
        Ok(Effect { variable: v as u8, required, after })
    }

    /// Takes an entry for a variable.
    fn entry(&mut self, variable: usize, used: &mut u32) -> Step<()> {
        if *used >> variable & 1 == 1 {
            return self.fault(Cause::Twice);
        }
        *used |= 1 << variable;
        if self.entries_left == 0 {
            return self.fault(Cause::Room);
        }
        self.entries_left -= 1;
        Ok(())
    }

    fn word(&mut self, word: &str) -> Step<()> {
        if self.cut_line()? == word.as_bytes() {
            Ok(())
        } else {
            self.fault(Cause::Word)
        }
    }

    /// A line of one number from `low` to `high`.
    fn count(&mut self, low: usize, high: usize) -> Step<usize> {
        let [number] = self.numbers()?;
        self.in_range(number, low, high)
    }

    /// A line of exactly `K` numbers, one space between two.
    fn numbers<const K: usize>(&mut self) -> Step<[i64; K]> {
        let line = self.cut_line()?;
        match parse_numbers(line) {
            Some(numbers) => Ok(numbers),
            None => self.fault(Cause::Number),
        }
    }

    fn in_range(&self, number: i64, low: usize, high: usize) -> Step<usize> {
        if (low as i64..=high as i64).contains(&number) {
            Ok(number as usize)
        } else {
            self.fault(Cause::Range)
        }
    }

    fn value(&self, number: i64, variable: usize) -> Step<u8> {
        let domain = usize::from(self.task.variables[variable].domain);
        self.in_range(number, 0, domain - 1).map(|value| value as u8)
    }

    /// Cuts off the next line and returns it without its end.
    fn cut_line(&mut self) -> Step<&'t [u8]> {
        self.line += 1;
        let rest = &self.text[self.at..];
        let mut odd = false;
        for (length, &byte) in rest.iter().enumerate() {
            if byte == b'\n' {
                if odd {
                    return self.fault(Cause::Byte);
                }
                self.at += length + 1;
                return Ok(&rest[..length]);
            }
            odd |= !(32..=126).contains(&byte);
        }
        self.fault(Cause::Cut)
    }

    fn fault<T>(&self, cause: Cause) -> Step<T> {
        Err(TextFault { cause, line: self.line, operator: self.operator })
    }
}

const MINUS_ONE: i64 = -1;
/// Stands for every number of more than nine digits: it lies in no range.
const HUGE: i64 = i64::MAX;

/// The numbers of a line that holds exactly `K` of them.
fn parse_numbers<const K: usize>(line: &[u8]) -> Option<[i64; K]> {
    let mut numbers = [0; K];
    let mut rest = line;
    for (place, number) in numbers.iter_mut().enumerate() {
        if place > 0 {
            rest = rest.strip_prefix(b" ")?;
        }
        (*number, rest) = parse_number(rest)?;
    }
    rest.is_empty().then_some(numbers)
}

/// The number at the start of a line, a run of digits without a needless leading zero or -1, and what
/// follows it.
fn parse_number(line: &[u8]) -> Option<(i64, &[u8])> {
    if let Some(rest) = line.strip_prefix(b"-1") {
        return Some((MINUS_ONE, rest));
    }
    let mut number = 0i64;
    let mut length = 0;
    while let Some(digit) = line.get(length).map(|byte| byte.wrapping_sub(b'0')).filter(|&d| d < 10) {
        number = number.saturating_mul(10).saturating_add(i64::from(digit));
        length += 1;
    }
    match (length, line.first()) {
        (0, _) => None,
        (2.., Some(b'0')) => None,
        (10.., _) => Some((HUGE, &line[length..])),
        _ => Some((number, &line[length..])),
    }
}
