//! Makes tasks.
//!
//! A [`Model`] is a task as data, or nearly one: its numbers are not tested, so a damaged model can be
//! written as a text too. [`model_of`] makes one of a [`Shape`].

// Rooms, tiles and variables are numbers here, used for more than one list.
#![allow(clippy::needless_range_loop)]

use crate::random::Random;
use std::collections::HashSet;

/// A task, perhaps a broken one.
#[derive(Clone, Debug, Default)]
pub struct Model {
    pub variables: Vec<ModelVariable>,
    /// Variable and value.
    pub goal: Vec<(i64, i64)>,
    pub operators: Vec<ModelOperator>,
}

#[derive(Clone, Debug)]
pub struct ModelVariable {
    pub name: Vec<u8>,
    pub values: Vec<Vec<u8>>,
    pub initial: i64,
}

#[derive(Clone, Debug, Default)]
pub struct ModelOperator {
    pub name: Vec<u8>,
    /// Variable and value.
    pub conditions: Vec<(i64, i64)>,
    /// Variable, required value or -1, value after.
    pub effects: Vec<(i64, i64, i64)>,
    pub price: i64,
}

impl Model {
    /// The task text.
    pub fn text(&self) -> Vec<u8> {
        let mut text = Vec::new();
        let mut line = |bytes: &[u8]| {
            text.extend_from_slice(bytes);
            text.push(b'\n');
        };
        for word in ["begin_version", "3", "end_version", "begin_metric", "1", "end_metric"] {
            line(word.as_bytes());
        }
        line(self.variables.len().to_string().as_bytes());
        for variable in &self.variables {
            line(b"begin_variable");
            line(&variable.name);
            line(b"-1");
            line(variable.values.len().to_string().as_bytes());
            for value in &variable.values {
                line(value);
            }
            line(b"end_variable");
        }
        line(b"0");
        line(b"begin_state");
        for variable in &self.variables {
            line(variable.initial.to_string().as_bytes());
        }
        line(b"end_state");
        line(b"begin_goal");
        line(self.goal.len().to_string().as_bytes());
        for (variable, value) in &self.goal {
            line(format!("{variable} {value}").as_bytes());
        }
        line(b"end_goal");
        line(self.operators.len().to_string().as_bytes());
        for operator in &self.operators {
            line(b"begin_operator");
            line(&operator.name);
            line(operator.conditions.len().to_string().as_bytes());
            for (variable, value) in &operator.conditions {
                line(format!("{variable} {value}").as_bytes());
            }
            line(operator.effects.len().to_string().as_bytes());
            for (variable, required, after) in &operator.effects {
                line(format!("0 {variable} {required} {after}").as_bytes());
            }
            line(operator.price.to_string().as_bytes());
            line(b"end_operator");
        }
        line(b"0");
        text
    }

    pub fn entry_count(&self) -> usize {
        let entries = |o: &ModelOperator| o.conditions.len() + o.effects.len();
        self.goal.len() + self.operators.iter().map(entries).sum::<usize>()
    }

    fn domain(&self, variable: usize) -> usize {
        self.variables[variable].values.len()
    }

    fn add_variable(&mut self, name: &str, domain: usize, initial: usize) {
        let values = (0..domain).map(|value| format!("{name} is {value}").into_bytes()).collect();
        let name = name.as_bytes().to_vec();
        self.variables.push(ModelVariable { name, values, initial: initial as i64 });
    }

    fn add_operator(
        &mut self,
        name: String,
        conditions: &[(usize, usize)],
        effects: &[(usize, Option<usize>, usize)],
        price: usize,
    ) {
        let required = |value: Option<usize>| value.map_or(-1, |value| value as i64);
        self.operators.push(ModelOperator {
            name: name.into_bytes(),
            conditions: conditions.iter().map(|&(v, x)| (v as i64, x as i64)).collect(),
            effects: effects.iter().map(|&(v, r, x)| (v as i64, required(r), x as i64)).collect(),
            price: price as i64,
        });
    }

    fn add_goal(&mut self, variable: usize, value: usize) {
        self.goal.push((variable as i64, value as i64));
    }

    /// The state after up to so many operators, each chosen among those that apply.
    fn walk(&self, random: &mut Random, steps: usize) -> Vec<i64> {
        let mut state: Vec<i64> = self.variables.iter().map(|variable| variable.initial).collect();
        for _ in 0..random.between(0, steps) {
            let holds = |variable: i64, value: i64| value == -1 || state[variable as usize] == value;
            let applying: Vec<&ModelOperator> = self
                .operators
                .iter()
                .filter(|operator| {
                    operator.conditions.iter().all(|&(v, x)| holds(v, x))
                        && operator.effects.iter().all(|&(v, x, _)| holds(v, x))
                })
                .collect();
            if applying.is_empty() {
                break;
            }
            for &(v, _, after) in &random.pick(&applying).effects {
                state[v as usize] = after;
            }
        }
        state
    }

    /// Empties every name.
    pub fn forget_names(&mut self) {
        for variable in &mut self.variables {
            variable.name.clear();
            variable.values.iter_mut().for_each(Vec::clear);
        }
        self.operators.iter_mut().for_each(|operator| operator.name.clear());
    }

    /// Keeps what a text may hold: 256 operators, 4,096 entries, 65,536 bytes. Names go first, then the
    /// last operators.
    fn trim(&mut self) {
        self.operators.truncate(256);
        if self.text().len() > 65_536 {
            self.forget_names();
        }
        while !self.operators.is_empty() && (self.entry_count() > 4096 || self.text().len() > 65_536) {
            self.operators.pop();
        }
    }
}

#[derive(Clone, Copy, Debug, PartialEq, Eq)]
pub enum Shape {
    /// Few variables and operators.
    Small,
    /// Pieces carried between rooms through doors.
    Furniture,
    /// Thousands to tens of thousands of reachable states.
    Large,
    /// More variables than two patterns hold.
    Wide,
    /// Operators that matter to both patterns.
    Shared,
    /// Prices of 0 for the most part.
    Zeros,
    /// Steps that cannot be taken back.
    DeadEnds,
    /// Effects without a required value.
    Unrequired,
    /// A binary counter: long plans.
    Counter,
    /// A sliding puzzle.
    Puzzle,
    /// Many variables, so that patterns end in many places.
    Patterned,
    /// Prices of 1 for the most part: many equal f.
    Ties,
    /// About as many reachable states as the program's search holds.
    Capacity,
    /// A plan text of about 65,536 bytes.
    LongPlan,
    /// Names of any bytes that a name may have.
    Names,
    /// Counts at their greatest, or one more.
    Limits,
}

impl Shape {
    pub const ALL: [Shape; 16] = [
        Shape::Small,
        Shape::Furniture,
        Shape::Large,
        Shape::Wide,
        Shape::Shared,
        Shape::Zeros,
        Shape::DeadEnds,
        Shape::Unrequired,
        Shape::Counter,
        Shape::Puzzle,
        Shape::Patterned,
        Shape::Ties,
        Shape::Capacity,
        Shape::LongPlan,
        Shape::Names,
        Shape::Limits,
    ];

    /// The shape of a name.
    pub fn named(name: &str) -> Option<Shape> {
        Shape::ALL.into_iter().find(|shape| format!("{shape:?}").eq_ignore_ascii_case(name))
    }
}

/// A shape chosen at random; small tasks are the most frequent.
pub fn any_shape(random: &mut Random) -> Shape {
    match random.below(8) {
        0 | 1 => Shape::Small,
        2 => Shape::Shared,
        _ => *random.pick(&Shape::ALL),
    }
}

/// A task of a shape.
pub fn model_of(shape: Shape, random: &mut Random) -> Model {
    let mut model = match shape {
        Shape::Small => {
            let ranges = Free { variables: (1, 4), domain: (1, 4), operators: (0, 10), ..Free::NORMAL };
            free(random, &ranges)
        }
        Shape::Furniture => furniture(random),
        Shape::Large => large(random),
        Shape::Wide => {
            let ranges = Free { variables: (9, 32), domain: (1, 5), operators: (20, 250), ..Free::NORMAL };
            free(random, &ranges)
        }
        Shape::Shared => shared(random),
        Shape::Zeros => free(random, &Free { prices: Prices::Zeros, ..Free::NORMAL }),
        Shape::DeadEnds => free(random, &Free { one_way: true, ..Free::NORMAL }),
        Shape::Unrequired => free(random, &Free { unrequired: (3, 4), ..Free::NORMAL }),
        Shape::Counter => {
            let bits = random.between(1, 12);
            counter(random, bits)
        }
        Shape::Puzzle => puzzle(random),
        Shape::Patterned => patterned(random),
        Shape::Ties => free(random, &Free { prices: Prices::Ones, ..Free::NORMAL }),
        Shape::Capacity => {
            let states = random.between(2045, 2051);
            capacity(random, states)
        }
        Shape::LongPlan => {
            let bytes = random.between(65_530, 65_542);
            long_plan(random, bytes)
        }
        Shape::Names => {
            let mut model = free(random, &Free::NORMAL);
            rename(random, &mut model);
            model
        }
        // May exceed a limit by a little.
        Shape::Limits => return limits(random),
    };
    model.trim();
    model
}

#[derive(Clone, Copy)]
enum Prices {
    Mixed,
    Zeros,
    Ones,
}

impl Prices {
    fn draw(self, random: &mut Random) -> usize {
        match self {
            Prices::Mixed if random.chance(1, 40) => 65_535,
            Prices::Mixed if random.chance(1, 20) => random.below(65_536),
            Prices::Mixed => random.below(12),
            Prices::Zeros if random.chance(1, 5) => random.below(3),
            Prices::Zeros => 0,
            Prices::Ones if random.chance(1, 5) => random.below(3),
            Prices::Ones => 1,
        }
    }
}

/// Ranges and habits of a task drawn freely.
struct Free {
    variables: (usize, usize),
    domain: (usize, usize),
    operators: (usize, usize),
    unrequired: (usize, usize),
    prices: Prices,
    one_way: bool,
}

impl Free {
    const NORMAL: Free = Free {
        variables: (1, 10),
        domain: (1, 6),
        operators: (0, 60),
        unrequired: (1, 8),
        prices: Prices::Mixed,
        one_way: false,
    };
}

fn free(random: &mut Random, habits: &Free) -> Model {
    let mut model = Model::default();
    let variables = random.between(habits.variables.0, habits.variables.1);
    for v in 0..variables {
        let domain = random.between(habits.domain.0, habits.domain.1);
        model.add_variable(&format!("v{v}"), domain, random.below(domain));
    }
    let mut order: Vec<usize> = (0..variables).collect();
    // Most operators are made to apply to a state that the ones before them reach, so that there are
    // more than a few reachable states.
    let initial: Vec<usize> = model.variables.iter().map(|v| v.initial as usize).collect();
    let mut reached = vec![initial];
    for number in 0..random.between(habits.operators.0, habits.operators.1) {
        random.shuffle(&mut order);
        let mut from = random.pick(&reached).clone();
        if random.chance(1, 3) {
            from = (0..variables).map(|v| random.below(model.domain(v))).collect();
        }
        let conditions = *random.pick(&[0, 0, 0, 1, 1, 2, 3]);
        let effects = *random.pick(&[0, 1, 1, 1, 1, 1, 1, 1, 2, 2, 2, 3, 4]);
        let mut used = order.iter().copied();
        let conditions: Vec<_> = used.by_ref().take(conditions).map(|v| (v, from[v])).collect();
        let effects: Vec<_> = used
            .take(effects)
            .map(|v| {
                let domain = model.domain(v);
                let free = random.chance(habits.unrequired.0, habits.unrequired.1);
                let after = if habits.one_way && random.chance(9, 10) {
                    random.between(from[v], domain - 1)
                } else {
                    random.below(domain)
                };
                (v, (!free).then_some(from[v]), after)
            })
            .collect();
        let price = habits.prices.draw(random);
        model.add_operator(format!("op {number}"), &conditions, &effects, price);
        let target = model.walk(random, 20);
        reached.push(target.into_iter().map(|value| value as usize).collect());
    }

    // Mostly facts of a state that can be reached, else of any state.
    let mut target = model.walk(random, 40);
    if random.chance(1, 4) {
        target = (0..variables).map(|v| random.below(model.domain(v)) as i64).collect();
    }
    random.shuffle(&mut order);
    let most = if random.chance(1, 2) { variables } else { variables.min(3) };
    let goal = if random.chance(1, 20) { 0 } else { random.between(1, most) };
    for &v in &order[..goal] {
        model.goal.push((v as i64, target[v]));
    }
    model
}

fn furniture(random: &mut Random) -> Model {
    const ROOMS: [&str; 8] = ["hall", "den", "loft", "attic", "yard", "cellar", "study", "porch"];
    const PIECES: [&str; 5] = ["sofa", "table", "lamp", "piano", "chest"];
    let rooms = random.between(2, ROOMS.len());
    let pieces = random.between(1, PIECES.len());
    let mut model = Model::default();
    for piece in &PIECES[..pieces] {
        model.add_variable(piece, rooms, random.below(rooms));
        let last = model.variables.last_mut().expect("just added");
        last.values = ROOMS[..rooms].iter().map(|room| room.as_bytes().to_vec()).collect();
    }
    let mut doors = Vec::new();
    for _ in 0..random.between(0, 5) {
        let (from, to) = (random.below(rooms), random.below(rooms));
        if from != to {
            let variable = model.variables.len();
            model.add_variable(&format!("door {} {}", ROOMS[from], ROOMS[to]), 2, random.below(2));
            doors.push((from, to, variable));
            let name = format!("{} {}", ROOMS[from], ROOMS[to]);
            model.add_operator(format!("open {name}"), &[], &[(variable, Some(0), 1)], random.below(3));
            if random.chance(1, 2) {
                model.add_operator(format!("shut {name}"), &[], &[(variable, Some(1), 0)], random.below(2));
            }
        }
    }
    for piece in 0..pieces {
        for from in 0..rooms {
            for to in 0..rooms {
                if from == to || random.chance(1, 3) {
                    continue;
                }
                let door = doors.iter().find(|d| (d.0, d.1) == (from, to) || (d.1, d.0) == (from, to));
                let conditions: Vec<_> = door.iter().map(|door| (door.2, 1)).collect();
                let name = format!("carry {} {} {}", PIECES[piece], ROOMS[from], ROOMS[to]);
                let price = random.between(1, 9);
                model.add_operator(name, &conditions, &[(piece, Some(from), to)], price);
            }
        }
        if random.chance(1, 3) {
            let to = random.below(rooms);
            let name = format!("hoist {}", PIECES[piece]);
            model.add_operator(name, &[], &[(piece, None, to)], random.between(5, 20));
        }
        if random.chance(2, 3) {
            model.add_goal(piece, random.below(rooms));
        }
    }
    random.shuffle(&mut model.operators);
    random.shuffle(&mut model.goal);
    model
}

/// Variables that step up and down, at times only under a condition on the one before.
fn large(random: &mut Random) -> Model {
    let mut model = Model::default();
    let wanted = *random.pick(&[1_000, 3_000, 10_000, 40_000]);
    let mut states = 1;
    while states < wanted && model.variables.len() < 32 {
        let domain = random.between(2, 6);
        states *= domain;
        model.add_variable(&format!("v{}", model.variables.len()), domain, random.below(domain));
    }
    let variables = model.variables.len();
    for v in 0..variables {
        let domain = model.domain(v);
        for value in 0..domain {
            let mut conditions = Vec::new();
            if v > 0 && random.chance(1, 4) {
                conditions.push((v - 1, random.below(model.domain(v - 1))));
            }
            let up = (value + 1) % domain;
            model.add_operator(
                format!("up {v} {value}"),
                &conditions,
                &[(v, Some(value), up)],
                random.between(1, 9),
            );
            if random.chance(1, 2) {
                model.add_operator(
                    format!("down {v} {value}"),
                    &[],
                    &[(v, Some(up), value)],
                    random.between(1, 9),
                );
            }
        }
        if random.chance(1, 2) {
            let value = random.below(domain);
            model.add_goal(v, value);
        }
    }
    for number in 0..random.below(8) {
        let (a, b) = (random.below(variables), random.below(variables));
        if a != b {
            let (x, y) = (random.below(model.domain(a)), random.below(model.domain(b)));
            let required = random.chance(1, 2).then(|| random.below(model.domain(b)));
            let price = random.below(20);
            model.add_operator(format!("jump {number}"), &[(a, x)], &[(b, required, y)], price);
        }
    }
    random.shuffle(&mut model.operators);
    model
}

/// Two groups of variables, each the size of a pattern, that step at random prices; many steps change a
/// variable of both groups, so that it matters how prices are shared. At times steps lead upwards only,
/// and so there are abstract states that are never reached.
fn shared(random: &mut Random) -> Model {
    let mut model = Model::default();
    let one_way = random.chance(1, 2);
    let group = random.between(2, 5);
    let mut groups = [Vec::new(), Vec::new()];
    for variables in &mut groups {
        for _ in 0..group {
            variables.push(model.variables.len());
            let domain = random.between(2, if one_way { 5 } else { 4 });
            let initial = random.below(if one_way { 2 } else { domain });
            model.add_variable(&format!("v{}", model.variables.len()), domain, initial);
        }
        // Variables of one value fill the pattern up.
        for _ in group..8 {
            model.add_variable("fixed", 1, 0);
        }
    }
    for number in 0..random.between(20, 120) {
        let mut conditions = Vec::new();
        let mut effects = Vec::new();
        let both = random.chance(1, 2);
        let start = random.below(2);
        for variables in [&groups[start], &groups[1 - start]] {
            let v = *random.pick(variables);
            let domain = model.domain(v);
            if effects.is_empty() || both {
                let from = random.below(domain);
                let required = (!random.chance(1, 8)).then_some(from);
                let to = if one_way && required.is_some() { from } else { 0 };
                effects.push((v, required, random.between(to, domain - 1)));
            } else if random.chance(1, 3) {
                conditions.push((v, random.below(domain)));
            }
        }
        model.add_operator(format!("op {number}"), &conditions, &effects, random.between(0, 9));
    }
    let target = model.walk(random, 60);
    for variables in &groups {
        for &v in variables {
            if random.chance(2, 3) {
                model.goal.push((v as i64, target[v]));
            }
        }
    }
    model
}

/// A binary counter from 0 to all ones: operator i sets bit i and clears the bits below.
fn counter(random: &mut Random, bits: usize) -> Model {
    let mut model = Model::default();
    let flip = random.chance(1, 2);
    let place = |bit: usize| if flip { bits - 1 - bit } else { bit };
    for bit in 0..bits {
        model.add_variable(&format!("bit {}", place(bit)), 2, 0);
        model.add_goal(bit, 1);
    }
    for bit in 0..bits {
        let mut effects = vec![(place(bit), Some(0), 1)];
        effects.extend((0..bit).map(|lower| (place(lower), Some(1), 0)));
        model.add_operator(format!("carry to {bit}"), &[], &effects, random.between(0, 2));
    }
    model
}

/// Tiles on a small board; each variable is a tile's place, the last one the gap's.
fn puzzle(random: &mut Random) -> Model {
    let (width, height) = *random.pick(&[(2, 2), (3, 2), (2, 3), (3, 3), (4, 2)]);
    let cells = width * height;
    let tiles = cells - 1;
    let mut places: Vec<usize> = (0..cells).collect();
    let gap_neighbours = |gap: usize| -> Vec<usize> {
        let (x, y) = (gap % width, gap / width);
        let mut cells = Vec::new();
        if x > 0 {
            cells.push(gap - 1);
        }
        if x + 1 < width {
            cells.push(gap + 1);
        }
        if y > 0 {
            cells.push(gap - width);
        }
        if y + 1 < height {
            cells.push(gap + width);
        }
        cells
    };
    // Places of tiles after a random walk of the gap; odd boards stay unsolvable at times.
    for _ in 0..random.below(60) {
        let cell = *random.pick(&gap_neighbours(places[tiles]));
        let tile = places.iter().position(|&place| place == cell).expect("a tile is there");
        places.swap(tile, tiles);
    }
    if random.chance(1, 5) {
        places.swap(0, 1);
    }
    let mut model = Model::default();
    for tile in 0..tiles {
        model.add_variable(&format!("tile {tile}"), cells, places[tile]);
        model.add_goal(tile, tile);
    }
    model.add_variable("gap", cells, places[tiles]);
    for tile in 0..tiles {
        for cell in 0..cells {
            for gap in gap_neighbours(cell) {
                let effects = [(tile, Some(cell), gap), (tiles, Some(gap), cell)];
                model.add_operator(format!("{tile} {cell} {gap}"), &[], &effects, 1);
            }
        }
    }
    model
}

/// Many variables whose sizes make patterns end by variables or by ranks, with goals all over.
fn patterned(random: &mut Random) -> Model {
    let mut model = Model::default();
    const SIZES: [&[usize]; 7] =
        [&[1, 2], &[2], &[2, 4], &[1, 2, 3, 5], &[1, 2, 8, 16, 64], &[4, 8, 64, 255], &[2, 3, 63, 65]];
    let sizes = *random.pick(&SIZES);
    for v in 0..random.between(1, 32) {
        let domain = *random.pick(sizes);
        model.add_variable(&format!("v{v}"), domain, 0);
    }
    let variables = model.variables.len();
    let prices = if random.chance(1, 2) { Prices::Mixed } else { Prices::Ones };
    for number in 0..random.between(1, 60) {
        let v = random.below(variables);
        let w = random.below(variables);
        let after = random.below(model.domain(v));
        let required = if random.chance(1, 6) { None } else { Some(random.below(model.domain(v).min(4))) };
        let mut effects = vec![(v, required, after)];
        let mut conditions = Vec::new();
        if w != v {
            let value = random.below(model.domain(w).min(4));
            match random.below(4) {
                0 => effects.push((w, Some(value), random.below(model.domain(w)))),
                1 => effects.push((w, None, value)),
                2 => conditions.push((w, value)),
                _ => {}
            }
        }
        let price = prices.draw(random);
        model.add_operator(format!("step {number}"), &conditions, &effects, price);
    }
    // Mostly goals that some operator sets.
    let mut used = HashSet::new();
    for _ in 0..random.between(1, 6) {
        let operator = random.below(model.operators.len());
        let (v, _, after) = model.operators[operator].effects[0];
        if used.insert(v) {
            model.goal.push((v, after));
        }
    }
    if random.chance(1, 2) {
        model.forget_names();
        for (operator, number) in model.operators.iter_mut().zip(0..) {
            operator.name = format!("{number}").into_bytes();
        }
    }
    model
}

/// Exactly so many reachable states, and mostly no goal state among them.
fn capacity(random: &mut Random, states: usize) -> Model {
    // A grid walked in two directions, a tail of states behind its last corner, and dead ends beside the
    // first column.
    let dead = random.below(4);
    let width = random.between(16, 64);
    let height = (states - dead - 1) / width;
    let tail = states - dead - width * height;
    let mut model = Model::default();
    model.add_variable("x", width, 0);
    model.add_variable("y", height, 0);
    model.add_variable("tail", tail + 2, 0);
    model.add_variable("spoilt", 2, 0);
    model.add_variable("key", 2, 0);
    for x in 1..width {
        let price = random.between(0, 2);
        model.add_operator(format!("x{x}"), &[(2, 0), (3, 0)], &[(0, Some(x - 1), x)], price);
    }
    for y in 1..height {
        let price = random.between(0, 2);
        model.add_operator(format!("y{y}"), &[(2, 0), (3, 0)], &[(1, Some(y - 1), y)], price);
    }
    for t in 1..=tail {
        let conditions = [(0, width - 1), (1, height - 1), (3, 0)];
        model.add_operator(format!("t{t}"), &conditions, &[(2, Some(t - 1), t)], 1);
    }
    for y in 0..dead {
        let conditions = [(0, 0), (1, y), (2, 0)];
        model.add_operator(format!("spoil{y}"), &conditions, &[(3, Some(0), 1)], random.between(0, 3));
    }
    model.add_goal(3, 0);
    match random.below(4) {
        // No projection of the rest reaches this value.
        0 => model.add_goal(2, tail + 1),
        // The tail's end is the goal.
        1 => model.add_goal(2, tail),
        // No pattern sees that grid and tail must be in two places at once.
        _ => {
            model.add_goal(4, 1);
            model.add_operator("turn".to_string(), &[(0, 0), (1, 1), (2, tail)], &[(4, Some(0), 1)], 1);
        }
    }
    random.shuffle(&mut model.operators);
    model
}

/// A counter whose only plan is written with exactly so many bytes, by the lengths of its names.
fn long_plan(random: &mut Random, bytes: usize) -> Model {
    let bits = random.between(8, 11);
    let mut model = counter(random, bits);
    let cost: i64 = (0..bits).map(|bit| model.operators[bit].price << (bits - 1 - bit)).sum();
    let steps = (1 << bits) - 1;
    let names = bytes - format!("; cost = {cost} (general cost)\n").len() - 3 * steps;
    let (length, rest) = (names / steps, names % steps);
    for (bit, operator) in model.operators.iter_mut().enumerate() {
        // Operator `bit` is used 2 ^ (bits - 1 - bit) times; so the rest's binary digits lengthen names.
        let longer = rest >> (bits - 1 - bit) & 1;
        operator.name = (0..length + longer).map(|_| random.between(33, 126) as u8).collect();
    }
    model
}

fn rename(random: &mut Random, model: &mut Model) {
    const TRAPS: [&str; 12] = [
        "",
        " ",
        "0",
        "-1",
        "begin_operator",
        "end_operator",
        "end_variable",
        "; cost = 6 (general cost)",
        "~",
        "(name)",
        "007",
        "a b  c ",
    ];
    let draw = |random: &mut Random| -> Vec<u8> {
        match random.below(3) {
            0 => random.pick(&TRAPS).as_bytes().to_vec(),
            1 => (0..random.below(40)).map(|_| random.between(32, 126) as u8).collect(),
            _ => b"same".to_vec(),
        }
    };
    for variable in &mut model.variables {
        variable.name = draw(random);
        for value in &mut variable.values {
            *value = draw(random);
        }
    }
    for operator in &mut model.operators {
        operator.name = draw(random);
    }
}

/// Variables, values, operators, entries or bytes at their greatest.
fn limits(random: &mut Random) -> Model {
    const DOMAINS: [&[usize]; 5] = [&[1], &[2], &[255], &[254, 255], &[1, 255]];
    let mut model = Model::default();
    let entries = random.chance(1, 3);
    let variables = if entries { 32 } else { *random.pick(&[1, 2, 31, 32]) };
    let domains = *random.pick(&DOMAINS);
    for v in 0..variables {
        let domain = *random.pick(domains);
        let initial = *random.pick(&[0, domain - 1]);
        model.add_variable(&format!("v{v}"), domain, initial);
    }
    model.forget_names();
    for v in 0..variables {
        if random.chance(1, 4) {
            let last = model.domain(v) as i64 - 1;
            model.goal.push((v as i64, *random.pick(&[0, last])));
        }
    }
    let operators = if entries { 256 } else { *random.pick(&[0, 1, 255, 256]) };
    // In how many of 16 cases an operator has a variable.
    let density = if entries { 7 } else { *random.pick(&[1, 7, 16]) };
    for _ in 0..operators {
        let mut operator = ModelOperator { price: *random.pick(&[0, 1, 65_535]), ..Default::default() };
        for v in 0..variables {
            if !random.chance(density, 16) {
                continue;
            }
            let last = model.domain(v) as i64 - 1;
            if random.chance(1, 2) {
                operator.conditions.push((v as i64, *random.pick(&[0, last])));
            } else {
                let required = *random.pick(&[-1, 0, last]);
                operator.effects.push((v as i64, required, *random.pick(&[0, last])));
            }
        }
        model.operators.push(operator);
    }
    model.trim();
    if entries {
        fill_entries(&mut model, 4096 + random.below(2));
        spoil_last_entry(random, &mut model);
    } else if random.chance(1, 2) {
        let length = model.text().len();
        let wanted = random.between(65_534, 65_538);
        if length < wanted {
            let name = &mut model.variables[0].name;
            name.resize(name.len() + wanted - length, b'x');
        }
    }
    model
}

/// Gives the last entry a variable that came before, a value out of range or both, or leaves it.
fn spoil_last_entry(random: &mut Random, model: &mut Model) {
    let Some(operator) = model.operators.last_mut() else { return };
    let first = operator.conditions.first().map(|c| c.0);
    let twice = random.chance(1, 3);
    let range = random.chance(1, 4);
    if let Some(last) = operator.effects.last_mut() {
        if let Some(first) = first.filter(|_| twice) {
            (last.0, last.1, last.2) = (first, -1, 0);
        }
        if range {
            last.2 = 255;
        }
    }
}

/// Adds conditions until the entries are used up, as far as operators have variables left.
fn fill_entries(model: &mut Model, entries: usize) {
    let mut missing = entries.saturating_sub(model.entry_count());
    for operator in &mut model.operators {
        let used: HashSet<i64> =
            operator.conditions.iter().map(|c| c.0).chain(operator.effects.iter().map(|e| e.0)).collect();
        for v in (0..model.variables.len() as i64).filter(|v| !used.contains(v)) {
            if missing == 0 {
                return;
            }
            operator.conditions.push((v, 0));
            missing -= 1;
        }
    }
}
