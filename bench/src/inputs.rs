//! The inputs of the speed table.

use crate::generate::{model_of, Model, ModelOperator, ModelVariable, Shape};
use crate::random::Random;
use crate::reader::MAX_TEXT;

/// Texts of exactly 65,536 bytes: most lines in operators, most lines in variables, and one long name.
pub fn reading_texts() -> Vec<(&'static str, Vec<u8>)> {
    let mut random = Random::new(1);

    let mut operators = steps(&mut random, 32, 4, 256, 6);
    while operators.entry_count() < 4096 {
        let at = random.below(256);
        let operator = &mut operators.operators[at];
        let v = random.below(32) as i64;
        let used = operator.conditions.iter().any(|c| c.0 == v) || operator.effects.iter().any(|e| e.0 == v);
        if !used {
            operator.conditions.push((v, random.below(4) as i64));
        }
    }

    let mut variables = steps(&mut random, 32, 255, 16, 1);
    for variable in &mut variables.variables {
        for value in &mut variable.values {
            *value = format!("at {}", random.below(1000)).into_bytes();
        }
    }

    let long = steps(&mut random, 1, 2, 1, 0);
    vec![
        ("256 operators, 4,096 entries", padded(operators)),
        ("32 variables of 255 values", padded(variables)),
        ("one long name", padded(long)),
    ]
}

/// 65,536 ranks in the first eight variables, 256 operators.
pub fn projection_texts() -> Vec<(&'static str, Vec<u8>)> {
    let mut random = Random::new(2);
    let required = steps(&mut random, 8, 4, 256, 1);
    let mut free = steps(&mut random, 8, 4, 256, 2);
    for operator in free.operators.iter_mut().step_by(4) {
        operator.effects[0].1 = -1;
    }
    vec![
        ("1 condition each", required.text()),
        ("2 conditions each, a quarter without required value", free.text()),
    ]
}

/// More than 65,535 reachable states and no goal state among them.
pub fn search_texts() -> Vec<(&'static str, Vec<u8>)> {
    let mut random = Random::new(3);
    let mut texts = Vec::new();
    for (name, variables, values, operators) in
        [("10 variables, 80 operators", 10, 4, 80), ("32 variables, 256 operators", 32, 3, 256)]
    {
        let mut model = steps(&mut random, variables, values, operators, 1);
        // A value that no operator sets.
        model.variables[0].values.push(b"never".to_vec());
        model.goal = vec![(0, values as i64)];
        texts.push((name, model.text()));
    }
    texts
}

/// Tasks that the program solves, or nearly, with its 2,048 nodes.
pub fn solve_texts() -> Vec<(&'static str, Vec<u8>)> {
    let mut random = Random::new(4);
    let counter = counter(11);
    // Seeds whose tasks need many of the nodes.
    let puzzle = model_of(Shape::Puzzle, &mut Random::new(22));
    let furniture = model_of(Shape::Furniture, &mut Random::new(348));
    let shared = model_of(Shape::Shared, &mut Random::new(306));
    let mut wide = steps(&mut random, 32, 4, 256, 2);
    wide.goal = (0..32).step_by(5).map(|v| (v, 3)).collect();
    vec![
        ("counter of 11 bits", counter.text()),
        ("sliding puzzle", puzzle.text()),
        ("furniture", furniture.text()),
        ("two patterns that share operators", shared.text()),
        ("32 variables, 256 operators", wide.text()),
    ]
}

/// Operators that each step one variable up or down, under so many conditions on others.
fn steps(random: &mut Random, variables: usize, values: usize, operators: usize, conditions: usize) -> Model {
    let mut model = Model::default();
    for v in 0..variables {
        model.variables.push(ModelVariable {
            name: format!("variable {v}").into_bytes(),
            values: (0..values).map(|value| format!("value {value}").into_bytes()).collect(),
            initial: 0,
        });
        if v < 4 {
            model.goal.push((v as i64, values as i64 - 1));
        }
    }
    let mut order: Vec<usize> = (0..variables).collect();
    for number in 0..operators {
        let v = number % variables;
        let from = number / variables % values;
        let to = (from + *random.pick(&[1, values - 1])) % values;
        random.shuffle(&mut order);
        let others = order.iter().filter(|&&other| other != v).take(conditions);
        model.operators.push(ModelOperator {
            name: format!("operator {number}").into_bytes(),
            // Values of 0 and 1 are the frequent ones, so that most operators apply at times.
            conditions: others.map(|&other| (other as i64, random.below(values.min(2)) as i64)).collect(),
            effects: vec![(v as i64, from as i64, to as i64)],
            price: random.between(1, 20) as i64,
        });
    }
    model
}

fn counter(bits: i64) -> Model {
    let mut model = Model::default();
    for bit in 0..bits {
        model.variables.push(ModelVariable {
            name: format!("bit {bit}").into_bytes(),
            values: vec![b"off".to_vec(), b"on".to_vec()],
            initial: 0,
        });
        model.goal.push((bit, 1));
        model.operators.push(ModelOperator {
            name: format!("carry to {bit}").into_bytes(),
            conditions: Vec::new(),
            effects: (0..=bit).map(|lower| if lower == bit { (bit, 0, 1) } else { (lower, 1, 0) }).collect(),
            price: 1,
        });
    }
    model
}

/// The model's text with the first variable's name lengthened to the greatest length of a text.
fn padded(mut model: Model) -> Vec<u8> {
    let length = model.text().len();
    assert!(length <= MAX_TEXT, "{length} bytes");
    let name = &mut model.variables[0].name;
    name.resize(name.len() + MAX_TEXT - length, b'n');
    model.text()
}
