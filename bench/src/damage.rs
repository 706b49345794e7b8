//! Damages texts and models.

use crate::generate::{Model, ModelOperator};
use crate::random::Random;

/// Damages a text in one of many ways.
pub fn damage_text(random: &mut Random, text: &mut Vec<u8>) -> &'static str {
    if text.is_empty() {
        text.extend_from_slice(b"begin_version\n");
        return "started anew";
    }
    type Way = (&'static str, fn(&mut Random, &mut Vec<u8>));
    const WAYS: [Way; 22] = [
        ("byte changed", |random, text| {
            let at = random.below(text.len());
            text[at] = any_byte(random);
        }),
        ("byte put in", |random, text| {
            let at = random.below(text.len() + 1);
            text.insert(at, any_byte(random));
        }),
        ("byte dropped", |random, text| {
            text.remove(random.below(text.len()));
        }),
        ("bit flipped", |random, text| {
            let at = random.below(text.len());
            text[at] ^= 1 << random.below(8);
        }),
        ("line dropped", |random, text| {
            on_lines(text, |lines| {
                lines.remove(random.below(lines.len()));
            })
        }),
        ("line doubled", |random, text| {
            on_lines(text, |lines| {
                let at = random.below(lines.len());
                lines.insert(at, lines[at].clone());
            })
        }),
        ("lines swapped", |random, text| {
            on_lines(text, |lines| {
                let (a, b) = (random.below(lines.len()), random.below(lines.len()));
                lines.swap(a, b);
            })
        }),
        ("neighbours swapped", |random, text| {
            on_lines(text, |lines| {
                let a = random.below(lines.len());
                let b = (a + 1).min(lines.len() - 1);
                lines.swap(a, b);
            })
        }),
        ("line put in", |random, text| {
            on_lines(text, |lines| {
                let words = [&b""[..], b"0", b"1", b"0 0", b"0 0 0 0", b"end_operator", b"begin_variable"];
                let at = random.below(lines.len() + 1);
                lines.insert(at, [random.pick(&words), &b"\n"[..]].concat());
            })
        }),
        ("cut", |random, text| {
            text.truncate(random.below(text.len()));
        }),
        ("cut at a line's end", |random, text| {
            on_lines(text, |lines| lines.truncate(random.below(lines.len() + 1)))
        }),
        ("cut after an odd byte", |random, text| {
            text.truncate(random.below(text.len()));
            text.push(*random.pick(b"\r\t\0\x7f\xff"));
        }),
        ("last byte dropped", |_, text| {
            text.pop();
        }),
        ("bytes after", |random, text| {
            let tails = [&b"\n"[..], b" ", b"0", b"0\n", b"\r\n", b"\0", b"end\n\n", b"\xff"];
            let tail = *random.pick(&tails);
            text.extend_from_slice(tail);
        }),
        ("number off by one", |random, text| {
            on_number(random, text, |random, word| {
                let number = word.parse::<i64>().unwrap_or(0);
                (number + *random.pick(&[-2, -1, 1, 2])).to_string()
            })
        }),
        ("number replaced", |random, text| {
            on_number(random, text, |random, _| {
                let numbers = [
                    "0",
                    "1",
                    "-1",
                    "2",
                    "31",
                    "32",
                    "33",
                    "254",
                    "255",
                    "256",
                    "257",
                    "65535",
                    "65536",
                    "999999999",
                    "1000000000",
                    "4294967296",
                    "18446744073709551616",
                    "-0",
                    "-2",
                    "+1",
                    "00",
                    "01",
                    "-01",
                    "0000000000",
                    "1.0",
                    "1e3",
                    "0x1",
                    "--1",
                    "-",
                    "",
                    " ",
                    "1 ",
                    " 1",
                ];
                random.pick(&numbers).to_string()
            })
        }),
        ("digits appended", |random, text| {
            on_number(random, text, |random, word| {
                let digits: String =
                    (0..random.between(1, 12)).map(|_| char::from(b'0' + random.below(10) as u8)).collect();
                format!("{word}{digits}")
            })
        }),
        ("zero or sign before", |random, text| {
            on_number(random, text, |random, word| {
                format!("{}{word}", random.pick(&["0", "00", "-", "+", " ", "\t"]))
            })
        }),
        ("number more", |random, text| {
            on_number(random, text, |random, word| {
                random.pick(&[format!("{word} {word}"), format!("{word} 0"), format!("0 {word}")]).clone()
            })
        }),
        ("two in a line", |random, text| {
            on_number_line(random, text, 2, |random, words| {
                for word in words.iter_mut() {
                    if random.chance(2, 3) {
                        let odd =
                            ["-1", "255", "99999", "1234567890", "0123456789", "x", "00", "-0", "", "\t"];
                        *word = random.pick(&odd).to_string();
                    }
                }
            })
        }),
        ("carriage returns", |random, text| {
            let all = random.chance(1, 2);
            on_lines(text, |lines| {
                let only = random.below(lines.len());
                for (number, line) in lines.iter_mut().enumerate() {
                    if (all || number == only) && line.last() == Some(&b'\n') {
                        line.insert(line.len() - 1, b'\r');
                    }
                }
            })
        }),
        ("made long", |random, text| {
            // Long names keep the text well-formed up to the greatest length.
            let wanted = random.between(65_534, 65_539);
            let name = text.windows(15).position(|window| window == b"begin_variable\n");
            if let Some(at) = name.filter(|_| text.len() < wanted) {
                let more = wanted - text.len();
                text.splice(at + 15..at + 15, std::iter::repeat_n(b'y', more));
            }
        }),
    ];
    let (name, way) = random.pick(&WAYS);
    way(random, text);
    name
}

/// Damages a model: numbers out of range, and variables that come twice.
pub fn damage_model(random: &mut Random, model: &mut Model) -> &'static str {
    let variables = model.variables.len() as i64;
    let far = |random: &mut Random| *random.pick(&[-1, variables, 32, 255, 999_999_999, 1_000_000_000]);
    match random.below(10) {
        0 => {
            if !model.goal.is_empty() {
                let again = *random.pick(&model.goal);
                model.goal.push((again.0, *random.pick(&[again.1, 0, -1, 255])));
            }
            "goal variable twice"
        }
        1 => {
            on_operator(random, model, |random, operator| {
                if !operator.conditions.is_empty() {
                    let again = *random.pick(&operator.conditions);
                    operator.conditions.push((again.0, *random.pick(&[again.1, 0, -1, 255])));
                }
            });
            "condition twice"
        }
        2 => {
            on_operator(random, model, |random, operator| {
                if !operator.effects.is_empty() {
                    let again = *random.pick(&operator.effects);
                    operator.effects.push((again.0, again.1, *random.pick(&[again.2, 0, -1, 255])));
                }
            });
            "effect twice"
        }
        3 => {
            on_operator(random, model, |random, operator| {
                if !operator.effects.is_empty() {
                    let (variable, _, after) = *random.pick(&operator.effects);
                    operator.conditions.push((variable, after));
                }
            });
            "condition and effect"
        }
        4 => {
            let variable = far(random);
            model.goal.push((variable, 0));
            "goal variable out of range"
        }
        5 => {
            on_operator(random, model, |random, operator| {
                // A variable that came before, with a value it does not have.
                if let Some(&(variable, _)) = operator.conditions.first() {
                    operator.effects.push((variable, -1, *random.pick(&[-1, 255, 256])));
                } else {
                    operator.conditions.push((0, 255));
                }
            });
            "value out of range"
        }
        6 => {
            on_operator(random, model, |random, operator| {
                operator.price = *random.pick(&[-1, 65_535, 65_536, 1_000_000_000]);
            });
            "price"
        }
        7 => {
            let at = random.below(model.variables.len());
            let domain = model.variables[at].values.len() as i64;
            model.variables[at].initial = *random.pick(&[-1, domain - 1, domain, 255, 256]);
            "initial value"
        }
        8 => {
            let at = random.below(model.variables.len());
            let domain = *random.pick(&[0, 255, 256]);
            model.variables[at].values.resize(domain, Vec::new());
            "values"
        }
        _ => {
            let mut more = random.between(1, 33);
            if random.chance(1, 2) {
                while more > 0 {
                    model.variables.push(model.variables[0].clone());
                    more -= 1;
                }
                "variables"
            } else {
                let operators = *random.pick(&[255, 256, 257, 300]);
                model.operators.resize(operators, ModelOperator::default());
                "operators"
            }
        }
    }
}

fn on_operator(random: &mut Random, model: &mut Model, change: impl FnOnce(&mut Random, &mut ModelOperator)) {
    if !model.operators.is_empty() {
        let at = random.below(model.operators.len());
        change(random, &mut model.operators[at]);
    }
}

fn any_byte(random: &mut Random) -> u8 {
    if random.chance(1, 2) {
        *random.pick(b"\n\r\t\0 ~\x1f\x7f\x80\xff-+0123456789_")
    } else {
        random.below(256) as u8
    }
}

/// Changes a text as lines with their ends; an unended rest counts as a line.
fn on_lines(text: &mut Vec<u8>, change: impl FnOnce(&mut Vec<Vec<u8>>)) {
    let mut lines: Vec<Vec<u8>> = text.split_inclusive(|&byte| byte == b'\n').map(<[u8]>::to_vec).collect();
    if !lines.is_empty() {
        change(&mut lines);
    }
    *text = lines.concat();
}

/// Replaces a number of a line that holds only numbers.
fn on_number(random: &mut Random, text: &mut Vec<u8>, replace: impl FnOnce(&mut Random, &str) -> String) {
    on_number_line(random, text, 1, |random, words| {
        let word = random.below(words.len());
        words[word] = replace(random, &words[word]);
    });
}

/// Changes the words of a line that holds only numbers, at least so many; names take no damage here.
fn on_number_line(
    random: &mut Random,
    text: &mut Vec<u8>,
    least: usize,
    change: impl FnOnce(&mut Random, &mut Vec<String>),
) {
    let numbers = |line: &[u8]| {
        let only = line.iter().all(|byte| byte.is_ascii_digit() || b" -\n".contains(byte));
        if only && line.len() > 1 {
            line.split(|&byte| byte == b' ').count()
        } else {
            0
        }
    };
    on_lines(text, |lines| {
        let places: Vec<usize> = (0..lines.len()).filter(|&i| numbers(&lines[i]) >= least).collect();
        if places.is_empty() {
            return;
        }
        let place = *random.pick(&places);
        let line = String::from_utf8_lossy(&lines[place]).into_owned();
        let mut words: Vec<String> = line.trim_end_matches('\n').split(' ').map(str::to_string).collect();
        change(random, &mut words);
        let mut line = words.join(" ").into_bytes();
        line.push(b'\n');
        lines[place] = line;
    });
}
