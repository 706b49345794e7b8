//! Command lines: words, `--name value` and `--switch`.

use std::collections::HashMap;

pub struct Options {
    pub words: Vec<String>,
    values: HashMap<String, String>,
}

impl Options {
    /// Parses the command line. `valued` are the options that take a value, `switches` those that take
    /// none; anything else that starts with `--` ends the program with the usage.
    pub fn parse(usage: &str, valued: &[&str], switches: &[&str]) -> Options {
        let mut options = Options { words: Vec::new(), values: HashMap::new() };
        let mut arguments = std::env::args().skip(1);
        while let Some(argument) = arguments.next() {
            match argument.strip_prefix("--") {
                None => options.words.push(argument),
                Some("help") => {
                    println!("{usage}");
                    std::process::exit(0)
                }
                Some(name) if switches.contains(&name) => {
                    options.values.insert(name.to_string(), String::new());
                }
                Some(name) if valued.contains(&name) => match arguments.next() {
                    Some(value) => {
                        options.values.insert(name.to_string(), value);
                    }
                    None => stop(&format!("--{name} needs a value\n{usage}")),
                },
                Some(name) => stop(&format!("unknown option --{name}\n{usage}")),
            }
        }
        options
    }

    pub fn has(&self, name: &str) -> bool {
        self.values.contains_key(name)
    }

    pub fn text(&self, name: &str) -> Option<&str> {
        self.values.get(name).map(String::as_str)
    }

    pub fn number(&self, name: &str, default: u64) -> u64 {
        match self.text(name) {
            None => default,
            Some(value) => value
                .replace('_', "")
                .parse()
                .unwrap_or_else(|_| stop(&format!("--{name} {value}: no number"))),
        }
    }
}

/// Ends the program with a message.
pub fn stop(message: &str) -> ! {
    eprintln!("{message}");
    std::process::exit(2)
}
