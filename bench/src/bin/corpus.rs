//! Compares answers over a folder of texts with the answers stored beside them.

use bench::options::{stop, Options};
use bench::plan::plan;
use bench::program::Program;
use std::fs;
use std::path::{Path, PathBuf};

const USAGE: &str = "usage: corpus FOLDER [--program PATH] [--limit SECONDS]

Every NAME.sas in the folder is answered and compared with NAME.out, byte for byte: by the reference, or
with --program by that program, which reads the text from standard input.";

fn main() {
    let options = Options::parse(USAGE, &["program", "limit"], &[]);
    let [folder] = &options.words[..] else { stop(USAGE) };
    let program = options.text("program").map(|path| Program::new(path, options.number("limit", 60)));

    let mut wrong = 0;
    let texts = texts_in(Path::new(folder));
    for path in &texts {
        let text = read(path);
        let wanted = read(&path.with_extension("out"));
        let given = match &program {
            None => Ok(plan(&text).printed()),
            Some(program) => program.run(&text).map(|run| run.printed),
        };
        let name = path.file_stem().unwrap_or_default().to_string_lossy();
        match given {
            Ok(given) if given == wanted => {}
            Ok(given) => {
                wrong += 1;
                println!("{name}: wanted {}, given {}", shown(&wanted), shown(&given));
            }
            Err(message) => {
                wrong += 1;
                println!("{name}: wanted {}, but {message}", shown(&wanted));
            }
        }
    }
    println!("{} texts, {wrong} mismatches", texts.len());
    if texts.is_empty() || wrong > 0 {
        std::process::exit(1);
    }
}

fn texts_in(folder: &Path) -> Vec<PathBuf> {
    let entries = fs::read_dir(folder).unwrap_or_else(|e| stop(&format!("{}: {e}", folder.display())));
    let mut texts: Vec<PathBuf> = entries
        .filter_map(|entry| entry.ok().map(|entry| entry.path()))
        .filter(|path| path.extension().is_some_and(|extension| extension == "sas"))
        .collect();
    texts.sort();
    texts
}

fn read(path: &Path) -> Vec<u8> {
    fs::read(path).unwrap_or_else(|e| stop(&format!("{}: {e}", path.display())))
}

/// A short form for messages.
fn shown(bytes: &[u8]) -> String {
    const MOST: usize = 200;
    let text = format!("{:?}", String::from_utf8_lossy(&bytes[..bytes.len().min(MOST)]));
    if bytes.len() > MOST {
        format!("{text}.. ({} bytes)", bytes.len())
    } else {
        text
    }
}
