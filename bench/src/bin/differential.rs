//! Compares the reference with our library, or with a program, on texts made from seeds.

use bench::cases::{any_pattern, case, counts, projection_numbers, search_numbers, shown_fault, Case};
use bench::generate::Shape;
use bench::options::{stop, Options};
use bench::ours;
use bench::plan::{self, plan_with, Answer};
use bench::program::Program;
use bench::reader::read;
use std::collections::BTreeMap;
use std::fs;
use std::path::PathBuf;
use std::sync::atomic::{AtomicU64, Ordering};
use std::sync::Mutex;
use std::thread;
use std::time::Instant;

const USAGE: &str = "usage: differential [SEEDS] [options]

Makes the texts of SEEDS seeds (1,000 if not given), valid and damaged ones, and compares answers.

  --program PATH     compare with a program: text on standard input, answer on standard output
  --first SEED       the first seed (0)
  --shape NAME       make tasks of one shape only, such as Furniture
  --damaged PERCENT  how many texts are damaged (60)
  --threads COUNT    how many run at once (1 with the library, else all cores)
  --limit SECONDS    how long a program may run on one text (60)
  --keep FOLDER      store the text of every mismatch there as SEED.sas, and the reference's answer
  --show             print the text of the first seed and stop

Without --program, our library is called; that needs feature `ours`.";

/// What is compared with the reference.
enum Other {
    Program(Program),
    Library,
}

fn main() {
    let valued = ["program", "first", "shape", "damaged", "threads", "limit", "keep"];
    let options = Options::parse(USAGE, &valued, &["show"]);
    let seeds = match &options.words[..] {
        [] => 1000,
        [seeds] => seeds.replace('_', "").parse().unwrap_or_else(|_| stop(USAGE)),
        _ => stop(USAGE),
    };
    let first = options.number("first", 0);
    let damaged = options.number("damaged", 60);
    let shape = options
        .text("shape")
        .map(|name| Shape::named(name).unwrap_or_else(|| stop(&format!("shapes are {:?}", Shape::ALL))));
    if options.has("show") {
        let case = case(first, shape, damaged);
        eprintln!("seed {first}: {}", case.origin);
        print!("{}", String::from_utf8_lossy(&case.text));
        return;
    }
    let other = match options.text("program") {
        Some(path) => Other::Program(Program::new(path, options.number("limit", 60))),
        None if ours::AVAILABLE => Other::Library,
        None => stop(&format!("feature `ours` is off and no program is given\n\n{USAGE}")),
    };
    // The library may keep its memory in one place, so it is called from one thread.
    let cores = thread::available_parallelism().map_or(1, usize::from) as u64;
    let threads = match other {
        Other::Library => options.number("threads", 1),
        Other::Program(_) => options.number("threads", cores),
    };
    let keep = options.text("keep").map(PathBuf::from);
    if let Some(folder) = &keep {
        fs::create_dir_all(folder).unwrap_or_else(|e| stop(&format!("{}: {e}", folder.display())));
    }

    let began = Instant::now();
    let next = AtomicU64::new(0);
    let tally = Mutex::new(BTreeMap::new());
    let mismatches = AtomicU64::new(0);
    thread::scope(|scope| {
        for _ in 0..threads.max(1) {
            scope.spawn(|| loop {
                let number = next.fetch_add(1, Ordering::Relaxed);
                if number >= seeds {
                    break;
                }
                let mut case = case(first + number, shape, damaged);
                let (label, differences) = compare(&other, &mut case);
                *tally.lock().expect("no thread failed").entry(label).or_insert(0u64) += 1;
                if differences.is_empty() {
                    continue;
                }
                mismatches.fetch_add(1, Ordering::Relaxed);
                for difference in differences {
                    println!("seed {} ({}): {difference}", case.seed, case.origin);
                }
                if let Some(folder) = &keep {
                    let path = folder.join(format!("{}.sas", case.seed));
                    let printed = plan::plan(&case.text).printed();
                    let stored = fs::write(&path, &case.text)
                        .and_then(|()| fs::write(path.with_extension("out"), printed));
                    stored.unwrap_or_else(|e| stop(&format!("{}: {e}", path.display())));
                }
            });
        }
    });

    let tally = tally.into_inner().expect("no thread failed");
    let parts: Vec<String> = tally.iter().map(|(label, count)| format!("{count} {label}")).collect();
    println!("answers: {}", parts.join(", "));
    let mismatches = mismatches.into_inner();
    println!("{seeds} texts, {mismatches} mismatches, {:.1} s", began.elapsed().as_secs_f64());
    if mismatches > 0 {
        std::process::exit(1);
    }
}

/// The label of the reference's answer, and what differs from it.
fn compare(other: &Other, case: &mut Case) -> (&'static str, Vec<String>) {
    let mut differences = Vec::new();
    let answer = plan::plan(&case.text);
    match other {
        Other::Program(program) => match program.run(&case.text) {
            Err(message) => differences.push(format!("the program: {message}")),
            Ok(run) => {
                let printed = answer.printed();
                if run.printed != printed {
                    differences.push(format!(
                        "printed {}, but the reference {}",
                        shown(&run.printed),
                        shown(&printed)
                    ));
                }
            }
        },
        Other::Library => compare_library(case, &mut differences),
    }
    (answer.label(), differences)
}

fn compare_library(case: &mut Case, differences: &mut Vec<String>) {
    let text = &case.text[..];
    let random = &mut case.random;

    let task = read(text);
    let wanted = task.as_ref().map(counts).map_err(|fault| *fault);
    let given = ours::read(text).expect("the library is linked");
    if given != wanted {
        let shown = |reading: &Result<ours::Counts, _>| match reading {
            Ok(counts) => format!("accepted with counts {counts:?}"),
            Err(fault) => shown_fault(fault),
        };
        differences.push(format!("read: {}, but the reference {}", shown(&given), shown(&wanted)));
    }

    for capacity in [plan::CAPACITY, random.between(0, 40), random.between(1, 4000)] {
        let wanted = plan_with(text, capacity);
        let mut buffer = vec![0xa5; plan::BUFFER];
        let given = ours::plan(text, &mut buffer, capacity as u32).expect("the library is linked");
        if given != wanted {
            differences.push(format!(
                "plan with N = {capacity}: {}, but the reference {}",
                shown(&given.printed()),
                shown(&wanted.printed())
            ));
        }
        let written = match &given {
            Answer::Plan(text) => text.len(),
            _ => 0,
        };
        if buffer[written..].iter().any(|&byte| byte != 0xa5) {
            differences.push(format!("plan with N = {capacity}: bytes beyond the text changed"));
        }
    }

    for _ in 0..2 {
        let capacity = *random.pick(&[1, 2, 5, 100, 2048, 20_000, 65_535]);
        let expansions = *random.pick(&[0, 1, 10, 1000, 1_000_000]);
        let wanted = match &task {
            Ok(task) => search_numbers(task, capacity, expansions),
            Err(fault) => Err(fault.pack()),
        };
        let given = ours::search(text, capacity as u32, expansions).expect("the library is linked");
        if given != wanted {
            differences.push(format!(
                "search with N = {capacity} for {expansions}: {given:?}, but the reference {wanted:?}"
            ));
        }
    }

    if let Ok(task) = &task {
        let mut bytes = Vec::new();
        let pattern = any_pattern(random, task.variables().len());
        let wanted = projection_numbers(task, &pattern);
        let given = ours::projection(text, &pattern, task.operators().len(), &mut bytes)
            .expect("the library is linked");
        if given != wanted {
            differences.push(format!("projection of {pattern:?} differs"));
        }
    }
}

/// A short form for messages.
fn shown(bytes: &[u8]) -> String {
    const MOST: usize = 160;
    let text = format!("{:?}", String::from_utf8_lossy(&bytes[..bytes.len().min(MOST)]));
    if bytes.len() > MOST {
        format!("{text}.. ({} bytes)", bytes.len())
    } else {
        text
    }
}
