//! Times the reference and, with feature `ours`, our library on the same inputs.

use bench::cases::{projection_numbers, search_numbers};
use bench::inputs;
use bench::options::{stop, Options};
use bench::ours;
use bench::plan::{self, plan_with};
use bench::reader::read;
use std::hint::black_box;
use std::sync::OnceLock;
use std::time::{Duration, Instant};

const USAGE: &str = "usage: speed [--runs COUNT] [--cpu]

Prints a table of median times a call over COUNT runs (15); a run repeats the call for at least 20 ms.
With --cpu the thread's processor time is taken (Linux only), which a busy machine disturbs less.";

/// How long a run lasts at least.
const RUN: Duration = Duration::from_millis(20);

fn main() {
    let options = Options::parse(USAGE, &["runs"], &["cpu"]);
    if !options.words.is_empty() {
        stop(USAGE);
    }
    let clock = if options.has("cpu") { processor_time } else { wall_time };
    let mut table = Table { runs: options.number("runs", 15).max(1) as usize, clock };
    let kind = if options.has("cpu") { "processor" } else { "wall" };
    println!("Median of {} runs, {kind} time a call.", table.runs);
    println!("Reference: every call takes fresh memory from the allocator and clears what it must.");
    if ours::AVAILABLE {
        println!("Ours: buffers handed over are kept from call to call and not cleared; what the library");
        println!("clears itself is part of its time.");
    } else {
        println!("Ours: not linked (feature `ours`).");
    }
    println!();
    println!("| what | input | reference | ours | ours / reference |");
    println!("|---|---|---:|---:|---:|");
    reading(&mut table);
    projection(&mut table);
    search(&mut table);
    solve(&mut table);
}

struct Table {
    runs: usize,
    clock: fn() -> Duration,
}

impl Table {
    /// Times both and prints a line. Each function answers something so that no work is left out; ours
    /// answers nothing if the library is not linked.
    fn line<R, O>(
        &mut self,
        what: &str,
        input: &str,
        mut reference: impl FnMut() -> R,
        mut ours: impl FnMut() -> Option<O>,
    ) {
        let reference = self.median(|| {
            black_box(reference());
        });
        let (ours, ratio) = if ours::AVAILABLE {
            let ours = self.median(|| {
                black_box(ours());
            });
            (shown(ours), format!("{:.2}", ours / reference))
        } else {
            ("–".to_string(), "–".to_string())
        };
        println!("| {what} | {input} | {} | {ours} | {ratio} |", shown(reference));
    }

    /// The median time of a call, in seconds.
    fn median(&self, mut call: impl FnMut()) -> f64 {
        let mut calls = 1;
        loop {
            let began = (self.clock)();
            (0..calls).for_each(|_| call());
            if (self.clock)() - began >= RUN {
                break;
            }
            calls *= 2;
        }
        let mut times: Vec<f64> = (0..self.runs)
            .map(|_| {
                let began = (self.clock)();
                (0..calls).for_each(|_| call());
                ((self.clock)() - began).as_secs_f64() / f64::from(calls)
            })
            .collect();
        times.sort_by(f64::total_cmp);
        times[times.len() / 2]
    }
}

fn wall_time() -> Duration {
    static START: OnceLock<Instant> = OnceLock::new();
    START.get_or_init(Instant::now).elapsed()
}

#[cfg(target_os = "linux")]
fn processor_time() -> Duration {
    #[repr(C)]
    struct Time {
        seconds: i64,
        nanoseconds: i64,
    }
    extern "C" {
        fn clock_gettime(clock: i32, time: *mut Time) -> i32;
    }
    const THREAD_PROCESSOR_TIME: i32 = 3;
    let mut time = Time { seconds: 0, nanoseconds: 0 };
    // SAFETY: the call writes one time where it may, and keeps nothing.
    let result = unsafe { clock_gettime(THREAD_PROCESSOR_TIME, &mut time) };
    assert_eq!(result, 0, "the clock is there");
    Duration::new(time.seconds as u64, time.nanoseconds as u32)
}

#[cfg(not(target_os = "linux"))]
fn processor_time() -> Duration {
    stop("--cpu works on Linux only")
}

fn shown(seconds: f64) -> String {
    let micros = seconds * 1e6;
    if micros < 1000.0 {
        format!("{micros:.1} µs")
    } else {
        format!("{:.2} ms", micros / 1000.0)
    }
}

fn reading(table: &mut Table) {
    for (name, text) in inputs::reading_texts() {
        assert_eq!(text.len(), 65_536);
        assert!(read(&text).is_ok());
        if let Some(reading) = ours::read(&text) {
            assert!(reading.is_ok(), "{reading:?}");
        }
        let mut out = [0; 16];
        table.line(
            "reading 65,536 bytes",
            name,
            || read(black_box(&text)).is_ok(),
            || ours::read_raw(black_box(&text), &mut out),
        );
    }
}

fn projection(table: &mut Table) {
    let pattern: Vec<u8> = (0..8).collect();
    for (name, text) in inputs::projection_texts() {
        let wanted = projection_numbers(&read(&text).unwrap(), &pattern).unwrap();
        assert_eq!((wanted.table.len(), wanted.held.len()), (65_536, 256));
        let mut bytes = Vec::new();
        if let Some(given) = ours::projection(&text, &pattern, 256, &mut bytes) {
            assert!(given == Ok(wanted), "projections differ");
        }
        table.line(
            "projection, 65,536 ranks, 256 operators, with reading",
            name,
            || projection_numbers(&read(black_box(&text)).unwrap(), &pattern).unwrap().held[0],
            || ours::projection_raw(black_box(&text), &pattern, &mut bytes),
        );
    }
}

fn search(table: &mut Table) {
    for (name, text) in inputs::search_texts() {
        for capacity in [1023, 8191, 65_535] {
            let wanted = search_numbers(&read(&text).unwrap(), capacity, u64::MAX);
            assert!(wanted.is_ok_and(|numbers| numbers.nodes == capacity as u64), "{wanted:?}");
            if let Some(given) = ours::search(&text, capacity as u32, u64::MAX) {
                assert_eq!(given, wanted);
            }
            let expansions = wanted.unwrap().expansions;
            table.line(
                &format!("blind search to full, N = {capacity}, with reading"),
                &format!("{name}, {expansions} expansions"),
                || search_numbers(&read(black_box(&text)).unwrap(), capacity, u64::MAX),
                || ours::search(black_box(&text), capacity as u32, u64::MAX),
            );
        }
    }
}

fn solve(table: &mut Table) {
    for (name, text) in inputs::solve_texts() {
        let wanted = plan::plan(&text);
        let mut buffer = vec![0; plan::BUFFER];
        if let Some(given) = ours::plan(&text, &mut buffer, plan::CAPACITY as u32) {
            assert_eq!(given, wanted);
        }
        table.line(
            "whole solve",
            &format!("{name}: {}", wanted.label()),
            || plan_with(black_box(&text), plan::CAPACITY).label(),
            || ours::plan_raw(black_box(&text), &mut buffer, plan::CAPACITY as u32),
        );
    }
}
