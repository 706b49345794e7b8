//! The boundary to our library.
//!
//! This is the only file that knows the library's functions. With feature `ours` they are called; without
//! it [`AVAILABLE`] is false and every function here answers nothing.
//!
//! Nothing compares these declarations with the library's source, so they are few, and pass only numbers and
//! byte slices (a pointer, then a length):
//!
//! | function | answer |
//! |---|---|
//! | `vf_read(text, out)` | 0 if accepted, else the fault packed as [`TextFault::pack`] does. If `out` has 16 bytes or more, an accepted text's numbers of variables, goal facts, operators and entries are written there, 4 bytes each, low byte first |
//! | `vf_plan(text, buffer, capacity)` | kind in bits 0 to 7: 0 plan text written, length in bits 8 on; 1 no plan; 2 full; 3 fault of reading, packed, in bits 8 on; 4 SHORT; 5 other fault of starting, its cause number in bits 8 to 15 |
//! | `vf_search(text, capacity, expansions, out)` | blind search with one advance of so many expansions. 0, or the packed fault of reading, or 9 if the capacity is 0. `out` has 64 bytes for eight numbers: outcome (0 more, 1 found, 2 none, 3 full), bound, expansions, nodes held, find's node, find's cost, and two spare ones |
//! | `vf_projection(text, pattern, table)` | kind 2 set on the task's prices. Cause number in bits 0 to 7 (0 if accepted), number of ranks in bits 8 on. `table` receives 4 bytes a rank and then, if there is room for all of them, 4 bytes an operator with its held price; low byte first |

use crate::fault::{Cause, TextFault};
use crate::plan::Answer;

/// Whether the library is linked.
pub const AVAILABLE: bool = cfg!(feature = "ours");

/// The numbers a search reports.
#[derive(Clone, Copy, Debug, PartialEq, Eq)]
pub struct SearchNumbers {
    /// 0 more, 1 found, 2 none, 3 full.
    pub outcome: u64,
    pub bound: u64,
    pub expansions: u64,
    pub nodes: u64,
    /// Node and cost if found, else 0.
    pub find: (u64, u64),
}

/// A projection's table and the price each operator holds.
#[derive(Clone, Debug, PartialEq, Eq)]
pub struct ProjectionNumbers {
    pub table: Vec<u32>,
    pub held: Vec<u32>,
}

/// Counts of variables, goal facts, operators and entries.
pub type Counts = [u32; 4];

#[cfg(feature = "ours")]
mod library {
    extern "C" {
        pub fn vf_read(text: *const u8, text_len: usize, out: *mut u8, out_len: usize) -> u64;
        pub fn vf_plan(
            text: *const u8,
            text_len: usize,
            buffer: *mut u8,
            buffer_len: usize,
            capacity: u32,
        ) -> u64;
        pub fn vf_search(
            text: *const u8,
            text_len: usize,
            capacity: u32,
            expansions: u64,
            out: *mut u8,
            out_len: usize,
        ) -> u64;
        pub fn vf_projection(
            text: *const u8,
            text_len: usize,
            pattern: *const u8,
            pattern_len: usize,
            table: *mut u8,
            table_len: usize,
        ) -> u64;
    }
}

#[cfg(not(feature = "ours"))]
mod library {
    //! Stands in for the library; the wrappers ask `AVAILABLE` first.
    pub unsafe fn vf_read(_: *const u8, _: usize, _: *mut u8, _: usize) -> u64 {
        unreachable!()
    }
    pub unsafe fn vf_plan(_: *const u8, _: usize, _: *mut u8, _: usize, _: u32) -> u64 {
        unreachable!()
    }
    pub unsafe fn vf_search(_: *const u8, _: usize, _: u32, _: u64, _: *mut u8, _: usize) -> u64 {
        unreachable!()
    }
    pub unsafe fn vf_projection(_: *const u8, _: usize, _: *const u8, _: usize, _: *mut u8, _: usize) -> u64 {
        unreachable!()
    }
}

/// What reading answers.
pub fn read(text: &[u8]) -> Option<Result<Counts, TextFault>> {
    let mut out = [0; 16];
    let packed = read_raw(text, &mut out)?;
    Some(match packed {
        0 => Ok(std::array::from_fn(|i| word(&out, i))),
        _ => Err(TextFault::unpack(packed).unwrap_or_else(|| odd("vf_read", packed))),
    })
}

/// The bare call.
pub fn read_raw(text: &[u8], out: &mut [u8; 16]) -> Option<u64> {
    if !AVAILABLE {
        return None;
    }
    // SAFETY: both slices are passed with their own lengths, and the library keeps neither.
    Some(unsafe { library::vf_read(text.as_ptr(), text.len(), out.as_mut_ptr(), out.len()) })
}

/// What the program would answer with this capacity and buffer. The plan text stands in the buffer.
pub fn plan(text: &[u8], buffer: &mut [u8], capacity: u32) -> Option<Answer> {
    let answer = plan_raw(text, buffer, capacity)?;
    let rest = answer >> 8;
    Some(match answer & 0xff {
        0 => match buffer.get(..rest as usize) {
            Some(text) => Answer::Plan(text.to_vec()),
            None => odd("vf_plan", answer),
        },
        1 => Answer::NoPlan,
        2 => Answer::Full,
        3 => Answer::Text(TextFault::unpack(rest).unwrap_or_else(|| odd("vf_plan", answer))),
        4 => Answer::Other(Cause::Short),
        5 => Answer::Other(Cause::from_number(rest as u8).unwrap_or_else(|| odd("vf_plan", answer))),
        _ => odd("vf_plan", answer),
    })
}

/// The bare call.
pub fn plan_raw(text: &[u8], buffer: &mut [u8], capacity: u32) -> Option<u64> {
    if !AVAILABLE {
        return None;
    }
    // SAFETY: both slices are passed with their own lengths, and the library keeps neither.
    Some(unsafe { library::vf_plan(text.as_ptr(), text.len(), buffer.as_mut_ptr(), buffer.len(), capacity) })
}

/// Blind search with one advance; the packed fault if refused.
pub fn search(text: &[u8], capacity: u32, expansions: u64) -> Option<Result<SearchNumbers, u64>> {
    if !AVAILABLE {
        return None;
    }
    let mut out = [0; 64];
    // SAFETY: both slices are passed with their own lengths, and the library keeps neither.
    let packed = unsafe {
        library::vf_search(text.as_ptr(), text.len(), capacity, expansions, out.as_mut_ptr(), out.len())
    };
    if packed != 0 {
        return Some(Err(packed));
    }
    let number = |i: usize| u64::from(word(&out, 2 * i)) | u64::from(word(&out, 2 * i + 1)) << 32;
    Some(Ok(SearchNumbers {
        outcome: number(0),
        bound: number(1),
        expansions: number(2),
        nodes: number(3),
        find: (number(4), number(5)),
    }))
}

/// A projection's numbers, or the cause number if refused. `bytes` is the memory handed; it is grown to hold
/// the greatest table and all held prices.
pub fn projection(
    text: &[u8],
    pattern: &[u8],
    operators: usize,
    bytes: &mut Vec<u8>,
) -> Option<Result<ProjectionNumbers, u8>> {
    let answer = projection_raw(text, pattern, bytes)?;
    let cause = (answer & 0xff) as u8;
    if cause != 0 {
        return Some(Err(cause));
    }
    let ranks = (answer >> 8) as usize;
    if 4 * (ranks + operators) > bytes.len() {
        odd::<()>("vf_projection", answer);
    }
    Some(Ok(ProjectionNumbers {
        table: (0..ranks).map(|rank| word(bytes, rank)).collect(),
        held: (0..operators).map(|i| word(bytes, ranks + i)).collect(),
    }))
}

/// The bare call.
pub fn projection_raw(text: &[u8], pattern: &[u8], bytes: &mut Vec<u8>) -> Option<u64> {
    if !AVAILABLE {
        return None;
    }
    bytes.resize(4 * (65_536 + 256), 0);
    // SAFETY: the slices are passed with their own lengths, and the library keeps none.
    Some(unsafe {
        library::vf_projection(
            text.as_ptr(),
            text.len(),
            pattern.as_ptr(),
            pattern.len(),
            bytes.as_mut_ptr(),
            bytes.len(),
        )
    })
}

/// The number of four bytes, low byte first, at place 4 * i.
fn word(bytes: &[u8], i: usize) -> u32 {
    u32::from_le_bytes(bytes[4 * i..4 * i + 4].try_into().expect("four bytes"))
}

fn odd<T>(function: &str, answer: u64) -> T {
    panic!("{function} answered {answer:#x}, which is no answer of its")
}
