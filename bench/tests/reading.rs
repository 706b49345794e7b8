//! Faults of reading, line by line.

mod common;

use bench::fault::{Cause, TextFault};
use bench::reader::{read, read_with, Records};
use common::SOFA;

/// The example with line `line` (from 1) replaced.
fn with_line(line: usize, replacement: &str) -> String {
    let mut lines: Vec<&str> = SOFA.split_inclusive('\n').collect();
    let ended = format!("{replacement}\n");
    lines[line - 1] = &ended;
    lines.concat()
}

fn fault(text: &str) -> (Cause, u32, Option<u16>) {
    let fault = read(text.as_bytes()).unwrap_err();
    (fault.cause, fault.line, fault.operator)
}

#[test]
fn every_cut_is_at_its_line() {
    for length in 0..SOFA.len() {
        let text = &SOFA[..length];
        let line = text.matches('\n').count() as u32 + 1;
        assert_eq!(fault(text), (Cause::Cut, line, operator_at(line)));
    }
}

/// The operator to which a line of the example belongs.
fn operator_at(line: u32) -> Option<u16> {
    let before: Vec<&str> = SOFA.lines().take(line as usize - 1).collect();
    let begun = before.iter().filter(|line| **line == "begin_operator").count();
    let ended = before.iter().filter(|line| **line == "end_operator").count();
    let begins = SOFA.lines().nth(line as usize - 1) == Some("begin_operator");
    (begins || begun > ended).then_some(ended as u16)
}

#[test]
fn order_of_tests() {
    let goal = SOFA.lines().position(|line| line == "0 2").unwrap() + 1;
    for (replacement, cause) in [
        ("0 3", Cause::Range),
        ("2 0", Cause::Range),
        ("-1 0", Cause::Range),
        ("0 -1", Cause::Range),
        ("0 1234567890", Cause::Range),
        ("0 0123456789", Cause::Number),
        ("0 0000000000", Cause::Number),
        ("9 x", Cause::Number),
        ("0", Cause::Number),
        ("0 2 ", Cause::Number),
        (" 0 2", Cause::Number),
        ("0  2", Cause::Number),
        ("0 2 0", Cause::Number),
        ("0 02", Cause::Number),
        ("0 +2", Cause::Number),
        ("0 -0", Cause::Number),
        ("0 -2", Cause::Number),
        ("", Cause::Number),
        ("0 2\r", Cause::Byte),
        ("x\u{7f}", Cause::Byte),
    ] {
        let text = with_line(goal, replacement);
        assert_eq!(fault(&text), (cause, goal as u32, None), "{replacement:?}");
    }
}

#[test]
fn fixed_numbers_are_words() {
    for (line, replacement) in [(2, "4"), (5, "0"), (10, "0"), (10, "-01"), (23, "1"), (23, ""), (62, "1")] {
        let text = with_line(line, replacement);
        assert_eq!(fault(&text), (Cause::Word, line as u32, None), "{line}");
    }
}

#[test]
fn counts_in_range() {
    for (line, replacement) in
        [(7, "0"), (7, "33"), (11, "0"), (11, "256"), (25, "3"), (29, "3"), (32, "257")]
    {
        let text = with_line(line, replacement);
        assert_eq!(fault(&text), (Cause::Range, line as u32, None), "{line}");
    }
}

#[test]
fn after_and_long() {
    let last = SOFA.lines().count() as u32;
    assert_eq!(fault(&format!("{SOFA}\n")), (Cause::After, last + 1, None));
    assert_eq!(fault(&format!("{SOFA}\0")), (Cause::After, last + 1, None));
    assert_eq!(fault(&"\0".repeat(65_537)), (Cause::Long, 0, None));
    assert_eq!(fault(&"\0".repeat(65_536)), (Cause::Cut, 1, None));
    assert_eq!(fault(""), (Cause::Cut, 1, None));
}

#[test]
fn rooms() {
    let line_of = |word: &str, nth: usize| {
        SOFA.lines().enumerate().filter(|(_, line)| *line == word).nth(nth).unwrap().0 as u32 + 1
    };
    let refused = |records| read_with(SOFA.as_bytes(), records).unwrap_err();
    let all = Records { variables: 2, operators: 4, entries: 6 };
    assert!(read_with(SOFA.as_bytes(), all).is_ok());

    let fault = refused(Records { variables: 1, ..all });
    assert_eq!((fault.cause, fault.line), (Cause::Room, line_of("begin_variable", 1)));
    let fault = refused(Records { operators: 3, ..all });
    assert_eq!(
        (fault.cause, fault.line, fault.operator),
        (Cause::Room, line_of("begin_operator", 3), Some(3))
    );
    let fault = refused(Records { entries: 0, ..all });
    assert_eq!((fault.cause, fault.line, fault.operator), (Cause::Room, line_of("0 2", 0), None));
    let fault = refused(Records { entries: 5, ..all });
    assert_eq!((fault.cause, fault.line, fault.operator), (Cause::Room, line_of("0 0 0 2", 0), Some(3)));
}

#[test]
fn faults_pack() {
    for operator in [None, Some(0), Some(255)] {
        for cause in Cause::ALL {
            let fault = TextFault { cause, line: 65_537, operator };
            assert_eq!(TextFault::unpack(fault.pack()), Some(fault));
        }
    }
    assert_eq!(TextFault::unpack(0), None);
}
