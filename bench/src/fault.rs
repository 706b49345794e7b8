//! The fault table.

use std::fmt;

/// Why a call refuses. The discriminant is the cause's number in the fault table.
#[derive(Clone, Copy, Debug, PartialEq, Eq, Hash, PartialOrd, Ord)]
#[repr(u8)]
pub enum Cause {
    Long = 1,
    Cut = 2,
    Byte = 3,
    Word = 4,
    Number = 5,
    Range = 6,
    Twice = 7,
    After = 8,
    Room = 9,
    Order = 10,
    Row = 11,
    Pattern = 12,
    Table = 13,
    Other = 14,
    Short = 15,
    Item = 16,
}

impl Cause {
    pub const ALL: [Cause; 16] = [
        Cause::Long,
        Cause::Cut,
        Cause::Byte,
        Cause::Word,
        Cause::Number,
        Cause::Range,
        Cause::Twice,
        Cause::After,
        Cause::Room,
        Cause::Order,
        Cause::Row,
        Cause::Pattern,
        Cause::Table,
        Cause::Other,
        Cause::Short,
        Cause::Item,
    ];

    pub fn number(self) -> u8 {
        self as u8
    }

    pub fn from_number(number: u8) -> Option<Cause> {
        Cause::ALL.get(usize::from(number).checked_sub(1)?).copied()
    }

    pub fn name(self) -> &'static str {
        match self {
            Cause::Long => "LONG",
            Cause::Cut => "CUT",
            Cause::Byte => "BYTE",
            Cause::Word => "WORD",
            Cause::Number => "NUMBER",
            Cause::Range => "RANGE",
            Cause::Twice => "TWICE",
            Cause::After => "AFTER",
            Cause::Room => "ROOM",
            Cause::Order => "ORDER",
            Cause::Row => "ROW",
            Cause::Pattern => "PATTERN",
            Cause::Table => "TABLE",
            Cause::Other => "OTHER",
            Cause::Short => "SHORT",
            Cause::Item => "ITEM",
        }
    }
}

/// A fault of reading: its cause, its line counted from 1 (0 for LONG), and the operator whose lines
/// were being read.
#[derive(Clone, Copy, Debug, PartialEq, Eq)]
pub struct TextFault {
    pub cause: Cause,
    pub line: u32,
    pub operator: Option<u16>,
}

impl TextFault {
    /// Cause number in bits 0 to 7, line in bits 8 to 39, operator number plus one from bit 40 on.
    pub fn pack(self) -> u64 {
        let operator = self.operator.map_or(0, |i| u64::from(i) + 1);
        u64::from(self.cause.number()) | u64::from(self.line) << 8 | operator << 40
    }

    /// The fault that `pack` packed, or nothing if the number packs none.
    pub fn unpack(packed: u64) -> Option<TextFault> {
        let operator = packed >> 40;
        Some(TextFault {
            cause: Cause::from_number((packed & 0xff) as u8)?,
            line: (packed >> 8 & 0xffff_ffff) as u32,
            operator: match operator {
                0 => None,
                1..=0x1_0000 => Some((operator - 1) as u16),
                _ => return None,
            },
        })
    }
}

impl fmt::Display for TextFault {
    fn fmt(&self, f: &mut fmt::Formatter<'_>) -> fmt::Result {
        write!(f, "line {}: {}", self.line, self.cause.name())
    }
}

/// A fault of an estimator's set: its cause, the estimator's kind and its layer number.
#[derive(Clone, Copy, Debug, PartialEq, Eq)]
pub struct SetFault {
    pub cause: Cause,
    pub kind: u8,
    pub layer: u16,
}
