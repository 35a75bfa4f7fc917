//! The refusals of the core, by name and by number.

use std::fmt;

/// Why the core says no.
#[derive(Clone, Copy, Debug, PartialEq, Eq)]
pub enum Refusal {
    /// 1: a lent piece has the wrong length, or a grade other than 0 is to be packed to 8 bytes.
    Length,
    /// 2: count 0 or over 64, or an unused row place not zero.
    Count,
    /// 3: a row's field out of range.
    Field {
        /// The row, counted from 1.
        row: u32,
        /// 1 thickness, 2 kind, 3 index, 4 saturation, 5 zero bits.
        field: u32,
    },
    /// 4: log over 60,000 mm.
    TooDeep,
    /// 5: section kind, a, b or the zero bits wrong.
    Section {
        /// 1 section kind, 2 a, 3 b, 4 zero bits.
        field: u32,
    },
    /// 6: no such method.
    Method,
    /// 7: head not above tip, tip under 3,000 or over 40,000 mm, head above the cut level, or tip's depth as read over 40,000 mm.
    Depths,
    /// 8: log ends less than 5,000 mm below the tip.
    LogShort,
    /// 9: a sand tip without its record or in a rectangle.
    SandTip,
    /// 10: seat too short.
    SeatShort,
    /// 11: tip liquidity index over 0.60.
    TooSoft,
    /// 12: a dash of the tip table would be read.
    Dash,
    /// 13: the edit is none of the four kinds, names no such row or split point, or removes the only row.
    NoSuchEdit,
    /// 14: insert or split with 64 rows.
    Full,
    /// 17: the record of a sand tip out of range, or the tip less than 4 diameters below natural ground or the cut.
    SandRecord,
    /// A number that this wrapper does not know.
    Other(u32),
}

impl Refusal {
    pub(crate) fn of(number: u32, row: u32, field: u32) -> Option<Refusal> {
        Some(match number {
            0 => return None,
            1 => Refusal::Length,
            2 => Refusal::Count,
            3 => Refusal::Field { row, field },
            4 => Refusal::TooDeep,
            5 => Refusal::Section { field },
            6 => Refusal::Method,
            7 => Refusal::Depths,
            8 => Refusal::LogShort,
            9 => Refusal::SandTip,
            10 => Refusal::SeatShort,
            11 => Refusal::TooSoft,
            12 => Refusal::Dash,
            13 => Refusal::NoSuchEdit,
            14 => Refusal::Full,
            17 => Refusal::SandRecord,
            number => Refusal::Other(number),
        })
    }

    /// The refusal's number in the norm paper's list.
    pub fn number(self) -> u32 {
        match self {
            Refusal::Length => 1,
            Refusal::Count => 2,
            Refusal::Field { .. } => 3,
            Refusal::TooDeep => 4,
            Refusal::Section { .. } => 5,
            Refusal::Method => 6,
            Refusal::Depths => 7,
            Refusal::LogShort => 8,
            Refusal::SandTip => 9,
            Refusal::SeatShort => 10,
            Refusal::TooSoft => 11,
            Refusal::Dash => 12,
            Refusal::NoSuchEdit => 13,
            Refusal::Full => 14,
            Refusal::SandRecord => 17,
            Refusal::Other(number) => number,
        }
    }
}

impl fmt::Display for Refusal {
    fn fmt(&self, f: &mut fmt::Formatter<'_>) -> fmt::Result {
        match self {
            Refusal::Length => write!(
                f,
                "a lent piece has the wrong length, or no room for the grade"
            ),
            Refusal::Count => write!(
                f,
                "no row, more than 64 rows, or an unused row place that is not zero"
            ),
            Refusal::Field { row, field } => write!(f, "row {row}, field {field} is out of range"),
            Refusal::TooDeep => write!(f, "the log is deeper than 60,000 mm"),
            Refusal::Section { field: 1 } => write!(f, "no such section"),
            Refusal::Section { field: 2 } => {
                write!(f, "the diameter or first side is out of range")
            }
            Refusal::Section { field: 3 } => write!(f, "the second side is out of range"),
            Refusal::Section { .. } => write!(f, "the pile record's zero bits are not zero"),
            Refusal::Method => write!(f, "no such method"),
            Refusal::Depths => write!(
                f,
                "the head is not above the tip, or is above the cut level; \
                 or the tip is under 3,000 or over 40,000 mm, or is read as over 40,000 mm"
            ),
            Refusal::LogShort => write!(f, "the log ends less than 5,000 mm below the tip"),
            Refusal::SandTip => write!(f, "a sand tip without its record or in a rectangle"),
            Refusal::SeatShort => write!(f, "the seat in the tip stratum is too short"),
            Refusal::TooSoft => write!(f, "the tip's liquidity index is over 0.60"),
            Refusal::Dash => write!(f, "the tip table has no value there"),
            Refusal::NoSuchEdit => write!(f, "no such edit, row or split point"),
            Refusal::Full => write!(f, "the log has no place for another row"),
            Refusal::SandRecord => write!(
                f,
                "the sand's angle or a unit weight is out of range, or the tip is less than 4 diameters deep"
            ),
            Refusal::Other(number) => write!(f, "refusal {number}"),
        }
    }
}

impl std::error::Error for Refusal {}
