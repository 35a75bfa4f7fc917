//! A second calculator of bored piles, written straight from the rules: exact
//! fractions, the ground laid out millimetre by millimetre, the printed tables
//! as text. It is slow on purpose and shares nothing with the library it is
//! compared with.

#![forbid(unsafe_code)]

mod calculation;
pub mod cases;
mod edits;
mod fraction;
mod ground;
pub mod printed;
mod records;
pub mod sand;
mod tables;

#[cfg(feature = "door")]
pub mod door;
#[cfg(feature = "door")]
pub mod record;

#[cfg(test)]
mod tests;

pub use calculation::calculate;
pub use edits::edit;
pub use records::{
    pack_log, pack_pile, pile_bytes, read_log, read_pile, read_slice, row_bytes, row_fields,
    slice_bytes,
};
pub use sand::{Carried, Sand};

/// Length of a log in bytes.
pub const LOG: usize = 321;
/// Length of a pile record without a grade in bytes.
pub const PILE: usize = 8;
/// Length of a pile record with a grade in bytes.
pub const GRADED_PILE: usize = 10;
/// Length of a slice table in bytes.
pub const TABLE: usize = 581;
/// Length of one packed row in bytes.
pub const ROW: usize = 5;
/// Length of one packed slice in bytes.
pub const SLICE: usize = 7;
/// Row places of a log.
pub const ROWS: usize = 64;
/// Slice places of a table.
pub const SLICES: usize = 83;

/// The reply to a calculation, an edit or a packing.
#[derive(Clone, Copy, Debug, Default, PartialEq, Eq)]
pub struct Answer {
    pub refusal: u32,
    pub row: u32,
    pub field: u32,
    pub kept: u32,
    pub line: u64,
    pub tip: u64,
    pub shaft: u64,
    pub capacity: u64,
    pub uplift: u64,
}

/// The fields of one row; the index as stored, hundredths plus 100.
#[derive(Clone, Copy, Debug, Default, PartialEq, Eq)]
pub struct Row {
    pub thickness: u16,
    pub kind: u8,
    pub index: u8,
    pub saturation: u8,
    pub zero: u8,
}

/// The fields of a log, with the refusal of its reading.
#[derive(Clone, Debug, PartialEq, Eq)]
pub struct Log {
    pub refusal: u32,
    pub row: u32,
    pub field: u32,
    pub count: u8,
    pub rows: [Row; ROWS],
}

impl Default for Log {
    fn default() -> Log {
        Log {
            refusal: 0,
            row: 0,
            field: 0,
            count: 0,
            rows: [Row::default(); ROWS],
        }
    }
}

/// The fields of a pile record, with the refusal of its reading.
#[derive(Clone, Copy, Debug, Default, PartialEq, Eq)]
pub struct Pile {
    pub refusal: u32,
    pub row: u32,
    pub field: u32,
    /// Bytes of the record that was read, 8 or 10, or 0.
    pub length: u8,
    pub section: u8,
    pub a: u16,
    pub b: u16,
    pub method: u8,
    pub head: u16,
    pub tip: u16,
    pub zero: u8,
    /// Millimetres: a cut negative, a fill positive.
    pub grade: i16,
}

/// The fields of one slice, with the refusal of its reading.
#[derive(Clone, Copy, Debug, Default, PartialEq, Eq)]
pub struct Slice {
    pub refusal: u32,
    pub top: u16,
    pub thickness: u16,
    pub friction: u32,
    pub factor: u8,
}

/// Why something is refused: number, row and field.
#[derive(Clone, Copy, Debug, PartialEq, Eq)]
pub(crate) struct Refusal {
    pub number: u32,
    pub row: u32,
    pub field: u32,
}

impl Refusal {
    pub(crate) fn plain(number: u32) -> Refusal {
        Refusal {
            number,
            row: 0,
            field: 0,
        }
    }

    pub(crate) fn at(number: u32, row: usize, field: u32) -> Refusal {
        Refusal {
            number,
            row: row as u32,
            field,
        }
    }

    pub(crate) fn answer(self) -> Answer {
        Answer {
            refusal: self.number,
            row: self.row,
            field: self.field,
            ..Answer::default()
        }
    }
}
