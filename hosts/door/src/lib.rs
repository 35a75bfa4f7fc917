//! The door of libpsamathyr.a, as include/psamathyr.h declares it: what crosses, and a safe call of each function over slices.

#![deny(missing_docs)]

mod calls;
mod layout;

pub use calls::{
    calculate, edit, edit_without_row, pack_log, pack_pile, read_log, read_pile, read_slice,
};

/// Bytes of a log.
pub const LOG_BYTES: usize = 321;
/// Bytes of a pile record without a grade.
pub const PILE_BYTES: usize = 8;
/// Bytes of a pile record with a grade.
pub const GRADED_PILE_BYTES: usize = 10;
/// Bytes of a slice table.
pub const TABLE_BYTES: usize = 581;
/// Bytes of a packed row.
pub const ROW_BYTES: usize = 5;
/// Rows that a log has places for.
pub const ROWS: usize = 64;
/// Places of a slice table.
pub const PLACES: u32 = 83;

/// The reply to a calculation, an edit or a packing: `psamathyr_answer`.
#[repr(C)]
#[derive(Clone, Copy, Debug, Default, PartialEq, Eq)]
pub struct Answer {
    /// The refusal's number, or 0.
    pub refusal: u32,
    /// The row that is refused, from 1, or 0.
    pub row: u32,
    /// The field that is refused, from 1, or 0.
    pub field: u32,
    /// Leading slices kept by an edit, else 0.
    pub kept: u32,
    /// N per metre of perimeter.
    pub line: u64,
    /// N.
    pub tip: u64,
    /// N.
    pub shaft: u64,
    /// N.
    pub capacity: u64,
    /// N.
    pub uplift: u64,
}

/// The fields of a row: `psamathyr_row`.
#[repr(C)]
#[derive(Clone, Copy, Debug, Default, PartialEq, Eq)]
pub struct Row {
    /// Millimetres.
    pub thickness: u16,
    /// 1 to 6.
    pub kind: u8,
    /// As stored: hundredths plus 100.
    pub index: u8,
    /// Hundredths.
    pub saturation: u8,
    /// 0.
    pub zero: u8,
}

/// The fields of a log: `psamathyr_log`.
#[repr(C)]
#[derive(Clone, Copy, Debug, PartialEq, Eq)]
pub struct Log {
    /// The refusal's number, or 0.
    pub refusal: u32,
    /// The row that is refused, from 1, or 0.
    pub row: u32,
    /// The field that is refused, from 1, or 0.
    pub field: u32,
    /// Rows in use.
    pub count: u8,
    /// All places, the top row first.
    pub rows: [Row; ROWS],
}

impl Default for Log {
    fn default() -> Log {
        Log {
            refusal: 0,
            row: 0,
            field: 0,
            count: 0,
            rows: [Row::default(); ROWS],
        }
    }
}

/// The fields of a pile record: `psamathyr_pile`.
#[repr(C)]
#[derive(Clone, Copy, Debug, Default, PartialEq, Eq)]
pub struct Pile {
    /// The refusal's number, or 0.
    pub refusal: u32,
    /// 0.
    pub row: u32,
    /// The field that is refused, from 1, or 0.
    pub field: u32,
    /// Bytes of the record that was read, 8 or 10, or 0.
    pub length: u8,
    /// 1 circle, 2 rectangle.
    pub section: u8,
    /// Diameter or first side, millimetres.
    pub a: u16,
    /// 0 or second side, millimetres.
    pub b: u16,
    /// 1 to 3.
    pub method: u8,
    /// Depth of the head, millimetres.
    pub head: u16,
    /// Depth of the tip, millimetres.
    pub tip: u16,
    /// 0.
    pub zero: u8,
    /// Millimetres that the site is graded by: a cut negative, a fill positive; 0 where the record has 8 bytes.
    pub grade: i16,
}

/// The extra record of a sand tip: `psamathyr_sand`. The default is none.
#[repr(C)]
#[derive(Clone, Copy, Debug, Default, PartialEq, Eq)]
pub struct Sand {
    /// 0: none, and the rest is not looked at; any other number: given.
    pub given: u32,
    /// Friction angle below the tip, hundredths of a degree.
    pub angle: u32,
    /// Unit weight of the soil below the tip, N/m³.
    pub weight_below: u32,
    /// Mean unit weight of the soils above the tip, N/m³.
    pub weight_above: u32,
}

/// The fields of a slice: `psamathyr_slice`.
#[repr(C)]
#[derive(Clone, Copy, Debug, Default, PartialEq, Eq)]
pub struct Slice {
    /// The refusal's number, or 0.
    pub refusal: u32,
    /// Depth of its top, millimetres.
    pub top: u16,
    /// Millimetres.
    pub thickness: u16,
    /// 1/200 Pa.
    pub friction: u32,
    /// Tenths.
    pub factor: u8,
}
