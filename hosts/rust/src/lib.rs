//! A safe wrapper over the proved core of Psamathyr: bored piles from a borehole log.
//!
//! ```
//! use psamathyr::{calculate, Kind, Log, Method, Pile, Row, Section, Table};
//!
//! // 20,000 mm of clay, liquidity index 0.30, saturation 0.95
//! let log = Log::of(&[Row { thickness_mm: 20_000, kind: Kind::Clay, index_hundredths: 30, saturation_hundredths: 95 }]).unwrap();
//! let pile = Pile { section: Section::Circle { diameter_mm: 600 }, method: Method::Dry, head_mm: 1_000, tip_mm: 10_000 }.pack().unwrap();
//! let mut table = Table::new();
//! let numbers = calculate(&log, &pile, None, &mut table).unwrap();
//! assert_eq!(numbers.capacity_n, 668_403);
//! assert_eq!(table.slices().len(), 5);
//! assert_eq!(table.slices()[0].friction_200ths_pa, 6_000_000);
//! ```
//!
//! Depths count from natural ground, also where a site is graded. A pile on a graded site has its grade in its record:
//!
//! ```
//! # use psamathyr::{calculate, Kind, Log, Method, Pile, Row, Section, Table};
//! # let log = Log::of(&[Row { thickness_mm: 20_000, kind: Kind::Clay, index_hundredths: 30, saturation_hundredths: 95 }]).unwrap();
//! let pile = Pile { section: Section::Circle { diameter_mm: 600 }, method: Method::Dry, head_mm: 1_000, tip_mm: 10_000 };
//! let filled = pile.graded(5_000).pack().unwrap();
//! let mut table = Table::new();
//! assert_eq!(calculate(&log, &filled, None, &mut table).unwrap().capacity_n, 749_268);
//! ```
//!
//! A tip in sand comes with the sand's record:
//!
//! ```
//! # use psamathyr::{calculate, Kind, Log, Method, Pile, Refusal, Row, SandRecord, Section, Table};
//! # let pile = Pile { section: Section::Circle { diameter_mm: 600 }, method: Method::Dry, head_mm: 1_000, tip_mm: 10_000 }.pack().unwrap();
//! # let mut table = Table::new();
//! let log = Log::of(&[Row { thickness_mm: 20_000, kind: Kind::FineSand, index_hundredths: 0, saturation_hundredths: 95 }]).unwrap();
//! // 30 degrees, 10,000 N/m³ below the tip and 18,000 above it
//! let sand = SandRecord { angle_hundredths: 3_000, weight_below_n_per_m3: 10_000, weight_above_n_per_m3: 18_000 };
//! assert_eq!(calculate(&log, &pile, None, &mut table), Err(Refusal::SandTip));
//! assert_eq!(calculate(&log, &pile, Some(sand), &mut table).unwrap().capacity_n, 687_029);
//! ```
#![deny(missing_docs)]
#![forbid(unsafe_code)]

mod pile;
mod refusal;
mod sand;

pub use pile::{Method, Pile, PileRecord, Section, SitePile};
use psamathyr_door as door;
pub use psamathyr_door::{
    GRADED_PILE_BYTES, LOG_BYTES, PILE_BYTES, PLACES, ROWS, ROW_BYTES, TABLE_BYTES,
};
pub use refusal::Refusal;
pub use sand::SandRecord;

/// What stands in a row.
#[derive(Clone, Copy, Debug, PartialEq, Eq)]
#[allow(missing_docs)]
pub enum Kind {
    CoarseOrMediumSand = 1,
    FineSand = 2,
    SiltySand = 3,
    SandyLoam = 4,
    Loam = 5,
    Clay = 6,
}

impl Kind {
    fn of(number: u8) -> Option<Kind> {
        Some(match number {
            1 => Kind::CoarseOrMediumSand,
            2 => Kind::FineSand,
            3 => Kind::SiltySand,
            4 => Kind::SandyLoam,
            5 => Kind::Loam,
            6 => Kind::Clay,
            _ => return None,
        })
    }
}

/// A row of a log.
#[derive(Clone, Copy, Debug, PartialEq, Eq)]
pub struct Row {
    /// 1 to 60,000 mm.
    pub thickness_mm: u16,
    /// What stands there.
    pub kind: Kind,
    /// Liquidity index in hundredths, -100 to 100; sands have 0.
    pub index_hundredths: i16,
    /// Degree of saturation in hundredths, 0 to 100.
    pub saturation_hundredths: u8,
}

impl Row {
    fn fields(self) -> door::Row {
        // an index that fits no stored number becomes 255, which the core refuses as field 3
        let stored = i32::from(self.index_hundredths) + 100;
        let index = u8::try_from(stored).unwrap_or(255);
        door::Row {
            thickness: self.thickness_mm,
            kind: self.kind as u8,
            index,
            saturation: self.saturation_hundredths,
            zero: 0,
        }
    }

    fn of(fields: door::Row) -> Option<Row> {
        Some(Row {
            thickness_mm: fields.thickness,
            kind: Kind::of(fields.kind)?,
            index_hundredths: i16::from(fields.index) - 100,
            saturation_hundredths: fields.saturation,
        })
    }

    /// The row's five packed bytes, as an edit brings them.
    ///
    /// ```
    /// use psamathyr::{Kind, Row};
    /// let row = Row { thickness_mm: 20_000, kind: Kind::Clay, index_hundredths: 30, saturation_hundredths: 95 };
    /// assert_eq!(row.pack().unwrap(), [0x4E, 0x20, 0xD0, 0x57, 0xC0]);
    /// ```
    pub fn pack(self) -> Result<[u8; ROW_BYTES], Refusal> {
        let log = Log::of(&[self])?;
        let mut bytes = [0; ROW_BYTES];
        bytes.copy_from_slice(&log.bytes[1..1 + ROW_BYTES]);
        Ok(bytes)
    }
}

/// A packed log of 321 bytes. Any bytes may stand in it; each call judges them.
#[derive(Clone, Copy, Debug, PartialEq, Eq)]
pub struct Log {
    /// The packed bytes.
    pub bytes: [u8; LOG_BYTES],
}

impl Log {
    /// A log of these rows, top row first.
    pub fn of(rows: &[Row]) -> Result<Log, Refusal> {
        if rows.len() > ROWS {
            return Err(Refusal::Count);
        }
        let mut fields = door::Log {
            count: rows.len() as u8,
            ..door::Log::default()
        };
        for (place, row) in fields.rows.iter_mut().zip(rows) {
            *place = row.fields();
        }
        let mut bytes = [0; LOG_BYTES];
        let answer = door::pack_log(fields, &mut bytes);
        match Refusal::of(answer.refusal, answer.row, answer.field) {
            Some(refusal) => Err(refusal),
            None => Ok(Log { bytes }),
        }
    }

    /// The rows, top row first.
    ///
    /// ```
    /// use psamathyr::{Log, Refusal};
    /// assert_eq!(Log { bytes: [0; 321] }.rows(), Err(Refusal::Count));
    /// ```
    pub fn rows(&self) -> Result<Vec<Row>, Refusal> {
        let fields = door::read_log(&self.bytes);
        match Refusal::of(fields.refusal, fields.row, fields.field) {
            Some(refusal) => Err(refusal),
            None => Ok(fields.rows[..usize::from(fields.count)]
                .iter()
                .filter_map(|row| Row::of(*row))
                .collect()),
        }
    }
}

/// A slice of the shaft.
#[derive(Clone, Copy, Debug, PartialEq, Eq)]
pub struct Slice {
    /// Depth of its top.
    pub top_mm: u16,
    /// Its thickness.
    pub thickness_mm: u16,
    /// Friction in 1/200 Pa.
    pub friction_200ths_pa: u32,
    /// Method factor in tenths.
    pub factor_tenths: u8,
}

/// A slice table of 581 bytes.
#[derive(Clone, Copy, Debug, PartialEq, Eq)]
pub struct Table {
    /// The packed bytes.
    pub bytes: [u8; TABLE_BYTES],
}

impl Default for Table {
    fn default() -> Table {
        Table::new()
    }
}

impl Table {
    /// An empty table.
    pub fn new() -> Table {
        Table {
            bytes: [0; TABLE_BYTES],
        }
    }

    /// The used slices, from the head down.
    pub fn slices(&self) -> Vec<Slice> {
        (0..PLACES)
            .map(|place| door::read_slice(&self.bytes, place))
            .take_while(|slice| slice.thickness != 0)
            .map(|slice| Slice {
                top_mm: slice.top,
                thickness_mm: slice.thickness,
                friction_200ths_pa: slice.friction,
                factor_tenths: slice.factor,
            })
            .collect()
    }
}

/// The five numbers of a pile.
#[derive(Clone, Copy, Debug, PartialEq, Eq)]
pub struct Numbers {
    /// Shaft friction, N per metre of perimeter.
    pub line_n_per_m: u64,
    /// Tip, N.
    pub tip_n: u64,
    /// Shaft, N.
    pub shaft_n: u64,
    /// Capacity, N.
    pub capacity_n: u64,
    /// Uplift, N.
    pub uplift_n: u64,
}

impl Numbers {
    fn of(answer: &door::Answer) -> Result<Numbers, Refusal> {
        match Refusal::of(answer.refusal, answer.row, answer.field) {
            Some(refusal) => Err(refusal),
            None => Ok(Numbers {
                line_n_per_m: answer.line,
                tip_n: answer.tip,
                shaft_n: answer.shaft,
                capacity_n: answer.capacity,
                uplift_n: answer.uplift,
            }),
        }
    }
}

/// Works out a pile and fills the table. Under refusals 5 to 12 and 17 the table becomes all zero, under 1 to 4 it is left.
pub fn calculate(
    log: &Log,
    pile: &PileRecord,
    sand: Option<SandRecord>,
    table: &mut Table,
) -> Result<Numbers, Refusal> {
    Numbers::of(&door::calculate(
        &log.bytes,
        pile.bytes(),
        sand::fields(sand),
        &mut table.bytes,
    ))
}

/// A change of a log; rows count from 1.
#[derive(Clone, Copy, Debug, PartialEq, Eq)]
pub enum Edit {
    /// The row becomes another.
    Replace {
        /// Which row.
        k: u32,
        /// The new row's packed bytes.
        row: [u8; ROW_BYTES],
    },
    /// A row comes in before row k; k may be one more than the count.
    Insert {
        /// Before which row.
        k: u32,
        /// The new row's packed bytes.
        row: [u8; ROW_BYTES],
    },
    /// The row goes.
    Remove {
        /// Which row.
        k: u32,
    },
    /// The row becomes two of the same soil.
    Split {
        /// Which row.
        k: u32,
        /// Thickness of the upper part.
        x_mm: u32,
    },
}

/// What an accepted edit holds: the answer of the log as it now stands, and how many leading slices were kept.
#[derive(Clone, Copy, Debug, PartialEq, Eq)]
pub struct Edited {
    /// The held answer.
    pub answer: Result<Numbers, Refusal>,
    /// Leading slices whose bytes already stood in the table.
    pub kept: u32,
}

/// Changes the log and works the pile out again. `Err` is a refused edit: nothing has changed. `Ok` holds the answer, which may itself be a
/// refusal of the pile (5 to 12 and 17).
///
/// ```
/// use psamathyr::*;
/// let clay = Row { thickness_mm: 20_000, kind: Kind::Clay, index_hundredths: 30, saturation_hundredths: 95 };
/// let mut log = Log::of(&[clay]).unwrap();
/// let pile = Pile { section: Section::Circle { diameter_mm: 600 }, method: Method::Dry, head_mm: 1_000, tip_mm: 10_000 }.pack().unwrap();
/// let mut table = Table::new();
/// let before = calculate(&log, &pile, None, &mut table);
/// let split = edit(&mut log, &pile, None, &mut table, Edit::Split { k: 1, x_mm: 7_777 }).unwrap();
/// assert_eq!(split.answer, before);
/// assert_eq!(split.kept, 5);
/// assert_eq!(edit(&mut log, &pile, None, &mut table, Edit::Remove { k: 3 }), Err(Refusal::NoSuchEdit));
/// ```
pub fn edit(
    log: &mut Log,
    pile: &PileRecord,
    sand: Option<SandRecord>,
    table: &mut Table,
    change: Edit,
) -> Result<Edited, Refusal> {
    let (kind, k, x, row) = match change {
        Edit::Replace { k, row } => (1, k, 0, Some(row)),
        Edit::Insert { k, row } => (2, k, 0, Some(row)),
        Edit::Remove { k } => (3, k, 0, None),
        Edit::Split { k, x_mm } => (4, k, x_mm, None),
    };
    let row: &[u8] = row.as_ref().map_or(&[], |bytes| bytes);
    let answer = door::edit(
        &mut log.bytes,
        pile.bytes(),
        sand::fields(sand),
        &mut table.bytes,
        kind,
        k,
        x,
        row,
    );
    match answer.refusal {
        1..=4 | 13 | 14 => Err(Refusal::of(answer.refusal, answer.row, answer.field)
            .unwrap_or(Refusal::Other(answer.refusal))),
        _ => Ok(Edited {
            answer: Numbers::of(&answer),
            kept: answer.kept,
        }),
    }
}
