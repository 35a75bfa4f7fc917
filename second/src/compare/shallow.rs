//! Sites with slices in the first metre; and how often each sort of them came.

#![forbid(unsafe_code)]

use super::dice::Dice;
use super::grades::{below_cut, deeper, shallow_grade};
use super::lending::Lending;
use super::makers::{next_soil, Site};
use super::meter::Meter;
use super::sands::soil_below;
use super::sorts;
use second::{read_slice, Answer, Pile, Row, Slice, ROWS, SLICES};

/// Thin strata at the ground and the head there or a little deeper, or a slice that is read at about 1 m; and a grade with which they are
/// mostly read in the first metre.
pub fn shallow(dice: &mut Dice, site: &mut Site) {
    shallow_grade(dice, &mut site.pile);
    if !dice.once_in(4) || !at_one_metre(dice, site) {
        thin_strata(dice, &mut site.rows);
        site.pile.head = head(dice, &site.rows);
    }
    below_cut(dice, &mut site.pile);
}

/// A first slice whose middle is read at 1 m, or half a millimetre above or below. False if the site can have none.
fn at_one_metre(dice: &mut Dice, site: &mut Site) -> bool {
    // In half millimetres: an even middle is that of an even thickness.
    let middle = 1_999 + dice.below(3) as i32 - 2 * deeper(&site.pile);
    if middle < 1 || site.rows.len() == ROWS {
        return false;
    }
    let middle = middle as u32;
    let odd = middle % 2;
    let thickness = 2 - odd + 2 * dice.below((middle + odd) / 2);
    let thickness = thickness.min(2_000 - odd);
    let bottom = ((middle + thickness) / 2) as u16;
    if site.rows[0].thickness <= bottom {
        return false;
    }
    site.rows[0].thickness -= bottom;
    let upper = Row {
        thickness: bottom,
        ..next_soil(dice, None)
    };
    site.rows.insert(0, upper);
    site.pile.head = bottom - thickness as u16;
    true
}

/// Up to eight rows on top, as far as there are places, and as much less of the row that was the first.
fn thin_strata(dice: &mut Dice, rows: &mut Vec<Row>) {
    let mut left = u32::from(rows[0].thickness);
    let mut upper: Vec<Row> = Vec::new();
    for _ in 0..dice.between(0, 8).min((ROWS - rows.len()) as u32) {
        let thickness = match dice.below(8) {
            0..=4 => dice.between(1, 5),
            5 => dice.one_of(&[998, 999, 1_000, 1_001, 1_998, 1_999, 2_000]),
            _ => dice.between(1, 400),
        };
        if thickness >= left {
            break;
        }
        left -= thickness;
        let soil = next_soil(dice, upper.last().copied());
        upper.push(Row {
            thickness: thickness as u16,
            ..soil
        });
    }
    rows[0].thickness = left as u16;
    rows.splice(0..0, upper);
}

/// Mostly the ground, else a depth down to about 1 m.
fn head(dice: &mut Dice, rows: &[Row]) -> u16 {
    match dice.below(8) {
        0..=3 => 0,
        4 => rows[0].thickness.min(1_000),
        5 => dice.one_of(&[1, 2, 998, 999, 1_000, 1_001]),
        _ => dice.between(0, 1_000) as u16,
    }
}

/// Rows that begin in the first metre.
pub fn shallow_rows(rows: &[Row]) -> usize {
    let mut top = 0;
    rows.iter()
        .take_while(|row| {
            let begins = top < 1_000;
            top += u32::from(row.thickness);
            begins
        })
        .count()
}

/// What came of accepted piles: of their slices that are read above 1 m, and around it. The last sort comes of edits alone.
const SORTS: [&str; 17] = [
    "read above 1 m",
    "of at most 5 mm",
    "of 1 mm at the ground",
    "of over 1,000 mm",
    "in sand",
    "in clay",
    "read half a millimetre above 1 m",
    "read at 1 m",
    "read half a millimetre below 1 m",
    "below a cut",
    "below fill to 3,000",
    "below more fill",
    "read at 1 m or below for fill",
    "head 0",
    "several",
    "sand tip",
    "kept",
];
const OF_SLICES: usize = 13;

/// How many of the sorts must come, of edits or of calculations.
fn due(edits: bool) -> usize {
    SORTS.len() - usize::from(!edits)
}

/// How often each sort came.
#[derive(Default)]
pub struct Shallow([u64; SORTS.len()]);

impl Shallow {
    /// Counts what was lent, an edit's log as the edit left it, with the table that was filled.
    pub fn add(&mut self, lent: &Lending, table: &[u8], answer: &Answer) {
        if answer.refusal != 0 {
            return;
        }
        let pile = second::read_pile(&lent.pile);
        let mut came = [false; SORTS.len()];
        let mut above = 0;
        for slice in upper_slices(table) {
            let kind = soil_below(&lent.log, slice.top).map_or(0, |(kind, _)| kind);
            let sorts = sorts_of(&slice, kind, &pile);
            for (came, sort) in came.iter_mut().zip(sorts) {
                *came |= sort;
            }
            above += u32::from(sorts[0]);
        }
        let sandy = matches!(soil_below(&lent.log, pile.tip), Some((1..=3, _)));
        came[OF_SLICES] = pile.head == 0;
        came[OF_SLICES + 1] = above > 1;
        came[OF_SLICES + 2] = above > 0 && sandy;
        came[OF_SLICES + 3] = above > 0 && answer.kept > 0;
        for (times, came) in self.0.iter_mut().zip(came) {
            *times += u64::from(came);
        }
    }

    /// Counts a failure for a sort that never came.
    pub fn all(&self, meter: &mut Meter, edits: bool) {
        let due = due(edits);
        sorts::all(meter, "first metre", &SORTS[..due], &self.0[..due]);
    }

    pub fn text(&self, edits: bool) -> String {
        let due = due(edits);
        sorts::text("first metre", &SORTS[..due], &self.0[..due])
    }
}

/// The slices that begin in the first metre.
fn upper_slices(table: &[u8]) -> impl Iterator<Item = Slice> + '_ {
    (0..SLICES as u32)
        .map(|place| read_slice(table, place))
        .take_while(|slice| slice.thickness > 0 && slice.top <= 1_000)
}

/// Of which sorts a slice is.
fn sorts_of(slice: &Slice, kind: u8, pile: &Pile) -> [bool; OF_SLICES] {
    // In half millimetres.
    let natural = 2 * i32::from(slice.top) + i32::from(slice.thickness);
    let read = natural + 2 * deeper(pile);
    let above = read < 2_000;
    [
        above,
        above && slice.thickness <= 5,
        above && (slice.top, slice.thickness) == (0, 1),
        above && slice.thickness > 1_000,
        above && kind <= 3,
        above && kind > 3,
        read == 1_999,
        read == 2_000,
        read == 2_001,
        above && pile.grade < 0,
        above && matches!(pile.grade, 1..=3_000),
        above && pile.grade > 3_000,
        natural < 2_000 && !above,
    ]
}
