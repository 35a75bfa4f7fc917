//! Slices at every middle of the first metre, thin and thick, in many soils, and on graded sites as they are read.

#![forbid(unsafe_code)]

use super::known::{graded, lend, row, square, stored};
use super::makers::Site;
use super::meter::Meter;
use second::printed::{self, words};
use second::{read_slice, Row};

/// Kind and stored index.
type Soil = (u8, u8);

/// Between the printed columns, and below the first.
const SOILS: [Soil; 11] = [
    (4, 0),
    (5, 100),
    (6, 119),
    (4, 121),
    (5, 133),
    (6, 147),
    (4, 158),
    (5, 165),
    (6, 176),
    (4, 189),
    (5, 199),
];

/// With some of them a middle of the first metre is read there, with some it is read below.
const FILLS: [u32; 13] = [
    1, 3_000, 3_001, 3_002, 3_250, 3_499, 3_500, 3_777, 3_998, 3_999, 4_000, 5_500, 20_000,
];

/// Every middle down to a millimetre below 1 m, or one in so many.
pub fn middles(meter: &mut Meter, one_in: usize) {
    meter.group("the first metre");
    let printed = printed_soils();
    for middle in (1..=2_002).step_by(one_in) {
        in_proportion(meter, middle, printed[middle as usize % printed.len()]);
        slices(meter, middle);
        below_other_soil(meter, middle);
        filled(meter, middle);
        cut(meter, middle);
    }
    meter.note(format!("{} soils", printed.len() + SOILS.len()));
}

/// Kind, stored index and kPa at 1 m: of each printed column, of each sand, and of an index below the first column.
fn printed_soils() -> Vec<(u8, u8, u32)> {
    let heads = words(printed::FRICTION_HEAD);
    let mut soils = Vec::new();
    for (column, word) in words(printed::FRICTION[0]).iter().enumerate().skip(1) {
        let kilopascals = word.parse().expect("a cell");
        soils.push((4 + (column % 3) as u8, stored(heads[column]), kilopascals));
        if column <= 3 {
            soils.push((column as u8, 100, kilopascals));
        }
        if column == 1 {
            soils.push((6, 50, kilopascals));
        }
    }
    soils
}

/// The soil between the columns whose turn it is at a middle.
fn soil(middle: u32, turn: u32) -> Soil {
    SOILS[(middle + turn) as usize % SOILS.len()]
}

/// Thicknesses of slices with a middle in half millimetres: the thinnest, one of about half the depth, the thickest.
fn thicknesses(middle: u32) -> [u32; 3] {
    let odd = middle % 2;
    [2 - odd, 2 - odd + 2 * (middle / 4), middle.min(2_000 - odd)]
}

/// Top and bottom of the thinnest slice with a middle.
fn thinnest(middle: u32) -> (u32, u32) {
    let [thickness, ..] = thicknesses(middle);
    let top = (middle - thickness) / 2;
    (top, top + thickness)
}

/// Rows with a tip in the clay below them, and a head; gives the friction of the first slice.
fn compare(meter: &mut Meter, mut rows: Vec<Row>, head: u32, grade: i32) -> u32 {
    let bottom: u32 = rows.iter().map(|row| u32::from(row.thickness)).sum();
    let tip = (bottom + 2_000).max(3_000);
    meter.case(format!(
        "head {head}, grade {grade}, above the clay {rows:?}"
    ));
    rows.push(row(tip + 5_000 - bottom, 6, 125));
    let mut pile = square(head, tip);
    if grade != 0 {
        pile = graded(pile, grade);
    }
    let (_, _, table) = meter.calculate(&lend(&Site::plain(rows, pile)));
    read_slice(&table, 0).friction
}

/// A thin slice in a printed soil: down to 1 m it has so much of the cell as its middle has of 1 m.
fn in_proportion(meter: &mut Meter, middle: u32, (kind, index, kilopascals): (u8, u8, u32)) {
    let (top, bottom) = thinnest(middle);
    let friction = compare(meter, vec![row(bottom, kind, index)], top, 0);
    if middle <= 2_000 {
        let due = 100 * kilopascals * middle;
        meter.count(friction == due, || {
            format!("  not {due}, of the printed {kilopascals} kPa: {friction}")
        });
    }
}

/// Slices from the head on.
fn slices(meter: &mut Meter, middle: u32) {
    for (turn, thickness) in (0..).zip(thicknesses(middle)) {
        let (kind, index) = soil(middle, turn);
        let top = (middle - thickness) / 2;
        compare(meter, vec![row(top + thickness, kind, index)], top, 0);
    }
}

/// A thin slice, and those of another soil above it up to the ground.
fn below_other_soil(meter: &mut Meter, middle: u32) {
    let (top, bottom) = thinnest(middle);
    let (kind, index) = soil(middle, 4);
    let mut rows = vec![row(bottom - top, kind, index)];
    if top > 0 {
        let (kind, index) = soil(middle, 5);
        rows.insert(0, row(top, kind, index));
    }
    compare(meter, rows, 0, 0);
}

/// Thin slices below fill: read at the middle, by a millimetre and by as many as can be; and where the middle is natural.
fn filled(meter: &mut Meter, middle: u32) {
    let (kind, index) = soil(middle, 6);
    if middle > 2 {
        for deeper in [1, (middle - 1) / 2] {
            let (top, bottom) = thinnest(middle - 2 * deeper);
            let fill = 3_000 + deeper;
            compare(meter, vec![row(bottom, kind, index)], top, fill as i32);
        }
    }
    let (top, bottom) = thinnest(middle);
    let fill = FILLS[middle as usize % FILLS.len()];
    compare(meter, vec![row(bottom, kind, index)], top, fill as i32);
}

/// A thin slice with the head at the level of a cut.
fn cut(meter: &mut Meter, middle: u32) {
    let (top, bottom) = thinnest(middle);
    let (kind, index) = soil(middle, 7);
    compare(meter, vec![row(bottom, kind, index)], top, -(top as i32));
}
