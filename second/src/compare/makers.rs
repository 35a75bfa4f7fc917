//! Makers of logs and piles: good ones, borderline ones, any.

#![forbid(unsafe_code)]

use super::dice::Dice;
use super::grades::{below_cut, grade, tip_as_read};
use super::sands::{any_record, record, slender};
use super::shallow::shallow;
use second::cases::log_of;
use second::{pile_bytes, Carried, Pile, Row, ROWS};

/// A log's rows and a pile, their fields not yet packed, and the record of a sand tip.
#[derive(Clone, Debug)]
pub struct Site {
    pub rows: Vec<Row>,
    pub pile: Pile,
    pub sand: Carried,
}

impl Site {
    /// Without the record of a sand tip.
    pub fn plain(rows: Vec<Row>, pile: Pile) -> Site {
        Site {
            rows,
            pile,
            sand: Carried::default(),
        }
    }

    pub fn log(&self) -> Vec<u8> {
        log_of(&self.rows).to_vec()
    }

    pub fn pile(&self) -> Vec<u8> {
        pile_bytes(&self.pile)
    }
}

/// Values around which the rules change.
const INDEXES: [u8; 26] = [
    0, 1, 50, 99, 100, 101, 109, 110, 111, 119, 120, 121, 129, 130, 135, 139, 140, 141, 145, 150,
    159, 160, 161, 170, 199, 200,
];
const SATURATIONS: [u8; 9] = [0, 1, 50, 80, 89, 90, 91, 99, 100];
const TIPS: [u32; 17] = [
    3_000, 3_001, 4_999, 5_000, 7_000, 10_000, 12_000, 15_000, 18_000, 19_999, 20_000, 20_001,
    25_000, 30_000, 30_001, 39_999, 40_000,
];
/// Of the zero bits, with and without what they can hold.
pub const ZEROS: [u8; 10] = [0, 1, 2, 15, 16, 32, 63, 64, 128, 255];

fn soil(dice: &mut Dice, kind: u8) -> Row {
    let index = match kind {
        1..=3 => 100,
        _ if dice.once_in(2) => dice.one_of(&INDEXES),
        _ => dice.between(0, 200) as u8,
    };
    let saturation = if dice.once_in(2) {
        dice.one_of(&SATURATIONS)
    } else {
        dice.between(0, 100) as u8
    };
    Row {
        thickness: 1,
        kind,
        index,
        saturation,
        zero: 0,
    }
}

fn any_soil(dice: &mut Dice) -> Row {
    let kind = dice.between(1, 6) as u8;
    soil(dice, kind)
}

/// A soil in which a tip may stand that is read at a depth: sand if it is to be, else clay.
fn tip_soil(dice: &mut Dice, read: u32, sandy: bool) -> Row {
    let kind = dice.between(4, 6) as u8 - if sandy { 3 } else { 0 };
    let mut row = soil(dice, kind);
    let highest = if read > 20_000 { 140 } else { 160 };
    while row.index > highest {
        row.index = if dice.once_in(3) {
            highest
        } else {
            dice.between(0, u32::from(highest)) as u8
        };
    }
    row
}

/// A soil that follows another: any, the very same, or the same but for one field.
pub fn next_soil(dice: &mut Dice, before: Option<Row>) -> Row {
    let fresh = any_soil(dice);
    let before = match before {
        Some(before) => before,
        None => return fresh,
    };
    match dice.below(12) {
        0 | 1 => before,
        2 => Row {
            saturation: fresh.saturation,
            ..before
        },
        3 if before.kind >= 4 => Row {
            index: dice.between(0, 200) as u8,
            ..before
        },
        4 if before.kind >= 4 => Row {
            kind: dice.between(4, 6) as u8,
            ..before
        },
        5 if before.kind <= 3 => Row {
            kind: dice.between(1, 3) as u8,
            ..before
        },
        _ => fresh,
    }
}

/// Rows that fill a depth, at most so many.
fn layers(dice: &mut Dice, depth: u32, places: usize) -> Vec<Row> {
    let style = dice.below(6);
    let palette = [any_soil(dice), any_soil(dice)];
    let mut rows: Vec<Row> = Vec::new();
    let mut left = depth;
    while left > 0 {
        let thickness = match style {
            _ if rows.len() + 1 >= places => left,
            0 | 1 => dice.between(100, 6_000),
            2 => dice.between(1, 50),
            3 => dice.one_of(&[1, 1_999, 2_000, 2_001, 3_999, 4_000, 4_001]),
            4 => dice.one_of(&[1, 2_001]),
            _ => dice.between(1, depth),
        };
        let thickness = thickness.min(left);
        let kept = match style {
            1 => dice.one_of(&palette),
            _ => next_soil(dice, rows.last().copied()),
        };
        rows.push(Row {
            thickness: thickness as u16,
            ..kept
        });
        left -= thickness;
    }
    rows
}

/// Cuts rows in two, up to the wanted number; the ground stays the same.
fn cut(dice: &mut Dice, rows: &mut Vec<Row>, wanted: usize) {
    let mut tries = 4 * ROWS;
    while rows.len() < wanted && tries > 0 {
        tries -= 1;
        let place = dice.below(rows.len() as u32) as usize;
        let thickness = u32::from(rows[place].thickness);
        if thickness < 2 {
            continue;
        }
        let upper = match dice.below(4) {
            0 => 1,
            1 => thickness - 1,
            _ => dice.between(1, thickness - 1),
        };
        let mut lower = rows[place];
        lower.thickness = (thickness - upper) as u16;
        rows[place].thickness = upper as u16;
        rows.insert(place + 1, lower);
    }
}

fn section(dice: &mut Dice, pile: &mut Pile) {
    if dice.once_in(2) {
        pile.section = 1;
        pile.a = match dice.below(4) {
            0 => dice.one_of(&[150, 151, 600, 1_999, 2_000]),
            _ => dice.between(150, 2_000) as u16,
        };
        pile.b = 0;
    } else {
        pile.section = 2;
        for side in [&mut pile.a, &mut pile.b] {
            *side = match dice.below(4) {
                0 => dice.one_of(&[300, 301, 1_000, 1_999, 2_000, 2_001, 3_999, 4_000]),
                1 => dice.between(300, 4_000) as u16,
                _ => dice.between(300, 2_500) as u16,
            };
        }
    }
}

/// The seven or so ways a head may stand to its tip.
fn head(dice: &mut Dice, tip: u32, seat_top: u32) -> u16 {
    let head = match dice.below(12) {
        0 => 0,
        1 => 1,
        2 => tip.saturating_sub(4_000),
        3 => tip.saturating_sub(3_999),
        4 => tip.saturating_sub(4_001),
        5 => seat_top,
        6 => seat_top + 1,
        7 => dice.between(0, tip - 1),
        _ => dice.between(0, seat_top),
    };
    head.min(tip - 1) as u16
}

/// A site that is mostly accepted.
pub fn good(dice: &mut Dice) -> Site {
    if dice.once_in(24) {
        return fullest(dice);
    }
    let tip = if dice.once_in(3) {
        dice.one_of(&TIPS)
    } else {
        dice.between(3_000, 40_000)
    };
    let mut pile = Pile {
        method: dice.between(1, 3) as u8,
        tip: tip as u16,
        ..Pile::default()
    };
    section(dice, &mut pile);
    let top = tip - seat(dice, &pile);
    grade(dice, &mut pile, top);
    let sandy = in_sand(dice);
    if sandy {
        slender(dice, &mut pile);
    }
    let rows = ground(dice, &pile, top, sandy);
    pile.head = head(dice, tip, top);
    below_cut(dice, &mut pile);
    let sand = record(dice, sandy);
    let mut site = Site { rows, pile, sand };
    if dice.once_in(6) {
        shallow(dice, &mut site);
    }
    site
}

/// Whether a site's tip is to stand in sand.
fn in_sand(dice: &mut Dice) -> bool {
    dice.once_in(4)
}

/// How far a tip stands in its stratum: mostly enough, often just so.
fn seat(dice: &mut Dice, pile: &Pile) -> u32 {
    let tip = u32::from(pile.tip);
    let least = u32::from(pile.a.max(pile.b)).max(2_000);
    let seat = match dice.below(8) {
        0 | 1 => least,
        2 => least + 1,
        3 if dice.once_in(4) => least - 1,
        4 => tip,
        _ => dice.between(least, least.max(tip.min(12_000))),
    };
    seat.min(tip)
}

/// Rows around a pile's tip whose stratum begins at a top.
fn ground(dice: &mut Dice, pile: &Pile, top: u32, sandy: bool) -> Vec<Row> {
    let tip = u32::from(pile.tip);
    let depth = match dice.below(8) {
        0 => tip + 5_000,
        1 => tip + 5_001,
        2 if dice.once_in(4) => tip + 4_999,
        3 => 60_000,
        _ => dice.between(tip + 5_000, 60_000.min(tip + 12_000)),
    };
    let under = match dice.below(4) {
        0 => tip + 1,
        1 => dice.between(tip + 1, depth),
        _ => depth,
    };
    let places = if dice.once_in(3) {
        62
    } else {
        dice.between(1, 12) as usize
    };
    let mut rows = layers(dice, top, places);
    rows.push(Row {
        thickness: (under - top) as u16,
        ..tip_soil(dice, tip_as_read(pile), sandy)
    });
    if under < depth {
        let places = (ROWS - rows.len()).min(4);
        rows.extend(layers(dice, depth - under, places));
    }
    match dice.below(4) {
        0 => cut(dice, &mut rows, ROWS),
        1 => {
            let wanted = dice.between(2, 64) as usize;
            cut(dice, &mut rows, wanted);
        }
        _ => {}
    }
    rows
}

/// As many strata and slices as there can be, or nearly.
fn fullest(dice: &mut Dice) -> Site {
    let mut thick = [false; 63];
    thick[..18].fill(true);
    for place in (1..63).rev() {
        thick.swap(place, dice.below(place as u32 + 1) as usize);
    }
    let mut rows = Vec::new();
    for (place, thick) in thick.into_iter().enumerate() {
        let kind = 1 + ((place as u32 + dice.below(5)) % 6) as u8;
        let mut row = soil(dice, kind);
        row.thickness = if thick { 2_001 } else { 1 };
        row.saturation = place as u8;
        rows.push(row);
    }
    let tip = 18 * 2_001 + 45 + 2_001;
    let sandy = in_sand(dice);
    rows.push(Row {
        thickness: 2_001 + 5_000 + dice.below(3) as u16,
        saturation: dice.one_of(&[89, 90, 95]),
        ..tip_soil(dice, tip, sandy)
    });
    let mut pile = Pile {
        section: 1,
        a: dice.between(150, 2_000) as u16,
        method: dice.between(1, 3) as u8,
        tip: tip as u16,
        ..Pile::default()
    };
    if dice.once_in(4) {
        pile.head = dice.below(3) as u16;
    }
    if dice.once_in(4) {
        pile.tip = pile.tip - 1 + dice.below(3) as u16;
    }
    let head = u32::from(pile.head);
    grade(dice, &mut pile, head);
    let sand = record(dice, sandy);
    Site { rows, pile, sand }
}

/// Rows and a pile whose fields are all in range, and nothing more.
pub fn loose(dice: &mut Dice) -> Site {
    let count = match dice.below(3) {
        0 => dice.between(1, 6),
        1 => dice.between(1, 64),
        _ => dice.one_of(&[1, 2, 63, 64]),
    };
    let most = (dice.between(40_000, 80_000) / count * 2).clamp(1, 60_000);
    let mut rows: Vec<Row> = Vec::new();
    for _ in 0..count {
        let row = next_soil(dice, rows.last().copied());
        rows.push(Row {
            thickness: dice.between(1, most) as u16,
            ..row
        });
    }
    let tip = dice.between(2_900, 40_100);
    let mut pile = Pile {
        method: dice.between(1, 3) as u8,
        head: dice.between(0, tip) as u16,
        tip: tip as u16,
        ..Pile::default()
    };
    section(dice, &mut pile);
    let head = u32::from(pile.head);
    grade(dice, &mut pile, head);
    let sand = any_record(dice);
    Site { rows, pile, sand }
}

/// Every record with every value of one field.
pub fn with_each<R: Copy, V: Copy>(records: &[R], values: &[V], set: impl Fn(&mut R, V)) -> Vec<R> {
    let mut all = Vec::new();
    for record in records {
        for value in values {
            let mut changed = *record;
            set(&mut changed, *value);
            all.push(changed);
        }
    }
    all
}
