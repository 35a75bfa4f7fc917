//! Long runs of drawn edits, each on the log and the table that the one before left.

#![forbid(unsafe_code)]

use super::desk::{Desk, Edit, Piece};
use super::fields::{pile, pile_with, row};
use super::twister::Twister;
use second::{row_bytes, Pile, Row};

fn depth(rows: &[Row]) -> u32 {
    rows.iter().map(|row| u32::from(row.thickness)).sum()
}

/// A good row; the highest thickness is not always kept.
fn any_row(twister: &mut Twister, highest: u32) -> Row {
    let kind = twister.one_of(&[1, 2, 3, 4, 5, 6, 6, 6]);
    let short = twister.between(1, 500);
    let long = twister.between(1, highest.max(1));
    let thickness = twister.one_of(&[1, 2, 1_999, 2_000, 2_001, 4_000, short, long]);
    let index = if kind <= 3 {
        100
    } else {
        let drawn = [twister.between(100, 160), twister.between(100, 160)];
        let marks = [0, 99, 100, 119, 120, 121, 135, 145, 160, 161, 200];
        twister.one_of(&[&marks[..], &drawn, &[130, 130]].concat())
    };
    let saturation = twister.one_of(&[0, 80, 89, 90, 95, 95, 100]);
    row(thickness as u16, kind, index as u8, saturation)
}

/// A row with one field changed and those after it 0.
fn spoilt(twister: &mut Twister, good: Row) -> Row {
    let field = twister.between(0, 3) as usize;
    let value = twister.one_of(&[0, 7, 127]);
    let mut fields = [
        good.thickness,
        u16::from(good.kind),
        u16::from(good.index),
        u16::from(good.saturation),
    ];
    fields[field] = value;
    fields[field + 1..].fill(0);
    let [thickness, kind, index, saturation] = fields;
    row(
        thickness,
        kind as u8 % 8,
        index as u8,
        saturation as u8 % 128,
    )
}

const TIPS: [u32; 10] = [
    3_000, 5_000, 8_000, 10_000, 12_345, 20_000, 20_001, 25_000, 30_000, 40_000,
];

/// A pile, most often a good one.
pub fn any_pile(twister: &mut Twister) -> Pile {
    let head = twister.one_of(&[0, 1, 500, 1_000, 2_500]);
    let drawn = twister.between(2_990, 40_010);
    let tip = twister.one_of(&[&TIPS[..], &[drawn]].concat()) as u16;
    let method = if twister.percent(30) {
        twister.one_of(&[1, 1, 2, 3, 3, 0])
    } else {
        twister.one_of(&[1, 2, 3])
    };
    let zero = u8::from(twister.percent(2));
    if twister.percent(60) {
        let (a, b) = circle(twister);
        return pile_with(pile(1, a, b, method, head, tip), zero);
    }
    let (a, b) = rectangle(twister);
    let section = twister.one_of(&[2, 2, 2, 2, 2, 2, 2, 2, 2, 2, 2, 2, 0, 3]);
    let head = if twister.percent(5) {
        twister.one_of(&[head, tip])
    } else {
        head
    };
    pile_with(pile(section, a, b, method, head, tip), zero)
}

fn circle(twister: &mut Twister) -> (u16, u16) {
    if twister.percent(95) {
        return (twister.one_of(&[150, 600, 1_200, 2_000]), 0);
    }
    (twister.one_of(&[149, 2_001, 600]), twister.one_of(&[0, 5]))
}

fn rectangle(twister: &mut Twister) -> (u16, u16) {
    if twister.percent(95) {
        return (
            twister.one_of(&[300, 400, 800, 4_000]),
            twister.one_of(&[300, 400, 2_500, 4_000]),
        );
    }
    (
        twister.one_of(&[299, 4_001, 400]),
        twister.one_of(&[299, 4_001]),
    )
}

/// Edits of any kind, with piles and bytes of the table put between them.
pub fn mixed(desk: &mut Desk, twister: &mut Twister, draw: fn(&mut Twister) -> Pile, count: u32) {
    desk.set_log(&[row(25_000, 6, 130, 95), row(20_000, 6, 120, 80)]);
    desk.set_pile(draw(twister));
    for _ in 0..count {
        if twister.percent(12) {
            desk.set_pile(draw(twister));
        }
        if twister.percent(4) {
            let byte = twister.between(0, 255) as u8;
            let at = twister.between(0, 580) as usize;
            desk.put(Piece::Table, &[byte], at);
        }
        mixed_edit(desk, twister);
    }
}

pub fn mixed_edit(desk: &mut Desk, twister: &mut Twister) {
    let rows = desk.rows();
    let count = rows.len() as u32;
    let more: [u32; 2] = if count < 20 { [2, 4] } else { [3, 3] };
    let kind = twister.one_of(&[&[1, 1, 2, 2, 2, 3, 3, 4, 4, 4][..], &more].concat());
    let k = named_row(twister, count);
    let mut row = any_row(twister, 60_000 - depth(&rows));
    if twister.percent(4) {
        row = spoilt(twister, row);
    }
    let named = rows[k.clamp(1, count) as usize - 1];
    let x = split_point(twister, u32::from(named.thickness));
    desk.edit(Edit {
        kind,
        k,
        x,
        row: &row_bytes(row),
        lent: desk.lent(),
    });
}

fn named_row(twister: &mut Twister, count: u32) -> u32 {
    if !twister.percent(40) {
        let only = twister.between(1, count);
        return twister.one_of(&[only]);
    }
    let drawn = [(); 3].map(|()| twister.between(1, count));
    let ends = [count, count + 1, 1, 0, count + 2];
    twister.one_of(&[&drawn[..], &ends].concat())
}

fn split_point(twister: &mut Twister, thickness: u32) -> u32 {
    let drawn = [
        twister.between(0, thickness),
        twister.between(1, (thickness - 1).max(1)),
    ];
    let first = [0, 1, thickness - 1, thickness];
    twister.one_of(&[&first[..], &drawn, &[2_000, thickness / 2]].concat())
}

/// Rows in which a tip may stand at 18,000.
pub const GOOD_GROUND: [Row; 5] = [
    row(2_500, 5, 125, 85),
    row(1_500, 2, 100, 60),
    row(6_000, 6, 130, 95),
    row(2_000, 4, 110, 90),
    row(20_000, 6, 128, 95),
];

/// One pile in good ground: most edits are answered, and much of the table is kept from one to the next.
pub fn steady(desk: &mut Desk, twister: &mut Twister, count: u32) {
    desk.set_log(&GOOD_GROUND);
    let method = twister.one_of(&[1, 2, 3]);
    let head = twister.one_of(&[0, 800]);
    desk.set_pile(pile(1, 600, 0, method, head, 18_000));
    for _ in 0..count {
        steady_edit(desk, twister);
    }
}

pub fn steady_edit(desk: &mut Desk, twister: &mut Twister) {
    let rows = desk.rows();
    let count = rows.len() as u32;
    let kind = if depth(&rows) > 28_000 {
        twister.one_of(&[1, 2, 3, 4, 4])
    } else {
        twister.one_of(&[2, 2, 4])
    };
    let last = if kind == 4 { count } else { (count - 1).max(1) };
    let k = twister.between(1, last);
    let named = rows[k as usize - 1];
    let drawn = twister.between(1, 3_000) as u16;
    let thickness = twister.one_of(&[named.thickness, drawn]);
    let soil = twister.one_of(&[
        named,
        row(0, 6, 130, 95),
        row(0, 2, 100, 60),
        row(0, 5, 120, 90),
        row(0, 4, 105, 88),
    ]);
    let x = twister.between(1, u32::from(named.thickness - 1).max(1));
    desk.edit(Edit {
        kind,
        k,
        x,
        row: &row_bytes(Row { thickness, ..soil }),
        lent: desk.lent(),
    });
}
