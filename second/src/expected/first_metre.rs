//! Edits in the first metre: boundaries drawn through it, graded sites around 1 m as read, thin strata put in and taken out, and runs of
//! drawn edits.

#![forbid(unsafe_code)]

use super::desk::{Desk, Edit};
use super::fields::{graded, pile, row, CLAY};
use super::graded::remove_first;
use super::sands::{GOOD, NONE};
use super::twister::Twister;
use second::{row_bytes, Pile, Row};

pub fn edges(desk: &mut Desk) {
    desk.set_sand(NONE);
    known(desk);
    boundaries(desk);
    grades(desk);
    strata(desk);
}

/// Clay whose friction is 15 kPa at 1 m.
const fn upper(thickness: u16) -> Row {
    row(thickness, 6, 140, 95)
}

/// Case A's pile, but for its head.
const fn headed(head: u16) -> Pile {
    pile(1, 600, 0, 1, head, 10_000)
}

/// The friction of the first slice, with an upper row of so many millimetres.
fn known(desk: &mut Desk) {
    for (thickness, pile, friction) in [
        (1, headed(0), 1_500),
        (1_001, headed(0), 1_501_500),
        (1_000, headed(999), 2_998_500),
        (1_001, headed(999), 3_000_000),
        (1_001, graded(headed(0), 3_200), 2_101_500),
        (1_001, graded(headed(0), 5_000), 4_600_400),
        (1_001, graded(headed(500), -500), 2_251_500),
    ] {
        remove_first(desk, &[upper(thickness), CLAY], pile);
        assert_eq!(desk.slice(0).friction, friction);
    }
}

fn replace_first(desk: &mut Desk, row: Row) {
    desk.edit(Edit {
        kind: 1,
        k: 1,
        row: &row_bytes(row),
        lent: desk.lent(),
        ..Edit::default()
    });
}

/// The end of the upper row drawn down through the first metre, with heads at both ends of it.
fn boundaries(desk: &mut Desk) {
    for head in [0, 1, 998, 999, 1_000, 1_001] {
        desk.set_log(&[upper(3_000), CLAY]);
        desk.set_pile(headed(head));
        for thickness in [
            1, 2, 3, 500, 998, 999, 1_000, 1_001, 1_002, 1_999, 2_000, 2_001,
        ] {
            replace_first(desk, upper(thickness));
        }
    }
}

/// The same on graded sites, with the head at the cut level or at the ground.
fn grades(desk: &mut Desk) {
    for grade in [
        -1_000, -999, -500, -1, 0, 1, 3_000, 3_001, 3_200, 3_499, 3_500, 3_999, 4_000, 9_000,
    ] {
        let level = (-i32::from(grade)).max(0) as u16;
        desk.set_log(&[upper(3_000), CLAY]);
        desk.set_pile(graded(headed(level), grade));
        for thickness in [1, 2, 1_000, 1_001, 2_000, 2_001] {
            replace_first(desk, upper(thickness));
        }
    }
}

/// Thin rows of every kind put in near the ground, one after the other, then taken out.
fn strata(desk: &mut Desk) {
    desk.set_log(&[CLAY]);
    desk.set_pile(headed(0));
    for number in 0..30 {
        let kind = 1 + number % 6;
        let index = if kind <= 3 { 100 } else { 100 + 3 * number };
        let thin = row(u16::from(1 + number % 5), kind, index, 90);
        desk.edit(Edit {
            kind: 2,
            k: u32::from(1 + number % 3),
            row: &row_bytes(thin),
            ..Edit::default()
        });
    }
    while desk.rows().len() > 1 {
        desk.edit(Edit {
            kind: 3,
            k: 1 + desk.rows().len() as u32 / 3,
            ..Edit::default()
        });
    }
}

pub fn runs(desk: &mut Desk, twister: &mut Twister) {
    for lowest in [
        row(30_000, 6, 130, 95),
        row(30_000, 5, 125, 80),
        row(30_000, 2, 100, 80),
    ] {
        drawn(desk, twister, lowest, 100);
    }
}

/// Edits above a lowest row in which the tip may stand, with piles put between them.
fn drawn(desk: &mut Desk, twister: &mut Twister, lowest: Row, count: u32) {
    desk.set_log(&[upper(700), row(3, 2, 100, 60), lowest]);
    desk.set_pile(headed(0));
    desk.set_sand(GOOD);
    for _ in 0..count {
        if twister.percent(15) {
            let pile = any_pile(twister);
            desk.set_pile(pile);
        }
        any_edit(desk, twister);
    }
}

/// A pile with its head in the first metre, mostly graded.
fn any_pile(twister: &mut Twister) -> Pile {
    let head = twister.one_of(&[0, 0, 1, 2, 500, 999, 1_000]);
    let cut = -i32::from(head) as i16;
    let grade = twister.one_of(&[0, cut, cut, 3_000, 3_001, 3_005, 3_500, 3_999, 5_000]);
    let eight = grade == 0 || twister.percent(30);
    if eight {
        headed(head)
    } else {
        graded(headed(head), grade)
    }
}

/// An edit that leaves the lowest row.
fn any_edit(desk: &mut Desk, twister: &mut Twister) {
    let rows = desk.rows();
    let count = rows.len() as u32;
    let kind = match count {
        1 => 2,
        2..=19 => twister.one_of(&[1, 2, 2, 3, 4]),
        _ => 3,
    };
    let last = if kind == 2 || kind == 4 {
        count
    } else {
        count - 1
    };
    let k = twister.between(1, last);
    let named = rows[k as usize - 1];
    let x = twister.between(1, u32::from(named.thickness).clamp(2, 600) - 1);
    let row = thin_row(twister);
    desk.edit(Edit {
        kind,
        k,
        x,
        row: &row_bytes(row),
        lent: desk.lent(),
    });
}

/// Mostly of a few millimetres.
fn thin_row(twister: &mut Twister) -> Row {
    let few = [(); 3].map(|()| twister.between(1, 5));
    let more = [twister.between(1, 600), 1_000];
    let thickness = twister.one_of(&[&few[..], &more].concat());
    let kind = twister.between(1, 6) as u8;
    let index = if kind <= 3 {
        100
    } else {
        twister.between(100, 200) as u8
    };
    row(thickness as u16, kind, index, twister.one_of(&[80, 95]))
}
