//! Edits of piles with their tips in sand: records at both sides of each limit, tips at and around the marks of tables 7.7 and 7.2, graded
//! sites, the order of the checks, records over clay, and runs of drawn edits that each bring a record.

#![forbid(unsafe_code)]

use super::desk::{Desk, Edit};
use super::fields::{graded, pile, row, CLAY, PILE_A};
use super::graded::any_graded_pile;
use super::runs::{mixed_edit, steady_edit};
use super::twister::Twister;
use second::{row_bytes, Answer, Carried, Pile, Row};

const fn record(angle: u32, weight_below: u32, weight_above: u32) -> Carried {
    Carried {
        given: 1,
        angle,
        weight_below,
        weight_above,
    }
}

pub const GOOD: Carried = record(3_000, 10_000, 18_000);
/// With which every cap is reached four diameters deep.
const STRONG: Carried = record(4_333, 30_000, 30_000);
pub const NONE: Carried = Carried {
    given: 0,
    angle: 0,
    weight_below: 0,
    weight_above: 0,
};
const ZEROS: Carried = Carried { given: 1, ..NONE };

pub fn edges(desk: &mut Desk) {
    worked(desk);
    records(desk);
    caps(desk);
    marks(desk);
    grades(desk);
    order(desk);
    over_clay(desk);
}

const fn circle(diameter: u16, head: u16, tip: u16) -> Pile {
    pile(1, diameter, 0, 1, head, tip)
}

const fn sand(thickness: u16, kind: u8, saturation: u8) -> Row {
    row(thickness, kind, 100, saturation)
}

/// The first row replaced by itself, with a pile and a record.
fn hold(desk: &mut Desk, pile: Pile, sand: Carried) -> Answer {
    desk.set_pile(pile);
    desk.set_sand(sand);
    let first = desk.rows()[0];
    desk.edit(Edit {
        kind: 1,
        k: 1,
        row: &row_bytes(first),
        lent: desk.lent(),
        ..Edit::default()
    })
}

/// The four worked values, at two saturations.
fn worked(desk: &mut Desk) {
    for (kind, pile, sand_record, tip) in [
        (1, circle(600, 1_000, 10_000), GOOD, 220_598),
        (
            2,
            circle(1_000, 1_000, 15_000),
            record(3_200, 10_000, 19_000),
            1_326_870,
        ),
        (
            3,
            circle(400, 1_000, 10_000),
            record(3_333, 10_000, 18_000),
            152_987,
        ),
        (
            2,
            circle(1_200, 1_000, 8_000),
            record(2_556, 9_000, 17_000),
            524_822,
        ),
    ] {
        for saturation in [95, 80] {
            desk.set_log(&[sand(30_000, kind, saturation)]);
            let answer = hold(desk, pile, sand_record);
            assert_eq!((answer.refusal, answer.tip), (0, tip));
            assert_eq!(answer.capacity, answer.tip + answer.shaft);
        }
    }
}

/// Each number at both sides of its limits, and what says that there is a record.
fn records(desk: &mut Desk) {
    desk.set_log(&[sand(30_000, 1, 95)]);
    let pile = circle(600, 1_000, 10_000);
    let mut all = Vec::new();
    for given in [0, 1, 2, 256, 65_536, 1 << 31, u32::MAX] {
        all.extend([GOOD, ZEROS].map(|record| Carried { given, ..record }));
    }
    // Nine times the angle before the last is over 2^32 by 27,005.
    for angle in [0, 2_555, 2_556, 4_333, 4_334, 68_536, 477_221_589, u32::MAX] {
        all.push(Carried { angle, ..GOOD });
    }
    for weight in [0, 1, 30_000, 30_001, 75_536, 1 << 31, u32::MAX] {
        all.push(record(3_000, weight, 18_000));
        all.push(record(3_000, 10_000, weight));
        all.push(record(3_000, weight, weight));
    }
    for record in all {
        hold(desk, pile, record);
    }
}

/// Every depth of table 7.2, and those beside it.
fn caps(desk: &mut Desk) {
    for kind in 1..=3 {
        desk.set_log(&[sand(60_000, kind, 90)]);
        for mark in [
            3_000, 4_000, 5_000, 7_000, 10_000, 15_000, 20_000, 25_000, 30_000, 35_000,
        ] {
            for tip in [mark, mark + 1, mark + 999] {
                hold(desk, circle(750, 0, tip), STRONG);
            }
        }
        hold(desk, circle(750, 0, 40_000), STRONG);
    }
}

/// Angles at both sides of each column with a line of alpha 3 each, and diameters around those of alpha 4 and of refusal 17.
fn marks(desk: &mut Desk) {
    desk.set_log(&[sand(60_000, 1, 95)]);
    let lines = [
        4_000, 5_000, 7_500, 10_000, 12_500, 15_000, 17_500, 20_000, 22_500, 25_000,
    ];
    for (place, tip) in lines.into_iter().enumerate() {
        let angle = (23_000 + 2_000 * place as u32).min(39_000) / 9;
        for angle in [angle, angle + 1] {
            let weight = 30_000 / (1 + place as u32);
            for tip in [tip - 1, tip, tip + 1] {
                hold(desk, circle(1_000, 0, tip), record(angle, weight, weight));
            }
        }
    }
    for diameter in [150, 400, 401, 799, 800, 801, 1_999, 2_000] {
        for tip in [3_000, 7_996, 7_999, 8_000, 10_000, 40_000] {
            hold(desk, circle(diameter, 0, tip), GOOD);
        }
    }
}

/// Cuts and fills around 3,000 and beyond, four diameters below the cut level or a little less.
fn grades(desk: &mut Desk) {
    for kind in 1..=3 {
        desk.set_log(&[sand(60_000, kind, 85)]);
        for grade in [
            -20_000, -5_000, -3_001, -3_000, -1_000, -1, 0, 1, 3_000, 3_001, 5_000, 20_000,
        ] {
            let cut = (-i32::from(grade)).max(0) as u16;
            for (h, sand) in [
                (8_000, GOOD),
                (7_999, GOOD),
                (12_345, GOOD),
                (12_345, STRONG),
            ] {
                let pile = circle(2_000, cut, cut + h);
                hold(desk, graded(pile, grade), sand);
            }
            let above = circle(600, cut.saturating_sub(1), cut + 9_000);
            hold(desk, graded(above, grade), GOOD);
        }
    }
}

/// 9, 10 and 17, alone and together; the log's end before them.
fn order(desk: &mut Desk) {
    for kind in 1..=3 {
        desk.set_log(&[sand(8_000, 1 + kind % 3, 95), sand(20_000, kind, 95)]);
        for pile in [
            circle(600, 1_000, 10_000),
            circle(600, 1_000, 9_999),
            circle(600, 8_001, 10_000),
            circle(2_000, 1_000, 7_999),
            pile(2, 600, 600, 1, 1_000, 10_000),
            pile(2, 600, 600, 1, 1_000, 9_999),
            circle(600, 1_000, 23_000),
            circle(600, 1_000, 23_001),
        ] {
            for record in [GOOD, ZEROS, NONE, Carried { given: 0, ..GOOD }] {
                hold(desk, pile, record);
            }
        }
    }
}

/// Any record is as good as none.
fn over_clay(desk: &mut Desk) {
    let most = Carried {
        given: u32::MAX,
        ..record(u32::MAX, u32::MAX, u32::MAX)
    };
    for clay in [CLAY, row(20_000, 6, 161, 95), row(20_000, 5, 130, 80)] {
        desk.set_log(&[clay]);
        let due = hold(desk, PILE_A, NONE);
        let held = [GOOD, STRONG, ZEROS, most].map(|record| {
            let answer = hold(desk, PILE_A, record);
            Answer {
                kept: due.kept,
                ..answer
            }
        });
        assert_eq!(held, [due; 4]);
    }
    // The tip goes from clay to sand by one edit, and back.
    desk.set_log(&[CLAY, sand(20_000, 2, 95)]);
    for tip in [19_999, 20_000, 22_000] {
        for record in [NONE, GOOD] {
            hold(desk, circle(600, 1_000, tip), record);
        }
    }
}

pub fn runs(desk: &mut Desk, twister: &mut Twister) {
    for kind in 1..=3 {
        mixed(desk, twister, kind, 100);
        steady(desk, twister, kind, 100);
    }
}

const ANGLES: [u32; 8] = [2_555, 2_556, 2_800, 3_000, 3_333, 3_800, 4_333, 4_334];
const WEIGHTS: [u32; 8] = [0, 1, 9_000, 10_000, 18_000, 22_000, 30_000, 30_001];

/// A record that is mostly taken; or none.
fn any_record(twister: &mut Twister) -> Carried {
    let angle = if twister.percent(50) {
        twister.between(2_556, 4_333)
    } else {
        twister.one_of(&ANGLES)
    };
    let weights = [(); 2].map(|()| {
        if twister.percent(75) {
            twister.between(5_000, 25_000)
        } else {
            twister.one_of(&WEIGHTS)
        }
    });
    Carried {
        given: twister.one_of(&[0, 1, 1, 1, 1, 1, 2, u32::MAX]),
        ..record(angle, weights[0], weights[1])
    }
}

/// Edits of any kind in sand, with piles, graded and not, and records put between them.
fn mixed(desk: &mut Desk, twister: &mut Twister, kind: u8, count: u32) {
    desk.set_log(&[row(9_000, 6, 130, 95), sand(36_000, kind, 80)]);
    desk.set_pile(circle(600, 1_000, 14_000));
    desk.set_sand(GOOD);
    for _ in 0..count {
        if twister.percent(15) {
            let pile = any_graded_pile(twister);
            desk.set_pile(pile);
        }
        if twister.percent(40) {
            let record = any_record(twister);
            desk.set_sand(record);
        }
        mixed_edit(desk, twister);
    }
}

/// One pile in good ground, its tip in sand: much of the table is kept from one edit to the next, whatever their records.
fn steady(desk: &mut Desk, twister: &mut Twister, kind: u8, count: u32) {
    desk.set_log(&[
        row(2_500, 5, 125, 85),
        row(6_000, 6, 130, 95),
        sand(1_500, 1 + kind % 3, 60),
        sand(22_000, kind, 70),
    ]);
    let pile = circle(800, 3_500, 18_000);
    desk.set_pile(pile);
    desk.set_sand(GOOD);
    for _ in 0..count {
        if twister.percent(10) {
            let grade = twister.one_of(&[0, 2_000, 3_001, 5_000, -2_000, -3_001, -3_500]);
            desk.set_pile(graded(pile, grade));
        }
        if twister.percent(40) {
            let record = any_record(twister);
            desk.set_sand(record);
        }
        steady_edit(desk, twister);
    }
}
