//! The rules of tips in sand.

#![forbid(unsafe_code)]

use super::{circle, numbers, rectangle, refused_with, row, run, run_with, DEEP_CLAY};
use crate::cases::log_of;
use crate::*;

const GOOD: Sand = Sand {
    angle: 3_000,
    weight_below: 10_000,
    weight_above: 18_000,
};

/// So strong that every cap binds, four diameters deep or deeper.
const STRONG: Sand = Sand {
    angle: 4_333,
    weight_below: 30_000,
    weight_above: 30_000,
};

/// One row as deep as a log may be.
fn deep(kind: u8) -> [Row; 1] {
    [row(60_000, kind, 100, 95)]
}

fn wide(diameter: u16, pile: Pile) -> Pile {
    Pile {
        a: diameter,
        ..pile
    }
}

fn graded(pile: Pile, grade: i16) -> Pile {
    Pile {
        length: 10,
        grade,
        ..pile
    }
}

/// The tip force of a resistance in Pa under a circle.
fn force(resistance: u32, diameter: u64) -> u64 {
    let top = u128::from(resistance) * u128::from(diameter * diameter) * 314_159;
    (top / 400_000_000_000) as u64
}

/// What a pile's tip resists with by the formula, without the cap, from a depth h.
fn by_formula(sand: &Sand, h: u32, diameter: u16) -> u64 {
    let formula = sand::formula(sand, h, u32::from(diameter));
    force(formula.resistance, u64::from(diameter))
}

/// The refusal of a pile in medium sand.
fn reply(pile: Pile, sand: Option<Sand>) -> u32 {
    let (number, row, field) = refused_with(&deep(1), pile, sand);
    assert_eq!((row, field), (0, 0));
    number
}

#[test]
fn record_and_section() {
    let pile = circle(1_000, 10_000);
    let square = rectangle(600, 600, 1_000);
    for kind in 1..=3 {
        for (pile, sand, number) in [
            (pile, Some(GOOD), 0),
            (pile, None, 9),
            (pile, Some(Sand::default()), 17),
            (square, Some(GOOD), 9),
            (square, Some(Sand::default()), 9),
            (square, None, 9),
        ] {
            assert_eq!(
                refused_with(&deep(kind), pile, sand),
                (number, 0, 0),
                "{kind} {pile:?} {sand:?}"
            );
        }
    }
}

#[test]
fn ranges_of_the_record() {
    let pile = circle(1_000, 10_000);
    for (angle, number) in [
        (0, 17),
        (2_555, 17),
        (2_556, 0),
        (4_333, 0),
        (4_334, 17),
        // Nine times this is over 2^32 by 27,005.
        (477_221_589, 17),
        (u32::MAX, 17),
    ] {
        let sand = Sand { angle, ..GOOD };
        assert_eq!(reply(pile, Some(sand)), number, "{sand:?}");
    }
    for (weight, number) in [
        (0, 17),
        (1, 0),
        (30_000, 0),
        (30_001, 17),
        (65_537, 17),
        (u32::MAX, 17),
    ] {
        let below = Sand {
            weight_below: weight,
            ..GOOD
        };
        let above = Sand {
            weight_above: weight,
            ..GOOD
        };
        assert_eq!(reply(pile, Some(below)), number, "{below:?}");
        assert_eq!(reply(pile, Some(above)), number, "{above:?}");
    }
}

/// Four diameters, counted from the cut level whatever the cut; a fill changes nothing.
#[test]
fn too_shallow() {
    let at = |diameter, head, tip, grade| graded(wide(diameter, circle(head, tip)), grade);
    for (pile, number) in [
        (at(2_000, 0, 8_000, 0), 0),
        (at(2_000, 0, 7_999, 0), 17),
        (at(1_999, 0, 7_996, 0), 0),
        (at(1_999, 0, 7_995, 0), 17),
        (at(750, 0, 3_000, 0), 0),
        (at(751, 0, 3_000, 0), 17),
        (at(2_000, 1_000, 9_000, -1_000), 0),
        (at(2_000, 1_000, 8_999, -1_000), 17),
        (at(2_000, 3_000, 11_000, -3_000), 0),
        (at(2_000, 3_000, 10_999, -3_000), 17),
        (at(2_000, 3_001, 11_001, -3_001), 0),
        (at(2_000, 3_001, 11_000, -3_001), 17),
        (at(2_000, 0, 7_999, 3_000), 17),
        (at(2_000, 0, 7_999, 9_000), 17),
    ] {
        assert_eq!(reply(pile, Some(GOOD)), number, "{pile:?}");
    }
}

/// 9 comes before 10, and 10 before 17.
#[test]
fn order_of_checks() {
    let short = circle(8_001, 10_000);
    assert_eq!(reply(short, None), 9);
    assert_eq!(reply(short, Some(GOOD)), 10);
    assert_eq!(reply(short, Some(Sand::default())), 10);
    assert_eq!(reply(circle(8_000, 10_000), Some(GOOD)), 0);
    assert_eq!(reply(circle(8_000, 10_000), Some(Sand::default())), 17);
    // The seat is that of the tip's own sand.
    let strata = |upper| [row(upper, 2, 100, 95), row(20_000, 1, 100, 95)];
    let pile = circle(1_000, 10_000);
    for (upper, sand, number) in [
        (8_000, GOOD, 0),
        (8_001, GOOD, 10),
        (8_001, Sand::default(), 10),
    ] {
        assert_eq!(
            refused_with(&strata(upper), pile, Some(sand)),
            (number, 0, 0)
        );
    }
    assert_eq!(reply(circle(0, 40_001), None), 7);
    let thin = [row(14_999, 1, 100, 95)];
    assert_eq!(refused_with(&thin, pile, None), (8, 0, 0));
}

#[test]
fn capacity_takes_all() {
    for saturation in [0, 80, 89, 90, 100] {
        let rows = [row(30_000, 1, 100, saturation)];
        let (answer, _) = run_with(&rows, circle(1_000, 10_000), Some(GOOD));
        assert_eq!(
            numbers(&answer),
            [345_975, 220_598, 652_146, 872_744, 521_716]
        );
    }
}

/// By the formula below the cap, by the cap above it; the cap goes by kind and depth.
#[test]
fn formula_or_cap() {
    for diameter in [400, 750, 800, 801, 2_000] {
        let pile = wide(diameter, circle(1_000, 10_000));
        let (answer, _) = run_with(&deep(1), pile, Some(GOOD));
        assert_eq!(answer.tip, by_formula(&GOOD, 10_000, diameter));
    }
    for (kind, tip, most) in [
        (1, 3_000, 3_100_000),
        (2, 3_000, 2_000_000),
        (3, 4_000, 1_250_000),
        (1, 34_995, 5_999_600),
        (1, 35_000, 6_000_000),
        (1, 40_000, 6_000_000),
        (2, 35_001, 4_100_000),
        (3, 38_000, 2_250_000),
    ] {
        let (answer, _) = run_with(&deep(kind), wide(750, circle(0, tip)), Some(STRONG));
        assert_eq!(answer.tip, force(most, 750), "{kind} {tip}");
    }
}

/// The formula goes by the depth from the cut level, the cap by the depth as read, which moves only beyond 3,000.
#[test]
fn graded_sites() {
    for (grade, h, read) in [
        (-1_000, 19_000, 20_000),
        (-3_000, 17_000, 20_000),
        (-3_001, 16_999, 19_999),
        (-5_000, 15_000, 18_000),
        (1_000, 20_000, 20_000),
        (3_000, 20_000, 20_000),
        (3_001, 20_000, 20_001),
        (5_000, 20_000, 22_000),
        (18_000, 20_000, 35_000),
        (23_000, 20_000, 40_000),
    ] {
        let pile = graded(circle(5_000, 20_000), grade);
        for kind in 1..=3 {
            let (weak, _) = run_with(&deep(kind), pile, Some(GOOD));
            assert_eq!(weak.tip, by_formula(&GOOD, h, 600), "{grade}");
            let (capped, _) = run_with(&deep(kind), pile, Some(STRONG));
            assert_eq!(capped.tip, force(sand::cap(kind, read), 600), "{grade}");
        }
    }
    let deepest = graded(circle(32_768, 40_000), i16::MIN);
    let (answer, _) = run_with(&deep(1), deepest, Some(GOOD));
    assert_eq!(answer.tip, by_formula(&GOOD, 7_232, 600));
}

/// A clay tip does not look at the record: with any it is answered as with none, 11 and 12 too.
#[test]
fn over_clay() {
    let soft = |index| [row(60_000, 5, index, 80)];
    let pile = circle(1_000, 25_000);
    for rows in [DEEP_CLAY, soft(161), soft(141), soft(140)] {
        for pile in [pile, rectangle(600, 300, 1_000)] {
            let due = run(&rows, pile);
            let most = Sand {
                angle: u32::MAX,
                weight_below: u32::MAX,
                weight_above: u32::MAX,
            };
            for sand in [GOOD, STRONG, Sand::default(), most] {
                assert_eq!(run_with(&rows, pile, Some(sand)), due);
            }
        }
    }
    // Sand above the tip, and sand further down, are no sand at the tip.
    let between = [
        row(8_000, 1, 100, 95),
        row(2_001, 6, 130, 95),
        row(9_999, 1, 100, 95),
    ];
    let pile = circle(1_000, 10_000);
    assert_eq!(refused_with(&between, pile, None), (0, 0, 0));
    let above = [row(10_000, 6, 130, 95), row(10_000, 1, 100, 95)];
    assert_eq!(refused_with(&above, pile, None), (9, 0, 0));
    assert_eq!(refused_with(&above, pile, Some(GOOD)), (10, 0, 0));
}

#[test]
fn carried_records() {
    let numbers = Carried {
        given: 0,
        angle: 3_000,
        weight_below: 10_000,
        weight_above: 18_000,
    };
    assert_eq!(numbers.record(), None);
    for given in [1, 2, u32::MAX] {
        assert_eq!(Carried { given, ..numbers }.record(), Some(GOOD));
    }
    assert_eq!(Carried::from(None), Carried::default());
    assert_eq!(Carried::from(Some(GOOD)).record(), Some(GOOD));
    let zeros = Carried {
        given: 1,
        ..Carried::default()
    };
    assert_eq!(zeros.record(), Some(Sand::default()));
}

/// Each edit holds the answer with its own record; 17 and 9 are held with an empty table.
#[test]
fn held_answers() {
    let pile = pile_bytes(&circle(1_000, 10_000));
    let mut log = log_of(&[row(15_000, 1, 100, 95), row(15_000, 1, 100, 95)]);
    let mut table = vec![0x5A; TABLE];
    let bad = Sand {
        angle: 2_555,
        ..GOOD
    };
    for (sand, number, rows) in [
        (Some(GOOD), 0, 3),
        (Some(bad), 17, 4),
        (Some(GOOD), 0, 5),
        (None, 9, 6),
        (Some(STRONG), 0, 7),
    ] {
        let answer = edit(&mut log, &pile, sand, &mut table, [4, rows - 2, 100], &[]);
        assert_eq!((answer.refusal, answer.kept), (number, 0));
        assert_eq!(u32::from(log[0]), rows);
        let mut afresh = vec![0; TABLE];
        let again = calculate(&log, &pile, sand, &mut afresh);
        assert_eq!((answer, &table), (again, &afresh));
        assert_eq!(table.iter().all(|byte| *byte == 0), number != 0);
    }
    // The record has no part in the table.
    let kept = edit(&mut log, &pile, Some(GOOD), &mut table, [3, 1, 0], &[]);
    assert_eq!((kept.refusal, kept.kept, kept.tip), (0, 5, 220_598));
}
