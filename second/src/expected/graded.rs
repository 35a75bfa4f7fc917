//! Edits with pile records of ten bytes: grades at both sides of each limit, both lengths by turns, and drawn grades.

#![forbid(unsafe_code)]

use super::desk::{Desk, Edit};
use super::fields::{graded, pile, pile_with, row, CLAY, PILE_A};
use super::runs::{any_pile, mixed, steady_edit, GOOD_GROUND};
use super::twister::Twister;
use second::{row_bytes, Answer, Pile, Row};

pub fn edges(desk: &mut Desk) {
    known(desk);
    lengths(desk);
    fields(desk);
    cut_levels(desk);
    tips_as_read(desk);
    natural_depths(desk);
}

/// A row of a millimetre above others is removed, with a pile.
pub fn remove_first(desk: &mut Desk, rows: &[Row], pile: Pile) -> Answer {
    desk.set_log(&[&[row(1, 6, 130, 95)], rows].concat());
    desk.set_pile(pile);
    desk.edit(Edit {
        kind: 3,
        k: 1,
        lent: desk.lent(),
        ..Edit::default()
    })
}

/// Case A with grades, by turns with the record of eight bytes.
fn known(desk: &mut Desk) {
    let deeper = pile(1, 600, 0, 1, 5_000, 12_000);
    for (pile, line, capacity) in [
        (graded(PILE_A, 0), 212_100, 668_403),
        (graded(PILE_A, 3_000), 212_100, 668_403),
        (graded(PILE_A, 3_001), 212_111, 668_446),
        (graded(PILE_A, 5_000), 232_500, 749_268),
        (graded(PILE_A, -1_000), 212_100, 668_403),
        (graded(PILE_A, -1_001), 0, 0),
        (graded(deeper, -5_000), 176_100, 600_545),
    ] {
        let answer = remove_first(desk, &[CLAY], pile);
        assert_eq!((answer.line, answer.capacity), (line, capacity));
        assert_eq!(remove_first(desk, &[CLAY], PILE_A).line, 212_100);
    }
}

/// Every length of the record from 0 to 12, over ten bytes with a grade.
fn lengths(desk: &mut Desk) {
    desk.set_log(&[CLAY]);
    desk.set_pile(graded(PILE_A, 5_000));
    let [log, _, table] = desk.lent();
    for record in 0..=12 {
        let answer = desk.edit(Edit {
            kind: 1,
            k: 1,
            row: &row_bytes(CLAY),
            lent: [log, record, table],
            ..Edit::default()
        });
        assert_eq!(answer.refusal, u32::from(record != 8 && record != 10));
    }
}

/// Bad fields in ten bytes.
fn fields(desk: &mut Desk) {
    for bad in [
        pile(0, 600, 0, 1, 1_000, 10_000),
        pile(1, 149, 0, 1, 1_000, 10_000),
        pile(1, 600, 1, 1, 1_000, 10_000),
        pile_with(PILE_A, 1),
        pile(1, 600, 0, 0, 1_000, 10_000),
    ] {
        remove_first(desk, &[CLAY], graded(bad, -1_001));
    }
}

/// Heads just above, at and just below the cut level, for cuts up to 3,000 and beyond.
fn cut_levels(desk: &mut Desk) {
    let deep = [row(45_000, 6, 130, 95)];
    for cut in [1, 1_000, 2_999, 3_000, 3_001, 10_000, 32_768] {
        for head in [cut - 1, cut, cut + 1] {
            let pile = pile(1, 600, 0, 2, head, 38_000);
            let grade = -i32::from(cut) as i16;
            let answer = remove_first(desk, &deep, graded(pile, grade));
            assert_eq!(answer.refusal, if head < cut { 7 } else { 0 });
        }
    }
}

/// Tips whose depth as read is around 40,000 and 20,000, where the soft columns end; natural depths around their own limits.
fn tips_as_read(desk: &mut Desk) {
    for index in [130, 140, 141] {
        let deep = [row(55_000, 6, index, 95)];
        for (head, tip, grade) in [
            (0, 30_000, 12_999),
            (0, 30_000, 13_000),
            (0, 30_000, 13_001),
            (0, 40_000, 3_000),
            (0, 40_000, 3_001),
            (0, 10_233, 32_767),
            (0, 10_234, 32_767),
            (0, 40_000, 32_767),
            (0, 20_000, 3_000),
            (0, 20_000, 3_001),
            (3_001, 20_001, -3_001),
            (3_001, 20_002, -3_001),
            (23_000, 40_000, -23_000),
            (22_999, 40_000, -22_999),
            (10_000, 40_001, -10_000),
            (0, 3_000, 5_000),
            (0, 2_999, 5_000),
        ] {
            let pile = pile(1, 600, 0, 3, head, tip);
            remove_first(desk, &deep, graded(pile, grade));
        }
    }
}

/// Seat, uplift and the log's end, which no grade moves; and slices of several soils on both sides of a depth of the table.
fn natural_depths(desk: &mut Desk) {
    for grade in [-6_000, -3_001, 0, 3_001, 6_000] {
        for (head, tip) in [
            (8_000, 10_000),
            (8_001, 10_000),
            (6_000, 10_000),
            (6_001, 10_000),
            (6_000, 15_000),
            (6_000, 15_001),
        ] {
            let pile = graded(pile(1, 600, 0, 1, head, tip), grade);
            remove_first(desk, &[CLAY], pile);
        }
        for tip in [17_998, 18_000, 18_001] {
            let pile = graded(pile(2, 800, 400, 1, 6_000, tip), grade);
            remove_first(desk, &GOOD_GROUND, pile);
        }
    }
}

pub fn runs(desk: &mut Desk, twister: &mut Twister) {
    for _ in 0..3 {
        mixed(desk, twister, any_graded_pile, 60);
        steady(desk, twister, 60);
    }
}

const GRADES: [i32; 14] = [
    0, 0, 1, 1_500, 3_000, 3_001, 4_000, 9_999, -1, -500, -1_500, -3_000, -3_001, -6_000,
];

/// A pile with a record of eight bytes, or of ten; the head is mostly not above a cut.
pub fn any_graded_pile(twister: &mut Twister) -> Pile {
    let pile = any_pile(twister);
    if twister.percent(30) {
        return pile;
    }
    let highest = 43_000 - i32::from(pile.tip);
    let drawn = twister.between(0, 65_535) as i32 - 32_768;
    let limits = [highest, highest + 1, drawn];
    let grade = twister.one_of(&[&GRADES[..], &limits].concat());
    let grade = grade.clamp(-32_768, 32_767) as i16;
    let level = (-i32::from(grade)).max(0) as u16;
    let head = if pile.head < level && twister.percent(80) {
        level + twister.one_of(&[0, 0, 1, 700])
    } else {
        pile.head
    };
    graded(Pile { head, ..pile }, grade)
}

/// One pile in good ground, graded anew from time to time: much of the table is kept as long as the grade stays.
fn steady(desk: &mut Desk, twister: &mut Twister, count: u32) {
    desk.set_log(&GOOD_GROUND);
    let pile = pile(1, 600, 0, twister.one_of(&[1, 2, 3]), 3_500, 18_000);
    desk.set_pile(pile);
    for _ in 0..count {
        if twister.percent(15) {
            let grade = twister.one_of(&[0, 2_000, 3_001, 5_000, -2_000, -3_001, -3_500]);
            let eight = grade == 0 && twister.percent(50);
            desk.set_pile(if eight { pile } else { graded(pile, grade) });
        }
        steady_edit(desk, twister);
    }
}
