//! The rules of graded sites.

#![forbid(unsafe_code)]

use super::{circle, numbers, rectangle, refused, row, run, DEEP_CLAY};
use crate::cases::log_of;
use crate::*;

fn graded(pile: Pile, grade: i16) -> Pile {
    Pile {
        length: 10,
        grade,
        ..pile
    }
}

/// A fill beyond 3,000 in ground of one soil: the numbers are those of a pile that stands as much deeper, the slices stay where they are.
#[test]
fn fill_reads_deeper() {
    for (fill, deeper) in [
        (0, 0),
        (3_000, 0),
        (3_001, 1),
        (4_234, 1_234),
        (9_000, 6_000),
    ] {
        let (answer, table) = run(&DEEP_CLAY, graded(circle(1_001, 12_346), fill));
        let (same, below) = run(&DEEP_CLAY, circle(1_001 + deeper, 12_346 + deeper));
        same_but_for_tops(&answer, &table, &same, &below, i32::from(deeper));
    }
}

/// A cut likewise, as much higher.
#[test]
fn cut_reads_higher() {
    for (cut, higher) in [
        (0, 0),
        (3_000, 0),
        (3_001, 1),
        (4_234, 1_234),
        (9_000, 6_000),
    ] {
        let (answer, table) = run(&DEEP_CLAY, graded(circle(9_000, 32_346), -cut));
        let (same, above) = run(&DEEP_CLAY, circle(9_000 - higher, 32_346 - higher));
        same_but_for_tops(&answer, &table, &same, &above, -i32::from(higher));
    }
}

fn same_but_for_tops(answer: &Answer, table: &[u8], same: &Answer, moved: &[u8], by: i32) {
    assert_eq!(answer.refusal, 0);
    assert_eq!(answer, same);
    for place in 0..SLICES as u32 {
        let slice = read_slice(table, place);
        let moved = read_slice(moved, place);
        if slice.thickness > 0 {
            assert_eq!(i32::from(slice.top) + by, i32::from(moved.top));
        }
        assert_eq!(
            (slice.thickness, slice.friction, slice.factor),
            (moved.thickness, moved.friction, moved.factor)
        );
    }
}

#[test]
fn heads_above_the_cut() {
    for cut in [1, 2_999, 3_000, 3_001, 20_000] {
        let at = |head| graded(circle(head, 30_000), -cut);
        let level = cut as u16;
        assert_eq!(refused(&DEEP_CLAY, at(level)), (0, 0, 0), "{cut}");
        assert_eq!(refused(&DEEP_CLAY, at(level - 1)), (7, 0, 0), "{cut}");
    }
    let deepest = |head| graded(circle(head, 40_000), i16::MIN);
    assert_eq!(refused(&DEEP_CLAY, deepest(32_768)), (0, 0, 0));
    assert_eq!(refused(&DEEP_CLAY, deepest(32_767)), (7, 0, 0));
}

#[test]
fn tips_as_read() {
    // Head, tip, grade.
    for (pile, reply) in [
        ((0, 30_000, 13_000), 0),
        ((0, 30_000, 13_001), 7),
        ((0, 40_000, 3_000), 0),
        ((0, 40_000, 3_001), 7),
        ((0, 10_233, i16::MAX), 0),
        ((0, 10_234, i16::MAX), 7),
        ((0, 40_000, i16::MAX), 7),
        // The old limits hold of natural depths.
        ((10_000, 40_001, -10_000), 7),
        ((10_000, 40_000, -10_000), 0),
        ((0, 2_999, 5_000), 7),
        ((0, 3_000, 5_000), 0),
    ] {
        let (head, tip, grade) = pile;
        let pile = graded(circle(head, tip), grade);
        assert_eq!(refused(&DEEP_CLAY, pile), (reply, 0, 0), "{pile:?}");
    }
    let square = rectangle(1_000, 1_000, 0);
    let deepest = graded(
        Pile {
            tip: 30_000,
            ..square
        },
        13_000,
    );
    let (answer, _) = run(&[row(35_000, 6, 130, 95)], deepest);
    assert_eq!(answer.tip, 3_000_000);
}

/// Seat, 5,000 below the tip, 4,000 of uplift and the dash: only the last goes by the depth as read.
#[test]
fn what_stays_natural() {
    let clay = [row(15_000, 6, 130, 95)];
    for grade in [-6_001, -3_001, 3_001, 20_000] {
        let at = |head, tip| graded(circle(head, tip), grade);
        assert_eq!(refused(&clay, at(8_000, 10_000)), (0, 0, 0));
        assert_eq!(refused(&clay, at(8_001, 10_000)), (10, 0, 0));
        assert_eq!(refused(&clay, at(7_000, 10_001)), (8, 0, 0));
        let (short, _) = run(&clay, at(6_001, 10_000));
        assert_eq!(short.uplift, short.shaft * 6 / 10);
    }
    let (long, _) = run(&clay, graded(circle(6_000, 10_000), -6_000));
    assert_eq!(long.uplift, long.shaft * 8 / 10);
    let soft = [row(30_000, 6, 145, 95)];
    for (pile, reply) in [
        (graded(circle(3_001, 20_001), -3_001), 0),
        (graded(circle(3_001, 20_002), -3_001), 12),
        (graded(circle(0, 20_000), 3_000), 0),
        (graded(circle(0, 20_000), 3_001), 12),
        (graded(circle(0, 19_999), 3_001), 0),
    ] {
        assert_eq!(refused(&soft, pile), (reply, 0, 0), "{pile:?}");
    }
}

#[test]
fn records_of_both_lengths() {
    let a = circle(1_000, 10_000);
    for (grade, last) in [
        (0, [0x00, 0x00]),
        (1, [0x00, 0x01]),
        (-1, [0xFF, 0xFF]),
        (-1_000, [0xFC, 0x18]),
        (i16::MAX, [0x7F, 0xFF]),
        (i16::MIN, [0x80, 0x00]),
    ] {
        let ten = graded(a, grade);
        let bytes = pile_bytes(&ten);
        assert_eq!(bytes[..8], cases::PILE_A);
        assert_eq!(bytes[8..], last);
        assert_eq!(read_pile(&bytes), ten);
        let mut out = [9; GRADED_PILE];
        assert_eq!(pack_pile(&ten, &mut out), Answer::default());
        assert_eq!(out[..], bytes);
    }
    assert_eq!(read_pile(&cases::PILE_A), a);
    for length in [0, 7, 9, 11] {
        let bytes = vec![0x49; length];
        let due = Pile {
            refusal: 1,
            ..Pile::default()
        };
        assert_eq!(read_pile(&bytes), due);
    }
}

/// A grade in eight bytes is 1, before 5; a length that is asked for counts for nothing.
#[test]
fn grades_in_eight_bytes() {
    let a = circle(1_000, 10_000);
    let mut out = [9; PILE];
    for grade in [-1, 1, i16::MIN, i16::MAX] {
        let ten = graded(a, grade);
        assert_eq!(pack_pile(&ten, &mut out).refusal, 1);
        let bad = Pile { section: 0, ..ten };
        assert_eq!(pack_pile(&bad, &mut out).refusal, 1);
        assert_eq!(pack_pile(&bad, &mut [9; GRADED_PILE]).refusal, 5);
        for length in [7, 9, 11] {
            assert_eq!(pack_pile(&ten, &mut vec![9; length]).refusal, 1);
        }
    }
    assert_eq!(out, [9; PILE]);
    for length in [0, 8, 10, 255] {
        assert_eq!(pack_pile(&Pile { length, ..a }, &mut out).refusal, 0);
        assert_eq!(out, cases::PILE_A);
    }
}

/// Calculations and edits take both lengths, from edit to edit, and no other.
#[test]
fn lent_records() {
    let mut log = log_of(&[row(20_000, 6, 130, 95)]);
    let mut table = [7; TABLE];
    let ten = pile_bytes(&graded(circle(1_000, 10_000), 5_000));
    for length in [0, 7, 9] {
        assert_eq!(calculate(&log, &ten[..length], None, &mut table).refusal, 1);
        assert_eq!(
            edit(&mut log, &ten[..length], None, &mut table, [4, 1, 9], &[]).refusal,
            1
        );
    }
    let eleven = [&ten[..], &[0]].concat();
    assert_eq!(calculate(&log, &eleven, None, &mut table).refusal, 1);
    assert_eq!(
        edit(&mut log, &eleven, None, &mut table, [4, 1, 9], &[]).refusal,
        1
    );
    assert_eq!(table, [7; TABLE]);

    let plain = edit(&mut log, &ten[..8], None, &mut table, [4, 1, 9], &[]);
    assert_eq!((plain.refusal, plain.line, plain.kept), (0, 212_100, 0));
    let filled = edit(&mut log, &ten, None, &mut table, [4, 1, 1], &[]);
    assert_eq!(
        numbers(&filled),
        [232_500, 311_017, 438_251, 749_268, 350_600]
    );
    assert_eq!((filled.refusal, filled.kept), (0, 0));
    let again = edit(&mut log, &ten, None, &mut table, [3, 1, 0], &[]);
    assert_eq!((again.refusal, again.kept), (0, 5));
}
