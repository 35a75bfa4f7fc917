//! The rule of the first metre.

#![forbid(unsafe_code)]

use super::{circle, numbers, row, run, run_with};
use crate::*;

fn graded(pile: Pile, grade: i16) -> Pile {
    Pile {
        length: 10,
        grade,
        ..pile
    }
}

/// Clay of index 0.30, as deep as every pile here needs.
fn lower() -> Row {
    row(19_000, 6, 130, 95)
}

/// Top, thickness and friction of the first slice, with a row above the lower clay.
fn first(upper: Row, pile: Pile) -> (u16, u16, u32) {
    let (answer, table) = run(&[upper, lower()], pile);
    assert_eq!(answer.refusal, 0, "{upper:?} {pile:?}");
    let slice = read_slice(&table, 0);
    (slice.top, slice.thickness, slice.friction)
}

/// Clay of index 0.40, whose friction is 15 kPa at 1 m.
fn clay(thickness: u16) -> Row {
    row(thickness, 6, 140, 95)
}

#[test]
fn from_the_ground() {
    for (thickness, friction) in [
        (1, 1_500),
        (2, 3_000),
        (1_000, 1_500_000),
        (1_001, 1_501_500),
        (1_998, 2_997_000),
        (1_999, 2_998_500),
        (2_000, 3_000_000),
    ] {
        assert_eq!(
            first(clay(thickness), circle(0, 10_000)),
            (0, thickness, friction)
        );
    }
    let between = row(1, 6, 137, 95);
    assert_eq!(first(between, circle(0, 10_000)), (0, 1, 1_740));
}

/// Just at 1 m and half a millimetre to either side, in slices thin and thick.
#[test]
fn around_one_metre() {
    for (head, bottom, friction) in [
        (999, 1_000, 2_998_500),
        (998, 1_001, 2_998_500),
        (999, 1_001, 3_000_000),
        (500, 1_500, 3_000_000),
        (1, 1_999, 3_000_000),
        (1_000, 1_001, 3_000_600),
        (1, 2_000, 3_000_600),
    ] {
        let slice = first(clay(bottom), circle(head, 10_000));
        assert_eq!(slice, (head, bottom - head, friction));
    }
}

/// At many middles and indices friction is in proportion to the depth, and whole.
#[test]
fn in_proportion() {
    for index in (119..=200).step_by(3) {
        let soil = |thickness| row(thickness, 4, index, 95);
        let (_, _, at_1_m) = first(soil(2_000), circle(0, 10_000));
        for middle in (1..=2_000).step_by(41) {
            let thickness = 2 - middle % 2;
            let head = (middle - thickness) / 2;
            let (_, _, friction) = first(soil(head + thickness), circle(head, 10_000));
            assert_eq!(
                u64::from(friction) * 2_000,
                u64::from(at_1_m) * u64::from(middle)
            );
        }
    }
}

#[test]
fn sands() {
    for (kind, friction) in [(1, 3_503_500), (2, 2_302_300), (3, 1_501_500)] {
        let sand = row(1_001, kind, 100, 40);
        assert_eq!(first(sand, circle(0, 10_000)), (0, 1_001, friction));
    }
}

/// The depth as read decides: what a fill has over 3,000 is added to it. No cut moves a slice into the first metre.
#[test]
fn graded_sites() {
    for (head, grade, friction) in [
        (0, 0, 1_501_500),
        (0, 3_000, 1_501_500),
        (0, 3_001, 1_504_500),
        (0, 3_200, 2_101_500),
        (0, 3_499, 2_998_500),
        (0, 3_500, 3_000_600),
        (0, 5_000, 4_600_400),
        (500, -500, 2_251_500),
        (500, -1, 2_251_500),
        (999, -999, 3_000_000),
    ] {
        let pile = graded(circle(head, 10_000), grade);
        assert_eq!(first(clay(1_001), pile), (head, 1_001 - head, friction));
    }
    // The head at the level of a cut beyond 3,000 is read at 3 m.
    for cut in [3_001, 9_000] {
        let pile = graded(circle(cut, 30_000), -(cut as i16));
        let (_, table) = run(&[row(60_000, 6, 140, 95)], pile);
        assert_eq!(read_slice(&table, 0).friction, 5_400_000);
    }
}

/// The whole sheet: only the first slice has less than the table's friction, and the tip table is read as ever.
#[test]
fn whole_sheet() {
    let (answer, table) = run(&[clay(1_001), lower()], circle(0, 10_000));
    let slices = [
        (0, 1_001, 1_501_500),
        (1_001, 2_000, 6_001_000),
        (3_001, 2_000, 7_600_400),
        (5_001, 2_000, 8_400_200),
        (7_001, 2_000, 8_800_200),
        (9_001, 999, 9_100_100),
        (0, 0, 0),
    ];
    for (place, due) in slices.into_iter().enumerate() {
        let slice = read_slice(&table, place as u32);
        assert_eq!((slice.top, slice.thickness, slice.friction), due);
    }
    assert_eq!(
        numbers(&answer),
        [216_592, 268_605, 408_265, 676_870, 326_612]
    );
}

/// Several strata above 1 m, each in proportion by itself; a sand tip changes nothing of it.
#[test]
fn thin_strata() {
    let sand = Sand {
        angle: 3_000,
        weight_below: 10_000,
        weight_above: 18_000,
    };
    let upper = [row(3, 1, 100, 50), row(1, 5, 155, 50), row(996, 4, 120, 50)];
    let lower = [row(20_000, 6, 130, 95), row(20_000, 3, 100, 95)];
    for (place, sand) in [(0, None), (1, Some(sand))] {
        let rows = [&upper[..], &lower[place..=place]].concat();
        let (answer, table) = run_with(&rows, circle(0, 10_000), sand);
        assert_eq!(answer.refusal, 0);
        // 35, 10 and 35 kPa at 1 m; the fourth slice is read at 2 m.
        for (place, friction) in [(0, 10_500), (1, 7_000), (2, 3_514_000)] {
            assert_eq!(read_slice(&table, place).friction, friction);
        }
        assert!(read_slice(&table, 3).friction >= 21 * 200_000);
    }
}
