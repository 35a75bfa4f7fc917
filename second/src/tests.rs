//! The rules one by one.

#![forbid(unsafe_code)]

use crate::cases::{self, log_of, Known};
use crate::*;

mod edits;
mod first_metre;
mod grades;
mod sands;

fn row(thickness: u16, kind: u8, index: u8, saturation: u8) -> Row {
    Row {
        thickness,
        kind,
        index,
        saturation,
        zero: 0,
    }
}

fn circle(head: u16, tip: u16) -> Pile {
    Pile {
        length: 8,
        section: 1,
        a: 600,
        method: 1,
        head,
        tip,
        ..Pile::default()
    }
}

/// With its tip at 10,000.
fn rectangle(a: u16, b: u16, head: u16) -> Pile {
    Pile {
        section: 2,
        a,
        b,
        ..circle(head, 10_000)
    }
}

/// One row as deep as a log may be.
const DEEP_CLAY: [Row; 1] = [Row {
    thickness: 60_000,
    kind: 6,
    index: 130,
    saturation: 95,
    zero: 0,
}];

fn run(rows: &[Row], pile: Pile) -> (Answer, Vec<u8>) {
    run_with(rows, pile, None)
}

fn run_with(rows: &[Row], pile: Pile, sand: Option<Sand>) -> (Answer, Vec<u8>) {
    let mut table = vec![0x5A; TABLE];
    let answer = calculate(&log_of(rows), &pile_bytes(&pile), sand, &mut table);
    (answer, table)
}

/// Line, tip, shaft, capacity, uplift.
fn numbers(answer: &Answer) -> [u64; 5] {
    let Answer {
        line,
        tip,
        shaft,
        capacity,
        uplift,
        ..
    } = *answer;
    [line, tip, shaft, capacity, uplift]
}

/// Refusal, row and field; a refused calculation gives no numbers and leaves or empties the table.
fn refused(rows: &[Row], pile: Pile) -> (u32, u32, u32) {
    refused_with(rows, pile, None)
}

fn refused_with(rows: &[Row], pile: Pile, sand: Option<Sand>) -> (u32, u32, u32) {
    let (answer, table) = run_with(rows, pile, sand);
    let Answer {
        refusal,
        row,
        field,
        ..
    } = answer;
    if refusal != 0 {
        let bare = Answer {
            refusal,
            row,
            field,
            ..Answer::default()
        };
        assert_eq!(answer, bare);
        let left = if refusal <= 4 { 0x5A } else { 0 };
        assert!(table.iter().all(|byte| *byte == left));
    }
    (refusal, row, field)
}

#[test]
fn known_cases() {
    for case in cases::all() {
        let mut table = vec![0xFF; TABLE];
        let answer = calculate(&case.log, &case.pile, case.sand, &mut table);
        let numbers = numbers(&answer);
        match case.known {
            Known::Numbers(known) => {
                assert_eq!(answer.refusal, 0, "case {}", case.name);
                assert_eq!(numbers, known, "case {}", case.name);
            }
            Known::Refusal(number) => {
                assert_eq!(answer.refusal, number, "case {}", case.name);
                assert_eq!(numbers, [0; 5], "case {}", case.name);
                assert!(table.iter().all(|byte| *byte == 0), "case {}", case.name);
            }
        }
        assert_eq!((answer.row, answer.field, answer.kept), (0, 0, 0));
        if let Some(kilopascals) = case.resistance {
            let mut pile = read_pile(&case.pile);
            (pile.section, pile.a, pile.b) = (2, 1_000, 1_000);
            let square = calculate(&case.log, &pile_bytes(&pile), None, &mut table);
            assert_eq!(square.tip, kilopascals * 1_000, "case {}", case.name);
        }
    }
}

#[test]
fn bytes_and_slices_of_case_a() {
    let a = &cases::all()[0];
    assert_eq!(a.log[..6], cases::LOG_A);
    assert!(a.log[6..].iter().all(|byte| *byte == 0));
    assert_eq!(a.pile, cases::PILE_A);
    let mut table = vec![0xFF; TABLE];
    calculate(&a.log, &a.pile, a.sand, &mut table);
    assert_eq!(table[..7], cases::SLICE_A);
    for (place, (top, thickness, friction, factor)) in cases::SLICES_A.into_iter().enumerate() {
        let expected = Slice {
            refusal: 0,
            top,
            thickness,
            friction,
            factor,
        };
        assert_eq!(read_slice(&table, place as u32), expected);
        assert_eq!(table[place * 7..place * 7 + 7], slice_bytes(&expected));
    }
    assert!(table[35..].iter().all(|byte| *byte == 0));
    for place in [5, 82, 83, u32::MAX] {
        assert_eq!(read_slice(&table, place), Slice::default());
    }
    assert_eq!(read_slice(&table[1..], 0).refusal, 1);
}

#[test]
fn full_table() {
    let (rows, pile) = cases::fullest();
    let mut table = vec![0; TABLE];
    let answer = calculate(&log_of(&rows), &pile_bytes(&pile), None, &mut table);
    assert_eq!(answer.refusal, 0);
    assert!(read_slice(&table, 82).thickness > 0);
    let sum: u32 = (0..83)
        .map(|place| u32::from(read_slice(&table, place).thickness))
        .sum();
    assert_eq!(sum, 38_064);
}

#[test]
fn log_checks() {
    log_fields();
    log_counts_and_lengths();
}

fn log_fields() {
    let good = row(20_000, 6, 130, 95);
    for (rows, reply) in [
        (vec![good], (0, 0, 0)),
        (vec![good, row(0, 6, 130, 95)], (3, 2, 1)),
        (vec![good, row(60_001, 6, 130, 95)], (3, 2, 1)),
        (vec![row(20_000, 0, 130, 95)], (3, 1, 2)),
        (vec![row(20_000, 7, 255, 95)], (3, 1, 2)),
        (vec![good, row(1, 1, 101, 0), row(0, 1, 1, 0)], (3, 2, 3)),
        (vec![row(1, 3, 99, 127)], (3, 1, 3)),
        (vec![row(1, 4, 201, 127)], (3, 1, 3)),
        (vec![row(1, 5, 200, 101)], (3, 1, 4)),
        (vec![Row { zero: 1, ..good }], (3, 1, 5)),
        (vec![good, good, row(20_001, 6, 130, 95)], (4, 0, 0)),
        (vec![good, good, good], (0, 0, 0)),
    ] {
        assert_eq!(refused(&rows, circle(1_000, 10_000)), reply, "{rows:?}");
    }
}

fn log_counts_and_lengths() {
    let packed = pile_bytes(&circle(1_000, 10_000));
    let mut table = vec![7; TABLE];
    let mut log = log_of(&[row(20_000, 0, 130, 95)]);
    log[320] = 1;
    assert_eq!(calculate(&log, &packed, None, &mut table).refusal, 2);
    for count in [0, 65, 255] {
        log[0] = count;
        assert_eq!(calculate(&log, &packed, None, &mut table).refusal, 2);
    }
    assert_eq!(calculate(&log[1..], &packed, None, &mut table).refusal, 1);
    assert_eq!(calculate(&log, &packed[1..], None, &mut table).refusal, 1);
    assert_eq!(calculate(&log, &packed, None, &mut table[1..]).refusal, 1);
    assert!(table.iter().all(|byte| *byte == 7));
}

#[test]
fn pile_checks() {
    circle_fields();
    rectangle_fields();
    depths_and_seats();
}

fn circle_fields() {
    // Section, a, b, method and zero bits.
    for (fields, reply) in [
        ((1, 600, 0, 1, 0), (0, 0, 0)),
        ((0, 0, 0, 1, 0), (5, 0, 1)),
        ((3, 600, 0, 1, 0), (5, 0, 1)),
        ((1, 149, 1, 1, 0), (5, 0, 2)),
        ((1, 2_001, 0, 1, 0), (5, 0, 2)),
        ((1, 600, 1, 1, 1), (5, 0, 3)),
        ((1, 600, 0, 0, 8), (5, 0, 4)),
    ] {
        let mut pile = circle(1_000, 10_000);
        (pile.section, pile.a, pile.b, pile.method, pile.zero) = fields;
        assert_eq!(refused(&DEEP_CLAY, pile), reply, "{pile:?}");
    }
    let mut pile = circle(1_000, 0);
    pile.method = 0;
    assert_eq!(refused(&DEEP_CLAY, pile), (6, 0, 0));
}

fn rectangle_fields() {
    for (a, b, reply) in [
        (300, 4_000, (0, 0, 0)),
        (299, 4_000, (5, 0, 2)),
        (4_001, 4_000, (5, 0, 2)),
        (300, 299, (5, 0, 3)),
        (300, 4_001, (5, 0, 3)),
    ] {
        let pile = rectangle(a, b, 1_000);
        assert_eq!(refused(&DEEP_CLAY, pile), reply, "{pile:?}");
    }
}

fn depths_and_seats() {
    for (pile, reply) in [
        (circle(3_000, 3_000), (7, 0, 0)),
        (circle(0, 2_999), (7, 0, 0)),
        (circle(0, 3_000), (0, 0, 0)),
        (circle(0, 40_000), (0, 0, 0)),
        (circle(0, 40_001), (7, 0, 0)),
        (circle(8_000, 10_000), (0, 0, 0)),
        (circle(8_001, 10_000), (10, 0, 0)),
        (rectangle(300, 4_000, 6_000), (0, 0, 0)),
        (rectangle(300, 4_000, 6_001), (10, 0, 0)),
    ] {
        assert_eq!(refused(&DEEP_CLAY, pile), reply, "{pile:?}");
    }
}

#[test]
fn ground_checks() {
    let clay = row(10_000, 6, 130, 95);
    let sand = row(10_000, 2, 100, 95);
    assert_eq!(refused(&[clay, sand], circle(0, 10_000)), (9, 0, 0));
    assert_eq!(refused(&[clay, sand], circle(0, 9_999)), (0, 0, 0));
    assert_eq!(refused(&[sand, clay], circle(0, 10_000)), (10, 0, 0));
    let deep = row(30_000, 6, 141, 95);
    assert_eq!(refused(&[deep], circle(0, 20_000)), (0, 0, 0));
    assert_eq!(refused(&[deep], circle(0, 20_001)), (12, 0, 0));
    assert_eq!(
        refused(&[row(30_000, 6, 140, 95)], circle(0, 20_001)),
        (0, 0, 0)
    );
    assert_eq!(
        refused(&[row(30_000, 6, 161, 95)], circle(0, 20_001)),
        (11, 0, 0)
    );
    // Saturation alone parts strata.
    assert_eq!(
        refused(&[clay, row(10_000, 6, 130, 94)], circle(0, 11_999)),
        (10, 0, 0)
    );
}

#[test]
fn factors() {
    for (method, kind, tenths) in [
        (1, 1, 7),
        (1, 2, 7),
        (1, 3, 7),
        (1, 4, 7),
        (1, 5, 7),
        (1, 6, 6),
        (2, 1, 6),
        (2, 3, 6),
        (2, 4, 6),
        (2, 5, 6),
        (2, 6, 6),
        (3, 1, 8),
        (3, 2, 8),
        (3, 4, 8),
        (3, 5, 8),
        (3, 6, 7),
    ] {
        let rows = [row(2_000, kind, 100, 95), row(18_000, 6, 130, 95)];
        let (_, table) = run(
            &rows,
            Pile {
                method,
                ..circle(0, 10_000)
            },
        );
        assert_eq!(read_slice(&table, 0).factor, tenths);
    }
}

#[test]
fn uplift_by_length() {
    let rows = [row(60_000, 6, 130, 95)];
    let (short, _) = run(&rows, circle(6_001, 10_000));
    let (long, _) = run(&rows, circle(6_000, 10_000));
    assert_eq!(short.uplift, short.shaft * 6 / 10);
    assert_eq!(long.uplift, long.shaft * 8 / 10);
}

#[test]
fn reading_and_packing() {
    logs_read_and_packed();
    piles_read_and_packed();
}

fn logs_read_and_packed() {
    let rows = [row(60_000, 6, 130, 95), row(60_000, 1, 100, 0)];
    let packed = log_of(&rows);
    let fields = read_log(&packed);
    assert_eq!((fields.refusal, fields.count), (0, 2));
    assert_eq!(fields.rows[..2], rows);
    let mut out = [9; LOG];
    assert_eq!(pack_log(&fields, &mut out), Answer::default());
    assert_eq!(out, packed);

    let mut bad = fields.clone();
    bad.rows[63].zero = 64;
    assert_eq!(pack_log(&bad, &mut out).refusal, 2);
    bad.rows[63].zero = 0;
    bad.rows[1].index = 255;
    let answer = pack_log(&bad, &mut out);
    assert_eq!((answer.refusal, answer.row, answer.field), (3, 2, 3));
    assert_eq!(pack_log(&bad, &mut out[..320]).refusal, 1);
    assert_eq!(out, packed);
    assert_eq!(
        read_log(&packed[..320]),
        Log {
            refusal: 1,
            ..Log::default()
        }
    );
}

fn piles_read_and_packed() {
    let pile = Pile {
        head: 65_535,
        tip: 0,
        ..circle(0, 0)
    };
    let bytes = pile_bytes(&pile);
    assert_eq!(read_pile(&bytes), pile);
    let mut out = [9; PILE];
    assert_eq!(pack_pile(&pile, &mut out), Answer::default());
    assert_eq!(out[..], bytes);
    assert_eq!(pack_pile(&Pile { method: 4, ..pile }, &mut out).refusal, 6);
    assert_eq!(pack_pile(&Pile { section: 5, ..pile }, &mut out).field, 1);
    assert_eq!(pack_pile(&Pile { zero: 16, ..pile }, &mut out).field, 4);
    assert_eq!(pack_pile(&Pile { b: 4_096, ..pile }, &mut out).field, 3);
    assert_eq!(pack_pile(&pile, &mut out[..7]).refusal, 1);
    assert_eq!(out[..], bytes);
    assert_eq!(
        read_pile(&bytes[..7]),
        Pile {
            refusal: 1,
            ..Pile::default()
        }
    );
}
