//! Which records are read and packed: document 01's own, every field at its ends, all counts and lengths, drawn bytes, and pile records
//! with a grade.

#![forbid(unsafe_code)]

use super::fields::{graded, pile, pile_with, row, row_with, CLAY, PILE_A};
use super::records::Cases;
use super::twister::Twister;
use second::cases::{self, log_of, LOG_A, SLICE_A};
use second::{pile_bytes, read_pile, Pile, Row, Slice, GRADED_PILE, LOG, PILE, TABLE};

/// A good row.
const GOOD: Row = row(500, 5, 110, 40);
/// A row with every field bad.
const BAD: Row = row_with(0, 7, 255, 127, 63);

pub fn all() -> Cases {
    let mut cases = Cases::default();
    let mut twister = Twister::new(20_285);
    printed(&mut cases);
    row_fields(&mut cases);
    rows_with_many(&mut cases);
    counts(&mut cases);
    unused_places(&mut cases);
    lengths(&mut cases);
    pile_fields(&mut cases);
    piles_with_many(&mut cases);
    slices(&mut cases, &mut twister);
    drawn_rows(&mut cases, &mut twister);
    grades(&mut cases);
    graded_lengths(&mut cases);
    graded_fields(&mut cases);
    drawn_piles(&mut cases, &mut twister);
    cases
}

fn log_a() -> [u8; LOG] {
    let mut log = [0; LOG];
    log[..LOG_A.len()].copy_from_slice(&LOG_A);
    log
}

/// Rows with another count than theirs.
fn log_with(rows: &[Row], count: u8) -> [u8; LOG] {
    let mut log = log_of(rows);
    log[0] = count;
    log
}

fn slice(top: u16, thickness: u16, friction: u32, factor: u8) -> Slice {
    Slice {
        refusal: 0,
        top,
        thickness,
        friction,
        factor,
    }
}

/// The bytes that document 01 prints.
fn printed(cases: &mut Cases) {
    assert_eq!(log_a(), log_of(&[CLAY]));
    assert_eq!(pile_bytes(&PILE_A), cases::PILE_A);
    let mut table = [0; TABLE];
    table[..SLICE_A.len()].copy_from_slice(&SLICE_A);
    cases.read_log(&log_a());
    cases.read_rows(&log_a());
    cases.pack_log(1, &[CLAY], LOG);
    cases.read_pile(&cases::PILE_A);
    cases.pack_pile(&PILE_A, PILE);
    cases.pack_slice(&slice(1_000, 2_000, 6_000_000, 6));
    cases.read_slice(&table, 0);
    cases.read_row(&log_a(), 1);
}

/// Every field of a row at its lowest and highest, one below and one above, for sands and others, read and packed.
fn row_fields(cases: &mut Cases) {
    let values: [&[u16]; 5] = [
        &[0, 1, 60_000, 60_001, 65_535],
        &[0],
        &[0, 99, 100, 101, 200, 201, 255],
        &[0, 100, 101, 127],
        &[0, 1, 63],
    ];
    for (field, values) in values.into_iter().enumerate() {
        for kind in [1, 3, 4, 6] {
            for value in values {
                let mut row = row(500, kind, 100, 40);
                match field {
                    0 => row.thickness = *value,
                    1 => row.kind = *value as u8,
                    2 => row.index = *value as u8,
                    3 => row.saturation = *value as u8,
                    _ => row.zero = *value as u8,
                }
                cases.read_log(&log_of(&[GOOD, row, GOOD]));
                cases.pack_log(3, &[GOOD, row, GOOD], LOG);
                cases.pack_row(&row);
            }
        }
    }
}

/// Rows whose fields have more bits than their places, and rows with many bad fields.
fn rows_with_many(cases: &mut Cases) {
    for row in [
        row(1, 8, 0, 0),
        row(1, 255, 100, 0),
        row(1, 4, 100, 128),
        row(1, 4, 100, 255),
        row_with(1, 4, 100, 100, 64),
        row_with(1, 4, 100, 100, 255),
        row_with(65_535, 255, 255, 255, 255),
        row_with(0, 255, 255, 255, 255),
    ] {
        cases.pack_log(1, &[row], LOG);
        cases.pack_row(&row);
    }
    cases.read_log(&log_of(&[row_with(0, 0, 255, 127, 63)]));
    cases.read_log(&log_of(&[row_with(1, 0, 255, 127, 63)]));
    cases.read_log(&log_of(&[row_with(1, 6, 201, 127, 63)]));
    cases.read_log(&log_of(&[row_with(1, 6, 200, 127, 63)]));
    let mut rows = [GOOD; 64];
    rows[63] = row_with(1, 2, 100, 0, 1);
    cases.read_log(&log_of(&rows));
    cases.pack_log(64, &rows, LOG);
}

/// All 256 counts, over places that are used as the count says and over one place; some over 64 places.
fn counts(cases: &mut Cases) {
    let full: Vec<Row> = (0..64)
        .map(|place: u8| row(300 + 7 * u16::from(place), 1 + place % 6, 100, place))
        .collect();
    for count in 0..=255 {
        let rows = full.get(..usize::from(count)).unwrap_or(&[]);
        cases.read_log(&log_with(rows, count));
        cases.read_log(&log_with(&full[..1], count));
        cases.pack_log(count, rows, LOG);
        cases.pack_log(count, &full[..1], LOG);
    }
    for count in [0, 1, 32, 62, 63, 64, 65, 255] {
        cases.read_log(&log_with(&full, count));
        cases.pack_log(count, &full, LOG);
    }
    cases.read_rows(&log_of(&full));
}

/// A place that is not used and not zero, in each byte and each field; 2 before 3, and 3 in the order of rows and fields.
fn unused_places(cases: &mut Cases) {
    for at in [11, 12, 15, 16, 200, 320] {
        let mut log = log_of(&[BAD, GOOD]);
        log[at] = 1;
        cases.read_log(&log);
    }
    for unused in [
        row(1, 0, 0, 0),
        row(0, 1, 0, 0),
        row(0, 0, 1, 0),
        row(0, 0, 0, 1),
        row_with(0, 0, 0, 0, 1),
    ] {
        for place in [2, 3, 63] {
            let mut rows = [Row::default(); 64];
            rows[0] = BAD;
            rows[1] = GOOD;
            rows[place] = unused;
            cases.pack_log(2, &rows, LOG);
        }
    }
    let rows = [GOOD, row_with(1, 7, 255, 127, 63), BAD];
    cases.read_log(&log_of(&rows));
    cases.pack_log(3, &rows, LOG);
}

/// All lengths around those of a log and a pile record, and some of a slice table.
fn lengths(cases: &mut Cases) {
    let cut = |bytes: &[u8], length: usize| {
        let mut bytes = bytes.to_vec();
        bytes.resize(length, 0);
        bytes
    };
    for length in 0..=330 {
        cases.read_log(&cut(&log_a(), length));
        cases.pack_log(1, &[CLAY], length);
    }
    for length in 0..=12 {
        cases.read_pile(&cut(&cases::PILE_A, length));
        cases.pack_pile(&PILE_A, length);
    }
    for length in [0, 1, 7, 574, 580, 581, 582, 588] {
        cases.read_slice(&cut(&SLICE_A, length), 0);
    }
}

/// Every field of a circle's and of a rectangle's record, read and packed.
fn pile_fields(cases: &mut Cases) {
    let sides = [0, 149, 150, 299, 300, 2_000, 2_001, 4_000, 4_001, 4_095];
    let depths = [0, 1, 65_534, 65_535];
    let values: [&[u16]; 7] = [
        &[0, 1, 2, 3],
        &sides,
        &[0, 1, 299, 300, 4_000, 4_001, 4_095],
        &[0, 1, 2, 3],
        &depths,
        &depths,
        &[0, 1, 15],
    ];
    for base in [PILE_A, pile(2, 800, 400, 3, 0, 65_535)] {
        for (field, values) in values.into_iter().enumerate() {
            for value in values {
                let pile = with_field(base, field, *value);
                cases.read_pile(&pile_bytes(&pile));
                cases.pack_pile(&pile, PILE);
            }
        }
    }
}

fn with_field(mut pile: Pile, field: usize, value: u16) -> Pile {
    match field {
        0 => pile.section = value as u8,
        1 => pile.a = value,
        2 => pile.b = value,
        3 => pile.method = value as u8,
        4 => pile.head = value,
        5 => pile.tip = value,
        _ => pile.zero = value as u8,
    }
    pile
}

/// Piles whose fields have more bits than their places, and piles with many bad fields: 5 in the order of its fields, and before 6.
fn piles_with_many(cases: &mut Cases) {
    let circle = pile(1, 600, 0, 1, 1, 2);
    for pile in [
        pile(4, 600, 0, 1, 1, 2),
        pile(255, 600, 0, 1, 1, 2),
        pile(1, 4_096, 0, 1, 1, 2),
        pile(2, 65_535, 400, 1, 1, 2),
        pile(2, 400, 65_535, 1, 1, 2),
        pile(1, 600, 0, 4, 1, 2),
        pile(1, 600, 0, 255, 1, 2),
        pile_with(circle, 16),
        pile_with(circle, 255),
    ] {
        cases.pack_pile(&pile, PILE);
    }
    let bad = [
        pile(1, 600, 0, 0, 1, 2),
        pile(1, 600, 1, 0, 1, 2),
        pile(1, 149, 1, 0, 1, 2),
        pile(0, 149, 1, 0, 1, 2),
    ]
    .map(|pile| pile_with(pile, 1));
    for pile in &bad {
        cases.pack_pile(pile, PILE);
    }
    for pile in &bad {
        cases.read_pile(&pile_bytes(pile));
    }
}

/// Each field of a slice at its ends, and every place of a table of drawn bytes.
fn slices(cases: &mut Cases, twister: &mut Twister) {
    for top in [0, 1, u16::MAX] {
        cases.pack_slice(&slice(top, 0, 0, 0));
    }
    for thickness in [0, 1, (1 << 11) - 1] {
        cases.pack_slice(&slice(0, thickness, 0, 0));
    }
    for friction in [0, 1, (1 << 25) - 1] {
        cases.pack_slice(&slice(0, 0, friction, 0));
    }
    for factor in [0, 1, 15] {
        cases.pack_slice(&slice(0, 0, 0, factor));
    }
    cases.pack_slice(&slice(u16::MAX, u16::MAX, u32::MAX, u8::MAX));
    let table = twister.bytes(TABLE);
    for place in (0..85).chain([255, 256, 65_535]) {
        cases.read_slice(&table, place);
    }
}

/// Rows of drawn bytes, also at and past the end.
fn drawn_rows(cases: &mut Cases, twister: &mut Twister) {
    let bytes = twister.bytes(40);
    for at in (0..10).chain(30..45).chain([320, 65_535]) {
        cases.read_row(&bytes, at);
    }
    cases.read_row(&[], 0);
    cases.read_row(&bytes[..5], 0);
}

/// Ten bytes with every grade around a limit and at the ends of its bits, read and packed; and packed to eight, which only 0 can be.
fn grades(cases: &mut Cases) {
    for base in [PILE_A, pile(2, 800, 400, 3, 0, 65_535)] {
        for grade in [
            0, 1, 255, 256, 2_999, 3_000, 3_001, 32_766, 32_767, -1, -2, -256, -257, -1_000,
            -2_999, -3_000, -3_001, -32_767, -32_768,
        ] {
            let pile = graded(base, grade);
            cases.read_pile(&pile_bytes(&pile));
            cases.pack_pile(&pile, GRADED_PILE);
            cases.pack_pile(&pile, PILE);
        }
    }
}

/// All lengths around both of a pile record, with a grade and with a grade of 0.
fn graded_lengths(cases: &mut Cases) {
    for grade in [-1_000, 0, 1] {
        let pile = graded(PILE_A, grade);
        for length in 0..=12 {
            let mut bytes = pile_bytes(&pile);
            bytes.resize(length, 0);
            cases.read_pile(&bytes);
            cases.pack_pile(&pile, length);
        }
    }
}

/// Ten bytes with each bit of case A's the other way, read; and with bad fields, packed to ten bytes and to eight: 1 before 5.
fn graded_fields(cases: &mut Cases) {
    for bit in 0..80 {
        let mut bytes = pile_bytes(&graded(PILE_A, -1_000));
        bytes[bit / 8] ^= 0x80 >> (bit % 8);
        cases.read_pile(&bytes);
    }
    for bad in [
        pile(0, 600, 0, 1, 1, 2),
        pile(1, 149, 0, 1, 1, 2),
        pile(1, 600, 1, 1, 1, 2),
        pile_with(PILE_A, 8),
        pile(1, 600, 0, 0, 1, 2),
        pile(1, 600, 0, 4, 1, 2),
    ] {
        for grade in [0, 1, -32_768] {
            let pile = graded(bad, grade);
            cases.pack_pile(&pile, GRADED_PILE);
            cases.pack_pile(&pile, PILE);
        }
    }
}

/// Records of ten drawn bytes, most of them with good fields before the head; what can be read is packed again.
fn drawn_piles(cases: &mut Cases, twister: &mut Twister) {
    for _ in 0..60 {
        let mut bytes = twister.bytes(GRADED_PILE);
        if twister.percent(80) {
            bytes[..3].copy_from_slice(&cases::PILE_A[..3]);
            bytes[3] = cases::PILE_A[3] | bytes[3] & 0x0F;
            bytes[7] &= 0xF0;
        }
        cases.read_pile(&bytes);
        let fields = read_pile(&bytes);
        if fields.refusal == 0 {
            cases.pack_pile(&fields, GRADED_PILE);
            cases.pack_pile(&fields, PILE);
        }
    }
}
