//! Edits at each refusal that refuses an edit, and at both sides of each limit that an edit has.

#![forbid(unsafe_code)]

use super::desk::{Desk, Edit, Piece};
use super::fields::{row, row_with, CLAY, PILE_A};
use second::{row_bytes, Answer, Row};

pub fn edges(desk: &mut Desk) {
    case_a(desk);
    lengths(desk);
    kinds(desk);
    split_points(desk);
    named_rows(desk);
    new_rows(desk);
    depths(desk);
    lent_rows(desk);
    lent_bytes(desk);
}

/// Row 1 becomes case A's.
fn replace_first(desk: &mut Desk) -> Answer {
    desk.edit(Edit {
        kind: 1,
        k: 1,
        row: &row_bytes(CLAY),
        ..Edit::default()
    })
}

/// A count of 0, then case A, twice.
fn case_a(desk: &mut Desk) {
    replace_first(desk);
    desk.set_pile(PILE_A);
    desk.set_log(&[CLAY]);
    let answer = replace_first(desk);
    assert_eq!((answer.line, answer.capacity), (212_100, 668_403));
    assert_eq!(replace_first(desk).kept, 5);
}

/// Of what is lent, and of the new row.
fn lengths(desk: &mut Desk) {
    let clay = row_bytes(CLAY);
    for lent in [
        [320, 8, 581],
        [322, 8, 581],
        [321, 7, 581],
        [321, 9, 581],
        [321, 8, 580],
        [321, 8, 582],
        [0, 0, 0],
    ] {
        desk.edit(Edit {
            kind: 1,
            k: 1,
            row: &clay,
            lent,
            ..Edit::default()
        });
    }
    let long = [&clay[..], &[0]].concat();
    for kind in [1, 2, 3, 4, 9] {
        for row in [&[], &clay[..4], &long, &clay] {
            desk.edit(Edit {
                kind,
                k: 1,
                x: 3,
                row,
                ..Edit::default()
            });
        }
        desk.set_log(&[CLAY]);
    }
}

fn kinds(desk: &mut Desk) {
    for kind in [0, 5, 255, 256, 65_536, 65_537, u32::MAX] {
        desk.edit(Edit {
            kind,
            k: 1,
            x: 1,
            row: &row_bytes(CLAY),
            ..Edit::default()
        });
    }
}

fn split(k: u32, x: u32) -> Edit<'static> {
    Edit {
        kind: 4,
        k,
        x,
        ..Edit::default()
    }
}

/// Then the only row removed, and two splits.
fn split_points(desk: &mut Desk) {
    for x in [0, 1, 19_999, 20_000, 20_001, 65_536, 65_537, u32::MAX] {
        desk.set_log(&[CLAY]);
        desk.edit(split(1, x));
    }
    desk.set_log(&[CLAY]);
    desk.edit(Edit {
        kind: 3,
        k: 1,
        ..Edit::default()
    });
    desk.edit(split(1, 7_000));
    desk.edit(split(2, 1));
}

const NAMED: [u32; 20] = [
    0,
    1,
    2,
    3,
    4,
    5,
    63,
    64,
    65,
    66,
    255,
    256,
    257,
    65_535,
    65_536,
    65_537,
    65_538,
    65_539,
    u32::MAX,
    (1 << 31) + 1,
];

fn named_rows(desk: &mut Desk) {
    let sand = row_bytes(row(500, 2, 100, 40));
    for kind in 1..=4 {
        for k in NAMED {
            desk.set_log(&[7_000, 1, 12_999].map(|thickness| Row { thickness, ..CLAY }));
            desk.edit(Edit {
                kind,
                k,
                x: 1,
                row: &sand,
                ..Edit::default()
            });
        }
    }
}

const NEW_ROWS: [Row; 13] = [
    row(0, 6, 130, 95),
    row(60_001, 6, 130, 95),
    row(1, 0, 100, 0),
    row(1, 7, 0, 0),
    row(1, 3, 101, 0),
    row(1, 1, 99, 0),
    row(1, 4, 201, 0),
    row(1, 6, 255, 0),
    row(1, 5, 0, 101),
    row(1, 5, 0, 127),
    row_with(1, 5, 0, 0, 1),
    row_with(0, 7, 255, 127, 63),
    row(60_000, 6, 200, 100),
];

fn new_rows(desk: &mut Desk) {
    for new in NEW_ROWS {
        for kind in 1..=3 {
            desk.set_log(&[9_000, 11_000].map(|thickness| Row { thickness, ..CLAY }));
            desk.edit(Edit {
                kind,
                k: 2,
                row: &row_bytes(new),
                ..Edit::default()
            });
        }
    }
}

/// Around 60,000 mm.
fn depths(desk: &mut Desk) {
    for [first, second, new] in [
        [30_000, 30_000, 30_000],
        [30_000, 30_000, 30_001],
        [30_000, 29_999, 1],
        [1, 59_999, 1],
        [59_999, 1, 60_000],
        [59_999, 1, 59_999],
    ] {
        for kind in 1..=4 {
            desk.set_log(&[row(first, 5, 120, 80), row(second, 6, 130, 95)]);
            desk.edit(Edit {
                kind,
                k: 1,
                x: 1,
                row: &row_bytes(row(new, 6, 130, 95)),
                ..Edit::default()
            });
        }
    }
}

/// A lent log with bad rows.
fn lent_rows(desk: &mut Desk) {
    for rows in [
        &[row(30_000, 6, 130, 95), row(30_001, 6, 130, 95)][..],
        &[row(0, 6, 130, 95)],
        &[row(5, 6, 130, 95), row(5, 3, 130, 95)],
        &[row(5, 6, 130, 95), row(5, 6, 130, 101)],
    ] {
        desk.set_log(rows);
        replace_first(desk);
        desk.edit(Edit {
            kind: 9,
            k: 99,
            ..Edit::default()
        });
    }
}

/// A lent log with a bad count, an unused place not zero or a row without thickness.
fn lent_bytes(desk: &mut Desk) {
    let changes: [(usize, &[u8]); 6] = [
        (0, &[0]),
        (0, &[65]),
        (0, &[255]),
        (6, &[1]),
        (320, &[1]),
        (1, &[0, 0]),
    ];
    for (at, bytes) in changes {
        desk.set_log(&[CLAY]);
        desk.put(Piece::Log, bytes, at);
        replace_first(desk);
        desk.edit(Edit {
            kind: 2,
            k: 65,
            row: &row_bytes(CLAY)[..3],
            ..Edit::default()
        });
    }
}
