//! Edits whose held answer is a refusal of the pile or of the ground, 5 to 12, at both sides of each limit; and full logs and tables.

#![forbid(unsafe_code)]

use super::desk::{Desk, Edit, Piece};
use super::fields::{pile, pile_with, row, CLAY, PILE_A};
use second::{row_bytes, Pile, Row, ROWS};

/// Case A's pile, but for its section.
const fn section(kind: u8, a: u16, b: u16) -> Pile {
    pile(kind, a, b, 1, 1_000, 10_000)
}

/// Case A's pile, but for head and tip.
const fn between(head: u16, tip: u16) -> Pile {
    pile(1, 600, 0, 1, head, tip)
}

const PILES: [Pile; 30] = [
    section(0, 600, 0),
    section(3, 600, 0),
    section(1, 149, 0),
    section(1, 150, 0),
    section(1, 2_000, 0),
    section(1, 2_001, 0),
    section(1, 600, 1),
    section(2, 299, 400),
    section(2, 300, 300),
    section(2, 4_000, 4_000),
    section(2, 4_001, 400),
    section(2, 400, 299),
    section(2, 400, 4_001),
    section(2, 800, 400),
    pile_with(PILE_A, 1),
    pile_with(pile(1, 149, 1, 0, 1_000, 10_000), 8),
    pile(1, 600, 0, 0, 1_000, 10_000),
    pile(1, 600, 0, 2, 1_000, 10_000),
    pile(1, 600, 0, 3, 1_000, 10_000),
    between(10_000, 10_000),
    between(9_999, 10_000),
    between(8_000, 10_000),
    between(8_001, 10_000),
    between(1_000, 2_999),
    between(0, 3_000),
    between(1_000, 40_001),
    between(1_000, 15_000),
    between(1_000, 15_001),
    between(6_000, 10_000),
    between(6_001, 10_000),
];

fn remove(k: u32) -> Edit<'static> {
    Edit {
        kind: 3,
        k,
        ..Edit::default()
    }
}

pub fn piles(desk: &mut Desk) {
    for pile in PILES {
        desk.set_log(&[row(1, 6, 130, 95), CLAY]);
        desk.set_pile(pile);
        desk.edit(remove(1));
    }
}

/// Clay of one row.
const fn clay(thickness: u16, index: u8, saturation: u8) -> Row {
    row(thickness, 6, index, saturation)
}

const SAND: u8 = 2;

/// Rows and a tip.
const GROUNDS: [(&[Row], u16); 24] = [
    (&[clay(20_000, 135, 95)], 10_000),
    (&[clay(20_000, 130, 80)], 10_000),
    (&[clay(20_000, 130, 89)], 10_000),
    (&[clay(20_000, 130, 90)], 10_000),
    (&[row(4_000, SAND, 100, 50), clay(16_000, 130, 95)], 10_000),
    (&[clay(15_000, 130, 95)], 10_000),
    (&[clay(14_999, 130, 95)], 10_000),
    (&[clay(30_000, 145, 95)], 20_000),
    (&[clay(30_000, 145, 95)], 20_001),
    (&[clay(30_000, 140, 95)], 25_000),
    (&[clay(45_000, 140, 95)], 40_000),
    (&[clay(45_000, 141, 95)], 40_000),
    (&[clay(45_000, 150, 95)], 20_000),
    (&[clay(45_000, 150, 95)], 30_000),
    (&[clay(45_000, 160, 95)], 20_000),
    (&[row(8_000, SAND, 100, 50), clay(12_000, 130, 95)], 10_000),
    (&[row(8_001, SAND, 100, 50), clay(11_999, 130, 95)], 10_000),
    (&[clay(20_000, 160, 95)], 10_000),
    (&[clay(20_000, 161, 95)], 10_000),
    (&[clay(10_000, 130, 95), row(10_000, SAND, 100, 50)], 10_000),
    (&[clay(10_001, 130, 95), row(10_000, SAND, 100, 50)], 10_000),
    (&[clay(10_000, 130, 95), row(10_000, 5, 130, 95)], 10_000),
    (
        &[
            row(5_000, 4, 0, 10),
            row(5_000, 5, 99, 20),
            clay(10_000, 100, 95),
        ],
        12_000,
    ),
    (
        &[
            row(5_000, 1, 100, 10),
            row(5_000, 3, 100, 20),
            row(10_000, 4, 119, 95),
        ],
        12_000,
    ),
];

/// Each ground with each method: its first row split at 1,000, then the upper part longer by one, and back.
pub fn grounds(desk: &mut Desk) {
    for (rows, tip) in GROUNDS {
        for method in 1..=3 {
            desk.set_log(rows);
            desk.set_pile(pile(1, 600, 0, method, 1_000, tip));
            desk.edit(Edit {
                kind: 4,
                k: 1,
                x: 1_000,
                ..Edit::default()
            });
            for thickness in [1_001, 1_000] {
                replace(
                    desk,
                    1,
                    Row {
                        thickness,
                        ..rows[0]
                    },
                );
            }
        }
    }
}

fn replace(desk: &mut Desk, k: u32, row: Row) {
    desk.edit(Edit {
        kind: 1,
        k,
        row: &row_bytes(row),
        ..Edit::default()
    });
}

/// 64 rows by splits, each edit with no place left, and removals down to the only row.
pub fn full_logs(desk: &mut Desk) {
    desk.set_log(&[row(38_400, 6, 130, 95)]);
    desk.set_pile(pile(2, 800, 400, 2, 500, 20_000));
    for k in 1..64 {
        desk.edit(Edit {
            kind: 4,
            k,
            x: 600,
            ..Edit::default()
        });
    }
    assert_eq!(desk.rows().len(), ROWS);
    let loam = row_bytes(row(300, 5, 110, 70));
    let inserts = [(2, 1), (2, 64), (2, 65), (2, 66)];
    let others = [(4, 1), (4, 64), (4, 65), (1, 64), (1, 65), (3, 64)];
    for (kind, k) in [&inserts[..], &others, &[(2, 64), (2, 64)]].concat() {
        desk.edit(Edit {
            kind,
            k,
            x: 200,
            row: &loam,
            ..Edit::default()
        });
    }
    while desk.rows().len() > 1 {
        desk.edit(remove(1 + desk.rows().len() as u32 / 3));
    }
    desk.edit(remove(1));
}

/// As many slices as there can be, 83: the row that makes them inserted, and two rows replaced.
pub fn full_table(desk: &mut Desk) {
    let mut rows = Vec::new();
    for place in 0..17 {
        rows.push(row(2_001, 6, 110 + place % 2, 95));
    }
    for place in 0..45 {
        rows.push(row(1, 4, 100 + place % 2, 50));
    }
    rows.push(row(14_000, 6, 130, 95));
    desk.set_log(&rows);
    desk.set_pile(pile(1, 150, 0, 3, 0, 38_064));
    desk.edit(Edit {
        kind: 2,
        k: 1,
        row: &row_bytes(row(2_001, 5, 111, 95)),
        ..Edit::default()
    });
    assert!(desk.slice(82).thickness > 0);
    replace(desk, 64, row(14_000, 6, 125, 95));
    desk.put(Piece::Table, &[1], 400);
    replace(desk, 63, row(1, 4, 99, 50));
}
