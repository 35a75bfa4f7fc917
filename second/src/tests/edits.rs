//! The rules of edits.

#![forbid(unsafe_code)]

use super::{circle, numbers, row};
use crate::cases::log_of;
use crate::*;

struct Desk {
    log: Vec<u8>,
    pile: Vec<u8>,
    table: Vec<u8>,
}

impl Desk {
    fn new(rows: &[Row], pile: Pile) -> Desk {
        let mut desk = Desk {
            log: log_of(rows).to_vec(),
            pile: pile_bytes(&pile),
            table: vec![0; TABLE],
        };
        calculate(&desk.log, &desk.pile, None, &mut desk.table);
        desk
    }

    fn edit(&mut self, kind: u32, k: u32, x: u32, row: &[u8]) -> Answer {
        edit(
            &mut self.log,
            &self.pile,
            None,
            &mut self.table,
            [kind, k, x],
            row,
        )
    }

    /// Refused, and nothing is touched.
    fn refuses(&mut self, kind: u32, k: u32, x: u32, row: &[u8]) -> (u32, u32, u32) {
        let before = (self.log.clone(), self.table.clone());
        let answer = self.edit(kind, k, x, row);
        assert_eq!(before, (self.log.clone(), self.table.clone()));
        (answer.refusal, answer.row, answer.field)
    }
}

#[test]
fn edits_change_log_and_table() {
    let clay = row(10_000, 6, 130, 95);
    let mut desk = Desk::new(&[clay, clay], circle(1_000, 10_000));

    // A split moves no millimetre: all five slices are kept.
    let answer = desk.edit(4, 1, 4_000, &[]);
    assert_eq!((answer.refusal, answer.kept), (0, 5));
    assert_eq!(
        numbers(&answer),
        [212_100, 268_605, 399_798, 668_403, 319_838]
    );
    assert_eq!(
        desk.log[..],
        log_of(&[row(4_000, 6, 130, 95), row(6_000, 6, 130, 95), clay])
    );

    // Fine sand from above: case G.
    let answer = desk.edit(1, 1, 9, &row_bytes(row(4_000, 2, 100, 95)));
    assert_eq!((answer.refusal, answer.kept, answer.line), (0, 0, 221_150));
    desk.table[14] ^= 1;
    let answer = desk.edit(2, 4, 9, &row_bytes(row(1, 5, 0, 0)));
    assert_eq!((answer.refusal, answer.kept, answer.line), (0, 2, 221_150));
    let answer = desk.edit(3, 4, 9, &[1, 2]);
    assert_eq!((answer.refusal, answer.kept, answer.line), (0, 5, 221_150));
    assert_eq!(
        desk.log[..],
        log_of(&[row(4_000, 2, 100, 95), row(6_000, 6, 130, 95), clay])
    );

    // Too short a log is the held answer, and the table is empty.
    let answer = desk.edit(3, 3, 0, &[]);
    assert_eq!((answer.refusal, answer.kept, answer.line), (8, 0, 0));
    assert!(desk.table.iter().all(|byte| *byte == 0));
    assert_eq!(
        desk.log[..],
        log_of(&[row(4_000, 2, 100, 95), row(6_000, 6, 130, 95)])
    );
}

#[test]
fn edits_refused() {
    refused_of_two_rows();
    refused_of_one_row_and_of_64();
}

fn refused_of_two_rows() {
    let clay = row(10_000, 6, 130, 95);
    let good = row_bytes(clay);
    let bad = row_bytes(Row { kind: 7, ..clay });
    let mut desk = Desk::new(&[clay, clay], circle(1_000, 10_000));
    assert_eq!(desk.refuses(1, 9, 0, &good[1..]), (1, 0, 0));
    assert_eq!(desk.refuses(2, 9, 0, &[]), (1, 0, 0));
    for kind in [0, 5, 257, u32::MAX] {
        assert_eq!(desk.refuses(kind, 1, 1, &[]), (13, 0, 0));
    }
    for k in [0, 3, 257, u32::MAX] {
        assert_eq!(desk.refuses(1, k, 1, &bad), (13, 0, 0));
        assert_eq!(desk.refuses(3, k, 1, &bad), (13, 0, 0));
        assert_eq!(desk.refuses(4, k, 1, &bad), (13, 0, 0));
    }
    assert_eq!(desk.refuses(2, 4, 1, &bad), (13, 0, 0));
    assert_eq!(desk.refuses(2, 3, 1, &bad), (3, 3, 2));
    assert_eq!(desk.refuses(1, 2, 1, &bad), (3, 2, 2));
    for x in [0, 10_000, 65_537, u32::MAX] {
        assert_eq!(desk.refuses(4, 1, x, &[]), (13, 0, 0));
    }
    let long = row_bytes(row(50_001, 6, 130, 95));
    assert_eq!(desk.refuses(1, 1, 0, &long), (4, 0, 0));
    assert_eq!(desk.refuses(2, 1, 0, &long), (4, 0, 0));
    desk.log[320] = 1;
    assert_eq!(desk.refuses(9, 1, 0, &long), (2, 0, 0));
    assert_eq!(desk.refuses(1, 1, 0, &long[1..]), (1, 0, 0));
}

fn refused_of_one_row_and_of_64() {
    let clay = row(10_000, 6, 130, 95);
    let bad = row_bytes(Row { kind: 7, ..clay });
    let mut single = Desk::new(&[clay], circle(1_000, 5_000));
    assert_eq!(single.refuses(3, 1, 0, &[]), (13, 0, 0));

    let mut full = Desk::new(&[row(500, 6, 130, 95); 64], circle(1_000, 10_000));
    assert_eq!(full.refuses(2, 65, 0, &bad), (14, 0, 0));
    assert_eq!(full.refuses(2, 66, 0, &bad), (13, 0, 0));
    assert_eq!(full.refuses(4, 1, 1, &bad), (14, 0, 0));
    assert_eq!(full.refuses(4, 1, 500, &bad), (13, 0, 0));
    assert_eq!(full.refuses(1, 64, 0, &bad), (3, 64, 2));
    full.pile = vec![0; PILE];
    assert_eq!(full.edit(3, 64, 0, &[]).refusal, 5);
    assert_eq!(full.log[0], 63);
}
