//! The library under comparison, through its door, with this crate's own answers and fields.

#![forbid(unsafe_code)]

use crate::record::Call;
use crate::{Answer, Carried, Log, Pile, Row, Slice, ROWS};
use psamathyr_door as door;

impl From<door::Answer> for Answer {
    fn from(answer: door::Answer) -> Answer {
        Answer {
            refusal: answer.refusal,
            row: answer.row,
            field: answer.field,
            kept: answer.kept,
            line: answer.line,
            tip: answer.tip,
            shaft: answer.shaft,
            capacity: answer.capacity,
            uplift: answer.uplift,
        }
    }
}

impl From<door::Row> for Row {
    fn from(row: door::Row) -> Row {
        Row {
            thickness: row.thickness,
            kind: row.kind,
            index: row.index,
            saturation: row.saturation,
            zero: row.zero,
        }
    }
}

impl From<Row> for door::Row {
    fn from(row: Row) -> door::Row {
        door::Row {
            thickness: row.thickness,
            kind: row.kind,
            index: row.index,
            saturation: row.saturation,
            zero: row.zero,
        }
    }
}

impl From<Carried> for door::Sand {
    fn from(sand: Carried) -> door::Sand {
        door::Sand {
            given: sand.given,
            angle: sand.angle,
            weight_below: sand.weight_below,
            weight_above: sand.weight_above,
        }
    }
}

pub fn calculate(log: &[u8], pile: &[u8], sand: Carried, table: &mut [u8]) -> Answer {
    let call = Call::of(1).piece(log).piece(pile).sand(sand).piece(table);
    let answer = door::calculate(log, pile, sand.into(), table).into();
    call.answer(&answer).piece(table).made();
    answer
}

pub fn edit(
    log: &mut [u8],
    pile: &[u8],
    sand: Carried,
    table: &mut [u8],
    [kind, k, x]: [u32; 3],
    row: &[u8],
) -> Answer {
    let call = edit_call([log, pile, table], sand, [kind, k, x], row);
    let answer = door::edit(log, pile, sand.into(), table, kind, k, x, row).into();
    call.answer(&answer).piece(log).piece(table).made();
    answer
}

fn edit_call(lent: [&[u8]; 3], sand: Carried, numbers: [u32; 3], row: &[u8]) -> Call {
    let [log, pile, table] = lent;
    let pieces = Call::of(2).piece(log).piece(pile).sand(sand).piece(table);
    numbers.into_iter().fold(pieces, Call::number).piece(row)
}

/// An edit that hands over no row at all: a null pointer of length 0.
pub fn edit_without_row(
    log: &mut [u8],
    pile: &[u8],
    sand: Carried,
    table: &mut [u8],
    [kind, k, x]: [u32; 3],
) -> Answer {
    let call = edit_call([log, pile, table], sand, [kind, k, x], &[]);
    let answer = door::edit_without_row(log, pile, sand.into(), table, kind, k, x).into();
    call.answer(&answer).piece(log).piece(table).made();
    answer
}

pub fn read_log(log: &[u8]) -> Log {
    let read = door::read_log(log);
    let mut rows = [Row::default(); ROWS];
    for (row, from) in rows.iter_mut().zip(read.rows) {
        *row = from.into();
    }
    let read = Log {
        refusal: read.refusal,
        row: read.row,
        field: read.field,
        count: read.count,
        rows,
    };
    Call::of(3).piece(log).log(&read).made();
    read
}

pub fn pack_log(fields: &Log, log: &mut [u8]) -> Answer {
    let call = Call::of(4).log(fields).piece(log);
    let fields = door::Log {
        refusal: fields.refusal,
        row: fields.row,
        field: fields.field,
        count: fields.count,
        rows: fields.rows.map(Into::into),
    };
    let answer = door::pack_log(fields, log).into();
    call.answer(&answer).piece(log).made();
    answer
}

pub fn read_pile(pile: &[u8]) -> Pile {
    let read = door::read_pile(pile);
    let read = Pile {
        refusal: read.refusal,
        row: read.row,
        field: read.field,
        length: read.length,
        section: read.section,
        a: read.a,
        b: read.b,
        method: read.method,
        head: read.head,
        tip: read.tip,
        zero: read.zero,
        grade: read.grade,
    };
    Call::of(5).piece(pile).pile(&read).made();
    read
}

pub fn pack_pile(fields: &Pile, pile: &mut [u8]) -> Answer {
    let call = Call::of(6).pile(fields).piece(pile);
    let fields = door::Pile {
        refusal: fields.refusal,
        row: fields.row,
        field: fields.field,
        length: fields.length,
        section: fields.section,
        a: fields.a,
        b: fields.b,
        method: fields.method,
        head: fields.head,
        tip: fields.tip,
        zero: fields.zero,
        grade: fields.grade,
    };
    let answer = door::pack_pile(fields, pile).into();
    call.answer(&answer).piece(pile).made();
    answer
}

pub fn read_slice(table: &[u8], place: u32) -> Slice {
    let read = door::read_slice(table, place);
    let read = Slice {
        refusal: read.refusal,
        top: read.top,
        thickness: read.thickness,
        friction: read.friction,
        factor: read.factor,
    };
    Call::of(7).piece(table).number(place).slice(&read).made();
    read
}
