//! Chooses the next edit of a run.

#![forbid(unsafe_code)]

use super::dice::Dice;
use super::makers::good;
use second::{row_bytes, Row};

/// What a run of edits mostly does.
#[derive(Clone, Copy, PartialEq, Eq)]
pub enum Mode {
    /// Draws one row's lower boundary up and down.
    Drag,
    /// Inserts and splits.
    Grow,
    Remove,
    Any,
}

/// Kind, k, x and row of the next edit.
pub fn choose(dice: &mut Dice, log: &[u8], mode: Mode, dragged: u32) -> (u32, u32, u32, Vec<u8>) {
    let fields = second::read_log(log);
    let count = u32::from(fields.count);
    let kind = kind(dice, mode);
    let k = match dice.below(24) {
        0 => outer_row(dice, count),
        1 => dice.between(1, count.max(1)) + dice.one_of(&[256, 65_536, 1 << 24, 1 << 31]),
        2 | 3 if kind == 2 => count + 1,
        4..=15 if mode == Mode::Drag => dragged,
        _ => dice.between(1, count.max(1)),
    };
    let named = match fields.rows.get((k as usize).wrapping_sub(1)) {
        Some(row) if k <= count => *row,
        _ => Row::default(),
    };
    let x = split_point(dice, kind, u32::from(named.thickness));
    let row = if kind == 1 || kind == 2 {
        brought(dice, named, kind)
    } else {
        let len = dice.below(9) as usize;
        dice.bytes(len)
    };
    (kind, k, x, row)
}

fn kind(dice: &mut Dice, mode: Mode) -> u32 {
    match (mode, dice.below(20)) {
        (_, 0) if dice.once_in(2) => dice.one_of(&[0, 5, 6, 257, 65_537, u32::MAX, 0x8000_0001]),
        (Mode::Drag, 1..=15) => 1,
        (Mode::Grow, 1..=15) => dice.one_of(&[2, 4]),
        (Mode::Remove, 1..=15) => 3,
        _ => dice.between(1, 4),
    }
}

/// A row's number around the count, or around what a log or a byte can hold.
fn outer_row(dice: &mut Dice, count: u32) -> u32 {
    let around = [0, count, count + 1, count + 2];
    let limits = [64, 65, 66, 255, 256, u32::MAX];
    dice.one_of(&[&around[..], &limits].concat())
}

fn split_point(dice: &mut Dice, kind: u32, thickness: u32) -> u32 {
    match dice.below(16) {
        0 => dice.one_of(&[
            0,
            1,
            thickness,
            thickness + 1,
            thickness.wrapping_sub(1),
            u32::MAX,
        ]),
        1 if kind == 4 => dice.between(1, thickness.max(1)) + dice.one_of(&[65_536, 1 << 31]),
        _ if kind == 4 => dice.between(1, thickness.max(2) - 1),
        _ => dice.bits() as u32,
    }
}

/// The bytes of a new row.
fn brought(dice: &mut Dice, named: Row, kind: u32) -> Vec<u8> {
    let mut row = changed(dice, named);
    if kind == 2 && dice.once_in(2) {
        row.thickness = row.thickness.min(dice.between(1, 600) as u16);
    }
    let mut bytes = row_bytes(row).to_vec();
    match dice.below(24) {
        0 => bytes.resize(dice.below(9) as usize, 0),
        1 => {
            let place = dice.below(5) as usize;
            bytes[place] ^= 1 << dice.below(8);
        }
        2 => dice.fill(&mut bytes),
        _ => {}
    }
    bytes
}

/// The named row with one field changed, or a row of another site.
fn changed(dice: &mut Dice, named: Row) -> Row {
    let other = good(dice);
    let fresh = other.rows[dice.below(other.rows.len() as u32) as usize];
    let mut row = if named == Row::default() {
        fresh
    } else {
        named
    };
    match dice.below(16) {
        0 => row.thickness = dice.one_of(&[0, 1, 2_000, 2_001, 59_999, 60_000, 60_001, 65_535]),
        1 => row.kind = dice.one_of(&[0, 1, 3, 4, 6, 7]),
        2 => row.index = dice.one_of(&[0, 99, 100, 101, 160, 161, 200, 201, 255]),
        3 => row.saturation = dice.one_of(&[0, 89, 90, 100, 101, 127]),
        4 => row.zero = dice.one_of(&[0, 1, 32, 63]),
        5..=10 => {
            // The row's lower boundary drawn up or down a little.
            let moved = u32::from(row.thickness) + dice.between(0, 400);
            row.thickness = moved.saturating_sub(dice.between(0, 400)).clamp(1, 60_000) as u16;
        }
        11 => {
            row = Row {
                thickness: row.thickness,
                ..fresh
            }
        }
        12 => row.thickness = dice.between(1, 5) as u16,
        _ => row = fresh,
    }
    row
}
