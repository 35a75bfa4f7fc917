//! What is lent to a call, right or spoilt.

#![forbid(unsafe_code)]

use super::dice::Dice;
use super::sands::any_record;
use second::{Carried, GRADED_PILE, LOG, PILE, SLICE, SLICES, TABLE};

/// What is lent to a call.
#[derive(Clone, Debug)]
pub struct Lending {
    pub log: Vec<u8>,
    pub pile: Vec<u8>,
    pub sand: Carried,
    pub table: Vec<u8>,
}

/// Spoils what is lent: lengths, bits, bytes, the record of a sand tip.
pub fn damage(dice: &mut Dice, lent: &mut Lending) {
    match dice.below(13) {
        0 => resize(dice, &mut lent.log, LOG),
        1 => {
            let right = dice.one_of(&[PILE, GRADED_PILE]);
            resize(dice, &mut lent.pile, right);
        }
        2 => resize(dice, &mut lent.table, TABLE),
        3 | 4 => flip(dice, &mut lent.log),
        5 | 6 => flip(dice, &mut lent.pile),
        7 => {
            let len = lent.log.len();
            lent.log = dice.bytes(len);
            if len > 0 && dice.once_in(2) {
                lent.log[0] = 64;
            }
        }
        8 => {
            let len = lent.pile.len();
            lent.pile = dice.bytes(len);
        }
        9 => recount(dice, &mut lent.log),
        10 => fill_unused(dice, &mut lent.log),
        11 => lent.sand = any_record(dice),
        _ => renew_used(dice, &mut lent.log),
    }
}

fn recount(dice: &mut Dice, log: &mut [u8]) {
    if let Some(count) = log.first_mut() {
        *count = match dice.below(4) {
            0 => dice.one_of(&[0, 64, 65, 128, 255]),
            1 => count.wrapping_add(1),
            2 => count.wrapping_sub(1),
            _ => dice.byte(),
        };
    }
}

/// An unused place that is not zero.
fn fill_unused(dice: &mut Dice, log: &mut [u8]) {
    let used = 1 + 5 * usize::from(log.first().copied().unwrap_or(0));
    if used < log.len() {
        let place = dice.between(used as u32, log.len() as u32 - 1) as usize;
        log[place] = dice.byte() | 1;
    }
}

/// One used byte anew.
fn renew_used(dice: &mut Dice, log: &mut [u8]) {
    let used = 1 + 5 * usize::from(log.first().copied().unwrap_or(0)).min(64);
    if used <= log.len() {
        let place = dice.below(used as u32) as usize;
        log[place] = dice.byte();
    }
}

fn resize(dice: &mut Dice, piece: &mut Vec<u8>, right: usize) {
    let len = match dice.below(4) {
        0 => right - 1,
        1 => right + 1,
        2 => dice.one_of(&[
            0,
            1,
            5,
            7,
            8,
            9,
            10,
            11,
            256,
            320,
            321,
            322,
            329,
            580,
            581,
            582,
            65_536 + 321,
        ]),
        _ => dice.below(401) as usize,
    };
    piece.resize(len, 0);
}

fn flip(dice: &mut Dice, piece: &mut [u8]) {
    if piece.is_empty() {
        return;
    }
    for _ in 0..dice.between(1, 3) {
        let place = dice.below(piece.len() as u32) as usize;
        piece[place] ^= 1 << dice.below(8);
    }
}

/// A table to lend: empty, full, random, or the right one with or without a spot.
pub fn table(dice: &mut Dice, right: impl FnOnce() -> Vec<u8>) -> Vec<u8> {
    match dice.below(10) {
        0 => vec![0; TABLE],
        1 => vec![0xFF; TABLE],
        2 => dice.bytes(TABLE),
        _ => {
            let mut table = right();
            spot(dice, &mut table);
            table
        }
    }
}

/// Leaves a table as it is, or spoils a part of it.
pub fn spot(dice: &mut Dice, table: &mut [u8]) {
    if table.len() != TABLE {
        return;
    }
    let used = table
        .chunks(SLICE)
        .filter(|slice| slice.iter().any(|byte| *byte != 0))
        .count();
    let near = dice.below(used.max(1) as u32 + 1) as usize;
    let from = near.min(SLICES - 1) * SLICE;
    match dice.below(8) {
        0 => {
            let place = from + dice.below(SLICE as u32) as usize;
            table[place] ^= 1 << dice.below(8);
        }
        1 => dice.fill(&mut table[from..]),
        2 => table[from..].fill(0),
        3 => {
            // Right slices, but one place further down.
            table.copy_within(from..TABLE - SLICE, from + SLICE);
        }
        4 => table[from + SLICE - 1] ^= 1,
        _ => {}
    }
}
