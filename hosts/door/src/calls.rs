//! The seven functions, and a safe call of each. A call hands slices over as pointer and length, for the call alone; every length is
//! taken, and what one call lends does not overlap, since it is borrowed.

use crate::{Answer, Log, Pile, Sand, Slice};

extern "C" {
    fn psamathyr_calculate(
        log: *const u8,
        log_len: usize,
        pile: *const u8,
        pile_len: usize,
        sand: Sand,
        table: *mut u8,
        table_len: usize,
    ) -> Answer;
    fn psamathyr_edit(
        log: *mut u8,
        log_len: usize,
        pile: *const u8,
        pile_len: usize,
        sand: Sand,
        table: *mut u8,
        table_len: usize,
        kind: u32,
        k: u32,
        x: u32,
        row: *const u8,
        row_len: usize,
    ) -> Answer;
    fn psamathyr_read_log(log: *const u8, log_len: usize) -> Log;
    fn psamathyr_read_pile(pile: *const u8, pile_len: usize) -> Pile;
    fn psamathyr_read_slice(table: *const u8, table_len: usize, place: u32) -> Slice;
    fn psamathyr_pack_log(fields: Log, log: *mut u8, log_len: usize) -> Answer;
    fn psamathyr_pack_pile(fields: Pile, pile: *mut u8, pile_len: usize) -> Answer;
}

/// Works out a pile in a log and fills the table.
pub fn calculate(log: &[u8], pile: &[u8], sand: Sand, table: &mut [u8]) -> Answer {
    // SAFETY: each pointer comes with its length, and nothing lent overlaps.
    unsafe {
        psamathyr_calculate(
            log.as_ptr(),
            log.len(),
            pile.as_ptr(),
            pile.len(),
            sand,
            table.as_mut_ptr(),
            table.len(),
        )
    }
}

/// Edits a log (1 replace, 2 insert, 3 remove, 4 split), works it out and fills the table.
#[allow(clippy::too_many_arguments)] // those of the C function
pub fn edit(
    log: &mut [u8],
    pile: &[u8],
    sand: Sand,
    table: &mut [u8],
    kind: u32,
    k: u32,
    x: u32,
    row: &[u8],
) -> Answer {
    // SAFETY: each pointer comes with its length, and nothing lent overlaps.
    unsafe {
        psamathyr_edit(
            log.as_mut_ptr(),
            log.len(),
            pile.as_ptr(),
            pile.len(),
            sand,
            table.as_mut_ptr(),
            table.len(),
            kind,
            k,
            x,
            row.as_ptr(),
            row.len(),
        )
    }
}

/// An edit that hands over no row at all: a null pointer of length 0.
pub fn edit_without_row(
    log: &mut [u8],
    pile: &[u8],
    sand: Sand,
    table: &mut [u8],
    kind: u32,
    k: u32,
    x: u32,
) -> Answer {
    // SAFETY: as above; behind a length of 0 no byte is read.
    unsafe {
        psamathyr_edit(
            log.as_mut_ptr(),
            log.len(),
            pile.as_ptr(),
            pile.len(),
            sand,
            table.as_mut_ptr(),
            table.len(),
            kind,
            k,
            x,
            core::ptr::null(),
            0,
        )
    }
}

/// Reads a log by itself.
pub fn read_log(log: &[u8]) -> Log {
    // SAFETY: the pointer comes with its length.
    unsafe { psamathyr_read_log(log.as_ptr(), log.len()) }
}

/// Reads a pile record by itself, and tells its length.
pub fn read_pile(pile: &[u8]) -> Pile {
    // SAFETY: the pointer comes with its length.
    unsafe { psamathyr_read_pile(pile.as_ptr(), pile.len()) }
}

/// Reads one slice of a table; places count from 0.
pub fn read_slice(table: &[u8], place: u32) -> Slice {
    // SAFETY: the pointer comes with its length.
    unsafe { psamathyr_read_slice(table.as_ptr(), table.len(), place) }
}

/// Packs a log by itself; looks at the count and the rows.
pub fn pack_log(fields: Log, log: &mut [u8]) -> Answer {
    // SAFETY: the pointer comes with its length.
    unsafe { psamathyr_pack_log(fields, log.as_mut_ptr(), log.len()) }
}

/// Packs a pile record by itself, into 8 or 10 bytes; looks at the fields from section to grade.
pub fn pack_pile(fields: Pile, pile: &mut [u8]) -> Answer {
    // SAFETY: the pointer comes with its length.
    unsafe { psamathyr_pack_pile(fields, pile.as_mut_ptr(), pile.len()) }
}
