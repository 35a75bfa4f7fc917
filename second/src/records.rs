//! The packed log, pile record and slice: each is one long number whose digits
//! are the fields, most significant first.

#![forbid(unsafe_code)]

use crate::{
    Answer, Log, Pile, Refusal, Row, Slice, GRADED_PILE, LOG, PILE, ROW, ROWS, SLICE, SLICES, TABLE,
};

const ROW_WIDTHS: [u32; 5] = [16, 3, 8, 7, 6];
const PILE_WIDTHS: [u32; 8] = [2, 12, 12, 2, 16, 16, 4, 16];
const SLICE_WIDTHS: [u32; 4] = [16, 11, 25, 4];

/// Takes a number apart into digits of the given widths in bits.
fn apart<const N: usize>(mut number: u128, widths: [u32; N]) -> [u64; N] {
    let mut digits = [0; N];
    for (digit, width) in digits.iter_mut().zip(widths).rev() {
        let base = 1_u128 << width;
        *digit = (number % base) as u64;
        number /= base;
    }
    digits
}

/// Puts digits of the given widths together; a digit too large loses its top.
fn together<const N: usize>(digits: [u64; N], widths: [u32; N]) -> u128 {
    digits.iter().zip(widths).fold(0, |number, (digit, width)| {
        let base = 1_u128 << width;
        number * base + u128::from(*digit) % base
    })
}

/// Bytes as a number, first byte highest.
fn number(bytes: &[u8]) -> u128 {
    bytes
        .iter()
        .fold(0, |sum, byte| sum * 256 + u128::from(*byte))
}

/// A number as bytes, first byte highest.
fn bytes<const N: usize>(mut number: u128) -> [u8; N] {
    let mut out = [0; N];
    for byte in out.iter_mut().rev() {
        *byte = (number % 256) as u8;
        number /= 256;
    }
    out
}

/// A row's five bytes, whatever its fields; what does not fit its bits is cut off.
pub fn row_bytes(row: Row) -> [u8; ROW] {
    let digits = [
        u64::from(row.thickness),
        u64::from(row.kind),
        u64::from(row.index),
        u64::from(row.saturation),
        u64::from(row.zero),
    ];
    bytes(together(digits, ROW_WIDTHS))
}

/// A row's fields from its five bytes, whatever they are.
pub fn row_fields(packed: &[u8]) -> Row {
    let [thickness, kind, index, saturation, zero] = apart(number(packed), ROW_WIDTHS);
    Row {
        thickness: thickness as u16,
        kind: kind as u8,
        index: index as u8,
        saturation: saturation as u8,
        zero: zero as u8,
    }
}

/// True of the two lengths that a pile record may have.
pub(crate) fn is_pile_length(length: usize) -> bool {
    length == PILE || length == GRADED_PILE
}

/// A pile record's bytes, whatever its fields: ten where its length is 10, the first eight of them otherwise; what does not fit is cut off.
pub fn pile_bytes(pile: &Pile) -> Vec<u8> {
    let mut packed = graded_pile_bytes(pile).to_vec();
    if usize::from(pile.length) != GRADED_PILE {
        packed.truncate(PILE);
    }
    packed
}

fn graded_pile_bytes(pile: &Pile) -> [u8; GRADED_PILE] {
    let grade = i32::from(pile.grade).rem_euclid(1 << 16);
    let digits = [
        u64::from(pile.section),
        u64::from(pile.a),
        u64::from(pile.b),
        u64::from(pile.method),
        u64::from(pile.head),
        u64::from(pile.tip),
        u64::from(pile.zero),
        grade as u64,
    ];
    bytes(together(digits, PILE_WIDTHS))
}

/// A pile record's fields from its eight or ten bytes, whatever they are; eight have a grade of 0.
pub(crate) fn pile_fields(packed: &[u8]) -> Pile {
    let mut ten = packed.to_vec();
    ten.resize(GRADED_PILE, 0);
    let [section, a, b, method, head, tip, zero, grade] = apart(number(&ten), PILE_WIDTHS);
    Pile {
        length: packed.len() as u8,
        section: section as u8,
        a: a as u16,
        b: b as u16,
        method: method as u8,
        head: head as u16,
        tip: tip as u16,
        zero: zero as u8,
        grade: signed(grade),
        ..Pile::default()
    }
}

/// A digit of 16 bits as two's complement has it: the upper half stands for the numbers below 0.
fn signed(digit: u64) -> i16 {
    if digit < 1 << 15 {
        digit as i16
    } else {
        (digit as i32 - (1 << 16)) as i16
    }
}

/// A slice's seven bytes, whatever its fields; what does not fit is cut off.
pub fn slice_bytes(slice: &Slice) -> [u8; SLICE] {
    let digits = [
        u64::from(slice.top),
        u64::from(slice.thickness),
        u64::from(slice.friction),
        u64::from(slice.factor),
    ];
    bytes(together(digits, SLICE_WIDTHS))
}

/// The lowest field of a row that is out of range, if any.
pub(crate) fn bad_field(row: &Row) -> Option<u32> {
    let kind_is_sand = matches!(row.kind, 1..=3);
    let kind_is_clayey = matches!(row.kind, 4..=6);
    let judged = [
        (1..=60_000).contains(&row.thickness),
        kind_is_sand || kind_is_clayey,
        if kind_is_sand {
            row.index == 100
        } else {
            row.index <= 200
        },
        row.saturation <= 100,
        row.zero == 0,
    ];
    judged
        .iter()
        .position(|good| !good)
        .map(|place| place as u32 + 1)
}

/// Check 3 over rows, first row first.
fn check_rows(rows: &[Row]) -> Result<(), Refusal> {
    for (place, row) in rows.iter().enumerate() {
        if let Some(field) = bad_field(row) {
            return Err(Refusal::at(3, place + 1, field));
        }
    }
    Ok(())
}

/// Checks 1 to 3 of a log; gives its rows.
pub(crate) fn open_log(log: &[u8]) -> Result<Vec<Row>, Refusal> {
    if log.len() != LOG {
        return Err(Refusal::plain(1));
    }
    let count = usize::from(log[0]);
    if count == 0 || count > ROWS {
        return Err(Refusal::plain(2));
    }
    let (used, unused) = log[1..].split_at(count * ROW);
    if unused.iter().any(|byte| *byte != 0) {
        return Err(Refusal::plain(2));
    }
    let rows: Vec<Row> = used.chunks(ROW).map(row_fields).collect();
    check_rows(&rows)?;
    Ok(rows)
}

/// A log's bytes for rows that are known to be good.
pub(crate) fn log_bytes(rows: &[Row]) -> Vec<u8> {
    let mut log = vec![rows.len() as u8];
    for row in rows {
        log.extend(row_bytes(*row));
    }
    log.resize(LOG, 0);
    log
}

/// Check 4: the rows together in millimetres, at most 60,000.
pub(crate) fn depth(rows: &[Row]) -> Result<u64, Refusal> {
    let sum = rows.iter().map(|row| u64::from(row.thickness)).sum();
    if sum > 60_000 {
        return Err(Refusal::plain(4));
    }
    Ok(sum)
}

/// Checks 5 and 6 of a pile's fields.
pub(crate) fn check_pile(pile: &Pile) -> Result<(), Refusal> {
    let sides = match pile.section {
        1 => [(150..=2_000).contains(&pile.a), pile.b == 0],
        2 => [pile.a, pile.b].map(|side| (300..=4_000).contains(&side)),
        _ => return Err(Refusal::at(5, 0, 1)),
    };
    if !sides[0] {
        return Err(Refusal::at(5, 0, 2));
    }
    if !sides[1] {
        return Err(Refusal::at(5, 0, 3));
    }
    if pile.zero != 0 {
        return Err(Refusal::at(5, 0, 4));
    }
    if !matches!(pile.method, 1..=3) {
        return Err(Refusal::plain(6));
    }
    Ok(())
}

/// Reads a log by itself.
pub fn read_log(log: &[u8]) -> Log {
    match open_log(log) {
        Ok(rows) => {
            let mut out = Log {
                count: rows.len() as u8,
                ..Log::default()
            };
            out.rows[..rows.len()].copy_from_slice(&rows);
            out
        }
        Err(refusal) => Log {
            refusal: refusal.number,
            row: refusal.row,
            field: refusal.field,
            ..Log::default()
        },
    }
}

/// Packs a log by itself; looks at the count and the rows.
pub fn pack_log(fields: &Log, log: &mut [u8]) -> Answer {
    match packed_log(fields, log.len()) {
        Ok(packed) => {
            log.copy_from_slice(&packed);
            Answer::default()
        }
        Err(refusal) => refusal.answer(),
    }
}

fn packed_log(fields: &Log, length: usize) -> Result<Vec<u8>, Refusal> {
    if length != LOG {
        return Err(Refusal::plain(1));
    }
    let count = usize::from(fields.count);
    if count == 0 || count > ROWS {
        return Err(Refusal::plain(2));
    }
    let (used, unused) = fields.rows.split_at(count);
    if unused.iter().any(|row| *row != Row::default()) {
        return Err(Refusal::plain(2));
    }
    check_rows(used)?;
    Ok(log_bytes(used))
}

/// Reads a pile record by itself.
pub fn read_pile(pile: &[u8]) -> Pile {
    if !is_pile_length(pile.len()) {
        return Pile {
            refusal: 1,
            ..Pile::default()
        };
    }
    let fields = pile_fields(pile);
    match check_pile(&fields) {
        Ok(()) => fields,
        Err(refusal) => Pile {
            refusal: refusal.number,
            row: refusal.row,
            field: refusal.field,
            ..Pile::default()
        },
    }
}

/// Packs a pile record by itself, to as many bytes as are lent; looks at the fields from section to grade.
pub fn pack_pile(fields: &Pile, pile: &mut [u8]) -> Answer {
    match packed_pile(fields, pile.len()) {
        Ok(packed) => {
            pile.copy_from_slice(&packed);
            Answer::default()
        }
        Err(refusal) => refusal.answer(),
    }
}

/// Eight bytes have no place for a grade other than 0.
fn packed_pile(fields: &Pile, length: usize) -> Result<Vec<u8>, Refusal> {
    if !is_pile_length(length) || length == PILE && fields.grade != 0 {
        return Err(Refusal::plain(1));
    }
    check_pile(fields)?;
    Ok(pile_bytes(&Pile {
        length: length as u8,
        ..*fields
    }))
}

/// Reads one slice of a table; places count from 0, and past the last all is zero.
pub fn read_slice(table: &[u8], place: u32) -> Slice {
    if table.len() != TABLE {
        return Slice {
            refusal: 1,
            ..Slice::default()
        };
    }
    if place as usize >= SLICES {
        return Slice::default();
    }
    let from = place as usize * SLICE;
    let [top, thickness, friction, factor] =
        apart(number(&table[from..from + SLICE]), SLICE_WIDTHS);
    Slice {
        refusal: 0,
        top: top as u16,
        thickness: thickness as u16,
        friction: friction as u32,
        factor: factor as u8,
    }
}
