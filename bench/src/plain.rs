//! The same rules, written for speed alone: integers, no heap, constant tables.

#![forbid(unsafe_code)]

mod ground;
mod sand;
mod tables;

use ground::{change, fresh, ground_of, index_of, is_sand, kind_of, saturation_of, Ground};
use psamathyr_door::{
    Answer, GRADED_PILE_BYTES, LOG_BYTES as LOG, PILE_BYTES, TABLE_BYTES as TABLE,
};
pub use sand::Sand;
use tables::{friction, tip_resistance, FACTORS};

/// A refusal's answer.
const fn refused(refusal: u32, row: u32, field: u32) -> Answer {
    Answer {
        refusal,
        row,
        field,
        kept: 0,
        line: 0,
        tip: 0,
        shaft: 0,
        capacity: 0,
        uplift: 0,
    }
}

pub fn calculate(log: &[u8], pile: &[u8], sand: Option<Sand>, table: &mut [u8]) -> Answer {
    let (log, pile, table) = match (
        <&[u8; LOG]>::try_from(log),
        record_of(pile),
        <&mut [u8; TABLE]>::try_from(table),
    ) {
        (Ok(log), Some(pile), Ok(table)) => (log, pile, table),
        _ => return refused(1, 0, 0),
    };
    let mut ground = fresh();
    if let Err(no) = ground_of(log, &mut ground) {
        return no;
    }
    match work_out::<false>(&ground, pile, sand.as_ref(), table) {
        Ok(answer) => answer,
        Err(number) => emptied(table, number),
    }
}

#[allow(clippy::too_many_arguments)] // those of the library
pub fn edit(
    log: &mut [u8],
    pile: &[u8],
    sand: Option<Sand>,
    table: &mut [u8],
    kind: u32,
    k: u32,
    x: u32,
    row: &[u8],
) -> Answer {
    let (log, pile, table) = match (
        <&mut [u8; LOG]>::try_from(log),
        record_of(pile),
        <&mut [u8; TABLE]>::try_from(table),
    ) {
        (Ok(log), Some(pile), Ok(table)) => (log, pile, table),
        _ => return refused(1, 0, 0),
    };
    let row = match <&[u8; 5]>::try_from(row) {
        Ok(row) => *row,
        Err(_) if kind == 1 || kind == 2 => return refused(1, 0, 0),
        Err(_) => [0; 5],
    };
    let mut ground = fresh();
    if let Err(no) = ground_of(log, &mut ground) {
        return no;
    }
    if let Err(no) = change(log, &mut ground, kind, k, x, &row) {
        return no;
    }
    match work_out::<true>(&ground, pile, sand.as_ref(), table) {
        Ok(answer) => answer,
        Err(number) => emptied(table, number),
    }
}

/// A refusal of the pile: its number plus 256 times its field, and an empty table.
#[inline]
fn emptied(table: &mut [u8; TABLE], number: u32) -> Answer {
    table.fill(0);
    refused(number & 0xFF, 0, number >> 8)
}

/// A pile record of either length: its first eight bytes as a number, and its grade.
type Record = (u64, i16);

#[inline(always)]
fn record_of(pile: &[u8]) -> Option<Record> {
    if let Ok(pile) = <&[u8; PILE_BYTES]>::try_from(pile) {
        return Some((u64::from_be_bytes(*pile), 0));
    }
    let [fields @ .., high, low] = <&[u8; GRADED_PILE_BYTES]>::try_from(pile).ok()?;
    Some((
        u64::from_be_bytes(*fields),
        i16::from_be_bytes([*high, *low]),
    ))
}

/// The fields of a pile record.
struct Pile {
    section: u32,
    a: u32,
    b: u32,
    method: usize,
    head: u32,
    tip: u32,
    /// A cut is negative, a fill positive.
    grade: i32,
}

impl Pile {
    /// How much deeper than it is a depth is read: what the grade has over 3,000.
    #[inline(always)]
    fn deeper(&self) -> i32 {
        self.grade - self.grade.clamp(-3_000, 3_000)
    }

    /// The tip's depth as read. Where that is no depth, the number is huge and check 7 refuses: the head is then above the cut level or
    /// not above the tip.
    #[inline(always)]
    fn tip_read(&self) -> u32 {
        (self.tip as i32 + self.deeper()) as u32
    }

    /// How far the tip is below ground or, where the site is cut, below the cut; past check 7.
    #[inline(always)]
    fn height(&self) -> u32 {
        (self.tip as i32 + self.grade.min(0)) as u32
    }
}

/// Checks 5 to 12 and 17, the slices and the numbers; a refusal is its number
/// plus 256 times its field. By itself it is quicker than within its callers.
#[inline(never)]
fn work_out<const KEPT: bool>(
    ground: &Ground,
    pile: Record,
    sand: Option<&Sand>,
    table: &mut [u8; TABLE],
) -> Result<Answer, u32> {
    let pile = pile_of(pile)?;
    let below = tip_soil(ground, &pile, sand)?;
    if let (true, Some(sand)) = (is_sand(below), sand) {
        return Ok(in_sand::<KEPT>(ground, &pile, below, sand, table));
    }
    let (sum, kept) = match pile.deeper() {
        0 => shaft::<KEPT>(ground, &pile, table, 0),
        deeper => graded_shaft::<KEPT>(ground, &pile, table, deeper),
    };
    let resistance = tip_resistance(pile.tip_read(), index_of(below));
    Ok(numbers(&pile, below, sum / 2_000_000, resistance, kept))
}

/// The same for a sand tip that passes the checks; by itself, so that clay tips do not wait for it.
#[inline(never)]
fn in_sand<const KEPT: bool>(
    ground: &Ground,
    pile: &Pile,
    below: u32,
    sand: &Sand,
    table: &mut [u8; TABLE],
) -> Answer {
    let (sum, kept) = graded_shaft::<KEPT>(ground, pile, table, pile.deeper());
    let resistance = sand.resistance(
        kind_of(below),
        pile.height().into(),
        pile.a.into(),
        pile.tip_read().into(),
    );
    numbers(pile, below, sum / 2_000_000, resistance, kept)
}

/// Checks 5 and 6.
#[inline(always)]
fn pile_of((pile, grade): Record) -> Result<Pile, u32> {
    let section = (pile >> 62) as u32;
    let a = (pile >> 50) as u32 & 0xFFF;
    let b = (pile >> 38) as u32 & 0xFFF;
    let method = (pile >> 36) as usize & 3;
    match section {
        1 if !(150..=2_000).contains(&a) => return Err(5 + 256 * 2),
        1 if b != 0 => return Err(5 + 256 * 3),
        2 if !(300..=4_000).contains(&a) => return Err(5 + 256 * 2),
        2 if !(300..=4_000).contains(&b) => return Err(5 + 256 * 3),
        1 | 2 => {}
        _ => return Err(5 + 256),
    }
    if pile & 15 != 0 {
        return Err(5 + 256 * 4);
    }
    if method == 0 {
        return Err(6);
    }
    let head = (pile >> 20) as u32 & 0xFFFF;
    let tip = (pile >> 4) as u32 & 0xFFFF;
    Ok(Pile {
        section,
        a,
        b,
        method,
        head,
        tip,
        grade: i32::from(grade),
    })
}

/// Check 7.
#[inline(always)]
fn depths_fit(pile: &Pile) -> bool {
    pile.head < pile.tip
        && (3_000..=40_000).contains(&pile.tip)
        && pile.head as i32 + pile.grade >= 0
        && pile.tip_read() <= 40_000
}

/// Checks 7 to 12 and 17; gives the soil of the millimetre just below the tip.
#[inline(always)]
fn tip_soil(ground: &Ground, pile: &Pile, sand: Option<&Sand>) -> Result<u32, u32> {
    if !depths_fit(pile) {
        return Err(7);
    }
    if ground.depth < pile.tip + 5_000 {
        return Err(8);
    }
    let (below, top) = tip_stratum(ground, pile.tip);
    let sandy = is_sand(below);
    if sandy && (sand.is_none() || pile.section == 2) {
        return Err(9);
    }
    let seat = pile.tip - top.max(pile.head);
    if seat < 2_000 || seat < pile.a.max(pile.b) {
        return Err(10);
    }
    if let (true, Some(sand)) = (sandy, sand) {
        let fits = sand.fits(pile.height().into(), pile.a.into());
        return if fits { Ok(below) } else { Err(17) };
    }
    let index = index_of(below);
    if index > 160 {
        return Err(11);
    }
    if index > 140 && pile.tip_read() > 20_000 {
        return Err(12);
    }
    Ok(below)
}

/// The soil of the millimetre just below the tip, and the top of its stratum.
#[inline(always)]
fn tip_stratum(ground: &Ground, tip: u32) -> (u32, u32) {
    let mut seat_top = 0;
    let mut bottom = 0;
    let mut below = ground.soil[0];
    for place in 0..ground.count {
        let soil = ground.soil[place];
        if soil != below {
            seat_top = bottom;
            below = soil;
        }
        bottom += u32::from(ground.thickness[place]);
        if bottom > tip {
            break;
        }
    }
    (below, seat_top)
}

/// Which column friction is read from, and the tenths towards the next.
#[inline(always)]
fn column_of(soil: u32) -> (usize, u32) {
    let kind = kind_of(soil);
    let hundredths = if kind <= 3 {
        10 * (kind - 1)
    } else {
        index_of(soil).saturating_sub(120)
    };
    ((hundredths / 10) as usize, hundredths % 10)
}

/// The bytes of a slice.
#[inline(always)]
fn slice_bytes(top: u32, thickness: u32, friction: u64, factor: u64) -> [u8; 7] {
    let number = u64::from(top) << 40 | u64::from(thickness) << 29 | friction << 4 | factor;
    let [_, bytes @ ..] = number.to_be_bytes();
    bytes
}

/// The place of a slice; a table has one for each slice of a pile that passes the checks.
#[inline(always)]
fn place_of(table: &mut [u8; TABLE], slice: usize) -> &mut [u8; 7] {
    let place = &mut table[7 * slice..7 * slice + 7];
    place.try_into().expect("seven bytes")
}

/// The slices; gives the sum of friction, thickness and factor, and how many slices were kept.
#[inline(always)]
fn shaft<const KEPT: bool>(
    ground: &Ground,
    pile: &Pile,
    table: &mut [u8; TABLE],
    deeper: i32,
) -> (u64, usize) {
    let factors = &FACTORS[pile.method];
    let (mut sum, mut slices, mut kept) = (0, 0, 0);
    let (mut row, mut top) = (0, 0);
    while top < pile.tip {
        let soil = ground.soil[row];
        let mut at = top.max(pile.head);
        while row < ground.count && ground.soil[row] == soil {
            top += u32::from(ground.thickness[row]);
            row += 1;
        }
        let end = top.min(pile.tip);
        if at >= end {
            continue;
        }
        let (column, tenth) = column_of(soil);
        let factor = u64::from(factors[kind_of(soil) as usize]);
        while at < end {
            let thickness = (end - at).min(2_000);
            let middle = (2 * at + thickness) as i32 + 2 * deeper;
            let friction = u64::from(friction(middle as u32, column, tenth));
            sum += friction * u64::from(thickness) * factor;
            let bytes = slice_bytes(at, thickness, friction, factor);
            let place = place_of(table, slices);
            if KEPT {
                kept += usize::from(kept == slices && *place == bytes);
            }
            *place = bytes;
            slices += 1;
            at += thickness;
        }
    }
    table[7 * slices..].fill(0);
    (sum, kept)
}

/// The same where depths are read deeper or less deep; by itself, since few sites are graded so much.
#[inline(never)]
fn graded_shaft<const KEPT: bool>(
    ground: &Ground,
    pile: &Pile,
    table: &mut [u8; TABLE],
    deeper: i32,
) -> (u64, usize) {
    shaft::<KEPT>(ground, pile, table, deeper)
}

/// The five numbers, each rounded down.
#[inline(always)]
fn numbers(pile: &Pile, below: u32, line: u64, resistance: u64, kept: usize) -> Answer {
    let (a, b) = (u64::from(pile.a), u64::from(pile.b));
    let (tip, shaft) = if pile.section == 1 {
        (
            resistance * (a * a * 314_159) / 400_000_000_000,
            line * (a * 314_159) / 100_000_000,
        )
    } else {
        (
            resistance * (a * b) / 1_000_000,
            line * (2 * (a + b)) / 1_000,
        )
    };
    let both = tip + shaft;
    let tenths = if pile.tip - pile.head < 4_000 { 6 } else { 8 };
    Answer {
        refusal: 0,
        row: 0,
        field: 0,
        kept: kept as u32,
        line,
        tip,
        shaft,
        capacity: if saturation_of(below) < 90 && !is_sand(below) {
            both * 8 / 10
        } else {
            both
        },
        uplift: shaft * tenths / 10,
    }
}
