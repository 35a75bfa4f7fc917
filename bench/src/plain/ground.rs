//! The rows of a log: taken apart, checked and changed.

use super::refused;
use psamathyr_door::{Answer, LOG_BYTES as LOG};

/// The rows of a log: thickness, and kind, index and saturation as one number.
pub struct Ground {
    pub count: usize,
    pub depth: u32,
    pub thickness: [u16; 64],
    pub soil: [u32; 64],
}

#[inline]
pub fn kind_of(soil: u32) -> u32 {
    soil >> 15
}

#[inline]
pub fn is_sand(soil: u32) -> bool {
    kind_of(soil) <= 3
}

#[inline]
pub fn index_of(soil: u32) -> u32 {
    (soil >> 7) & 0xFF
}

#[inline]
pub fn saturation_of(soil: u32) -> u32 {
    soil & 0x7F
}

/// A row taken apart: the lowest bad field or 0, thickness, soil.
#[inline]
fn row_of(bytes: &[u8; 5]) -> (u32, u16, u32) {
    let thickness = u16::from_be_bytes([bytes[0], bytes[1]]);
    let low = u32::from_be_bytes([0, bytes[2], bytes[3], bytes[4]]);
    let soil = low >> 6;
    let (kind, index) = (kind_of(soil), index_of(soil));
    let bad = if thickness == 0 || thickness > 60_000 {
        1
    } else if kind == 0 || kind == 7 {
        2
    } else if (kind <= 3 && index != 100) || index > 200 {
        3
    } else if saturation_of(soil) > 100 {
        4
    } else if low & 0x3F != 0 {
        5
    } else {
        0
    };
    (bad, thickness, soil)
}

/// The log checks 2 to 4.
#[inline]
pub fn ground_of(log: &[u8; LOG], ground: &mut Ground) -> Result<(), Answer> {
    let count = log[0] as usize;
    if count == 0 || count > 64 {
        return Err(refused(2, 0, 0));
    }
    let (used, unused) = log[1..].split_at(5 * count);
    if unused.iter().fold(0, |all, byte| all | byte) != 0 {
        return Err(refused(2, 0, 0));
    }
    let mut depth = 0;
    for (place, bytes) in used.chunks_exact(5).enumerate() {
        let bytes: &[u8; 5] = bytes.try_into().expect("five bytes");
        let (bad, thickness, soil) = row_of(bytes);
        if bad != 0 {
            return Err(refused(3, place as u32 + 1, bad));
        }
        ground.thickness[place] = thickness;
        ground.soil[place] = soil;
        depth += u32::from(thickness);
    }
    if depth > 60_000 {
        return Err(refused(4, 0, 0));
    }
    ground.count = count;
    ground.depth = depth;
    Ok(())
}

#[inline]
pub fn fresh() -> Ground {
    Ground {
        count: 0,
        depth: 0,
        thickness: [0; 64],
        soil: [0; 64],
    }
}

/// Checks 13 and 14, then the change in the log and in its rows.
#[inline(always)]
pub fn change(
    log: &mut [u8; LOG],
    ground: &mut Ground,
    kind: u32,
    k: u32,
    x: u32,
    row: &[u8; 5],
) -> Result<(), Answer> {
    let count = ground.count;
    let highest = count as u32 + u32::from(kind == 2);
    let known = (1..=4).contains(&kind) && k >= 1 && k <= highest;
    if !known
        || (kind == 3 && count == 1)
        || (kind == 4 && (x == 0 || x >= u32::from(ground.thickness[k as usize - 1])))
    {
        return Err(refused(13, 0, 0));
    }
    if (kind == 2 || kind == 4) && count == 64 {
        return Err(refused(14, 0, 0));
    }
    let place = k as usize - 1;
    match kind {
        1 | 2 => bring(log, ground, place, kind == 2, row)?,
        3 => remove(log, ground, place),
        _ => split(log, ground, place, x as u16),
    }
    Ok(())
}

/// A row replaced or inserted, after the checks of the new row.
#[inline(always)]
fn bring(
    log: &mut [u8; LOG],
    ground: &mut Ground,
    place: usize,
    insert: bool,
    row: &[u8; 5],
) -> Result<(), Answer> {
    let (bad, thickness, soil) = row_of(row);
    if bad != 0 {
        return Err(refused(3, place as u32 + 1, bad));
    }
    let gone = if insert {
        0
    } else {
        u32::from(ground.thickness[place])
    };
    let depth = ground.depth - gone + u32::from(thickness);
    if depth > 60_000 {
        return Err(refused(4, 0, 0));
    }
    ground.depth = depth;
    if insert {
        open(log, ground, place);
    }
    ground.thickness[place] = thickness;
    ground.soil[place] = soil;
    let from = 1 + 5 * place;
    log[from..from + 5].copy_from_slice(row);
    Ok(())
}

/// The rows from a place on moved down by one.
#[inline(always)]
fn open(log: &mut [u8; LOG], ground: &mut Ground, place: usize) {
    let count = ground.count;
    let (from, end) = (1 + 5 * place, 1 + 5 * count);
    ground.thickness.copy_within(place..count, place + 1);
    ground.soil.copy_within(place..count, place + 1);
    ground.count = count + 1;
    log.copy_within(from..end, from + 5);
    log[0] += 1;
}

#[inline(always)]
fn remove(log: &mut [u8; LOG], ground: &mut Ground, place: usize) {
    let count = ground.count;
    let (from, end) = (1 + 5 * place, 1 + 5 * count);
    ground.depth -= u32::from(ground.thickness[place]);
    ground.thickness.copy_within(place + 1..count, place);
    ground.soil.copy_within(place + 1..count, place);
    ground.count = count - 1;
    log.copy_within(from + 5..end, from);
    log[end - 5..end].fill(0);
    log[0] -= 1;
}

#[inline(always)]
fn split(log: &mut [u8; LOG], ground: &mut Ground, place: usize, x: u16) {
    open(log, ground, place);
    ground.thickness[place] = x;
    ground.thickness[place + 1] -= x;
    let from = 1 + 5 * place;
    log[from..from + 2].copy_from_slice(&ground.thickness[place].to_be_bytes());
    log[from + 5..from + 7].copy_from_slice(&ground.thickness[place + 1].to_be_bytes());
}
