//! The tables as constant arrays, laid out for quick reading, and how they are read.

/// Friction in kPa; a tenth column repeats the last.
const FRICTION: [[u8; 10]; 13] = [
    [35, 23, 15, 12, 8, 4, 4, 3, 2, 2],
    [42, 30, 21, 17, 12, 7, 5, 4, 4, 4],
    [48, 35, 25, 20, 14, 8, 7, 6, 5, 5],
    [53, 38, 27, 22, 16, 9, 8, 7, 5, 5],
    [56, 40, 29, 24, 17, 10, 8, 7, 6, 6],
    [58, 42, 31, 25, 18, 10, 8, 7, 6, 6],
    [62, 44, 33, 26, 19, 10, 8, 7, 6, 6],
    [65, 46, 34, 27, 19, 10, 8, 7, 6, 6],
    [72, 51, 38, 28, 20, 11, 8, 7, 6, 6],
    [79, 56, 41, 30, 20, 12, 8, 7, 6, 6],
    [86, 61, 44, 32, 20, 12, 8, 7, 6, 6],
    [93, 66, 47, 34, 21, 12, 9, 8, 7, 7],
    [100, 70, 50, 36, 22, 13, 9, 8, 7, 7],
];

/// For each whole metre: the row above, its depth in half millimetres, and 20,000
/// over the distance to the next row.
const FRICTION_AT: [(u8, u32, u8); 35] = {
    const DEPTHS: [u32; 13] = [1, 2, 3, 4, 5, 6, 8, 10, 15, 20, 25, 30, 35];
    let mut at = [(0, 0, 0); 35];
    let mut metre = 1;
    while metre < 35 {
        let mut row = 0;
        while DEPTHS[row + 1] <= metre {
            row += 1;
        }
        let apart = DEPTHS[row + 1] - DEPTHS[row];
        at[metre as usize] = (row as u8, 2_000 * DEPTHS[row], (10 / apart) as u8);
        metre += 1;
    }
    at
};

/// Tip resistance in kPa; a dash is 0, an eighth column repeats the last.
const TIP: [[u16; 8]; 10] = [
    [850, 750, 650, 500, 400, 300, 250, 250],
    [1000, 850, 750, 650, 500, 400, 350, 350],
    [1150, 1000, 850, 750, 600, 500, 450, 450],
    [1350, 1200, 1050, 950, 800, 700, 600, 600],
    [1550, 1400, 1250, 1100, 950, 800, 700, 700],
    [1800, 1650, 1500, 1300, 1100, 1000, 800, 800],
    [2100, 1900, 1700, 1500, 1300, 1150, 950, 950],
    [2300, 2100, 1900, 1650, 1450, 1250, 1050, 1050],
    [3300, 3000, 2600, 2300, 2000, 0, 0, 0],
    [4500, 4000, 3500, 3000, 2500, 0, 0, 0],
];
const TIP_DEPTHS: [u32; 10] = [
    3_000, 5_000, 7_000, 10_000, 12_000, 15_000, 18_000, 20_000, 30_000, 40_000,
];

pub const FACTORS: [[u8; 8]; 4] = [
    [0; 8],
    [0, 7, 7, 7, 7, 7, 6, 0],
    [0, 6, 6, 6, 6, 6, 6, 0],
    [0, 8, 8, 8, 8, 8, 7, 0],
];

/// Friction in 1/200 Pa at a depth in half millimetres; above 1 m it is in proportion to the depth.
#[inline]
pub fn friction(middle: u32, column: usize, tenth: u32) -> u32 {
    let across = |row: usize| {
        let cells = &FRICTION[row];
        u32::from(cells[column]) * (10 - tenth) + u32::from(cells[column + 1]) * tenth
    };
    if middle <= 2_000 {
        return across(0) * 10 * middle;
    }
    if middle >= 70_000 {
        return across(12) * 20_000;
    }
    let (row, from, share) = FRICTION_AT[(middle / 2_000) as usize];
    let (row, share) = (row as usize, u32::from(share));
    // The distance to the next row is 20,000 / share half millimetres.
    let (upper, lower) = (across(row), across(row + 1));
    upper * 20_000 + (lower * share * (middle - from)) - upper * share * (middle - from)
}

/// Tip resistance in whole Pa.
#[inline(always)]
pub fn tip_resistance(tip: u32, index: u32) -> u64 {
    let hundredths = index.saturating_sub(100);
    let (column, tenth) = ((hundredths / 10) as usize, u64::from(hundredths % 10));
    let mut row = 0;
    while row < 8 && TIP_DEPTHS[row + 1] <= tip {
        row += 1;
    }
    let across = |row: usize| {
        u64::from(TIP[row][column]) * (10 - tenth) + u64::from(TIP[row][column + 1]) * tenth
    };
    let apart = u64::from(TIP_DEPTHS[row + 1] - TIP_DEPTHS[row]);
    let down = u64::from(tip - TIP_DEPTHS[row]);
    (across(row) * (apart - down) + across(row + 1) * down) * 100 / apart
}
