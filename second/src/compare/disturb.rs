//! Moves one value of a site to, or just over, one of its limits.

#![forbid(unsafe_code)]

use super::dice::Dice;
use super::grades::disturb_grade;
use super::makers::Site;
use super::sands::{any_record, disturb_record, slender};
use second::{Pile, Row};

/// One of 29 ways, each as likely as the others.
pub fn disturb(dice: &mut Dice, site: &mut Site) {
    let depth: u32 = site.rows.iter().map(|row| u32::from(row.thickness)).sum();
    let place = dice.below(site.rows.len() as u32) as usize;
    match dice.below(29) {
        way @ 0..=4 => disturb_depths(dice, &mut site.pile, depth, way),
        way @ 5..=9 => disturb_pile(dice, &mut site.pile, way),
        way @ 10..=14 => disturb_row(dice, &mut site.rows[place], way),
        15 => depth_to_limit(dice, &mut site.rows, depth),
        way @ 16..=19 => disturb_tip_soil(dice, site, way),
        20 => tip_near_end(dice, site, place),
        21..=23 => disturb_grade(dice, &mut site.pile),
        24..=27 => disturb_sand(dice, site),
        _ => soil_of_first(&mut site.rows, place),
    }
}

/// Head and tip.
fn disturb_depths(dice: &mut Dice, pile: &mut Pile, depth: u32, way: u32) {
    let tip = pile.tip;
    match way {
        0 => pile.tip = dice.one_of(&[0, 2_999, 3_000, 40_000, 40_001, 65_535]),
        1 => pile.tip = tip.wrapping_add(dice.below(3) as u16).wrapping_sub(1),
        2 => {
            let ends = depth.saturating_sub(dice.between(4_999, 5_001));
            pile.tip = ends.min(65_535) as u16;
        }
        3 => pile.head = tip.wrapping_add(dice.below(3) as u16).wrapping_sub(1),
        _ => pile.head = dice.one_of(&[0, 1, 999, 1_000, 65_535]),
    }
}

/// Section, method and zero bits.
fn disturb_pile(dice: &mut Dice, pile: &mut Pile, way: u32) {
    match way {
        5 => pile.section = dice.one_of(&[0, 3]),
        6 => {
            pile.section = 1;
            pile.a = dice.one_of(&[0, 149, 150, 2_000, 2_001, 4_095]);
            pile.b = dice.one_of(&[0, 0, 0, 1, 300, 4_095]);
        }
        7 => {
            pile.section = 2;
            pile.a = dice.one_of(&[0, 299, 300, 600, 4_000, 4_001, 4_095]);
            pile.b = dice.one_of(&[0, 299, 300, 600, 4_000, 4_001, 4_095]);
        }
        8 => pile.method = 0,
        _ => pile.zero = dice.between(1, 15) as u8,
    }
}

fn disturb_row(dice: &mut Dice, row: &mut Row, way: u32) {
    match way {
        10 => row.thickness = dice.one_of(&[0, 1, 60_000, 60_001, 65_535, 2_000, 2_001]),
        11 => row.kind = dice.one_of(&[0, 1, 3, 4, 6, 7]),
        12 => row.index = dice.one_of(&[0, 99, 100, 101, 199, 200, 201, 255]),
        13 => row.saturation = dice.one_of(&[0, 89, 90, 100, 101, 127]),
        _ => row.zero = dice.one_of(&[1, 2, 32, 63]),
    }
}

/// The depth to just 60,000, or one more.
fn depth_to_limit(dice: &mut Dice, rows: &mut [Row], depth: u32) {
    let last = rows.len() - 1;
    let rest = depth - u32::from(rows[last].thickness);
    let wanted = dice.between(60_000, 60_001);
    rows[last].thickness = wanted.saturating_sub(rest).min(65_535) as u16;
}

/// The soil just below the tip, if there is one.
fn disturb_tip_soil(dice: &mut Dice, site: &mut Site, way: u32) {
    let holder = match holding(&site.rows, u32::from(site.pile.tip)) {
        Some(holder) => holder,
        None => return,
    };
    match way {
        16 | 17 => recolour(&mut site.rows, holder, |row| {
            if row.kind >= 4 {
                row.index = [159, 160, 161, 140, 141, 200][usize::from(row.saturation) % 6];
            }
        }),
        18 => {
            let saturation = dice.one_of(&[89, 90]);
            recolour(&mut site.rows, holder, |row| row.saturation = saturation);
        }
        _ => sand_below(dice, &mut site.rows, holder),
    }
}

/// A row, and all rows joined to it by the same soil, to sand.
fn sand_below(dice: &mut Dice, rows: &mut [Row], holder: usize) {
    let kind = dice.between(1, 3) as u8;
    recolour(rows, holder, |row| {
        row.kind = kind;
        row.index = 100;
    });
}

/// The tip to sand where it stands in clay, then its record, or its diameter, to or just over a limit.
fn disturb_sand(dice: &mut Dice, site: &mut Site) {
    if let Some(holder) = holding(&site.rows, u32::from(site.pile.tip)) {
        if site.rows[holder].kind > 3 {
            sand_below(dice, &mut site.rows, holder);
            slender(dice, &mut site.pile);
        }
    }
    match dice.below(6) {
        0 => site.sand = any_record(dice),
        1 => slender(dice, &mut site.pile),
        _ => disturb_record(dice, &mut site.sand),
    }
}

/// The tip to a row's end, or 2,000 or the longer side below it, give or take one.
fn tip_near_end(dice: &mut Dice, site: &mut Site, place: usize) {
    let ends: u32 = site.rows[..=place]
        .iter()
        .map(|row| u32::from(row.thickness))
        .sum();
    let side = u32::from(site.pile.a.max(site.pile.b));
    let seat = dice.one_of(&[0, 2_000, side]);
    site.pile.tip = (ends + seat + dice.below(3)).saturating_sub(1).min(65_535) as u16;
}

/// A row of the uppermost row's soil.
fn soil_of_first(rows: &mut [Row], place: usize) {
    if let Some(first) = rows.first().copied() {
        let place = place.max(1).min(rows.len() - 1);
        rows[place].kind = first.kind;
        rows[place].index = first.index;
        rows[place].saturation = first.saturation;
    }
}

/// The row with the millimetre just below a depth.
fn holding(rows: &[Row], depth: u32) -> Option<usize> {
    let mut bottom = 0;
    rows.iter().position(|row| {
        bottom += u32::from(row.thickness);
        depth < bottom
    })
}

/// Changes the soil of a row and of all rows joined to it by the same soil.
fn recolour(rows: &mut [Row], place: usize, change: impl Fn(&mut Row)) {
    let soil = |row: &Row| (row.kind, row.index, row.saturation);
    let was = soil(&rows[place]);
    let mut from = place;
    while from > 0 && soil(&rows[from - 1]) == was {
        from -= 1;
    }
    for row in rows[from..].iter_mut().take_while(|row| soil(row) == was) {
        change(row);
    }
}
