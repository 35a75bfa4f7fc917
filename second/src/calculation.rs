//! A calculation: the checks in their order, then the numbers.

#![forbid(unsafe_code)]

use crate::fraction::Fraction;
use crate::ground::{millimetres, pieces, strata, Piece, Soil, Stratum};
use crate::records::{check_pile, depth, is_pile_length, open_log, pile_fields, slice_bytes};
use crate::sand::{self, Sand};
use crate::{tables, Answer, Pile, Refusal, Row, Slice, SLICE, SLICES, TABLE};

/// Works out a pile in a log, with the record of a sand tip if one is brought, and fills the table.
pub fn calculate(log: &[u8], pile: &[u8], sand: Option<Sand>, table: &mut [u8]) -> Answer {
    let rows = match lent(log, pile, table) {
        Ok(rows) => rows,
        Err(refusal) => return refusal.answer(),
    };
    let (answer, filled) = work_out(&rows, pile, sand);
    table.copy_from_slice(&filled);
    answer
}

/// Checks 1 to 4 of what every calculation and edit is lent.
fn lent(log: &[u8], pile: &[u8], table: &[u8]) -> Result<Vec<Row>, Refusal> {
    if !is_pile_length(pile.len()) || table.len() != TABLE {
        return Err(Refusal::plain(1));
    }
    let rows = open_log(log)?;
    depth(&rows)?;
    Ok(rows)
}

/// The same with the row an edit brings, if its kind uses one.
pub(crate) fn lent_with_row(
    log: &[u8],
    pile: &[u8],
    table: &[u8],
    row: Option<&[u8]>,
) -> Result<Vec<Row>, Refusal> {
    if matches!(row, Some(bytes) if bytes.len() != crate::ROW) {
        return Err(Refusal::plain(1));
    }
    lent(log, pile, table)
}

/// The answer and the whole table for rows that passed the log checks.
pub(crate) fn work_out(rows: &[Row], pile: &[u8], sand: Option<Sand>) -> (Answer, Vec<u8>) {
    match numbers(rows, &pile_fields(pile), sand) {
        Ok((answer, slices)) => {
            let mut table = Vec::with_capacity(TABLE);
            for slice in &slices {
                table.extend(slice_bytes(slice));
            }
            debug_assert_eq!(table.len(), slices.len() * SLICE);
            table.resize(TABLE, 0);
            (answer, table)
        }
        Err(refusal) => (refusal.answer(), vec![0; TABLE]),
    }
}

/// Checks 5 to 12 and 17, then the numbers.
fn numbers(rows: &[Row], pile: &Pile, sand: Option<Sand>) -> Result<(Answer, Vec<Slice>), Refusal> {
    check_pile(pile)?;
    let ground = ground(rows, pile)?;
    let below = ground[usize::from(pile.tip)];
    let needed = needed(sand, below, pile)?;
    let strata = strata(&ground);
    check_seat(&strata, pile)?;
    let resistance = match needed {
        Some(record) => sand_resistance(&record, below, pile)?,
        None => clay_resistance(below, pile)?,
    };
    let slices = slices(&strata, pile);

    let line = slices
        .iter()
        .map(share)
        .fold(Fraction::ZERO, |sum, part| sum + part)
        .floor();
    Ok((answer(resistance, line, below, pile), slices))
}

/// Checks 7 and 8: head and tip, and a log that goes far enough below the tip.
fn ground(rows: &[Row], pile: &Pile) -> Result<Vec<Soil>, Refusal> {
    if pile.head >= pile.tip || !(3_000..=40_000).contains(&pile.tip) {
        return Err(Refusal::plain(7));
    }
    if cut_away(pile) || as_read(metres(usize::from(pile.tip)), pile) > Fraction::whole(40) {
        return Err(Refusal::plain(7));
    }
    let ground = millimetres(rows);
    if ground.len() < usize::from(pile.tip) + 5_000 {
        return Err(Refusal::plain(8));
    }
    Ok(ground)
}

/// True if the head is above the cut level, so that a part of the pile would stand in the air.
fn cut_away(pile: &Pile) -> bool {
    let cut = -i32::from(pile.grade);
    i32::from(pile.head) < cut
}

/// A depth in m as the tables read it: from natural ground where the grade is at most 3 m either way, else from 3 m above the cut level or
/// from 3 m below the fill level.
fn as_read(natural: Fraction, pile: &Pile) -> Fraction {
    let fill = Fraction::new(i128::from(pile.grade), 1_000);
    let cut = Fraction::ZERO - fill;
    let three = Fraction::whole(3);
    if cut > three {
        natural - (cut - three)
    } else if fill > three {
        natural + (fill - three)
    } else {
        natural
    }
}

/// Check 9: the record of a sand tip, which must be there and is good for circles only. A clay tip needs none, and does not look at it.
fn needed(sand: Option<Sand>, below: Soil, pile: &Pile) -> Result<Option<Sand>, Refusal> {
    if !below.is_sand() {
        return Ok(None);
    }
    match sand {
        Some(record) if pile.section == 1 => Ok(Some(record)),
        _ => Err(Refusal::plain(9)),
    }
}

/// Check 10: the tip stands deep enough in its stratum.
fn check_seat(strata: &[Stratum], pile: &Pile) -> Result<(), Refusal> {
    let head = usize::from(pile.head);
    let tip = usize::from(pile.tip);
    let seat_top = strata
        .iter()
        .find(|stratum| stratum.top <= tip && tip < stratum.bottom)
        .map(|stratum| stratum.top.max(head))
        .expect("a stratum at the tip");
    let seat = tip - seat_top;
    let side = usize::from(pile.a.max(pile.b));
    if seat < 2_000 || seat < side {
        return Err(Refusal::plain(10));
    }
    Ok(())
}

/// Check 17, then the tip resistance of sand in Pa: by the formula, at most the cap. The formula counts its depth from the cut level, also
/// where the tables are read from natural ground; a fill adds nothing to it.
fn sand_resistance(record: &Sand, below: Soil, pile: &Pile) -> Result<i128, Refusal> {
    let cut = (-i32::from(pile.grade)).max(0) as u32;
    let h = u32::from(pile.tip) - cut;
    let d = u32::from(pile.a);
    sand::check(record, h, d)?;
    let read = as_read(metres(usize::from(pile.tip)), pile) * Fraction::whole(1_000);
    let cap = sand::cap(below.kind(), read.exactly() as u32);
    Ok(i128::from(sand::formula(record, h, d).resistance.min(cap)))
}

/// Checks 11 and 12, then the tip resistance of clay in Pa.
fn clay_resistance(below: Soil, pile: &Pile) -> Result<i128, Refusal> {
    if below.index() > Fraction::new(60, 100) {
        return Err(Refusal::plain(11));
    }
    let kilopascals = tables::tip()
        .at(as_read(metres(usize::from(pile.tip)), pile), below.index())
        .map_err(|tables::Dash| Refusal::plain(12))?;
    Ok((kilopascals * Fraction::whole(1_000)).floor())
}

/// The slices of the shaft. No pile that passes the checks has more of them than a table has places: one that had would end the program.
fn slices(strata: &[Stratum], pile: &Pile) -> Vec<Slice> {
    let head = usize::from(pile.head);
    let tip = usize::from(pile.tip);
    let pieces = pieces(strata, head, tip);
    assert!(
        pieces.len() <= SLICES,
        "{} slices, and a table has {SLICES} places",
        pieces.len()
    );
    let slices: Vec<Slice> = pieces.iter().map(|piece| slice(piece, pile)).collect();
    let length: usize = slices
        .iter()
        .map(|slice| usize::from(slice.thickness))
        .sum();
    assert_eq!(length, tip - head);
    slices
}

/// The five numbers from tip resistance in Pa and line, with the soil below the tip.
fn answer(resistance: i128, line: i128, below: Soil, pile: &Pile) -> Answer {
    let (area, perimeter) = section(pile);
    let tip = (Fraction::whole(resistance) * area).floor();
    let shaft = (Fraction::whole(line) * perimeter).floor();
    let soaked = if below.saturation() < 90 && !below.is_sand() {
        Fraction::new(8, 10)
    } else {
        Fraction::ONE
    };
    let pull = if pile.tip - pile.head < 4_000 {
        Fraction::new(6, 10)
    } else {
        Fraction::new(8, 10)
    };
    Answer {
        line: line as u64,
        tip: tip as u64,
        shaft: shaft as u64,
        capacity: (Fraction::whole(tip + shaft) * soaked).floor() as u64,
        uplift: (Fraction::whole(shaft) * pull).floor() as u64,
        ..Answer::default()
    }
}

fn metres(millimetres: usize) -> Fraction {
    Fraction::new(millimetres as i128, 1_000)
}

/// Area in square metres and perimeter in metres.
fn section(pile: &Pile) -> (Fraction, Fraction) {
    let pi = Fraction::decimal("3.14159");
    let a = metres(usize::from(pile.a));
    let b = metres(usize::from(pile.b));
    if pile.section == 1 {
        (pi * a * a / Fraction::whole(4), pi * a)
    } else {
        (a * b, Fraction::whole(2) * (a + b))
    }
}

fn slice(piece: &Piece, pile: &Pile) -> Slice {
    let middle = Fraction::new((2 * piece.top + piece.thickness) as i128, 2_000);
    let kilopascals = friction(as_read(middle, pile), friction_index(piece.soil));
    Slice {
        refusal: 0,
        top: piece.top as u16,
        thickness: piece.thickness as u16,
        friction: (kilopascals * Fraction::whole(200_000)).exactly() as u32,
        factor: factor(pile.method, piece.soil.kind()),
    }
}

/// Friction in kPa at a depth in m as read. Above 1 m it is that of 1 m, times the depth.
fn friction(depth: Fraction, index: Fraction) -> Fraction {
    let printed = |depth| {
        tables::friction()
            .at(depth, index)
            .expect("no dash in this table")
    };
    if depth < Fraction::ONE {
        printed(Fraction::ONE) * depth
    } else {
        printed(depth)
    }
}

/// The index by which friction is read; sands have a column each.
fn friction_index(soil: Soil) -> Fraction {
    match soil.kind() {
        1 => Fraction::decimal("0.2"),
        2 => Fraction::decimal("0.3"),
        3 => Fraction::decimal("0.4"),
        _ => soil.index(),
    }
}

/// The method factor in tenths.
fn factor(method: u8, kind: u8) -> u8 {
    let clay = kind == 6;
    match method {
        1 => 7 - u8::from(clay),
        2 => 6,
        _ => 8 - u8::from(clay),
    }
}

/// A slice's share of the line, N per metre of perimeter.
fn share(slice: &Slice) -> Fraction {
    Fraction::new(i128::from(slice.friction), 200)
        * metres(usize::from(slice.thickness))
        * Fraction::new(i128::from(slice.factor), 10)
}
