//! The four edits.

#![forbid(unsafe_code)]

use crate::calculation::{lent_with_row, work_out};
use crate::records::{bad_field, depth, log_bytes, row_fields};
use crate::{Answer, Refusal, Row, Sand, ROWS, SLICE};

/// Edits a log (kind 1 replace, 2 insert, 3 remove, 4 split), works it out and fills the table.
pub fn edit(
    log: &mut [u8],
    pile: &[u8],
    sand: Option<Sand>,
    table: &mut [u8],
    [kind, k, x]: [u32; 3],
    row: &[u8],
) -> Answer {
    let brought = matches!(kind, 1 | 2).then_some(row);
    let rows = match lent_with_row(log, pile, table, brought)
        .and_then(|rows| edited(rows, kind, k, x, row))
    {
        Ok(rows) => rows,
        Err(refusal) => return refusal.answer(),
    };
    let (mut answer, filled) = work_out(&rows, pile, sand);
    if answer.refusal == 0 {
        answer.kept = kept(table, &filled);
    }
    log.copy_from_slice(&log_bytes(&rows));
    table.copy_from_slice(&filled);
    answer
}

/// Checks 13, 14, 3 and 4 of an edit; gives the new rows.
fn edited(mut rows: Vec<Row>, kind: u32, k: u32, x: u32, row: &[u8]) -> Result<Vec<Row>, Refusal> {
    let count = rows.len();
    let named = k as usize;
    let thickness = if (1..=count).contains(&named) {
        u32::from(rows[named - 1].thickness)
    } else {
        0
    };

    let sensible = match kind {
        1 => (1..=count).contains(&named),
        2 => (1..=count + 1).contains(&named),
        3 => (1..=count).contains(&named) && count > 1,
        4 => (1..thickness).contains(&x),
        _ => false,
    };
    if !sensible {
        return Err(Refusal::plain(13));
    }
    if matches!(kind, 2 | 4) && count == ROWS {
        return Err(Refusal::plain(14));
    }

    let place = named - 1;
    match kind {
        1 => rows[place] = new_row(row, named)?,
        2 => rows.insert(place, new_row(row, named)?),
        3 => {
            rows.remove(place);
        }
        _ => {
            let mut lower = rows[place];
            lower.thickness -= x as u16;
            rows[place].thickness = x as u16;
            rows.insert(named, lower);
        }
    }
    depth(&rows)?;
    Ok(rows)
}

/// Check 3 of the row an edit brings.
fn new_row(packed: &[u8], named: usize) -> Result<Row, Refusal> {
    let row = row_fields(packed);
    match bad_field(&row) {
        Some(field) => Err(Refusal::at(3, named, field)),
        None => Ok(row),
    }
}

/// Leading slices of the new table that the lent one already had.
fn kept(lent: &[u8], new: &[u8]) -> u32 {
    let used = |slice: &&[u8]| slice.iter().any(|byte| *byte != 0);
    let mut count = 0;
    for (before, after) in lent.chunks(SLICE).zip(new.chunks(SLICE).take_while(used)) {
        if before != after {
            break;
        }
        count += 1;
    }
    count
}
