//! Reading and packing of logs.

#![forbid(unsafe_code)]

use super::dice::Dice;
use super::disturb::disturb;
use super::lending::{damage, Lending};
use super::makers::{good, with_each, Site, ZEROS};
use super::meter::Meter;
use second::cases::log_of;
use second::{Answer, Log, Row, LOG, ROWS};

const THICKNESSES: [u16; 9] = [0, 1, 2, 2_000, 32_768, 59_999, 60_000, 60_001, 65_535];
/// With and without what three bits can hold.
const KINDS: [u8; 13] = [0, 1, 2, 3, 4, 5, 6, 7, 8, 9, 12, 128, 255];
const INDEXES: [u8; 12] = [0, 1, 99, 100, 101, 127, 128, 199, 200, 201, 254, 255];
const SATURATIONS: [u8; 11] = [0, 1, 89, 90, 99, 100, 101, 127, 128, 228, 255];

fn row(thickness: u16, kind: u8, index: u8, saturation: u8) -> Row {
    Row {
        thickness,
        kind,
        index,
        saturation,
        zero: 0,
    }
}

/// A row's every field lowest, highest and one off.
fn rows_around() -> Vec<Row> {
    let mut rows = Vec::new();
    for row in [row(20_000, 6, 130, 95), row(1, 2, 100, 100)] {
        rows.extend(THICKNESSES.map(|thickness| Row { thickness, ..row }));
        rows.extend(SATURATIONS.map(|saturation| Row { saturation, ..row }));
        rows.extend(ZEROS.map(|zero| Row { zero, ..row }));
        for kind in KINDS {
            rows.extend(INDEXES.map(|index| Row { kind, index, ..row }));
        }
    }
    rows.extend(rows_mixed());
    rows
}

/// All mixtures of right and wrong fields: the lowest wrong one is named.
fn rows_mixed() -> Vec<Row> {
    let mut rows = vec![Row::default()];
    rows = with_each(&rows, &[0, 1], |row, thickness| row.thickness = thickness);
    rows = with_each(&rows, &[0, 1, 6], |row, kind| row.kind = kind);
    rows = with_each(&rows, &[100, 201], |row, index| row.index = index);
    rows = with_each(&rows, &[100, 101], |row, saturation| {
        row.saturation = saturation
    });
    with_each(&rows, &[0, 1], |row, zero| row.zero = zero)
}

/// Fields of a log, with something in the places a packing does not look at.
fn log_fields(dice: &mut Dice, rows: &[Row]) -> Log {
    let mut fields = Log {
        refusal: dice.below(20),
        row: dice.below(70),
        field: dice.below(7),
        count: rows.len() as u8,
        ..Log::default()
    };
    fields.rows[..rows.len()].copy_from_slice(rows);
    fields
}

pub fn logs(meter: &mut Meter, seed: u64, cases: u64) {
    let dice = &mut Dice::new(seed, 4, 0);
    let full = full_log(dice);
    let around = rows_around();
    meter.group("logs read");
    read_lengths(meter, dice, &full);
    read_counts(meter, dice, &full);
    read_rows(meter, dice, &full, &around);
    read_seeded(meter, seed, cases);

    meter.group("logs packed");
    pack_lengths(meter, dice);
    pack_counts(meter, dice, &full.rows);
    pack_rows(meter, dice, &full.rows, &around);
    pack_seeded(meter, seed, cases);
}

/// A good site whose log has no place left.
fn full_log(dice: &mut Dice) -> Site {
    let mut site = good(dice);
    while site.rows.len() != ROWS {
        site = good(dice);
    }
    site
}

fn read_lengths(meter: &mut Meter, dice: &mut Dice, full: &Site) {
    for len in 0..=330 {
        meter.case(format!("length {len}"));
        for filling in [vec![0; len], vec![1; len], dice.bytes(len)] {
            meter.read_log(&filling);
        }
        for site in [good(dice), full.clone()] {
            let mut log = site.log();
            log.resize(len, 0);
            meter.read_log(&log);
        }
    }
}

fn read_counts(meter: &mut Meter, dice: &mut Dice, full: &Site) {
    for count in 0..=255 {
        meter.case(format!("count {count}"));
        for mut log in [vec![0; LOG], good(dice).log(), full.log(), dice.bytes(LOG)] {
            log[0] = count;
            meter.read_log(&log);
            // Good rows exactly as many as counted, and one byte of the rest not zero.
            let used = (1 + 5 * usize::from(count)).min(LOG);
            let mut log = full.log();
            log[0] = count;
            log[used..].fill(0);
            meter.read_log(&log);
            if used < LOG {
                log[dice.between(used as u32, LOG as u32 - 1) as usize] = 1 << dice.below(8);
                meter.read_log(&log);
            }
        }
    }
}

/// A row in places of a full log, and as the last row of a shorter one.
fn read_rows(meter: &mut Meter, dice: &mut Dice, full: &Site, around: &[Row]) {
    for (number, row) in around.iter().enumerate() {
        meter.case(format!("row {number}"));
        for place in [0, 1, dice.below(64) as usize, 63] {
            let mut rows = full.rows.clone();
            rows[place] = *row;
            meter.read_log(&log_of(&rows));
            meter.read_log(&log_of(&rows[..=place]));
        }
    }
}

fn read_seeded(meter: &mut Meter, seed: u64, cases: u64) {
    for case in 0..cases {
        let dice = &mut Dice::new(seed, 5, case);
        meter.case(format!("case {case}"));
        let mut site = good(dice);
        if dice.once_in(2) {
            disturb(dice, &mut site);
        }
        let mut lent = Lending {
            log: site.log(),
            pile: site.pile(),
            sand: site.sand,
            table: Vec::new(),
        };
        if dice.once_in(2) {
            damage(dice, &mut lent);
        }
        meter.read_log(&lent.log);
    }
}

fn pack_lengths(meter: &mut Meter, dice: &mut Dice) {
    for len in 0..=330 {
        meter.case(format!("length {len}"));
        let buffer = dice.bytes(len);
        let site = good(dice);
        let fields = log_fields(dice, &site.rows);
        meter.pack_log(&fields, &buffer);
        let fields = log_fields(dice, &[Row::default()]);
        meter.pack_log(&fields, &buffer);
    }
}

fn pack_counts(meter: &mut Meter, dice: &mut Dice, rows: &[Row]) {
    for count in 0..=255 {
        meter.case(format!("count {count}"));
        let buffer = dice.bytes(LOG);
        let mut full = log_fields(dice, rows);
        full.count = count;
        meter.pack_log(&full, &buffer);
        for row in full.rows.iter_mut().skip(usize::from(count)) {
            *row = Row::default();
        }
        meter.pack_log(&full, &buffer);
        if usize::from(count) < ROWS {
            pack_beyond(meter, dice, &full, &buffer);
        }
        let mut empty = log_fields(dice, &[]);
        empty.count = count;
        meter.pack_log(&empty, &buffer);
    }
}

/// One field of one row beyond the count is not zero.
fn pack_beyond(meter: &mut Meter, dice: &mut Dice, full: &Log, buffer: &[u8]) {
    let spot = dice.between(u32::from(full.count), 63) as usize;
    for field in 0..5 {
        let mut full = full.clone();
        let row = &mut full.rows[spot];
        match field {
            0 => row.thickness = dice.one_of(&[1, 256, 32_768, 65_535]),
            1 => row.kind = dice.one_of(&[1, 8, 255]),
            2 => row.index = dice.one_of(&[1, 100, 255]),
            3 => row.saturation = dice.one_of(&[1, 128, 255]),
            _ => row.zero = dice.one_of(&[1, 64, 255]),
        }
        meter.pack_log(&full, buffer);
    }
}

fn pack_rows(meter: &mut Meter, dice: &mut Dice, full: &[Row], around: &[Row]) {
    for (number, row) in around.iter().enumerate() {
        meter.case(format!("row {number}"));
        for place in [0, 1, dice.below(64) as usize, 63] {
            let mut rows = full.to_vec();
            rows[place] = *row;
            let buffer = dice.bytes(LOG);
            let fields = log_fields(dice, &rows);
            meter.pack_log(&fields, &buffer);
            let fields = log_fields(dice, &rows[..=place]);
            let (answer, packed) = meter.pack_log(&fields, &buffer);
            there_and_back(meter, &fields, answer, &packed);
        }
    }
}

fn pack_seeded(meter: &mut Meter, seed: u64, cases: u64) {
    for case in 0..cases {
        let dice = &mut Dice::new(seed, 6, case);
        meter.case(format!("case {case}"));
        let mut site = good(dice);
        if dice.once_in(3) {
            disturb(dice, &mut site);
        }
        let mut fields = log_fields(dice, &site.rows);
        if dice.once_in(3) {
            let place = dice.below(64) as usize;
            fields.rows[place] = Row {
                thickness: dice.bits() as u16,
                kind: dice.byte(),
                index: dice.byte(),
                saturation: dice.byte(),
                zero: dice.byte(),
            };
        }
        let buffer = dice.bytes(LOG);
        let (answer, packed) = meter.pack_log(&fields, &buffer);
        there_and_back(meter, &fields, answer, &packed);
    }
}

/// A packed log reads as what was packed.
fn there_and_back(meter: &mut Meter, fields: &Log, answer: Answer, packed: &[u8]) {
    if answer.refusal == 0 {
        let back = meter.read_log(packed);
        let same = (back.refusal, back.count, back.rows) == (0, fields.count, fields.rows);
        meter.count(same, || format!("  packed {fields:?}, read {back:?}"));
    }
}
