//! Seeded calculations and runs of edits.

#![forbid(unsafe_code)]

use super::choose::{choose, Mode};
use super::dice::Dice;
use super::disturb::disturb;
use super::grades::{disturb_grade, grade, Grades};
use super::lending::{damage, spot, table, Lending};
use super::makers::{good, loose, Site};
use super::meter::{Edit, Meter};
use super::sands::{any_record, disturb_record, record, Sands};
use super::shallow::{shallow_rows, Shallow};
use second::{Answer, Pile, Row, SLICE, TABLE};

/// How often each refusal came.
struct Seen([u64; 18]);

/// The refusals of a calculation, and those of an edit besides: 15 was withdrawn, and 16 has not come yet.
const OF_CALCULATIONS: [usize; 14] = [0, 1, 2, 3, 4, 5, 6, 7, 8, 9, 10, 11, 12, 17];
const OF_EDITS: [usize; 2] = [13, 14];

impl Seen {
    fn add(&mut self, answer: &Answer) {
        self.0[answer.refusal as usize] += 1;
    }

    /// Counts a failure for a refusal of the list that never came.
    fn all(&self, meter: &mut Meter, list: &[usize]) {
        for &number in list {
            meter.case(format!("refusal {number}"));
            meter.count(self.0[number] > 0, || "  was never reached".to_string());
        }
    }

    fn text(&self) -> String {
        let list: Vec<String> = self
            .0
            .iter()
            .enumerate()
            .filter(|(_, times)| **times > 0)
            .map(|(number, times)| format!("{number}: {times}"))
            .collect();
        format!("replies by refusal {}", list.join(", "))
    }
}

fn site(dice: &mut Dice) -> Site {
    match dice.below(16) {
        0..=8 => good(dice),
        9 => loose(dice),
        _ => {
            let mut site = good(dice);
            for _ in 0..dice.one_of(&[1, 1, 1, 2, 3]) {
                disturb(dice, &mut site);
            }
            site
        }
    }
}

fn right_table(lent: &Lending) -> Vec<u8> {
    let mut table = vec![0; TABLE];
    second::calculate(&lent.log, &lent.pile, lent.sand.record(), &mut table);
    table
}

/// What a site lends, without a table yet.
fn lend(site: &Site) -> Lending {
    Lending {
        log: site.log(),
        pile: site.pile(),
        sand: site.sand,
        table: Vec::new(),
    }
}

fn used(table: &[u8]) -> usize {
    table
        .chunks(SLICE)
        .take_while(|slice| slice.iter().any(|byte| *byte != 0))
        .count()
}

pub fn calculations(meter: &mut Meter, seed: u64, cases: u64) {
    meter.group("calculations");
    let mut seen = Seen([0; 18]);
    let mut grades = Grades::default();
    let mut sands = Sands::default();
    let mut shallow = Shallow::default();
    let mut fullest = 0;
    for case in 0..cases {
        if meter.enough() {
            break;
        }
        let lent = lent_to_calculate(&mut Dice::new(seed, 1, case));
        meter.case(format!("case {case}"));
        let (_, answer, table) = meter.calculate(&lent);
        seen.add(&answer);
        grades.add(&lent.pile, &answer);
        sands.add(&lent, &answer);
        shallow.add(&lent, &table, &answer);
        if answer.refusal == 0 {
            fullest = fullest.max(used(&table));
        }
    }
    if !meter.enough() {
        seen.all(meter, &OF_CALCULATIONS);
        grades.all(meter);
        sands.all(meter);
        shallow.all(meter, false);
        meter.case("slices".to_string());
        meter.count(fullest == 83, || {
            "  83 slices were never reached".to_string()
        });
    }
    let texts = [
        seen.text(),
        grades.text(),
        sands.text(),
        shallow.text(false),
    ];
    meter.note(texts.join("; "));
}

fn lent_to_calculate(dice: &mut Dice) -> Lending {
    let mut lent = lend(&site(dice));
    lent.table = match dice.below(8) {
        0 => table(dice, || right_table(&lent)),
        1 => vec![0; TABLE],
        2 => dice.bytes(TABLE),
        _ => vec![dice.byte(); TABLE],
    };
    if dice.once_in(8) {
        damage(dice, &mut lent);
        if dice.once_in(3) {
            damage(dice, &mut lent);
        }
    }
    lent
}

/// What came of the edits so far.
struct Tally {
    seen: Seen,
    grades: Grades,
    sands: Sands,
    shallow: Shallow,
    steps: u64,
    /// Accepted edits that kept no slice, some, all.
    kept: [u64; 3],
}

impl Tally {
    fn keep(&mut self, answer: &Answer, table: &[u8]) {
        if answer.refusal == 0 {
            match answer.kept as usize {
                0 => self.kept[0] += 1,
                kept if kept == used(table) => self.kept[2] += 1,
                _ => self.kept[1] += 1,
            }
        }
    }

    /// Counts a failure for what must come in a long enough comparison and never came.
    fn all(&self, meter: &mut Meter) {
        self.seen.all(meter, &OF_CALCULATIONS);
        self.seen.all(meter, &OF_EDITS);
        self.grades.all(meter);
        self.sands.all(meter);
        self.shallow.all(meter, true);
        meter.case("kept".to_string());
        meter.count(self.kept.iter().all(|times| *times > 0), || {
            "  none, some or all were never kept".to_string()
        });
    }

    fn text(&self) -> String {
        let [none, some, every] = self.kept;
        format!(
            "{} edits; kept none {none}, some {some}, all {every}; {}; {}; {}; {}",
            self.steps,
            self.seen.text(),
            self.grades.text(),
            self.sands.text(),
            self.shallow.text(true)
        )
    }
}

pub fn edits(meter: &mut Meter, seed: u64, runs: u64) {
    meter.group("runs of edits");
    let mut tally = Tally {
        seen: Seen([0; 18]),
        grades: Grades::default(),
        sands: Sands::default(),
        shallow: Shallow::default(),
        steps: 0,
        kept: [0; 3],
    };
    for run in 0..runs {
        if meter.enough() {
            break;
        }
        run_of_edits(meter, &mut Dice::new(seed, 2, run), run, &mut tally);
    }
    if !meter.enough() {
        tally.all(meter);
    }
    meter.note(tally.text());
}

/// Up to nine edits of one log, each on what the one before left; ends at a difference.
fn run_of_edits(meter: &mut Meter, dice: &mut Dice, run: u64, tally: &mut Tally) {
    let (start, mode) = start(dice);
    let mut lent = lent_to_edit(dice, &start);
    let dragged = dragged_row(dice, &start.rows);
    for step in 0..dice.between(3, 9) {
        meter.case(format!("run {run}, edit {step}"));
        if dice.once_in(5) {
            spot(dice, &mut lent.table);
        }
        if dice.once_in(6) {
            move_pile(dice, &mut lent);
        }
        if dice.once_in(3) {
            renew_record(dice, &mut lent);
        }
        let (kind, k, x, row) = choose(dice, &lent.log, mode, dragged);
        let edit = Edit {
            kind,
            k,
            x,
            row: &row,
            without_row: false,
        };
        if !one_edit(meter, dice, &mut lent, &edit, tally) {
            break;
        }
    }
}

/// The number of a row whose lower boundary is dragged, often one that begins in the first metre.
fn dragged_row(dice: &mut Dice, rows: &[Row]) -> u32 {
    let count = if dice.once_in(3) {
        shallow_rows(rows)
    } else {
        rows.len()
    };
    dice.below(count as u32) + 1
}

/// True if it passed.
fn one_edit(
    meter: &mut Meter,
    dice: &mut Dice,
    lent: &mut Lending,
    edit: &Edit,
    tally: &mut Tally,
) -> bool {
    let (passed, answer) = if dice.once_in(12) {
        // Something spoilt for this one call only.
        let mut spoilt = lent.clone();
        damage(dice, &mut spoilt);
        meter.edit(&mut spoilt, edit)
    } else {
        let (passed, answer) = meter.edit(lent, edit);
        tally.keep(&answer, &lent.table);
        tally.grades.add(&lent.pile, &answer);
        tally.sands.add(lent, &answer);
        tally.shallow.add(lent, &lent.table, &answer);
        (passed && held(meter, dice, lent, &answer), answer)
    };
    tally.steps += 1;
    tally.seen.add(&answer);
    passed
}

/// Once in a while, what an accepted edit holds is worked out afresh: with the log that it left, and with its own record.
fn held(meter: &mut Meter, dice: &mut Dice, lent: &Lending, answer: &Answer) -> bool {
    if matches!(answer.refusal, 1..=4 | 13 | 14) || !dice.once_in(32) {
        return true;
    }
    let (passed, afresh, table) = meter.calculate(lent);
    let held = Answer { kept: 0, ..*answer };
    passed
        && meter.count(afresh == held && table == lent.table, || {
            format!("  held {held:?}, afresh {afresh:?}")
        })
}

/// The site on which a run begins, and what the run mostly does.
fn start(dice: &mut Dice) -> (Site, Mode) {
    let mut start = if dice.once_in(6) {
        site(dice)
    } else {
        good(dice)
    };
    let mode = match dice.below(20) {
        0..=5 => Mode::Drag,
        6..=10 => Mode::Grow,
        11 => Mode::Remove,
        _ => Mode::Any,
    };
    if mode == Mode::Remove && start.rows.len() > 3 {
        // Few rows, for removing the last ones.
        let from = start.rows.len() - dice.between(1, 3) as usize;
        start.rows.drain(..from);
    } else if !dice.once_in(4) {
        deepen(dice, &mut start.rows);
    }
    (start, mode)
}

fn lent_to_edit(dice: &mut Dice, site: &Site) -> Lending {
    let mut lent = lend(site);
    lent.table = table(dice, || right_table(&lent));
    lent
}

/// Draws the lowest row down, so that edits above do not leave the log too short.
fn deepen(dice: &mut Dice, rows: &mut [Row]) {
    let depth: u32 = rows.iter().map(|row| u32::from(row.thickness)).sum();
    let spare = 60_000_u32.saturating_sub(depth).min(10_000);
    if let Some(last) = rows.last_mut() {
        let thickness = u32::from(last.thickness) + dice.between(spare / 2, spare);
        last.thickness = thickness.min(60_000) as u16;
    }
}

/// The pile drawn elsewhere, or graded otherwise, between two edits.
fn move_pile(dice: &mut Dice, lent: &mut Lending) {
    if dice.once_in(6) {
        lent.pile = site(dice).pile();
        return;
    }
    let mut pile = second::read_pile(&lent.pile);
    if pile.refusal != 0 {
        lent.pile = good(dice).pile();
        return;
    }
    match dice.below(8) {
        0 => pile.tip = pile.tip.wrapping_add(dice.below(5) as u16).wrapping_sub(2),
        1 => pile.head = pile.head.wrapping_add(dice.below(5) as u16).wrapping_sub(2),
        2 => pile.method = dice.between(1, 3) as u8,
        3 => pile.tip = dice.between(2_990, 40_010) as u16,
        4 => pile.head = dice.between(0, 1_000) as u16,
        _ => regrade(dice, &mut pile),
    }
    lent.pile = second::pile_bytes(&pile);
}

/// Another record of a sand tip for the next edits, mostly a good one, else one at a limit, or none.
fn renew_record(dice: &mut Dice, lent: &mut Lending) {
    match dice.below(6) {
        0 => lent.sand = any_record(dice),
        1 | 2 => disturb_record(dice, &mut lent.sand),
        _ => lent.sand = record(dice, true),
    }
}

/// Another grade or length: one with which the pile is mostly accepted, or one at a limit.
fn regrade(dice: &mut Dice, pile: &mut Pile) {
    if dice.once_in(3) {
        disturb_grade(dice, pile);
    } else {
        let head = u32::from(pile.head);
        grade(dice, pile, head);
    }
}

/// Edits whose kind uses no row, with a null pointer in its place.
pub fn without_row(meter: &mut Meter, seed: u64) {
    meter.group("edits without a row");
    for case in 0..500 {
        let dice = &mut Dice::new(seed, 3, case);
        let start = good(dice);
        let mut lent = lent_to_edit(dice, &start);
        let edit = Edit {
            kind: dice.one_of(&[0, 3, 4, 5]),
            k: dice.between(0, start.rows.len() as u32 + 1),
            x: dice.between(0, 3_000),
            row: &[],
            without_row: true,
        };
        meter.case(format!("case {case}"));
        meter.edit(&mut lent, &edit);
    }
}
