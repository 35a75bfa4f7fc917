//! Grades of sites: with them a pile is mostly accepted, or they stand at or just over a limit; and how often each sort of grade came.

#![forbid(unsafe_code)]

use super::dice::Dice;
use super::meter::Meter;
use super::sorts;
use second::{Answer, Pile, GRADED_PILE, PILE};

/// The grades around which the rules change, and those at the ends of 16 bits.
pub const GRADES: [i16; 15] = [
    i16::MIN,
    -32_767,
    -3_002,
    -3_001,
    -3_000,
    -2_999,
    -1,
    0,
    1,
    2_999,
    3_000,
    3_001,
    3_002,
    32_766,
    i16::MAX,
];

/// Gives a pile whose head or seat is at a top a record of eight bytes, or one of ten with a grade that mostly leaves it accepted.
pub fn grade(dice: &mut Dice, pile: &mut Pile, top: u32) {
    if dice.once_in(2) {
        pile.length = PILE as u8;
        pile.grade = 0;
        return;
    }
    let highest = highest_fill(pile);
    let grade = match dice.below(12) {
        0 => 0,
        1 => dice.one_of(&[-3_001, -3_000, -2_999, -1, 1, 2_999, 3_000, 3_001]),
        2 => dice.between(0, 3_000) as i32,
        3 => -(dice.between(0, top.min(3_000)) as i32),
        4 => highest - dice.below(2) as i32,
        5 => -(top as i32),
        6..=8 if top > 3_000 => -(dice.between(3_001, top) as i32),
        _ => dice.between(3_001, highest.max(3_001) as u32) as i32,
    };
    set(pile, grade);
}

/// Gives a pile with its head in the first metre a record of eight bytes; or one of ten, with a cut or a fill that moves no depth, or with
/// a fill that moves them, mostly not out of the first metre.
pub fn shallow_grade(dice: &mut Dice, pile: &mut Pile) {
    let grade = match dice.below(8) {
        0..=2 => {
            pile.length = PILE as u8;
            pile.grade = 0;
            return;
        }
        3 => dice.between(0, 3_000) as i32,
        4 => -(dice.between(1, 1_000) as i32),
        5 => dice.between(3_001, 3_020) as i32,
        6 => dice.between(3_001, 3_999) as i32,
        _ => dice.between(3_001, 6_000) as i32,
    };
    set(pile, grade.min(highest_fill(pile)));
}

/// The fill with which a tip is read at 40,000, if its bits hold it.
fn highest_fill(pile: &Pile) -> i32 {
    43_000 - i32::from(pile.tip)
}

/// The grade with which a tip is read at 20,000.
fn read_at_20_000(pile: &Pile) -> i32 {
    let moved = 20_000 - i32::from(pile.tip);
    moved + 3_000 * moved.signum()
}

/// A record of ten bytes; what 16 bits cannot hold becomes what they can.
fn set(pile: &mut Pile, grade: i32) {
    pile.length = GRADED_PILE as u8;
    pile.grade = grade.clamp(i32::from(i16::MIN), i32::from(i16::MAX)) as i16;
}

/// By how much a pile's depths are read deeper than they are.
pub fn deeper(pile: &Pile) -> i32 {
    let grade = i32::from(pile.grade);
    grade - grade.clamp(-3_000, 3_000)
}

/// The depth of a pile's tip as the tip table is read.
pub fn tip_as_read(pile: &Pile) -> u32 {
    (i32::from(pile.tip) + deeper(pile)).max(0) as u32
}

/// Draws a head down to the cut level, or a little below it, where it is above; leaves it there once in a while.
pub fn below_cut(dice: &mut Dice, pile: &mut Pile) {
    let level = -i32::from(pile.grade);
    if i32::from(pile.head) < level && !dice.once_in(16) {
        let lower = dice.one_of(&[0, 0, 1, 500]);
        let highest = i32::from(pile.tip).saturating_sub(1).max(0);
        pile.head = (level + lower).min(highest) as u16;
    }
}

/// The grade to or just over a limit, or anywhere; or a record of the other length.
pub fn disturb_grade(dice: &mut Dice, pile: &mut Pile) {
    let off = dice.below(3) as i32 - 1;
    match dice.below(8) {
        0 => other_length(pile),
        1 | 2 => {
            let grade = dice.one_of(&GRADES);
            set(pile, i32::from(grade));
        }
        // The cut level at the head, the tip read at 40,000 or, where the soft columns end, at 20,000: give or take one.
        3 | 4 => set(pile, off - i32::from(pile.head)),
        5 => set(pile, off + highest_fill(pile)),
        6 => {
            set(pile, off + read_at_20_000(pile));
            below_cut(dice, pile);
        }
        _ => set(pile, dice.bits() as i16 as i32),
    }
}

/// Eight bytes become ten with a grade of 0, ten lose their grade.
fn other_length(pile: &mut Pile) {
    if usize::from(pile.length) == GRADED_PILE {
        pile.length = PILE as u8;
        pile.grade = 0;
    } else {
        set(pile, 0);
    }
}

/// What came of records of either length: six sorts that were accepted, two that were refused.
const SORTS: [&str; 8] = [
    "of 8 bytes",
    "grade 0",
    "cut to 3,000",
    "cut beyond",
    "fill to 3,000",
    "fill beyond",
    "head above the cut",
    "tip read below 40,000",
];

/// How often each sort of record came.
#[derive(Default)]
pub struct Grades([u64; SORTS.len()]);

impl Grades {
    pub fn add(&mut self, record: &[u8], answer: &Answer) {
        let pile = second::read_pile(record);
        let sort = match (answer.refusal, pile.grade) {
            (0, _) if usize::from(pile.length) == PILE => 0,
            (0, 0) => 1,
            (0, -3_000..=-1) => 2,
            (0, i16::MIN..=-3_001) => 3,
            (0, 1..=3_000) => 4,
            (0, 3_001..=i16::MAX) => 5,
            (7, _) if pile.head >= pile.tip || !(3_000..=40_000).contains(&pile.tip) => return,
            (7, i16::MIN..=-1) => 6,
            (7, _) => 7,
            _ => return,
        };
        self.0[sort] += 1;
    }

    /// Counts a failure for a sort that never came.
    pub fn all(&self, meter: &mut Meter) {
        sorts::all(meter, "records", &SORTS, &self.0);
    }

    pub fn text(&self) -> String {
        sorts::text("records", &SORTS, &self.0)
    }
}
