//! Records of sand tips: with them a tip is mostly accepted, or they stand at or just over a limit, or are any; and how often each sort of
//! sand tip came.

#![forbid(unsafe_code)]

use super::dice::Dice;
use super::grades::tip_as_read;
use super::lending::Lending;
use super::meter::Meter;
use super::sorts;
use second::{sand, Answer, Carried, Pile};

/// Angles at both sides of what is taken.
const END_ANGLES: [u32; 4] = [2_555, 2_556, 4_333, 4_334];
/// Of what is taken, at both sides of printed columns.
const COLUMN_ANGLES: [u32; 12] = [
    2_556, 2_557, 2_777, 2_778, 2_999, 3_000, 3_001, 3_444, 3_445, 4_111, 4_112, 4_333,
];
const END_WEIGHTS: [u32; 4] = [0, 1, 30_000, 30_001];
/// Far from what is taken; of some the lower bits, or those of nine times the number, would be.
const FAR_ANGLES: [u32; 4] = [0, 3_000 + 65_536, 477_221_589, u32::MAX];
const FAR_WEIGHTS: [u32; 3] = [10_000 + 65_536, (1 << 31) + 10_000, u32::MAX];
/// What says that a record is given.
pub const GIVEN: [u32; 6] = [1, 2, 256, 65_536, 1 << 31, u32::MAX];

fn given(dice: &mut Dice) -> u32 {
    if dice.once_in(2) {
        1
    } else {
        dice.one_of(&GIVEN)
    }
}

fn weight(dice: &mut Dice) -> u32 {
    match dice.below(8) {
        0 => dice.one_of(&[1, 2, 29_999, 30_000]),
        1 | 2 => dice.between(1, 30_000),
        _ => dice.between(8_000, 22_000),
    }
}

/// A record that is taken.
fn good_record(dice: &mut Dice) -> Carried {
    Carried {
        given: given(dice),
        angle: if dice.once_in(4) {
            dice.one_of(&COLUMN_ANGLES)
        } else {
            dice.between(2_556, 4_333)
        },
        weight_below: weight(dice),
        weight_above: weight(dice),
    }
}

/// None, with zeros or with numbers that do not count; or one of zeros, of any numbers, or a good one.
pub fn any_record(dice: &mut Dice) -> Carried {
    let mut record = good_record(dice);
    match dice.below(8) {
        0 | 1 => record = Carried::default(),
        2 => record.given = 0,
        3 => {
            record = Carried {
                given: record.given,
                ..Carried::default()
            }
        }
        4 => {
            let numbers = [
                &mut record.angle,
                &mut record.weight_below,
                &mut record.weight_above,
            ];
            for number in numbers {
                *number = dice.bits() as u32 >> dice.below(32);
            }
        }
        5 => disturb_record(dice, &mut record),
        _ => {}
    }
    record
}

/// A record for a tip in sand, mostly a good one; for a tip in clay any.
pub fn record(dice: &mut Dice, sandy: bool) -> Carried {
    if !sandy || dice.once_in(12) {
        any_record(dice)
    } else {
        good_record(dice)
    }
}

/// One number of a record to or just over a limit, or far over it.
pub fn disturb_record(dice: &mut Dice, record: &mut Carried) {
    match dice.below(8) {
        0 | 1 => record.angle = dice.one_of(&END_ANGLES),
        2 | 3 => record.weight_below = dice.one_of(&END_WEIGHTS),
        4 | 5 => record.weight_above = dice.one_of(&END_WEIGHTS),
        6 => record.angle = dice.one_of(&FAR_ANGLES),
        _ if dice.once_in(2) => record.weight_below = dice.one_of(&FAR_WEIGHTS),
        _ => record.weight_above = dice.one_of(&FAR_WEIGHTS),
    }
}

/// Depth of a pile's tip below the cut level, 0 where it stands above.
fn depth_in_ground(pile: &Pile) -> u32 {
    let cut = (-i32::from(pile.grade)).max(0);
    (i32::from(pile.tip) - cut).max(0) as u32
}

/// A circle for a tip in sand, mostly of a quarter of its depth at most, often just so; the section is left as it is once in a while.
pub fn slender(dice: &mut Dice, pile: &mut Pile) {
    if dice.once_in(12) {
        return;
    }
    let depth = depth_in_ground(pile);
    let widest = (depth / 4).clamp(150, 2_000);
    let diameter = match dice.below(8) {
        0 => widest,
        1 => widest + 1,
        2 => dice.one_of(&[150, 799, 800, 801]),
        3 => depth / 25,
        _ => dice.between(150, widest),
    };
    pile.section = 1;
    pile.a = diameter.clamp(150, 2_000) as u16;
    pile.b = 0;
}

/// What came of tips in sand: accepted, by kind and by what gives the resistance; accepted in other ways; refused, for one reason each.
/// And tips in clay that were accepted with a record that sand would not take.
const SORTS: [&str; 21] = [
    "medium by formula",
    "fine by formula",
    "silty by formula",
    "medium by cap",
    "fine by cap",
    "silty by cap",
    "cut to 3,000",
    "cut beyond",
    "fill to 3,000",
    "fill beyond",
    "saturation under 90",
    "without record",
    "rectangle",
    "angle under",
    "angle over",
    "no weight below",
    "weight below over",
    "no weight above",
    "weight above over",
    "under four diameters",
    "clay with bad record",
];

/// How often each sort of tip came.
#[derive(Default)]
pub struct Sands([u64; SORTS.len()]);

impl Sands {
    /// Counts what was lent, an edit's log as the edit left it.
    pub fn add(&mut self, lent: &Lending, answer: &Answer) {
        if !matches!(answer.refusal, 0 | 9 | 17) {
            return;
        }
        let pile = second::read_pile(&lent.pile);
        let (kind, saturation) = match soil_below(&lent.log, pile.tip) {
            Some(soil) => soil,
            None => return,
        };
        let faults = faults(lent.sand, &pile);
        match answer.refusal {
            0 if kind > 3 => self.0[20] += u64::from(faults.contains(&true)),
            0 => self.add_accepted(&pile, kind, saturation, answer),
            9 => self.0[if lent.sand.given == 0 { 11 } else { 12 }] += 1,
            _ => {
                let only = faults.iter().filter(|fault| **fault).count() == 1;
                if let Some(place) = faults.iter().position(|fault| *fault && only) {
                    self.0[13 + place] += 1;
                }
            }
        }
    }

    fn add_accepted(&mut self, pile: &Pile, kind: u8, saturation: u8, answer: &Answer) {
        let capped = answer.tip == most(kind, pile);
        self.0[usize::from(kind) - 1 + 3 * usize::from(capped)] += 1;
        let grade = match pile.grade {
            0 => None,
            -3_000..=-1 => Some(6),
            i16::MIN..=-3_001 => Some(7),
            1..=3_000 => Some(8),
            3_001..=i16::MAX => Some(9),
        };
        if let Some(sort) = grade {
            self.0[sort] += 1;
        }
        self.0[10] += u64::from(saturation < 90);
    }

    /// Counts a failure for a sort that never came.
    pub fn all(&self, meter: &mut Meter) {
        sorts::all(meter, "sand tips", &SORTS, &self.0);
    }

    pub fn text(&self) -> String {
        sorts::text("sand tips", &SORTS, &self.0)
    }
}

/// Kind and saturation of the millimetre just below a depth, of a log that passed its checks.
pub fn soil_below(log: &[u8], depth: u16) -> Option<(u8, u8)> {
    let count = usize::from(*log.first()?);
    let mut bottom = 0;
    let row = log[1..].chunks_exact(5).take(count).find(|row| {
        bottom += u32::from(row[0]) * 256 + u32::from(row[1]);
        u32::from(depth) < bottom
    })?;
    Some((row[2] >> 5, (row[3] & 31) << 2 | row[4] >> 6))
}

/// Which of the seven limits of refusal 17 are passed.
fn faults(record: Carried, pile: &Pile) -> [bool; 7] {
    let Carried {
        angle,
        weight_below,
        weight_above,
        ..
    } = record;
    [
        angle < 2_556,
        angle > 4_333,
        weight_below == 0,
        weight_below > 30_000,
        weight_above == 0,
        weight_above > 30_000,
        depth_in_ground(pile) < 4 * u32::from(pile.a),
    ]
}

/// The tip force of a circle at the cap.
fn most(kind: u8, pile: &Pile) -> u64 {
    let diameter = u128::from(pile.a);
    let cap = u128::from(sand::cap(kind, tip_as_read(pile)));
    (cap * diameter * diameter * 314_159 / 400_000_000_000) as u64
}
