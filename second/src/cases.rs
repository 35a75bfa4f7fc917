//! The known cases A to L with their printed numbers, case A on graded sites, tips in sand, and the first metre.

#![forbid(unsafe_code)]

use crate::{pile_bytes, row_bytes, Pile, Row, Sand, GRADED_PILE, LOG};

mod first_metre;
mod sands;

/// What a case must give: its five numbers, or a refusal.
#[derive(Clone, Copy, Debug, PartialEq, Eq)]
pub enum Known {
    /// Line, tip, shaft, capacity, uplift.
    Numbers([u64; 5]),
    Refusal(u32),
}

#[derive(Clone, Debug)]
pub struct Case {
    pub name: &'static str,
    pub log: [u8; LOG],
    pub pile: Vec<u8>,
    pub sand: Option<Sand>,
    pub known: Known,
    /// Tip resistance in kPa where it is printed.
    pub resistance: Option<u64>,
}

/// Case A's packed log, its used bytes.
pub const LOG_A: [u8; 6] = [0x01, 0x4E, 0x20, 0xD0, 0x57, 0xC0];
/// Case A's packed pile record.
pub const PILE_A: [u8; 8] = [0x49, 0x60, 0x00, 0x10, 0x3E, 0x82, 0x71, 0x00];
/// Case A's first slice, packed.
pub const SLICE_A: [u8; 7] = [0x03, 0xE8, 0xFA, 0x05, 0xB8, 0xD8, 0x06];
/// Case A's slices: top, thickness, friction, factor.
pub const SLICES_A: [(u16, u16, u32, u8); 5] = [
    (1_000, 2_000, 6_000_000, 6),
    (3_000, 2_000, 7_600_000, 6),
    (5_000, 2_000, 8_400_000, 6),
    (7_000, 2_000, 8_800_000, 6),
    (9_000, 1_000, 9_100_000, 6),
];

/// A packed log of rows; up to 64 are taken, whatever their fields.
pub fn log_of(rows: &[Row]) -> [u8; LOG] {
    let mut log = [0; LOG];
    log[0] = rows.len() as u8;
    for (place, row) in log[1..].chunks_mut(5).zip(rows) {
        place.copy_from_slice(&row_bytes(*row));
    }
    log
}

const fn clay(thickness: u16, hundredths: u8, saturation: u8) -> Row {
    Row {
        thickness,
        kind: 6,
        index: 100 + hundredths,
        saturation,
        zero: 0,
    }
}

const fn fine_sand(thickness: u16) -> Row {
    Row {
        thickness,
        kind: 2,
        index: 100,
        saturation: 95,
        zero: 0,
    }
}

/// As many slices as there can be: of 64 strata 19 have two each, the last of them the tip's, and 45 have one.
pub fn fullest() -> (Vec<Row>, Pile) {
    let soil = |place: u8, thickness| clay(thickness, 10 + place % 7, 95);
    let mut rows: Vec<Row> = (0..18).map(|place| soil(place, 2_001)).collect();
    rows.extend((18..63).map(|place| soil(place, 1)));
    rows.push(clay(2_001 + 5_000, 30, 95));
    let tip = 19 * 2_001 + 45;
    (
        rows,
        Pile {
            head: 0,
            ..pile(tip)
        },
    )
}

/// Case A's pile with another tip.
fn pile(tip: u16) -> Pile {
    Pile {
        section: 1,
        a: 600,
        method: 1,
        head: 1_000,
        tip,
        ..Pile::default()
    }
}

/// A pile on a graded site.
fn graded(pile: Pile, grade: i16) -> Pile {
    Pile {
        length: GRADED_PILE as u8,
        grade,
        ..pile
    }
}

const NUMBERS_A: [u64; 5] = [212_100, 268_605, 399_798, 668_403, 319_838];

fn case(name: &'static str, rows: &[Row], pile: Pile, known: Known) -> Case {
    Case {
        name,
        log: log_of(rows),
        pile: pile_bytes(&pile),
        sand: None,
        known,
        resistance: None,
    }
}

fn accepted(name: &'static str, rows: &[Row], pile: Pile, numbers: [u64; 5]) -> Case {
    case(name, rows, pile, Known::Numbers(numbers))
}

fn refused(name: &'static str, rows: &[Row], tip: u16, refusal: u32) -> Case {
    case(name, rows, pile(tip), Known::Refusal(refusal))
}

impl Case {
    /// With its tip resistance in kPa.
    fn resists(self, kilopascals: u64) -> Case {
        Case {
            resistance: Some(kilopascals),
            ..self
        }
    }
}

pub fn all() -> Vec<Case> {
    let printed = [a_to_d(), e_to_g(), h_to_j(), k_and_l()];
    [
        printed.concat(),
        fills(),
        cuts(),
        sands::all(),
        first_metre::all(),
    ]
    .concat()
}

/// Clay alone: in one row and in many, softer, drier.
fn a_to_d() -> Vec<Case> {
    let pile = pile(10_000);
    let [line, tip, shaft, _, uplift] = NUMBERS_A;
    vec![
        accepted("A", &[clay(20_000, 30, 95)], pile, NUMBERS_A),
        accepted("B", &[clay(500, 30, 95); 40], pile, NUMBERS_A),
        accepted(
            "C",
            &[clay(20_000, 35, 95)],
            pile,
            [183_375, 247_400, 345_653, 593_053, 276_522],
        ),
        accepted(
            "D",
            &[clay(20_000, 30, 80)],
            pile,
            [line, tip, shaft, 534_722, uplift],
        ),
    ]
}

/// A rectangle, another method, sand on top.
fn e_to_g() -> Vec<Case> {
    let plain = [clay(20_000, 30, 95)];
    let mut rectangle = pile(10_000);
    (rectangle.section, rectangle.a, rectangle.b) = (2, 800, 400);
    let mut vibrated = pile(10_000);
    vibrated.method = 3;
    vec![
        accepted(
            "E",
            &plain,
            rectangle,
            [212_100, 304_000, 509_040, 813_040, 407_232],
        ),
        accepted(
            "F",
            &plain,
            vibrated,
            [247_450, 268_605, 466_431, 735_036, 373_144],
        ),
        accepted(
            "G",
            &[fine_sand(4_000), clay(16_000, 30, 95)],
            pile(10_000),
            [221_150, 268_605, 416_857, 685_462, 333_485],
        ),
    ]
}

/// The log's end, a dash of the tip table, a tip between two of its depths.
fn h_to_j() -> Vec<Case> {
    let soft = [clay(30_000, 45, 95)];
    vec![
        accepted(
            "H, 15,000",
            &[clay(15_000, 30, 95)],
            pile(10_000),
            NUMBERS_A,
        ),
        refused("H, 14,999", &[clay(14_999, 30, 95)], 10_000, 8),
        accepted(
            "I, 20,000",
            &soft,
            pile(20_000),
            [337_350, 381_703, 635_889, 1_017_592, 508_711],
        )
        .resists(1_350),
        refused("I, 20,001", &soft, 20_001, 12),
        accepted(
            "J",
            &[clay(30_000, 40, 95)],
            pile(25_000),
            [508_560, 487_731, 958_612, 1_446_343, 766_889],
        )
        .resists(1_725),
    ]
}

/// The shortest seat, the softest tip.
fn k_and_l() -> Vec<Case> {
    vec![
        accepted(
            "K, 8,000",
            &[fine_sand(8_000), clay(12_000, 30, 95)],
            pile(10_000),
            [238_450, 268_605, 449_467, 718_072, 359_573],
        ),
        refused(
            "K, 8,001",
            &[fine_sand(8_001), clay(11_999, 30, 95)],
            10_000,
            10,
        ),
        accepted(
            "L, 0.60",
            &[clay(20_000, 60, 95)],
            pile(10_000),
            [89_400, 169_645, 168_514, 338_159, 134_811],
        )
        .resists(600),
        refused("L, 0.61", &[clay(20_000, 61, 95)], 10_000, 11),
    ]
}

/// Case A's pile below fill: up to 3,000 it reads the tables as before.
fn fills() -> Vec<Case> {
    let clay = [clay(20_000, 30, 95)];
    let below = |fill| graded(pile(10_000), fill);
    vec![
        accepted("A, ten bytes", &clay, below(0), NUMBERS_A),
        accepted("A, fill 3,000", &clay, below(3_000), NUMBERS_A),
        accepted(
            "A, fill 3,001",
            &clay,
            below(3_001),
            [212_111, 268_627, 399_819, 668_446, 319_855],
        ),
        accepted(
            "A, fill 5,000",
            &clay,
            below(5_000),
            [232_500, 311_017, 438_251, 749_268, 350_600],
        )
        .resists(1_100),
    ]
}

/// Case A's clay in a cut, which no head may be above.
fn cuts() -> Vec<Case> {
    let clay = [clay(20_000, 30, 95)];
    let deeper = Pile {
        head: 5_000,
        ..pile(12_000)
    };
    vec![
        accepted(
            "A, cut 1,000",
            &clay,
            graded(pile(10_000), -1_000),
            NUMBERS_A,
        ),
        case(
            "A, cut 1,001",
            &clay,
            graded(pile(10_000), -1_001),
            Known::Refusal(7),
        ),
        accepted(
            "A, cut 5,000, head 5,000, tip 12,000",
            &clay,
            graded(deeper, -5_000),
            [176_100, 268_605, 331_940, 600_545, 265_552],
        )
        .resists(950),
    ]
}
