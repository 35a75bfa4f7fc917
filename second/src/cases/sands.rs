//! Tips in sand: the four worked values of the resistance, and others at the limits of the rules.

#![forbid(unsafe_code)]

use super::{case, clay, graded, pile, Case, Known};
use crate::{Pile, Row, Sand};

/// Name; kind and saturation; diameter, head, tip; grade; angle, weight below, weight above; line, tip, shaft, capacity, uplift.
type Accepted = (&'static str, [u8; 2], [u16; 3], i16, [u32; 3], [u64; 5]);

/// The first four have the worked values: 780,207, 1,689,425, 1,217,433 and 464,045 Pa.
const ACCEPTED: [Accepted; 20] = [
    (
        "medium sand",
        [1, 95],
        [600, 1_000, 10_000],
        0,
        [3_000, 10_000, 18_000],
        [345_975, 220_598, 652_146, 872_744, 521_716],
    ),
    (
        "fine sand",
        [2, 95],
        [1_000, 1_000, 15_000],
        0,
        [3_200, 10_000, 19_000],
        [417_200, 1_326_870, 1_310_671, 2_637_541, 1_048_536],
    ),
    (
        "silty sand, 25 diameters deep",
        [3, 95],
        [400, 1_000, 10_000],
        0,
        [3_333, 10_000, 18_000],
        [180_425, 152_987, 226_728, 379_715, 181_382],
    ),
    (
        "fine sand, the smallest angle",
        [2, 95],
        [1_200, 1_000, 8_000],
        0,
        [2_556, 9_000, 17_000],
        [184_450, 524_822, 695_359, 1_220_181, 556_287],
    ),
    (
        "medium sand, saturation 80",
        [1, 80],
        [600, 1_000, 10_000],
        0,
        [3_000, 10_000, 18_000],
        [345_975, 220_598, 652_146, 872_744, 521_716],
    ),
    (
        "medium sand, capped",
        [1, 95],
        [1_000, 1_000, 20_000],
        0,
        [4_333, 12_000, 20_000],
        [850_010, 3_769_908, 2_670_382, 6_440_290, 2_136_305],
    ),
    (
        "fine sand, capped",
        [2, 95],
        [1_000, 1_000, 20_000],
        0,
        [4_333, 12_000, 20_000],
        [604_450, 2_513_272, 1_898_934, 4_412_206, 1_519_147],
    ),
    (
        "silty sand, capped",
        [3, 95],
        [1_000, 1_000, 20_000],
        0,
        [4_333, 12_000, 20_000],
        [444_570, 1_413_715, 1_396_656, 2_810_371, 1_117_324],
    ),
    (
        "medium sand, fill 5,000",
        [1, 95],
        [600, 1_000, 10_000],
        5_000,
        [3_000, 10_000, 18_000],
        [380_170, 220_598, 716_602, 937_200, 573_281],
    ),
    (
        "medium sand, fill 5,000, capped",
        [1, 95],
        [600, 1_000, 10_000],
        5_000,
        [4_200, 10_000, 18_000],
        [380_170, 1_176_211, 716_602, 1_892_813, 573_281],
    ),
    (
        "medium sand, cut 2,000, head 2,000",
        [1, 95],
        [600, 2_000, 10_000],
        -2_000,
        [3_000, 10_000, 18_000],
        [318_500, 187_427, 600_357, 787_784, 480_285],
    ),
    (
        "medium sand, cut 3,000, head 3,000",
        [1, 95],
        [600, 3_000, 10_000],
        -3_000,
        [3_000, 10_000, 18_000],
        [287_175, 169_879, 541_311, 711_190, 433_048],
    ),
    (
        "fine sand, cut 5,000, head 5,000, capped",
        [2, 95],
        [800, 5_000, 20_000],
        -5_000,
        [4_333, 12_000, 20_000],
        [485_450, 1_548_175, 1_220_067, 2_768_242, 976_053],
    ),
    (
        "fine sand, cut 5,000, head 5,000",
        [2, 95],
        [1_000, 5_000, 15_000],
        -5_000,
        [3_200, 10_000, 19_000],
        [305_200, 964_944, 958_813, 1_923_757, 767_050],
    ),
    (
        "medium sand, tip 35,000, capped",
        [1, 95],
        [600, 1_000, 35_000],
        0,
        [4_333, 12_000, 20_000],
        [1_789_760, 1_696_458, 3_373_615, 5_070_073, 2_698_892],
    ),
    (
        "medium sand, tip 38,000, capped",
        [1, 95],
        [600, 1_000, 38_000],
        0,
        [4_333, 12_000, 20_000],
        [1_999_760, 1_696_458, 3_769_455, 5_465_913, 3_015_564],
    ),
    (
        "silty sand, tip 38,000, capped",
        [3, 95],
        [600, 1_000, 38_000],
        0,
        [4_333, 12_000, 20_000],
        [1_027_320, 636_171, 1_936_450, 2_572_621, 1_549_160],
    ),
    (
        "fine sand, tip 38,000",
        [2, 95],
        [1_200, 1_000, 38_000],
        0,
        [2_556, 9_000, 17_000],
        [1_416_520, 1_503_530, 5_340_150, 6_843_680, 4_272_120],
    ),
    (
        "medium sand, diameter 801",
        [1, 95],
        [801, 1_000, 10_000],
        0,
        [3_000, 10_000, 18_000],
        [345_975, 422_833, 870_616, 1_293_449, 696_492],
    ),
    (
        "medium sand, four diameters deep",
        [1, 95],
        [2_000, 1_000, 8_000],
        0,
        [3_000, 10_000, 18_000],
        [256_900, 2_599_631, 1_614_148, 4_213_779, 1_291_318],
    ),
];

/// Name; diameter, head, tip; angle, weight below, weight above; refusal. In medium sand.
type Refused = (&'static str, [u16; 3], Option<[u32; 3]>, u32);

const GOOD: [u32; 3] = [3_000, 10_000, 18_000];

const REFUSED: [Refused; 8] = [
    ("sand, no record", [600, 1_000, 10_000], None, 9),
    (
        "sand, no record and a short seat",
        [600, 8_001, 10_000],
        None,
        9,
    ),
    (
        "sand, a short seat and zeros",
        [600, 8_001, 10_000],
        Some([0; 3]),
        10,
    ),
    ("sand, zeros", [600, 1_000, 10_000], Some([0; 3]), 17),
    (
        "sand, 25.55 degrees",
        [600, 1_000, 10_000],
        Some([2_555, 10_000, 18_000]),
        17,
    ),
    (
        "sand, 43.34 degrees",
        [600, 1_000, 10_000],
        Some([4_334, 10_000, 18_000]),
        17,
    ),
    (
        "sand, weight over 30,000",
        [600, 1_000, 10_000],
        Some([3_000, 10_000, 30_001]),
        17,
    ),
    (
        "sand, less than four diameters deep",
        [2_000, 1_000, 7_999],
        Some(GOOD),
        17,
    ),
];

fn record([angle, weight_below, weight_above]: [u32; 3]) -> Sand {
    Sand {
        angle,
        weight_below,
        weight_above,
    }
}

fn circle([diameter, head, tip]: [u16; 3]) -> Pile {
    Pile {
        a: diameter,
        head,
        ..pile(tip)
    }
}

/// One row, deep enough for a pile.
fn ground([kind, saturation]: [u8; 2], pile: &Pile) -> Row {
    Row {
        kind,
        ..clay((pile.tip + 5_000).max(30_000), 0, saturation)
    }
}

pub fn all() -> Vec<Case> {
    [accepted(), refused(), not_in_sand()].concat()
}

fn accepted() -> Vec<Case> {
    let made = ACCEPTED.map(|(name, soil, measures, grade, sand, numbers)| {
        let plain = circle(measures);
        let pile = if grade == 0 {
            plain
        } else {
            graded(plain, grade)
        };
        Case {
            sand: Some(record(sand)),
            ..case(name, &[ground(soil, &pile)], pile, Known::Numbers(numbers))
        }
    });
    made.to_vec()
}

fn refused() -> Vec<Case> {
    let made = REFUSED.map(|(name, measures, sand, refusal)| {
        let pile = circle(measures);
        Case {
            sand: sand.map(record),
            ..case(
                name,
                &[ground([1, 95], &pile)],
                pile,
                Known::Refusal(refusal),
            )
        }
    });
    made.to_vec()
}

/// A rectangle in sand; and case A with a record, which changes nothing.
fn not_in_sand() -> Vec<Case> {
    let rectangle = Pile {
        section: 2,
        a: 800,
        b: 400,
        ..pile(10_000)
    };
    let sand = ground([1, 95], &rectangle);
    let a = clay(20_000, 30, 95);
    [
        (
            case("sand, a rectangle", &[sand], rectangle, Known::Refusal(9)),
            GOOD,
        ),
        (
            super::accepted("A, a record", &[a], pile(10_000), super::NUMBERS_A),
            GOOD,
        ),
        (
            super::accepted("A, a record of zeros", &[a], pile(10_000), super::NUMBERS_A),
            [0; 3],
        ),
    ]
    .map(|(case, sand)| Case {
        sand: Some(record(sand)),
        ..case
    })
    .to_vec()
}
