//! Tips in sand at and around every mark of tables 7.7 and 7.2, and at both sides of every limit of the record.

#![forbid(unsafe_code)]

use super::known::lend;
use super::makers::Site;
use super::meter::Meter;
use super::sands::GIVEN;
use second::printed::{self, words};
use second::{Answer, Carried, Pile, Row, GRADED_PILE};

/// With which every cap is reached four diameters deep.
const STRONG: Carried = Carried {
    given: 1,
    angle: 4_333,
    weight_below: 30_000,
    weight_above: 30_000,
};

const GOOD: Carried = Carried {
    given: 1,
    angle: 3_000,
    weight_below: 10_000,
    weight_above: 18_000,
};

fn circle(diameter: u32, tip: u32) -> Pile {
    Pile {
        section: 1,
        a: diameter as u16,
        method: 2,
        tip: tip as u16,
        ..Pile::default()
    }
}

/// In one row of sand that ends 5,000 below the tip.
fn compare(meter: &mut Meter, kind: u8, pile: Pile, sand: Carried) -> Answer {
    let row = Row {
        thickness: pile.tip + 5_000,
        kind,
        index: 100,
        saturation: 80,
        zero: 0,
    };
    let site = Site {
        rows: vec![row],
        pile,
        sand,
    };
    meter.case(format!("kind {kind}, {pile:?}, {sand:?}"));
    meter.calculate(&lend(&site)).1
}

/// Every cell of table 7.2 is a calculation's tip resistance, and so are the values beside it.
pub fn cells(meter: &mut Meter) {
    meter.group("cells of table 7.2");
    let mut cells = 0;
    for line in printed::CAP.map(words) {
        let tip = 1_000 * line[0].parse::<u32>().expect("a depth");
        for (kind, word) in line.iter().enumerate().skip(1) {
            let kilopascals: u64 = word.parse().expect("a cell");
            let answer = compare(meter, kind as u8, circle(750, tip), STRONG);
            // 750 mm have 0.441786093.. square metres with the printed Pi.
            let force = kilopascals * 1_000 * 750 * 750 * 314_159 / 400_000_000_000;
            meter.count(answer.refusal == 0 && answer.tip == force, || {
                format!("  not the printed {word} kPa: {answer:?}")
            });
            for tip in [tip - 1, tip + 1, tip + 333] {
                compare(meter, kind as u8, circle(750, tip), STRONG);
            }
            cells += 1;
        }
    }
    meter.note(format!("{cells} cells"));
}

/// A number with one decimal in tenths.
fn tenths(word: &str) -> u32 {
    word.replace('.', "").parse().expect("a decimal")
}

/// The angles at both sides of each column of table 7.7, which are 0.9 of them, with weights that stay below the cap.
fn records() -> Vec<Carried> {
    let columns = words(printed::ALPHA_HEAD);
    let mut records = Vec::new();
    for (place, column) in columns.iter().enumerate().skip(1) {
        let angle = 1_000 * column.parse::<u32>().expect("degrees") / 9;
        records.extend([angle - 1, angle, angle + 1].map(|angle| Carried {
            given: 1,
            angle,
            weight_below: 30_000 / place as u32,
            weight_above: 29_999 / place as u32,
        }));
    }
    records
}

/// Each column of table 7.7 with each line of alpha 3, and with diameters around those of alpha 4.
pub fn around(meter: &mut Meter) {
    meter.group("around the marks of table 7.7");
    let records = records();
    for (number, sand) in records.iter().enumerate() {
        let kind = 1 + (number % 3) as u8;
        for line in printed::ALPHA_3.map(words) {
            let h = 100 * tenths(line[0]);
            for tip in [h - 1, h, h + 1] {
                compare(meter, kind, circle(1_000, tip), *sand);
            }
        }
        for diameter in [150, 799, 800, 801, 1_600, 1_999, 2_000] {
            for tip in [8_000, 12_345, 40_000] {
                compare(meter, kind, circle(diameter, tip), *sand);
            }
        }
    }
    meter.note(format!("{} angles", records.len()));
}

/// Angles, weights, depths, grades and what says that a record is given, at both sides of their limits.
pub fn limits(meter: &mut Meter) {
    meter.group("limits of sand tips");
    for kind in 1..=3 {
        for sand in limiting() {
            compare(meter, kind, circle(600, 10_000), sand);
        }
        for pile in graded() {
            for sand in [GOOD, STRONG] {
                compare(meter, kind, pile, sand);
            }
        }
        let rectangle = Pile {
            section: 2,
            b: 600,
            ..circle(600, 10_000)
        };
        for given in [0, 1] {
            compare(meter, kind, rectangle, Carried { given, ..GOOD });
        }
    }
}

fn limiting() -> Vec<Carried> {
    let mut records = vec![Carried::default(), Carried { given: 0, ..GOOD }];
    for given in GIVEN {
        records.push(Carried { given, ..GOOD });
        records.push(Carried {
            given,
            ..Carried::default()
        });
    }
    // Nine times the angle before the last is over 2^32 by 27,005.
    for angle in [0, 2_555, 2_556, 4_333, 4_334, 68_536, 477_221_589, u32::MAX] {
        records.push(Carried { angle, ..GOOD });
    }
    for weight in [0, 1, 30_000, 30_001, 75_536, u32::MAX] {
        records.push(Carried {
            weight_below: weight,
            ..GOOD
        });
        records.push(Carried {
            weight_above: weight,
            ..GOOD
        });
    }
    records
}

/// Grades around 3,000 and far beyond, with diameters of a quarter of the depth below the cut and one more.
fn graded() -> Vec<Pile> {
    let mut piles = Vec::new();
    for grade in [
        -9_000, -5_000, -3_001, -3_000, -2_999, -1, 0, 1, 3_000, 3_001, 5_000, 30_000,
    ] {
        let cut = 0.max(-grade) as u32;
        for diameter in [499, 500, 501, 1_500, 1_501, 2_000] {
            for h in [2_000, 6_000, 8_000, 12_500] {
                piles.push(Pile {
                    length: GRADED_PILE as u8,
                    head: cut as u16,
                    grade: grade as i16,
                    ..circle(diameter, (cut + h).max(3_000))
                });
            }
        }
    }
    piles
}
