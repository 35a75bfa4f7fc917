//! Tips in sand: the record that they bring, formula (7.12) with the coefficients of table 7.7, and the cap of table 7.2. Both tables stand
//! here as text, turned against the print: a line for each angle, and one for each kind of sand.

#![forbid(unsafe_code)]

use crate::fraction::Fraction;
use crate::tables::Table;
use crate::Refusal;

/// Alpha 1 and alpha 2. First line: which of both; then one line for each angle in degrees.
const ALPHA_1_2: &str = "
deg  1      2
23   9.5    18.6
25   12.6   24.8
27   17.3   32.8
29   24.4   45.5
31   34.6   64.0
33   48.6   87.6
35   71.3   127.0
37   108.0  185.0
39   163.0  260.0
";

/// Alpha 3. First line: h/d; then one line for each angle in degrees.
const ALPHA_3: &str = "
deg  4.0  5.0  7.5  10.0 12.5 15.0 17.5 20.0 22.5 25.0
23   0.78 0.75 0.68 0.62 0.58 0.55 0.51 0.49 0.46 0.44
25   0.79 0.76 0.70 0.65 0.61 0.58 0.55 0.53 0.51 0.49
27   0.80 0.77 0.71 0.67 0.63 0.61 0.58 0.57 0.55 0.54
29   0.82 0.79 0.74 0.70 0.67 0.65 0.62 0.61 0.60 0.59
31   0.84 0.81 0.76 0.73 0.70 0.68 0.66 0.65 0.64 0.63
33   0.85 0.82 0.78 0.75 0.73 0.71 0.69 0.68 0.67 0.67
35   0.85 0.83 0.80 0.77 0.75 0.73 0.72 0.72 0.71 0.70
37   0.85 0.84 0.82 0.79 0.78 0.76 0.75 0.75 0.74 0.74
39   0.87 0.85 0.84 0.81 0.80 0.79 0.78 0.78 0.77 0.77
";

/// Alpha 4. First line: diameters in m; then one line for each angle in degrees.
const ALPHA_4: &str = "
deg  0.8  4.0
23   0.34 0.25
25   0.31 0.24
27   0.29 0.23
29   0.27 0.22
31   0.26 0.21
33   0.25 0.20
35   0.24 0.19
37   0.23 0.18
39   0.22 0.17
";

/// What table 7.2 allows at most, in kPa. First line: depths in m; then one line for each kind: medium, fine and silty sand.
const CAP: &str = "
m  3    4    5    7    10   15   20   25   30   35
1  3100 3200 3400 3700 4000 4400 4800 5200 5600 6000
2  2000 2100 2200 2400 2600 2900 3200 3500 3800 4100
3  1100 1250 1300 1400 1500 1650 1800 1950 2100 2250
";

/// The record of a sand tip.
#[derive(Clone, Copy, Debug, Default, PartialEq, Eq)]
pub struct Sand {
    /// Friction angle in hundredths of a degree, as it is before the 0.9.
    pub angle: u32,
    /// N/m³ of the soil at the base.
    pub weight_below: u32,
    /// N/m³, the mean of the soils above the tip.
    pub weight_above: u32,
}

/// How a call carries the record: where `given` is 0 there is none, whatever the other numbers are.
#[derive(Clone, Copy, Debug, Default, PartialEq, Eq)]
pub struct Carried {
    pub given: u32,
    pub angle: u32,
    pub weight_below: u32,
    pub weight_above: u32,
}

impl Carried {
    pub fn record(self) -> Option<Sand> {
        (self.given != 0).then_some(Sand {
            angle: self.angle,
            weight_below: self.weight_below,
            weight_above: self.weight_above,
        })
    }
}

impl From<Option<Sand>> for Carried {
    fn from(record: Option<Sand>) -> Carried {
        record.map_or(Carried::default(), |sand| Carried {
            given: 1,
            angle: sand.angle,
            weight_below: sand.weight_below,
            weight_above: sand.weight_above,
        })
    }
}

/// A table's value in its smallest units, so many to one, rounded down.
fn read(table: &Table, along: Fraction, line: Fraction, units: i128) -> u32 {
    let value = table.at(along, line).expect("no dash in this table");
    (value * Fraction::whole(units)).floor() as u32
}

/// Degrees from thousandths, metres from millimetres.
fn thousandths(number: u32) -> Fraction {
    Fraction::new(i128::from(number), 1_000)
}

fn alpha_1_2(which: i128, angle: u32) -> u32 {
    thread_local! { static READ: &'static Table = Table::kept(ALPHA_1_2); }
    let which = Fraction::whole(which);
    READ.with(|table| read(table, which, thousandths(angle), 10_000))
}

/// Alpha 1 in ten-thousandths, by an angle after the 0.9 in thousandths of a degree, as all four take it.
pub fn alpha1(angle: u32) -> u32 {
    alpha_1_2(1, angle)
}

/// Alpha 2 in ten-thousandths.
pub fn alpha2(angle: u32) -> u32 {
    alpha_1_2(2, angle)
}

/// Alpha 3 in ten-thousandths, by the depth h and the diameter d in mm.
pub fn alpha3(angle: u32, h: u32, d: u32) -> u32 {
    thread_local! { static READ: &'static Table = Table::kept(ALPHA_3); }
    let slender = Fraction::new(i128::from(h), i128::from(d));
    READ.with(|table| read(table, slender, thousandths(angle), 10_000))
}

/// Alpha 4 in ten-thousandths, by the diameter in mm.
pub fn alpha4(angle: u32, d: u32) -> u32 {
    thread_local! { static READ: &'static Table = Table::kept(ALPHA_4); }
    READ.with(|table| read(table, thousandths(d), thousandths(angle), 10_000))
}

/// The cap in Pa for a kind of sand, 1 to 3, by the tip's depth as read in mm.
pub fn cap(kind: u8, depth: u32) -> u32 {
    thread_local! { static READ: &'static Table = Table::kept(CAP); }
    let kind = Fraction::whole(i128::from(kind));
    READ.with(|table| read(table, thousandths(depth), kind, 1_000))
}

/// The angle in degrees after the 0.9.
fn reduced(sand: &Sand) -> Fraction {
    Fraction::new(i128::from(sand.angle), 100) * Fraction::decimal("0.9")
}

/// Check 17: the record, and a tip at least four diameters deep; h and d in mm.
pub(crate) fn check(sand: &Sand, h: u32, d: u32) -> Result<(), Refusal> {
    let angle = reduced(sand);
    let in_table = Fraction::whole(23) <= angle && angle <= Fraction::whole(39);
    let weights = [sand.weight_below, sand.weight_above];
    let real = weights.iter().all(|weight| (1..=30_000).contains(weight));
    let slender = Fraction::new(i128::from(h), i128::from(d));
    if !in_table || !real || slender < Fraction::whole(4) {
        return Err(Refusal::plain(17));
    }
    Ok(())
}

/// Formula (7.12) for a record that passes check 17.
#[derive(Clone, Copy, Debug, PartialEq, Eq)]
pub struct Formula {
    /// Alpha 1 to alpha 4 in ten-thousandths.
    pub alphas: [u32; 4],
    /// Weight of the soil above the tip, Pa.
    pub above: u32,
    /// Both terms of the bracket, Pa.
    pub terms: [u32; 2],
    /// The resistance before the cap, Pa.
    pub resistance: u32,
}

/// By the record, and h and d in mm.
pub fn formula(sand: &Sand, h: u32, d: u32) -> Formula {
    let angle = (reduced(sand) * Fraction::whole(1_000)).exactly() as u32;
    let alphas = [
        alpha1(angle),
        alpha2(angle),
        alpha3(angle, h, d),
        alpha4(angle, d),
    ];
    let [first, second, third, fourth] =
        alphas.map(|alpha| Fraction::new(i128::from(alpha), 10_000));
    let below = Fraction::whole(i128::from(sand.weight_below));
    let above = Fraction::whole(i128::from(sand.weight_above));

    let above = (above * thousandths(h)).floor();
    let terms = [
        (first * below * thousandths(d)).floor(),
        (second * third * Fraction::whole(above)).floor(),
    ];
    let bracket = Fraction::whole(terms[0] + terms[1]);
    let resistance = (Fraction::decimal("0.75") * fourth * bracket).floor();
    Formula {
        alphas,
        above: above as u32,
        terms: terms.map(|term| term as u32),
        resistance: resistance as u32,
    }
}

#[cfg(test)]
mod tests {
    use super::*;
    use crate::printed::{self, words};

    fn number(word: &str, units: i128) -> u32 {
        (Fraction::decimal(word) * Fraction::whole(units)).exactly() as u32
    }

    /// Counts the cells of printed lines that go by angle: each is what a reader gives at the line's own mark, in so many units, and at the
    /// angle's.
    fn same(lines: &[&str], units: i128, reader: impl Fn(u32, u32) -> u32) -> usize {
        let heads = words(printed::ALPHA_HEAD);
        let mut cells = 0;
        for line in lines.iter().map(|line| words(line)) {
            for (head, word) in heads.iter().zip(&line).skip(1) {
                let read = reader(number(line[0], units), number(head, 1_000));
                assert_eq!(read, number(word, 10_000), "{line:?} {head}");
                cells += 1;
            }
        }
        cells
    }

    #[test]
    fn printed_cells_of_7_7() {
        let [first, second] = printed::ALPHA_1_2;
        let singles = same(&[first], 1, |_, t| alpha1(t)) + same(&[second], 1, |_, t| alpha2(t));
        let thirds = [150, 400, 1_000, 2_000].map(|d| {
            same(&printed::ALPHA_3, 10, |tenths, t| {
                alpha3(t, tenths * d / 10, d)
            })
        });
        let fourths = same(&printed::ALPHA_4, 1_000, |d, t| alpha4(t, d));
        assert_eq!((singles, thirds, fourths), (18, [90; 4], 18));
    }

    #[test]
    fn printed_cells_of_7_2() {
        let mut cells = 0;
        for line in printed::CAP.map(words) {
            let depth = number(line[0], 1_000);
            for (kind, word) in line.iter().enumerate().skip(1) {
                assert_eq!(cap(kind as u8, depth), number(word, 1_000));
                cells += 1;
            }
        }
        assert_eq!(cells, 30);
    }

    #[test]
    fn beyond_the_lines() {
        for t in [23_000, 26_540, 36_000] {
            for h in [25_000, 25_001, 40_000] {
                assert_eq!(alpha3(t, h, 1_000), alpha3(t, 25_000, 1_000));
            }
            assert!(alpha3(t, 24_999, 1_000) >= alpha3(t, 25_000, 1_000));
            assert!(alpha3(t, 24_000, 1_000) > alpha3(t, 25_000, 1_000));
            for d in [150, 799, 800] {
                assert_eq!(alpha4(t, d), alpha4(t, 800));
            }
            assert!(alpha4(t, 801) < alpha4(t, 800));
        }
        for kind in 1..=3 {
            assert!(cap(kind, 34_999) < cap(kind, 35_000));
            assert_eq!(cap(kind, 35_001), cap(kind, 35_000));
            assert_eq!(cap(kind, 40_000), cap(kind, 35_000));
        }
    }

    /// Each value is rounded down, and once: a floor in each direction would give alpha 3 and alpha 4 one less here.
    #[test]
    fn rounded_once() {
        assert_eq!([alpha1(23_001), alpha1(23_009)], [95_015, 95_139]);
        assert_eq!(alpha2(38_999), 2_599_625);
        assert_eq!(alpha3(23_009, 4_001, 1_000), 7_800);
        assert_eq!(alpha3(25_999, 8_333, 600), 6_061);
        assert_eq!(alpha4(23_009, 801), 3_398);
        assert_eq!(cap(1, 3_001), 3_100_100);
        assert_eq!(cap(2, 8_000), 2_466_666);
        assert_eq!(cap(3, 34_999), 2_249_970);
    }

    /// Angle and weights; h and d; the coefficients, the weight above, both terms, the resistance; kind and cap.
    type Worked = ([u32; 3], [u32; 2], [u32; 8], (u8, u32));

    const WORKED: [Worked; 4] = [
        (
            [3_000, 10_000, 18_000],
            [10_000, 600],
            [
                173_000, 328_000, 5_900, 2_900, 180_000, 103_800, 3_483_360, 780_207,
            ],
            (1, 4_000_000),
        ),
        (
            [3_200, 10_000, 19_000],
            [15_000, 1_000],
            [
                236_900, 442_300, 6_460, 2_688, 285_000, 236_900, 8_143_185, 1_689_425,
            ],
            (2, 2_900_000),
        ),
        (
            [3_333, 10_000, 18_000],
            [10_000, 400],
            [
                294_847, 547_222, 6_099, 2_650, 180_000, 117_938, 6_007_512, 1_217_433,
            ],
            (3, 1_500_000),
        ),
        (
            [2_556, 9_000, 17_000],
            [8_000, 1_200],
            [
                95_062, 186_124, 7_033, 3_286, 136_000, 102_666, 1_780_253, 464_045,
            ],
            (2, 2_466_666),
        ),
    ];

    #[test]
    fn worked_values() {
        for (record, [h, d], due, (kind, most)) in WORKED {
            let [angle, weight_below, weight_above] = record;
            let sand = Sand {
                angle,
                weight_below,
                weight_above,
            };
            assert_eq!(check(&sand, h, d), Ok(()));
            let Formula {
                alphas: [a1, a2, a3, a4],
                above,
                terms: [first, second],
                resistance,
            } = formula(&sand, h, d);
            assert_eq!([a1, a2, a3, a4, above, first, second, resistance], due);
            assert_eq!(cap(kind, h), most);
        }
    }
}
