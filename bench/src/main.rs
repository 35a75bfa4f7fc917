//! Nanoseconds per call: the library through its C door beside a plain calculator
//! of the same rules, by turns in the same process.

#![forbid(unsafe_code)]

mod plain;
mod sands;
mod shallow;

use psamathyr_door::{Answer, Sand, LOG_BYTES as LOG, PILE_BYTES as PILE, TABLE_BYTES as TABLE};
use std::process::ExitCode;
use std::time::Instant;

type Calculate = fn(&[u8], &[u8], Sand, &mut [u8]) -> Answer;
type Edit = fn(&mut [u8], &[u8], Sand, &mut [u8], u32, u32, u32, &[u8]) -> Answer;

#[derive(Clone, Copy)]
struct Calculator {
    name: &'static str,
    calculate: Calculate,
    edit: Edit,
}

const PLAIN: Calculator = Calculator {
    name: "plain",
    calculate: |log, pile, sand, table| plain::calculate(log, pile, record_of(sand), table),
    edit: |log, pile, sand, table, kind, k, x, row| {
        plain::edit(log, pile, record_of(sand), table, kind, k, x, row)
    },
};

const LIBRARY: Calculator = Calculator {
    name: "library",
    calculate: psamathyr_door::calculate,
    edit: psamathyr_door::edit,
};

/// The record of a sand tip as the plain calculator takes it.
#[inline(always)]
fn record_of(sand: Sand) -> Option<plain::Sand> {
    (sand.given != 0).then(|| plain::Sand {
        angle: sand.angle.into(),
        weight_below: sand.weight_below.into(),
        weight_above: sand.weight_above.into(),
    })
}

/// Thickness, kind, stored index, saturation.
type Row = (u64, u64, u64, u64);

fn row_bytes((thickness, kind, index, saturation): Row) -> [u8; 5] {
    let number = thickness << 24 | kind << 21 | index << 13 | saturation << 6;
    number.to_be_bytes()[3..].try_into().expect("five bytes")
}

fn log_of(rows: &[Row]) -> [u8; LOG] {
    let mut log = [0; LOG];
    log[0] = rows.len() as u8;
    for (place, row) in log[1..].chunks_mut(5).zip(rows) {
        place.copy_from_slice(&row_bytes(*row));
    }
    log
}

fn circle_of(diameter: u64, method: u64, head: u64, tip: u64) -> [u8; PILE] {
    (1 << 62 | diameter << 50 | method << 36 | head << 20 | tip << 4).to_be_bytes()
}

/// A circle of 600 mm.
fn pile_of(method: u64, head: u64, tip: u64) -> [u8; PILE] {
    circle_of(600, method, head, tip)
}

struct Scene {
    name: &'static str,
    log: [u8; LOG],
    pile: [u8; PILE],
    slices: usize,
    /// The row whose thickness is drawn up and down, and its soil.
    dragged: Option<(u32, Row)>,
}

/// 64 strata, 83 slices: as many as there can be; and the tip that stands in the last.
fn full_log() -> (Vec<Row>, u64) {
    let mut full = Vec::new();
    for place in 0..63 {
        let thickness = if place % 7 < 2 { 2_001 } else { 1 };
        let kind = 1 + place % 6;
        let index = if kind <= 3 { 100 } else { 103 + 5 * place % 95 };
        full.push((thickness, kind, index, 50 + place % 50));
    }
    let tip = full.iter().map(|row| row.0).sum::<u64>() + 2_001;
    full.push((2_001 + 5_200, 6, 133, 95));
    (full, tip)
}

const USUAL_LOG: [Row; 8] = [
    (1_200, 5, 145, 80),
    (1_800, 2, 100, 70),
    (2_500, 4, 160, 90),
    (2_200, 5, 172, 95),
    (1_700, 3, 100, 98),
    (2_600, 6, 138, 95),
    (6_000, 6, 127, 96),
    (7_000, 5, 115, 97),
];

fn scenes() -> [Scene; 4] {
    let (full, tip) = full_log();
    [
        Scene {
            name: "full log",
            log: log_of(&full),
            pile: pile_of(1, 0, tip),
            slices: 83,
            dragged: None,
        },
        Scene {
            name: "usual log",
            log: log_of(&USUAL_LOG),
            pile: pile_of(2, 1_000, 17_000),
            slices: 12,
            dragged: None,
        },
        Scene {
            name: "dragged boundary",
            log: log_of(&USUAL_LOG),
            pile: pile_of(2, 1_000, 17_000),
            slices: 12,
            dragged: Some((3, USUAL_LOG[2])),
        },
        Scene {
            name: "dragged, full log",
            log: log_of(&full),
            pile: pile_of(1, 0, tip),
            slices: 83,
            dragged: Some((1, full[0])),
        },
    ]
}

/// What a dragging holds between two calls.
#[derive(Clone, PartialEq)]
struct Desk {
    log: [u8; LOG],
    table: [u8; TABLE],
    step: u64,
}

impl Desk {
    fn new(scene: &Scene) -> Desk {
        Desk {
            log: scene.log,
            table: [0; TABLE],
            step: 0,
        }
    }

    /// The next call of a scene: a calculation, or a boundary drawn one millimetre on.
    #[inline(always)]
    fn call(&mut self, scene: &Scene, by: &Calculator) -> Answer {
        // Every scene has its tip in clay.
        let none = Sand::default();
        let (k, soil) = match scene.dragged {
            Some(dragged) => dragged,
            None => return (by.calculate)(&self.log, &scene.pile, none, &mut self.table),
        };
        // Up and down by 100 mm, starting at the thickness as it is; never deeper.
        let phase = self.step % 200;
        let less = if phase < 100 { phase + 1 } else { 199 - phase };
        self.step += 1;
        let row = row_bytes((soil.0 - less, soil.1, soil.2, soil.3));
        (by.edit)(
            &mut self.log,
            &scene.pile,
            none,
            &mut self.table,
            1,
            k,
            0,
            &row,
        )
    }
}

fn used(table: &[u8]) -> usize {
    table
        .chunks(7)
        .take_while(|slice| slice.iter().any(|byte| *byte != 0))
        .count()
}

/// Both give the same for every call of a scene.
fn same(scene: &Scene) -> bool {
    let mut own = Desk::new(scene);
    let mut other = own.clone();
    let mut most = 0;
    for call in 0..1_000 {
        let answer = own.call(scene, &PLAIN);
        if answer.refusal != 0 {
            println!("{}: refused by {}", scene.name, answer.refusal);
            return false;
        }
        most = most.max(used(&own.table));
        let reply = other.call(scene, &LIBRARY);
        if reply != answer || own != other {
            println!("{}: call {call} differs", scene.name);
            println!("  library {reply:?}\n  plain   {answer:?}");
            return false;
        }
    }
    if most != scene.slices {
        println!("{}: {most} slices, not {}", scene.name, scene.slices);
        return false;
    }
    true
}

/// Calls through the calculator's own pointers, which nothing folds away.
#[inline(never)]
fn run(scene: &Scene, desk: &mut Desk, by: &Calculator, calls: u32) -> u64 {
    let mut sum = 0_u64;
    for _ in 0..calls {
        sum = sum.wrapping_add(desk.call(scene, by).capacity);
    }
    sum
}

/// Best and median of many repeats, nanoseconds per call.
struct Times(Vec<f64>);

impl Times {
    fn add(&mut self, scene: &Scene, desk: &mut Desk, by: &Calculator, calls: u32) {
        let start = Instant::now();
        run(scene, desk, by, calls);
        self.0
            .push(start.elapsed().as_nanos() as f64 / f64::from(calls));
    }

    fn best_and_median(&mut self) -> (f64, f64) {
        self.0.sort_by(f64::total_cmp);
        (self.0[0], self.0[self.0.len() / 2])
    }
}

fn measure(scene: &Scene, repeats: u32, calls: u32) {
    let mut all = [LIBRARY, PLAIN].map(|by| (by, Desk::new(scene), Times(Vec::new())));
    // Once to warm up, not counted.
    for (by, desk, _) in &mut all {
        Times(Vec::new()).add(scene, desk, by, calls);
    }
    for turn in 0..repeats {
        if turn % 2 == 1 {
            all.reverse();
        }
        for (by, desk, times) in &mut all {
            times.add(scene, desk, by, calls);
        }
        if turn % 2 == 1 {
            all.reverse();
        }
    }
    let mut results = Vec::new();
    print!("{:<18}", scene.name);
    for (by, _, times) in &mut all {
        let (best, median) = times.best_and_median();
        print!("  {} best {best:7.1} median {median:7.1} ns", by.name);
        results.push((best, median));
    }
    if let [library, plain] = results[..] {
        print!(
            "  ratio best {:.2} median {:.2}",
            library.0 / plain.0,
            library.1 / plain.1
        );
    }
    println!();
}

/// `count SCENE library|plain CALLS`: just these calls, for a counter of instructions around the process.
fn count(words: &[String]) -> ExitCode {
    let scenes = scenes();
    let scene = words
        .first()
        .and_then(|n| n.parse::<usize>().ok())
        .and_then(|n| scenes.get(n));
    let by = match words.get(1).map(String::as_str) {
        Some("library") => Some(LIBRARY),
        Some("plain") => Some(PLAIN),
        _ => None,
    };
    let calls = words.get(2).and_then(|n| n.parse::<u32>().ok());
    match (scene, by, calls) {
        (Some(scene), Some(by), Some(calls)) => {
            println!(
                "{} by {}: {}",
                scene.name,
                by.name,
                run(scene, &mut Desk::new(scene), &by, calls)
            );
            ExitCode::SUCCESS
        }
        _ => ExitCode::FAILURE,
    }
}

fn main() -> ExitCode {
    let words: Vec<String> = std::env::args().skip(1).collect();
    if words.first().map(String::as_str) == Some("count") {
        return count(&words[1..]);
    }
    let scenes = scenes();
    if !scenes.iter().all(same) || !sands::same() || !shallow::same() {
        return ExitCode::FAILURE;
    }
    println!("library and plain calculator give the same");
    for scene in &scenes {
        let calls = if scene.slices > 20 { 500 } else { 2_000 };
        measure(scene, 600, calls);
    }
    ExitCode::SUCCESS
}

#[cfg(test)]
mod tests {
    use super::*;

    #[test]
    fn scenes_are_accepted() {
        assert!(scenes().iter().all(same));
        assert!(sands::same());
        assert!(shallow::same());
    }

    fn five(answer: &Answer) -> [u64; 5] {
        [
            answer.line,
            answer.tip,
            answer.shaft,
            answer.capacity,
            answer.uplift,
        ]
    }

    #[test]
    fn known_numbers() {
        let pile = pile_of(1, 1_000, 10_000);
        let mut table = [9; TABLE];
        let answer = plain::calculate(&log_of(&[(20_000, 6, 130, 95)]), &pile, None, &mut table);
        let numbers = [212_100, 268_605, 399_798, 668_403, 319_838];
        assert_eq!(five(&answer), numbers);
        assert_eq!(table[..7], [0x03, 0xE8, 0xFA, 0x05, 0xB8, 0xD8, 0x06]);
        assert_eq!(used(&table), 5);
    }

    /// A pile in so much of case A's clay, on a graded site: the refusal and the five numbers, the same after an edit.
    fn graded(clay: u64, head: u64, tip: u64, grade: i16) -> (u32, [u64; 5]) {
        let row = (clay, 6, 130, 95);
        let mut pile = pile_of(1, head, tip).to_vec();
        pile.extend(grade.to_be_bytes());
        let mut log = log_of(&[row]);
        let mut table = [9; TABLE];
        let answer = plain::calculate(&log, &pile, None, &mut table);
        let row = row_bytes(row);
        let again = plain::edit(&mut log, &pile, None, &mut table, 1, 1, 0, &row);
        assert_eq!(five(&again), five(&answer));
        assert_eq!(again.kept as usize, used(&table));
        (answer.refusal, five(&answer))
    }

    #[test]
    fn graded_numbers() {
        let numbers = [212_100, 268_605, 399_798, 668_403, 319_838];
        for grade in [-1_000, 0, 3_000] {
            assert_eq!(graded(20_000, 1_000, 10_000, grade), (0, numbers));
        }
        let numbers = [212_111, 268_627, 399_819, 668_446, 319_855];
        assert_eq!(graded(20_000, 1_000, 10_000, 3_001), (0, numbers));
        let numbers = [232_500, 311_017, 438_251, 749_268, 350_600];
        assert_eq!(graded(20_000, 1_000, 10_000, 5_000), (0, numbers));
        let numbers = [176_100, 268_605, 331_940, 600_545, 265_552];
        assert_eq!(graded(20_000, 5_000, 12_000, -5_000), (0, numbers));
    }

    /// Case A's pile with another head and a grade, in an upper row above case A's clay.
    fn shallow_numbers(upper: Row, head: u64, grade: i16) -> [u64; 5] {
        let mut pile = pile_of(1, head, 10_000).to_vec();
        pile.extend(grade.to_be_bytes());
        let log = log_of(&[upper, (20_000, 6, 130, 95)]);
        let answer = plain::calculate(&log, &pile, None, &mut [9; TABLE]);
        assert_eq!(answer.refusal, 0);
        five(&answer)
    }

    #[test]
    fn numbers_of_the_first_metre() {
        let clay = (1_001, 6, 140, 95);
        for (upper, head, grade, numbers) in [
            (clay, 0, 0, [216_592, 268_605, 408_265, 676_870, 326_612]),
            (clay, 999, 0, [212_101, 268_605, 399_800, 668_405, 319_840]),
            (
                (1_000, 6, 140, 95),
                999,
                0,
                [212_108, 268_605, 399_813, 668_418, 319_850],
            ),
            (
                clay,
                0,
                3_200,
                [220_674, 272_847, 415_960, 688_807, 332_768],
            ),
            (
                clay,
                0,
                5_000,
                [246_292, 311_017, 464_249, 775_266, 371_399],
            ),
            (
                clay,
                500,
                -500,
                [215_467, 268_605, 406_145, 674_750, 324_916],
            ),
            (
                (1_001, 2, 100, 95),
                0,
                0,
                [220_149, 268_605, 414_970, 683_575, 331_976],
            ),
        ] {
            assert_eq!(shallow_numbers(upper, head, grade), numbers);
        }
    }

    #[test]
    fn graded_refusals() {
        assert_eq!(graded(20_000, 1_000, 10_000, -1_001), (7, [0; 5]));
        assert_eq!(graded(35_000, 1_000, 30_000, 13_000).0, 0);
        assert_eq!(graded(35_000, 1_000, 30_000, 13_001), (7, [0; 5]));
        assert_eq!(graded(45_001, 1_000, 40_001, -1_000), (7, [0; 5]));
        assert_eq!(graded(45_000, 1_000, 40_000, i16::MIN), (7, [0; 5]));
        assert_eq!(graded(45_000, 1_000, 40_000, i16::MAX), (7, [0; 5]));
        for length in [0, 7, 9, 11] {
            let mut table = [9; TABLE];
            let answer = plain::calculate(&log_of(&[]), &vec![0; length], None, &mut table);
            assert_eq!((answer.refusal, table), (1, [9; TABLE]));
        }
    }

    /// A pile of method 1 from 1,000 in so much sand: the refusal and the five numbers, the same after an edit.
    fn in_sand(
        kind: u64,
        (diameter, tip): (u64, u64),
        record: Option<[u64; 3]>,
    ) -> (u32, [u64; 5]) {
        let row = (25_000, kind, 100, 80);
        let pile = circle_of(diameter, 1, 1_000, tip);
        let sand = record.map(|[angle, weight_below, weight_above]| plain::Sand {
            angle,
            weight_below,
            weight_above,
        });
        let mut log = log_of(&[row]);
        let mut table = [9; TABLE];
        let answer = plain::calculate(&log, &pile, sand, &mut table);
        let row = row_bytes(row);
        let again = plain::edit(&mut log, &pile, sand, &mut table, 1, 1, 0, &row);
        assert_eq!(five(&again), five(&answer));
        assert_eq!(again.kept as usize, used(&table));
        (answer.refusal, five(&answer))
    }

    #[test]
    fn sand_numbers() {
        for (kind, pile, record, numbers) in [
            (
                1,
                (600, 10_000),
                [3_000, 10_000, 18_000],
                [345_975, 220_598, 652_146, 872_744, 521_716],
            ),
            (
                2,
                (1_000, 15_000),
                [3_200, 10_000, 19_000],
                [417_200, 1_326_870, 1_310_671, 2_637_541, 1_048_536],
            ),
            (
                3,
                (400, 10_000),
                [3_333, 10_000, 18_000],
                [180_425, 152_987, 226_728, 379_715, 181_382],
            ),
            (
                2,
                (1_200, 8_000),
                [2_556, 9_000, 17_000],
                [184_450, 524_822, 695_359, 1_220_181, 556_287],
            ),
            (
                1,
                (600, 10_000),
                [4_333, 30_000, 30_000],
                [345_975, 1_130_972, 652_146, 1_783_118, 521_716],
            ),
        ] {
            assert_eq!(in_sand(kind, pile, Some(record)), (0, numbers));
        }
    }

    #[test]
    fn sand_refusals() {
        let pile = (600, 10_000);
        assert_eq!(in_sand(2, pile, None), (9, [0; 5]));
        assert_eq!(in_sand(2, pile, Some([0; 3])), (17, [0; 5]));
        assert_eq!(in_sand(2, (2_000, 2_999), Some([0; 3])), (7, [0; 5]));
        assert_eq!(in_sand(2, (2_000, 3_000), Some([0; 3])), (17, [0; 5]));
        assert_eq!(in_sand(2, (2_001, 3_000), Some([0; 3])), (5, [0; 5]));
        for record in [
            [2_555, 1, 1],
            [4_334, 1, 1],
            [3_000, 0, 1],
            [3_000, 1, 30_001],
        ] {
            assert_eq!(in_sand(2, pile, Some(record)), (17, [0; 5]));
        }
        assert_eq!(in_sand(2, (2_000, 8_000), Some([3_000, 1, 1])).0, 0);
        assert_eq!(in_sand(2, (2_000, 7_999), Some([3_000, 1, 1])).0, 17);
    }
}
