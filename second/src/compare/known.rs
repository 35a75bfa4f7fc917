//! Every printed cell, and the known cases.

#![forbid(unsafe_code)]

use super::lending::Lending;
use super::makers::Site;
use super::meter::Meter;
use second::cases::{self, Known};
use second::{printed, read_slice, Answer, Pile, Row, Slice, ROWS, SLICES, TABLE};

pub fn lend(site: &Site) -> Lending {
    Lending {
        log: site.log(),
        pile: site.pile(),
        sand: site.sand,
        table: vec![0xC3; TABLE],
    }
}

pub fn row(thickness: u32, kind: u8, index: u8) -> Row {
    Row {
        thickness: thickness as u16,
        kind,
        index,
        saturation: 95,
        zero: 0,
    }
}

/// A square pile of one metre, whose tip force is its tip resistance.
pub fn square(head: u32, tip: u32) -> Pile {
    Pile {
        section: 2,
        a: 1_000,
        b: 1_000,
        method: 2,
        head: head as u16,
        tip: tip as u16,
        ..Pile::default()
    }
}

/// An index such as `0.3` as stored.
pub fn stored(word: &str) -> u8 {
    let hundredths: u8 = format!("{word}0")
        .replace('.', "")
        .parse()
        .expect("an index");
    100 + hundredths
}

/// Every cell of the friction table stands in the first slice of a calculation.
pub fn friction_cells(meter: &mut Meter) {
    meter.group("cells of table 7.3");
    let heads = printed::words(printed::FRICTION_HEAD);
    let mut cells = 0;
    for line in printed::FRICTION {
        let words = printed::words(line);
        let depth = 1_000 * words[0].parse::<u32>().expect("a depth");
        for (column, word) in words.iter().enumerate().skip(1) {
            let kilopascals = word.parse().expect("a cell");
            friction_cell(meter, depth, column, heads[column], kilopascals);
            cells += 1;
        }
    }
    meter.note(format!("{cells} cells"));
}

/// In the soil of the cell, and in its sand if it has one.
fn friction_cell(meter: &mut Meter, depth: u32, column: usize, head: &str, kilopascals: u32) {
    let mut soils = vec![(4 + (column % 3) as u8, stored(head))];
    if column <= 3 {
        soils.push((column as u8, 100));
    }
    for (kind, index) in soils {
        let upper = row(depth + 1_000, kind, index);
        let lower = row(2_000 + 5_000, 6, if depth < 15_000 { 155 } else { 125 });
        let site = Site::plain(vec![upper, lower], square(depth - 1_000, depth + 3_000));
        meter.case(format!("{depth} mm, column {head}, kind {kind}"));
        let (_, answer, table) = meter.calculate(&lend(&site));
        let first = read_slice(&table, 0);
        meter.count(
            answer.refusal == 0 && first.friction == 200_000 * kilopascals,
            || format!("  not the printed {kilopascals} kPa: {answer:?} {first:?}"),
        );
    }
}

/// Every cell of the tip table is a calculation's tip resistance; a dash is refused.
pub fn tip_cells(meter: &mut Meter) {
    meter.group("cells of table 7.8");
    let heads = printed::words(printed::TIP_HEAD);
    let (mut cells, mut dashes) = (0, 0);
    for line in printed::TIP {
        let words = printed::words(line);
        let tip = 1_000 * words[0].parse::<u32>().expect("a depth");
        for (column, word) in words.iter().enumerate().skip(1) {
            tip_cell(meter, tip, column, stored(heads[column]), word);
            match *word {
                "-" => dashes += 1,
                _ => cells += 1,
            }
        }
    }
    meter.note(format!("{cells} cells, {dashes} dashes"));
}

/// At the index of the cell; the first column also holds below it.
fn tip_cell(meter: &mut Meter, tip: u32, column: usize, index: u8, word: &str) {
    let mut indexes = vec![index];
    if index == 100 {
        indexes.extend([0, 99]);
    }
    for index in indexes {
        let kind = 4 + (column % 3) as u8;
        let site = Site::plain(vec![row(tip + 5_000, kind, index)], square(0, tip));
        meter.case(format!("{tip} mm, stored index {index}"));
        let (_, answer, _) = meter.calculate(&lend(&site));
        let right = match word.parse::<u64>() {
            Ok(kilopascals) => answer.refusal == 0 && answer.tip == 1_000 * kilopascals,
            Err(_) => answer.refusal == 12,
        };
        meter.count(right, || {
            format!("  not the printed {word} kPa: {answer:?}")
        });
    }
}

/// 64 strata whose slices fill every place of the table.
pub fn fullest(meter: &mut Meter) {
    meter.group("every place of the table");
    let (rows, pile) = cases::fullest();
    let strata = rows.len();
    meter.case(format!("{strata} strata"));
    let (_, answer, table) = meter.calculate(&lend(&Site::plain(rows, pile)));
    let filled = (0..SLICES as u32).all(|place| read_slice(&table, place).thickness > 0);
    meter.count(answer.refusal == 0 && strata == ROWS && filled, || {
        format!("  not {SLICES} slices: {answer:?}")
    });
}

/// Slices whose middle lies on a depth of the friction table or just beside it, at
/// every index; and the same for tips and the tip table.
pub fn around_the_marks(meter: &mut Meter) {
    meter.group("around the depths of both tables");
    for line in printed::FRICTION {
        let mark = 2_000 * printed::words(line)[0].parse::<u32>().expect("a depth");
        for middle in mark - 3..=mark + 3 {
            slices_around(meter, middle);
        }
    }
    for line in printed::TIP {
        let mark = 1_000 * printed::words(line)[0].parse::<u32>().expect("a depth");
        for tip in mark - 1..=mark + 1 {
            tips_at(meter, tip);
        }
    }
}

/// Thin and thick slices around a middle in half millimetres: an even middle is that of
/// an even thickness.
fn slices_around(meter: &mut Meter, middle: u32) {
    let thicknesses = if middle % 2 == 0 {
        [2, 2_000]
    } else {
        [1, 1_999]
    };
    for thickness in thicknesses {
        if middle >= thickness {
            first_slices(meter, middle, (middle - thickness) / 2, thickness);
        }
    }
}

fn first_slices(meter: &mut Meter, middle: u32, top: u32, thickness: u32) {
    for index in (0..=120).step_by(40).chain(121..=200) {
        let tip = (top + thickness + 2_000).max(3_000);
        let upper = row(top + thickness, 4 + index % 3, index);
        let lower = Row {
            saturation: 94,
            ..row(tip + 5_000 - (top + thickness), 6, 125)
        };
        let site = Site::plain(vec![upper, lower], square(top, tip));
        meter.case(format!("middle {middle} half mm, stored index {index}"));
        meter.calculate(&lend(&site));
    }
}

fn tips_at(meter: &mut Meter, tip: u32) {
    for index in (0..=90).step_by(30).chain(98..=162) {
        let site = Site::plain(
            vec![row(tip + 5_000, 4 + index % 3, index)],
            square(tip / 2, tip),
        );
        meter.case(format!("tip {tip}, stored index {index}"));
        meter.calculate(&lend(&site));
    }
}

/// Grades beyond 3,000.
const GRADES: [i32; 6] = [-20_000, -5_500, -3_001, 3_001, 5_500, 20_000];

/// The same depths read on graded sites, where the pile stands as much higher or lower.
pub fn graded_marks(meter: &mut Meter) {
    meter.group("around the depths of both tables, graded");
    for grade in GRADES {
        for line in printed::FRICTION {
            let mark = 2_000 * printed::words(line)[0].parse::<i32>().expect("a depth");
            for middle in mark - 2..=mark + 2 {
                graded_slice(meter, grade, middle);
            }
        }
        for line in printed::TIP {
            let mark = 1_000 * printed::words(line)[0].parse::<i32>().expect("a depth");
            for tip in mark - 1..=mark + 1 {
                graded_tip(meter, grade, tip);
            }
        }
    }
}

/// What a grade beyond 3,000 adds to the depths that are read.
fn beyond(grade: i32) -> i32 {
    grade - 3_000 * grade.signum()
}

pub fn graded(pile: Pile, grade: i32) -> Pile {
    Pile {
        length: second::GRADED_PILE as u8,
        grade: grade as i16,
        ..pile
    }
}

/// A thin slice whose middle is read at so many half millimetres, where the site can have one.
fn graded_slice(meter: &mut Meter, grade: i32, middle: i32) {
    let thickness = if middle % 2 == 0 { 2 } else { 1 };
    let top = (middle - thickness) / 2 - beyond(grade);
    if top < 0 {
        return;
    }
    let (top, thickness) = (top as u32, thickness as u32);
    for index in [100, 133, 155, 197] {
        let tip = (top + thickness + 2_000).max(3_000);
        let upper = row(top + thickness, 4 + index % 3, index);
        let lower = row(tip + 5_000 - (top + thickness), 6, 125);
        let site = Site::plain(vec![upper, lower], graded(square(top, tip), grade));
        meter.case(format!("grade {grade}, middle read at {middle} half mm"));
        meter.calculate(&lend(&site));
    }
}

/// A tip that is read at a depth, where the site can have one.
fn graded_tip(meter: &mut Meter, grade: i32, read: i32) {
    let tip = read - beyond(grade);
    if tip < 2_000 {
        return;
    }
    let head = (tip - 2_000).min((-grade).max(0));
    for index in [100, 125, 140, 141, 160] {
        let site = Site::plain(
            vec![row(tip as u32 + 5_000, 6, index)],
            graded(square(head as u32, tip as u32), grade),
        );
        meter.case(format!("grade {grade}, tip read at {read}, index {index}"));
        meter.calculate(&lend(&site));
    }
}

/// The cases A to L with their printed numbers, those of graded sites, of tips in sand and of the first metre.
pub fn known_cases(meter: &mut Meter) {
    meter.group("cases A to L, A graded, tips in sand, first metre");
    for case in cases::all() {
        meter.case(format!("case {}", case.name));
        let lent = Lending {
            log: case.log.to_vec(),
            pile: case.pile.to_vec(),
            sand: case.sand.into(),
            table: vec![0xC3; TABLE],
        };
        let (_, answer, table) = meter.calculate(&lent);
        let expected = expected(case.known);
        meter.count(answer == expected, || {
            format!("  not the known numbers {expected:?}: {answer:?}")
        });
        if let Some(kilopascals) = case.resistance {
            let mut square_metre = second::read_pile(&case.pile);
            (square_metre.section, square_metre.a, square_metre.b) = (2, 1_000, 1_000);
            let pile = second::pile_bytes(&square_metre);
            let (_, answer, _) = meter.calculate(&Lending { pile, ..lent });
            meter.count(answer.tip == 1_000 * kilopascals, || {
                format!("  not the known {kilopascals} kPa: {answer:?}")
            });
        }
        if case.name == "A" {
            slices_of_case_a(meter, &case, &table);
        }
    }
}

fn expected(known: Known) -> Answer {
    match known {
        Known::Numbers([line, tip, shaft, capacity, uplift]) => Answer {
            line,
            tip,
            shaft,
            capacity,
            uplift,
            ..Answer::default()
        },
        Known::Refusal(refusal) => Answer {
            refusal,
            ..Answer::default()
        },
    }
}

fn slices_of_case_a(meter: &mut Meter, case: &cases::Case, table: &[u8]) {
    meter.count(
        case.log[..6] == cases::LOG_A && case.log[6..].iter().all(|byte| *byte == 0),
        || "  not the printed log".to_string(),
    );
    meter.count(case.pile == cases::PILE_A, || {
        "  not the printed pile".to_string()
    });
    meter.count(table[..7] == cases::SLICE_A, || {
        "  not the printed slice".to_string()
    });
    for place in 0..SLICES {
        let expected = match cases::SLICES_A.get(place) {
            Some(&(top, thickness, friction, factor)) => Slice {
                refusal: 0,
                top,
                thickness,
                friction,
                factor,
            },
            None => Slice::default(),
        };
        let slice = meter.read_slice(table, place as u32);
        meter.count(slice == expected, || {
            format!("  not the printed slice {expected:?}: {slice:?}")
        });
    }
}
