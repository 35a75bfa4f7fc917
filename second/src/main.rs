//! Compares the library, through its C door, with this crate: replies and buffers,
//! byte for byte.

#![forbid(unsafe_code)]

mod compare {
    pub mod choose;
    pub mod dice;
    pub mod disturb;
    pub mod first_metre;
    pub mod grades;
    pub mod known;
    pub mod lending;
    pub mod logs;
    pub mod makers;
    pub mod meter;
    pub mod records;
    pub mod sand_marks;
    pub mod sands;
    pub mod seeded;
    pub mod shallow;
    pub mod sorts;
}

use compare::meter::Meter;
use compare::{first_metre, known, logs, records, sand_marks, seeded};
use second::record;
use std::process::ExitCode;

const USAGE: &str =
    "usage: compare [--seed N] [--quick] [--only edits|others] [--null-row] [--trace] [--record FILE]
  --seed N    another seed for the random cases
  --quick     a tenth of the random cases, a seventh of the first metre
  --only W    the runs of edits alone, or all others: two halves that can run side by side
  --null-row  also edits that hand over a null pointer where no row is used
  --trace     prints every call to standard error before it is made
  --record F  writes every call, with what it was lent and what it left, to this file";

/// What the words of the command line ask for.
struct Asked {
    seed: u64,
    quick: bool,
    edits: bool,
    others: bool,
    null_row: bool,
    trace: bool,
    record: Option<String>,
}

impl Asked {
    /// None if a word is not in the usage.
    fn read(mut words: impl Iterator<Item = String>) -> Option<Asked> {
        let mut asked = Asked {
            seed: 20_250_101,
            quick: false,
            edits: true,
            others: true,
            null_row: false,
            trace: false,
            record: None,
        };
        while let Some(word) = words.next() {
            match word.as_str() {
                "--seed" => asked.seed = words.next()?.parse().ok()?,
                "--quick" => asked.quick = true,
                "--only" => match words.next()?.as_str() {
                    "edits" => asked.others = false,
                    "others" => asked.edits = false,
                    _ => return None,
                },
                "--null-row" => asked.null_row = true,
                "--trace" => asked.trace = true,
                "--record" => asked.record = Some(words.next()?),
                _ => return None,
            }
        }
        Some(asked)
    }
}

fn main() -> ExitCode {
    let asked = match Asked::read(std::env::args().skip(1)) {
        Some(asked) => asked,
        None => {
            eprintln!("{USAGE}");
            return ExitCode::from(2);
        }
    };
    println!(
        "seed {}{}",
        asked.seed,
        if asked.quick { ", quick" } else { "" }
    );
    if let Some(file) = &asked.record {
        match std::fs::File::create(file) {
            Ok(file) => record::start(Box::new(std::io::BufWriter::new(file))),
            Err(error) => {
                eprintln!("{file}: {error}");
                return ExitCode::from(2);
            }
        }
    }
    let passed = run(&asked);
    if let Err(error) = record::finish() {
        eprintln!("the record: {error}");
        return ExitCode::from(2);
    }
    if passed {
        ExitCode::SUCCESS
    } else {
        ExitCode::FAILURE
    }
}

/// True if all passed.
fn run(asked: &Asked) -> bool {
    let seed = asked.seed;
    let part = if asked.quick { 10 } else { 1 };
    let mut meter = Meter::new(asked.trace);
    if asked.others {
        known::friction_cells(&mut meter);
        known::tip_cells(&mut meter);
        known::around_the_marks(&mut meter);
        known::graded_marks(&mut meter);
        known::known_cases(&mut meter);
        known::fullest(&mut meter);
        first_metre::middles(&mut meter, if asked.quick { 7 } else { 1 });
        sand_marks::cells(&mut meter);
        sand_marks::around(&mut meter);
        sand_marks::limits(&mut meter);
        logs::logs(&mut meter, seed, 20_000 / part);
        records::piles(&mut meter, seed, 20_000 / part);
        records::slices(&mut meter, seed, 2_000 / part);
        seeded::calculations(&mut meter, seed, 200_000 / part);
    }
    if asked.edits {
        seeded::edits(&mut meter, seed, 50_000 / part);
    }
    if asked.null_row {
        seeded::without_row(&mut meter, seed);
    }
    meter.finish()
}
