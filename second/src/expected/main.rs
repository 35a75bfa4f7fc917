//! Writes what the edit test and the record test read and must print, what the norm test must print, and the sheets of the stored inputs,
//! from this crate alone.

#![forbid(unsafe_code)]

mod desk;
mod edges;
mod fields;
mod first_metre;
mod graded;
mod held;
mod norm;
mod record_cases;
mod records;
mod runs;
mod sands;
mod sheets;
mod twister;

use desk::Desk;
use std::fs;
use std::io;
use std::path::Path;
use twister::Twister;

const USAGE: &str = "usage: expected FROM TO
  reads FROM/tests/sheet/*.hex
  writes TO/crates/edit_test and TO/crates/record_test, stdin and stdout, TO/crates/norm_test/stdout and TO/tests/sheet/*.out";

fn main() -> io::Result<()> {
    let folders: Vec<String> = std::env::args().skip(1).collect();
    let (from, to) = match &folders[..] {
        [from, to] => (Path::new(from), Path::new(to)),
        _ => {
            eprintln!("{USAGE}");
            std::process::exit(2);
        }
    };
    write_edits(&to.join("crates/edit_test"))?;
    write_norm(&to.join("crates/norm_test"))?;
    write_records(&to.join("crates/record_test"))?;
    write_sheets(&from.join("tests/sheet"), &to.join("tests/sheet"))
}

fn text(lines: &[String]) -> String {
    lines.join("\n") + "\n"
}

fn write_edits(folder: &Path) -> io::Result<()> {
    let desk = edits();
    // each refusal of the list comes, and no refusal too; 15 and 16 are none
    for (number, count) in desk.refusals.iter().enumerate() {
        assert_eq!(*count > 0, !matches!(number, 15 | 16), "refusal {number}");
    }
    let steps = desk.steps.len() / 25;
    assert!(steps <= 10_000, "more steps than the program takes");
    fs::create_dir_all(folder)?;
    fs::write(folder.join("stdin"), &desk.steps)?;
    fs::write(folder.join("stdout"), text(&desk.lines))?;
    println!("edit_test: {steps} steps, {} edits", desk.lines.len());
    Ok(())
}

fn edits() -> Desk {
    let mut desk = Desk::new();
    let mut twister = Twister::new(20_020_385);
    edges::edges(&mut desk);
    held::piles(&mut desk);
    held::grounds(&mut desk);
    held::full_logs(&mut desk);
    held::full_table(&mut desk);
    for _ in 0..6 {
        runs::mixed(&mut desk, &mut twister, runs::any_pile, 120);
        runs::steady(&mut desk, &mut twister, 60);
    }
    graded::edges(&mut desk);
    graded::runs(&mut desk, &mut twister);
    sands::edges(&mut desk);
    sands::runs(&mut desk, &mut twister);
    first_metre::edges(&mut desk);
    first_metre::runs(&mut desk, &mut twister);
    desk
}

fn write_norm(folder: &Path) -> io::Result<()> {
    let lines = norm::lines();
    fs::create_dir_all(folder)?;
    fs::write(folder.join("stdout"), text(&lines))?;
    println!("norm_test: {} cells", lines.len());
    Ok(())
}

fn write_records(folder: &Path) -> io::Result<()> {
    let cases = record_cases::all();
    fs::create_dir_all(folder)?;
    fs::write(folder.join("stdin"), &cases.bytes)?;
    fs::write(folder.join("stdout"), text(&cases.lines))?;
    println!("record_test: {} cases", cases.lines.len());
    Ok(())
}

fn write_sheets(from: &Path, to: &Path) -> io::Result<()> {
    fs::create_dir_all(to)?;
    let mut count = 0;
    for entry in fs::read_dir(from)? {
        let input = entry?.path();
        if input.extension().map_or(false, |ending| ending == "hex") {
            let name = input.with_extension("out");
            let name = name.file_name().expect("a file's name");
            let bytes = sheets::bytes_of(&fs::read_to_string(&input)?);
            fs::write(to.join(name), sheets::sheet(&bytes))?;
            count += 1;
        }
    }
    println!("tests/sheet: {count} sheets");
    Ok(())
}
