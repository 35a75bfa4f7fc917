//! Runs a call through the door and through this crate, compares the replies and
//! every byte lent, and keeps count.

#![forbid(unsafe_code)]

use super::lending::Lending;
use second::{door, Answer, Carried, Log, Pile, Slice};
use std::fmt::Debug;

/// Bytes that stand around a lent piece and must stay.
const GUARD: u8 = 0xA7;
const MARGIN: usize = 24;
/// So many differences are printed in full.
const SHOWN: u64 = 5;
/// After so many differences the rest is not run.
const ENOUGH: u64 = 100;

/// A copy of a lent piece: with guard bytes around it, or in a place of its own.
struct Held {
    store: Vec<u8>,
    margin: usize,
}

impl Held {
    fn new(bytes: &[u8], guarded: bool) -> Held {
        if !guarded {
            return Held {
                store: bytes.to_vec(),
                margin: 0,
            };
        }
        let mut store = vec![GUARD; MARGIN];
        store.extend_from_slice(bytes);
        store.resize(bytes.len() + 2 * MARGIN, GUARD);
        Held {
            store,
            margin: MARGIN,
        }
    }

    fn piece(&mut self) -> &mut [u8] {
        let end = self.store.len() - self.margin;
        &mut self.store[self.margin..end]
    }

    /// None if the guard bytes were touched.
    fn back(&self) -> Option<&[u8]> {
        let end = self.store.len() - self.margin;
        let guards = self.store[..self.margin].iter().chain(&self.store[end..]);
        guards
            .copied()
            .all(|byte| byte == GUARD)
            .then(|| &self.store[self.margin..end])
    }
}

struct Group {
    name: String,
    passed: u64,
    failed: u64,
    notes: String,
}

pub struct Meter {
    groups: Vec<Group>,
    failed: u64,
    guarded: bool,
    case: String,
    /// Prints every call before it is made, for a library that does not come back.
    trace: bool,
}

pub struct Edit<'a> {
    pub kind: u32,
    pub k: u32,
    pub x: u32,
    pub row: &'a [u8],
    /// Hands a null pointer over in place of the row.
    pub without_row: bool,
}

impl Meter {
    pub fn new(trace: bool) -> Meter {
        Meter {
            groups: Vec::new(),
            failed: 0,
            guarded: false,
            case: String::new(),
            trace,
        }
    }

    fn before(&mut self, tell: impl FnOnce() -> String) {
        if self.trace {
            let group = self.here().name.clone();
            eprintln!("{group}, {}\n{}", self.case, tell());
        }
    }

    pub fn group(&mut self, name: &str) {
        self.groups.push(Group {
            name: name.to_string(),
            passed: 0,
            failed: 0,
            notes: String::new(),
        });
    }

    /// Names the case at hand, for the print of a difference.
    pub fn case(&mut self, name: String) {
        self.case = name;
    }

    pub fn note(&mut self, notes: String) {
        self.here().notes = notes;
    }

    pub fn enough(&self) -> bool {
        self.failed >= ENOUGH
    }

    fn here(&mut self) -> &mut Group {
        self.groups.last_mut().expect("a group")
    }

    /// Prints a line for each group and the sum; true if all passed.
    pub fn finish(self) -> bool {
        let (mut passed, mut failed) = (0, 0);
        for group in &self.groups {
            print!("{}: {} passed", group.name, group.passed);
            if group.failed > 0 {
                print!(", {} failed", group.failed);
            }
            if group.notes.is_empty() {
                println!();
            } else {
                println!(" ({})", group.notes);
            }
            passed += group.passed;
            failed += group.failed;
        }
        println!("compare: {passed} passed, {failed} failed");
        failed == 0
    }

    /// Counts one comparison; on a difference prints what is told.
    pub fn count(&mut self, same: bool, tell: impl FnOnce() -> String) -> bool {
        if same {
            self.here().passed += 1;
            return true;
        }
        self.here().failed += 1;
        self.failed += 1;
        if self.failed <= SHOWN {
            let (group, case) = (self.here().name.clone(), self.case.clone());
            println!("difference in {group}, {case}\n{}", tell());
        }
        false
    }

    /// A calculation through both; gives this crate's answer and table.
    pub fn calculate(&mut self, lent: &Lending) -> (bool, Answer, Vec<u8>) {
        let mut table = lent.table.clone();
        self.before(|| lending(lent));
        let own = second::calculate(&lent.log, &lent.pile, lent.sand.record(), &mut table);

        self.guarded = !self.guarded;
        let mut held = self.hold(lent);
        let [log, pile, filled] = &mut held;
        let reply = door::calculate(log.piece(), pile.piece(), lent.sand, filled.piece());

        let expected = [&lent.log[..], &lent.pile, &table];
        let same = reply == own && unchanged(&held, expected);
        let passed = self.count(same, || {
            let mut text = lending(lent);
            text += &replies(&reply, &own);
            text += &pieces(&held, expected);
            text
        });
        (passed, own, table)
    }

    /// An edit through both; the log and the table lent become what they must become.
    pub fn edit(&mut self, lent: &mut Lending, edit: &Edit) -> (bool, Answer) {
        let before = lent.clone();
        self.before(|| lending(&before) + &editing(edit));
        let own = second::edit(
            &mut lent.log,
            &lent.pile,
            lent.sand.record(),
            &mut lent.table,
            [edit.kind, edit.k, edit.x],
            edit.row,
        );

        self.guarded = !self.guarded;
        let mut held = self.hold(&before);
        let mut brought = Held::new(edit.row, self.guarded);
        let reply = edit_by_library(&mut held, before.sand, edit, brought.piece());

        let expected = [&lent.log[..], &lent.pile, &lent.table];
        let same = reply == own && unchanged(&held, expected) && brought.back() == Some(edit.row);
        let passed = self.count(same, || {
            let mut text = lending(&before);
            text += &editing(edit);
            text += &replies(&reply, &own);
            text += &pieces(&held, expected);
            text
        });
        (passed, own)
    }

    pub fn read_log(&mut self, log: &[u8]) -> Log {
        let own = second::read_log(log);
        self.reading(log, own, door::read_log)
    }

    pub fn read_pile(&mut self, pile: &[u8]) -> Pile {
        let own = second::read_pile(pile);
        self.reading(pile, own, door::read_pile)
    }

    pub fn read_slice(&mut self, table: &[u8], place: u32) -> Slice {
        let own = second::read_slice(table, place);
        self.case(format!("place {place}"));
        self.reading(table, own, |table| door::read_slice(table, place))
    }

    fn reading<T: Debug + PartialEq>(
        &mut self,
        piece: &[u8],
        own: T,
        through: impl FnOnce(&[u8]) -> T,
    ) -> T {
        self.guarded = !self.guarded;
        let mut held = Held::new(piece, self.guarded);
        self.before(|| format!("  lent {}", hex(piece)));
        let reply = through(held.piece());
        let same = reply == own && held.back() == Some(piece);
        self.count(same, || {
            format!("  lent {}\n{}", hex(piece), replies(&reply, &own))
        });
        own
    }

    pub fn pack_log(&mut self, fields: &Log, buffer: &[u8]) -> (Answer, Vec<u8>) {
        self.packing(fields, buffer, second::pack_log, door::pack_log)
    }

    pub fn pack_pile(&mut self, fields: &Pile, buffer: &[u8]) -> (Answer, Vec<u8>) {
        self.packing(fields, buffer, second::pack_pile, door::pack_pile)
    }

    fn packing<T: Debug>(
        &mut self,
        fields: &T,
        buffer: &[u8],
        own: impl FnOnce(&T, &mut [u8]) -> Answer,
        through: impl FnOnce(&T, &mut [u8]) -> Answer,
    ) -> (Answer, Vec<u8>) {
        let mut packed = buffer.to_vec();
        let own = own(fields, &mut packed);
        self.guarded = !self.guarded;
        let mut held = Held::new(buffer, self.guarded);
        self.before(|| format!("  fields {fields:?}\n  lent {}", hex(buffer)));
        let reply = through(fields, held.piece());
        let same = reply == own && held.back() == Some(&packed[..]);
        self.count(same, || {
            let mut text = format!("  fields {fields:?}\n  lent {}\n", hex(buffer));
            text += &replies(&reply, &own);
            match held.back() {
                Some(bytes) => text += &format!("  library left {}\n", hex(bytes)),
                None => text += "  library wrote past its end\n",
            }
            text += &format!("  second left  {}", hex(&packed));
            text
        });
        (own, packed)
    }

    fn hold(&self, lent: &Lending) -> [Held; 3] {
        [&lent.log, &lent.pile, &lent.table].map(|piece| Held::new(piece, self.guarded))
    }
}

fn edit_by_library(held: &mut [Held; 3], sand: Carried, edit: &Edit, row: &[u8]) -> Answer {
    let [log, pile, table] = held;
    let (log, pile, table) = (log.piece(), pile.piece(), table.piece());
    let numbers = [edit.kind, edit.k, edit.x];
    if edit.without_row {
        door::edit_without_row(log, pile, sand, table, numbers)
    } else {
        door::edit(log, pile, sand, table, numbers, row)
    }
}

fn unchanged(held: &[Held; 3], expected: [&[u8]; 3]) -> bool {
    held.iter()
        .zip(expected)
        .all(|(held, expected)| held.back() == Some(expected))
}

fn hex(bytes: &[u8]) -> String {
    let digits: String = bytes.iter().map(|byte| format!("{byte:02X}")).collect();
    format!("({}) {digits}", bytes.len())
}

fn lending(lent: &Lending) -> String {
    format!(
        "  log {}\n  pile {}\n  {:?}\n  table {}\n",
        hex(&lent.log),
        hex(&lent.pile),
        lent.sand,
        hex(&lent.table)
    )
}

fn editing(edit: &Edit) -> String {
    let Edit {
        kind, k, x, row, ..
    } = edit;
    format!("  kind {kind} k {k} x {x} row {}\n", hex(row))
}

fn replies<T: Debug>(reply: &T, own: &T) -> String {
    format!("  library: {reply:?}\n  second:  {own:?}\n")
}

fn pieces(held: &[Held; 3], expected: [&[u8]; 3]) -> String {
    let mut text = String::new();
    for ((held, expected), name) in held.iter().zip(expected).zip(["log", "pile", "table"]) {
        match held.back() {
            Some(bytes) if bytes == expected => {}
            Some(bytes) => {
                text += &format!("  {name} left by library {}\n", hex(bytes));
                text += &format!("  {name} left by second  {}\n", hex(expected));
            }
            None => text += &format!("  {name}: library wrote past its ends\n"),
        }
    }
    text
}
