//! The four buffers of the edit test, the steps that it reads and the lines that it must print.
//!
//! A step is 25 bytes: what it is (0 an edit; 1, 2, 3, 4 bytes put into the log, the pile record, the table, the extra record); the lent
//! lengths of the first three (2 bytes each); kind, k, x (4 bytes each); the length of the new row, and its five bytes. The extra record is
//! 16 bytes, from which every edit takes its own: given, angle, weight below, weight above, 4 bytes each, the highest first.

#![forbid(unsafe_code)]

use second::cases::log_of;
use second::{pile_bytes, Answer, Carried, Pile, Row, LOG, PILE, TABLE};

/// The step that puts bytes into the log, the pile record, the table or the extra record.
#[derive(Clone, Copy)]
pub enum Piece {
    Log = 1,
    Pile = 2,
    Table = 3,
    Sand = 4,
}

/// An edit, and how much of log, pile record and table it lends.
#[derive(Clone, Copy)]
pub struct Edit<'a> {
    pub kind: u32,
    pub k: u32,
    pub x: u32,
    pub row: &'a [u8],
    pub lent: [u16; 3],
}

impl Default for Edit<'_> {
    fn default() -> Self {
        Edit {
            kind: 0,
            k: 0,
            x: 0,
            row: &[0; 5],
            lent: [LOG as u16, PILE as u16, TABLE as u16],
        }
    }
}

pub struct Desk {
    log: [u8; 400],
    pile: [u8; 20],
    table: [u8; 700],
    sand: [u8; 16],
    /// Bytes of the pile record that was put last.
    record: u16,
    pub steps: Vec<u8>,
    pub lines: Vec<String>,
    /// How many edits got each refusal.
    pub refusals: [usize; 18],
}

impl Desk {
    pub fn new() -> Desk {
        Desk {
            log: [0; 400],
            pile: [0; 20],
            table: [0; 700],
            sand: [0; 16],
            record: PILE as u16,
            steps: Vec::new(),
            lines: Vec::new(),
            refusals: [0; 18],
        }
    }

    fn step(&mut self, what: u8, edit: &Edit) {
        self.steps.push(what);
        for length in edit.lent {
            self.steps.extend(length.to_be_bytes());
        }
        for number in [edit.kind, edit.k, edit.x] {
            self.steps.extend(number.to_be_bytes());
        }
        self.steps.push(edit.row.len() as u8);
        self.steps.extend(five_of(edit.row));
    }

    /// Puts bytes into a piece, five in a step; what stands there already needs none.
    pub fn put(&mut self, piece: Piece, bytes: &[u8], at: usize) {
        for (number, part) in bytes.chunks(5).enumerate() {
            let from = at + 5 * number;
            let buffer: &mut [u8] = match piece {
                Piece::Log => &mut self.log,
                Piece::Pile => &mut self.pile,
                Piece::Table => &mut self.table,
                Piece::Sand => &mut self.sand,
            };
            let place = &mut buffer[from..from + part.len()];
            if place == part {
                continue;
            }
            place.copy_from_slice(part);
            let put = Edit {
                k: from as u32,
                row: part,
                lent: [0; 3],
                ..Edit::default()
            };
            self.step(piece as u8, &put);
        }
    }

    pub fn set_log(&mut self, rows: &[Row]) {
        self.put(Piece::Log, &log_of(rows), 0);
    }

    pub fn set_pile(&mut self, pile: Pile) {
        self.put(Piece::Pile, &pile_bytes(&pile), 0);
        self.record = u16::from(pile.length);
    }

    pub fn set_sand(&mut self, sand: Carried) {
        let Carried {
            given,
            angle,
            weight_below,
            weight_above,
        } = sand;
        let words = [given, angle, weight_below, weight_above].map(u32::to_be_bytes);
        self.put(Piece::Sand, &words.concat(), 0);
    }

    /// The extra record as it stands.
    fn sand(&self) -> Carried {
        let word = |place: usize| {
            let bytes = &self.sand[4 * place..4 * place + 4];
            bytes
                .iter()
                .fold(0, |word, byte| word << 8 | u32::from(*byte))
        };
        Carried {
            given: word(0),
            angle: word(1),
            weight_below: word(2),
            weight_above: word(3),
        }
    }

    /// The right lengths of log, pile record and table, with the record as it was put last.
    pub fn lent(&self) -> [u16; 3] {
        [LOG as u16, self.record, TABLE as u16]
    }

    /// The rows of the log as it stands, which must be a good one.
    pub fn rows(&self) -> Vec<Row> {
        let fields = second::read_log(&self.log[..LOG]);
        assert_eq!(fields.refusal, 0);
        fields.rows[..usize::from(fields.count)].to_vec()
    }

    /// The fields of a place of the table as it stands.
    pub fn slice(&self, place: u32) -> second::Slice {
        second::read_slice(&self.table[..TABLE], place)
    }

    /// An edit: its step, what it does, and the line with its reply and the sums of log and table.
    pub fn edit(&mut self, edit: Edit) -> Answer {
        self.step(0, &edit);
        let [log, pile, table] = edit.lent.map(usize::from);
        let mut row = five_of(edit.row).to_vec();
        row.resize(edit.row.len(), 0);
        let sand = self.sand().record();
        let answer = second::edit(
            &mut self.log[..log.min(400)],
            &self.pile[..pile.min(20)],
            sand,
            &mut self.table[..table.min(700)],
            [edit.kind, edit.k, edit.x],
            &row,
        );
        self.refusals[answer.refusal as usize] += 1;
        self.lines.push(line(&answer, &self.log, &self.table));
        answer
    }
}

/// The first five bytes, zeros where there are fewer.
fn five_of(bytes: &[u8]) -> [u8; 5] {
    let mut five = [0; 5];
    for (place, byte) in five.iter_mut().zip(bytes) {
        *place = *byte;
    }
    five
}

fn line(answer: &Answer, log: &[u8], table: &[u8]) -> String {
    let Answer {
        refusal,
        row,
        field,
        kept,
        line,
        tip,
        shaft,
        capacity,
        uplift,
    } = answer;
    let (log, table) = (sum(log), sum(table));
    format!("{refusal} {row} {field} {kept} {line} {tip} {shaft} {capacity} {uplift} {log} {table}")
}

/// A sum that changes with any one byte.
fn sum(bytes: &[u8]) -> u64 {
    bytes.iter().fold(0, |total, byte| {
        (total * 31 + u64::from(*byte)) % 1_000_000_007
    })
}
