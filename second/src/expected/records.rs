//! The cases that the record test reads, and the line that it must print of each.
//!
//! A case is its kind, a length (2 bytes), how many bytes follow (2 bytes), and those bytes. What is read is as long as the length says,
//! zeros behind the bytes that follow; what is packed goes to a buffer of that length, 165 in every byte.

#![forbid(unsafe_code)]

use second::{
    row_fields, slice_bytes, Answer, Log, Pile, Row, Slice, GRADED_PILE, LOG, ROW, ROWS, SLICE,
};

#[derive(Default)]
pub struct Cases {
    pub bytes: Vec<u8>,
    pub lines: Vec<String>,
}

impl Cases {
    fn case(&mut self, kind: u8, length: usize, given: &[u8], line: String) {
        assert!(length <= 600 && given.len() <= 600);
        self.bytes.push(kind);
        self.bytes.extend((length as u16).to_be_bytes());
        self.bytes.extend((given.len() as u16).to_be_bytes());
        self.bytes.extend(given);
        self.lines.push(line);
    }

    /// A log read: refusal, count, and a weight of all rows.
    pub fn read_log(&mut self, log: &[u8]) {
        let fields = second::read_log(log);
        let rows = weight(fields.rows.iter().map(row_weight));
        let refusal = [fields.refusal, fields.row, fields.field];
        let line = format!("log {} {} {rows}", words(&refusal), fields.count);
        self.case(1, log.len(), used(log), line);
    }

    /// A log read: every field of its rows.
    pub fn read_rows(&mut self, log: &[u8]) {
        let fields = second::read_log(log);
        let rows = fields.rows.iter().filter(|row| row.thickness > 0);
        let numbers: Vec<u32> = rows.flat_map(numbers_of).collect();
        let line = format!("rows {}", words(&numbers));
        self.case(2, log.len(), used(log), line);
    }

    /// A log packed into a buffer of so many bytes.
    pub fn pack_log(&mut self, count: u8, rows: &[Row], length: usize) {
        let mut fields = Log {
            count,
            ..Log::default()
        };
        fields.rows[..rows.len()].copy_from_slice(rows);
        let mut given = vec![count];
        for row in &fields.rows {
            given.extend(wide_row(row));
        }
        let mut buffer = vec![165; length];
        let answer = second::pack_log(&fields, &mut buffer);
        let line = format!("packlog {}", packed(&answer, &buffer));
        self.case(6, length, used(&given), line);
    }

    /// A pile record read: refusal, length and fields, the grade as the number that its 16 bits make without a sign.
    pub fn read_pile(&mut self, record: &[u8]) {
        let pile = second::read_pile(record);
        let refusal = [pile.refusal, pile.row, pile.field];
        let narrow = [pile.section, pile.method, pile.zero].map(u32::from);
        let wide = [pile.a, pile.b, pile.head, pile.tip].map(u32::from);
        let fields = [
            narrow[0], wide[0], wide[1], narrow[1], wide[2], wide[3], narrow[2],
        ];
        let grade = i32::from(pile.grade).rem_euclid(1 << 16);
        let line = format!(
            "pile {} {} {} {grade}",
            words(&refusal),
            pile.length,
            words(&fields)
        );
        self.case(3, record.len(), record, line);
    }

    /// A pile record packed into a buffer of so many bytes; the grade is given where the fields are those of a record of ten bytes.
    pub fn pack_pile(&mut self, pile: &Pile, length: usize) {
        let mut given = vec![pile.section];
        given.extend(pile.a.to_be_bytes());
        given.extend(pile.b.to_be_bytes());
        given.push(pile.method);
        given.extend(pile.head.to_be_bytes());
        given.extend(pile.tip.to_be_bytes());
        given.push(pile.zero);
        if usize::from(pile.length) == GRADED_PILE {
            given.extend(pile.grade.to_be_bytes());
        }
        let mut buffer = vec![165; length];
        let answer = second::pack_pile(pile, &mut buffer);
        let line = format!("packpile {}", packed(&answer, &buffer));
        self.case(7, length, &given, line);
    }

    /// A place of a slice table read: refusal and fields.
    pub fn read_slice(&mut self, table: &[u8], place: u16) {
        let slice = second::read_slice(table, u32::from(place));
        let line = format!(
            "slice {} {} {} {} {}",
            slice.refusal, slice.top, slice.thickness, slice.friction, slice.factor
        );
        self.case(4, table.len(), &with_place(table, place), line);
    }

    /// A slice packed, whatever its fields.
    pub fn pack_slice(&mut self, slice: &Slice) {
        let mut given = slice.top.to_be_bytes().to_vec();
        given.extend(slice.thickness.to_be_bytes());
        given.extend(slice.friction.to_be_bytes());
        given.push(slice.factor);
        let fields = [
            (u64::from(slice.top), 16),
            (u64::from(slice.thickness), 11),
            (u64::from(slice.friction), 25),
            (u64::from(slice.factor), 4),
        ];
        let bytes = carried::<SLICE>(&fields);
        let fits = fields.iter().all(|(value, width)| *value >> width == 0);
        assert!(!fits || bytes == slice_bytes(slice));
        self.case(8, 0, &given, format!("packslice {}", hex(&bytes)));
    }

    /// The row that begins at a byte, zeros past the end: its fields, its lowest bad field, and the same packed again.
    pub fn read_row(&mut self, bytes: &[u8], at: u16) {
        let five: Vec<u8> = (usize::from(at)..usize::from(at) + ROW)
            .map(|place| bytes.get(place).copied().unwrap_or(0))
            .collect();
        let row = row_fields(&five);
        let line = format!(
            "row {} {} {}",
            words(&numbers_of(&row)),
            bad_field(row),
            hex(&packed_row(&row))
        );
        self.case(5, bytes.len(), &with_place(bytes, at), line);
    }

    /// A row packed, whatever its fields, and its lowest bad field.
    pub fn pack_row(&mut self, row: &Row) {
        let bytes = hex(&packed_row(row));
        let line = format!("packrow {bytes} {}", bad_field(*row));
        self.case(9, 0, &wide_row(row), line);
    }
}

fn words(numbers: &[u32]) -> String {
    let words: Vec<String> = numbers.iter().map(u32::to_string).collect();
    words.join(" ")
}

fn hex(bytes: &[u8]) -> String {
    bytes.iter().map(|byte| format!("{byte:02x}")).collect()
}

/// Refusal, row and field of a packing, the buffer's first 16 bytes and its weight.
fn packed(answer: &Answer, buffer: &[u8]) -> String {
    let refusal = words(&[answer.refusal, answer.row, answer.field]);
    let start = hex(&buffer[..buffer.len().min(16)]);
    let all = weight(buffer.iter().copied().map(u64::from));
    format!("{refusal} {start} {all}")
}

/// A sum in which every number counts the more often the earlier it stands.
fn weight(numbers: impl Iterator<Item = u64>) -> u64 {
    let (mut total, mut running) = (0, 0);
    for number in numbers {
        running += number;
        total += running;
    }
    total
}

fn numbers_of(row: &Row) -> [u32; 5] {
    let [kind, index, saturation, zero] = [row.kind, row.index, row.saturation, row.zero];
    let thickness = u32::from(row.thickness);
    let [kind, index, saturation, zero] = [kind, index, saturation, zero].map(u32::from);
    [thickness, kind, index, saturation, zero]
}

fn row_weight(row: &Row) -> u64 {
    let shares = numbers_of(row).into_iter().zip([1, 3, 5, 7, 11]);
    shares
        .map(|(number, times)| u64::from(number) * times)
        .sum()
}

/// Six bytes: the thickness in two, then one for each field.
fn wide_row(row: &Row) -> [u8; 6] {
    let [high, low] = row.thickness.to_be_bytes();
    [high, low, row.kind, row.index, row.saturation, row.zero]
}

/// Without the zeros at the end.
fn used(bytes: &[u8]) -> &[u8] {
    let last = bytes.iter().rposition(|byte| *byte != 0);
    &bytes[..last.map_or(0, |place| place + 1)]
}

/// 600 bytes, the last two of which name a place.
fn with_place(bytes: &[u8], place: u16) -> Vec<u8> {
    let mut given = bytes.to_vec();
    given.resize(598, 0);
    given.extend(place.to_be_bytes());
    given
}

/// Check 3 of a row by itself, in a log of one row.
fn bad_field(row: Row) -> u32 {
    let mut rows = [Row::default(); ROWS];
    rows[0] = row;
    let fields = Log {
        count: 1,
        rows,
        ..Log::default()
    };
    second::pack_log(&fields, &mut [0; LOG]).field
}

fn packed_row(row: &Row) -> [u8; ROW] {
    let numbers = numbers_of(row).map(u64::from);
    let widths = [16, 3, 8, 7, 6];
    let fields: Vec<(u64, u32)> = numbers.into_iter().zip(widths).collect();
    carried(&fields)
}

/// Fields of given widths as bytes, most significant first; what a field has too many is carried into the one before.
fn carried<const BYTES: usize>(fields: &[(u64, u32)]) -> [u8; BYTES] {
    let number = fields.iter().fold(0_u128, |number, (value, width)| {
        (number << width) + u128::from(*value)
    });
    let mut bytes = [0; BYTES];
    bytes.copy_from_slice(&number.to_be_bytes()[16 - BYTES..]);
    bytes
}
