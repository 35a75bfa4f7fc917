//! The tables of friction and of tips in clay, column by column as text, and how a table is read; each is read when first needed.

#![forbid(unsafe_code)]

use crate::fraction::Fraction;

/// Friction in kPa. First line: depths in m; then one line for each index.
const FRICTION: &str = "
m    1  2  3  4  5  6  8  10 15 20 25 30 35
0.2  35 42 48 53 56 58 62 65 72 79 86 93 100
0.3  23 30 35 38 40 42 44 46 51 56 61 66 70
0.4  15 21 25 27 29 31 33 34 38 41 44 47 50
0.5  12 17 20 22 24 25 26 27 28 30 32 34 36
0.6  8  12 14 16 17 18 19 19 20 20 20 21 22
0.7  4  7  8  9  10 10 10 10 11 12 12 12 13
0.8  4  5  7  8  8  8  8  8  8  8  8  9  9
0.9  3  4  6  7  7  7  7  7  7  7  7  8  8
1.0  2  4  5  5  6  6  6  6  6  6  6  7  7
";

/// Tip resistance in kPa. First line: depths in m; then one line for each index.
const TIP: &str = "
m    3   5    7    10   12   15   18   20   30   40
0.0  850 1000 1150 1350 1550 1800 2100 2300 3300 4500
0.1  750 850  1000 1200 1400 1650 1900 2100 3000 4000
0.2  650 750  850  1050 1250 1500 1700 1900 2600 3500
0.3  500 650  750  950  1100 1300 1500 1650 2300 3000
0.4  400 500  600  800  950  1100 1300 1450 2000 2500
0.5  300 400  500  700  800  1000 1150 1250 -    -
0.6  250 350  450  600  700  800  950  1050 -    -
";

pub(crate) struct Table {
    /// The marks of the first line: depths, mostly.
    heads: Vec<Fraction>,
    /// The mark that each other line begins with: an index, mostly.
    starts: Vec<Fraction>,
    /// By line, then by mark of the first line; a dash is none.
    lines: Vec<Vec<Option<Fraction>>>,
}

/// A dash was met with a weight above zero.
#[derive(Debug, PartialEq, Eq)]
pub(crate) struct Dash;

pub(crate) fn friction() -> &'static Table {
    thread_local! { static READ: &'static Table = Table::kept(FRICTION); }
    READ.with(|table| *table)
}

pub(crate) fn tip() -> &'static Table {
    thread_local! { static READ: &'static Table = Table::kept(TIP); }
    READ.with(|table| *table)
}

impl Table {
    /// Read once, and kept as long as the program runs.
    pub(crate) fn kept(text: &str) -> &'static Table {
        Box::leak(Box::new(Table::read(text)))
    }

    fn read(text: &str) -> Table {
        let mut text = text.lines().filter(|line| !line.trim().is_empty());
        let first = text.next().expect("a first line");
        let heads: Vec<Fraction> = first
            .split_whitespace()
            .skip(1)
            .map(Fraction::decimal)
            .collect();
        let mut starts = Vec::new();
        let mut lines = Vec::new();
        for line in text {
            let mut words = line.split_whitespace();
            starts.push(Fraction::decimal(words.next().expect("a mark")));
            let cells: Vec<Option<Fraction>> = words
                .map(|word| (word != "-").then(|| Fraction::decimal(word)))
                .collect();
            assert_eq!(cells.len(), heads.len());
            lines.push(cells);
        }
        Table {
            heads,
            starts,
            lines,
        }
    }

    /// The value at a place along the first line and one among the starts of the others (a depth in m and an index, mostly), by straight
    /// lines both ways; outside the table its edge counts.
    pub(crate) fn at(&self, along: Fraction, down: Fraction) -> Result<Fraction, Dash> {
        let mut sum = Fraction::ZERO;
        for (line, share) in weights(&self.starts, down) {
            for (place, part) in weights(&self.heads, along) {
                let weight = share * part;
                if weight > Fraction::ZERO {
                    let cell = self.lines[line][place].ok_or(Dash)?;
                    sum = sum + weight * cell;
                }
            }
        }
        Ok(sum)
    }
}

/// The two marks around a place and how much each counts.
fn weights(marks: &[Fraction], place: Fraction) -> [(usize, Fraction); 2] {
    let last = marks.len() - 1;
    if place <= marks[0] {
        return [(0, Fraction::ONE), (0, Fraction::ZERO)];
    }
    if place >= marks[last] {
        return [(last, Fraction::ONE), (last, Fraction::ZERO)];
    }
    let above = marks.iter().position(|mark| *mark > place).expect("a mark");
    let below = above - 1;
    let share = (place - marks[below]) / (marks[above] - marks[below]);
    [(below, Fraction::ONE - share), (above, share)]
}

#[cfg(test)]
mod tests {
    use super::*;
    use crate::printed;

    fn same(table: &Table, rows: &[&str], heads: &str) -> usize {
        let mut cells = 0;
        let depths: Vec<Fraction> = rows
            .iter()
            .map(|r| printed::words(r)[0])
            .map(Fraction::decimal)
            .collect();
        assert_eq!(table.heads, depths);
        let indexes: Vec<Fraction> = printed::words(heads)[1..]
            .iter()
            .map(|w| Fraction::decimal(w))
            .collect();
        assert_eq!(table.starts, indexes);
        for (place, row) in rows.iter().enumerate() {
            for (column, word) in printed::words(row)[1..].iter().enumerate() {
                let cell = (*word != "-").then(|| Fraction::decimal(word));
                assert_eq!(table.lines[column][place], cell);
                assert_eq!(table.at(depths[place], indexes[column]), cell.ok_or(Dash));
                cells += 1;
            }
        }
        cells
    }

    #[test]
    fn columns_are_the_printed_rows() {
        assert_eq!(
            same(friction(), &printed::FRICTION, printed::FRICTION_HEAD),
            117
        );
        assert_eq!(same(tip(), &printed::TIP, printed::TIP_HEAD), 70);
    }

    #[test]
    fn between_and_outside() {
        let half = Fraction::new(1, 2);
        assert_eq!(friction().at(half, Fraction::ZERO), Ok(Fraction::whole(35)));
        assert_eq!(
            friction().at(Fraction::whole(39), Fraction::ONE),
            Ok(Fraction::whole(7))
        );
        assert_eq!(
            friction().at(Fraction::whole(9), Fraction::decimal("0.25")),
            Ok(Fraction::new(217, 4))
        );
        assert_eq!(
            tip().at(Fraction::whole(25), Fraction::decimal("0.4")),
            Ok(Fraction::whole(1725))
        );
        assert_eq!(
            tip().at(Fraction::whole(25), Fraction::decimal("0.41")),
            Err(Dash)
        );
        assert_eq!(
            tip().at(Fraction::whole(20), Fraction::decimal("0.45")),
            Ok(Fraction::whole(1350))
        );
        assert_eq!(
            tip().at(Fraction::decimal("20.001"), Fraction::decimal("0.45")),
            Err(Dash)
        );
    }
}
