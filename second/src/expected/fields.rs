//! Rows and piles by their fields in order.

#![forbid(unsafe_code)]

use second::{Pile, Row, GRADED_PILE, PILE};

pub const fn row(thickness: u16, kind: u8, index: u8, saturation: u8) -> Row {
    Row {
        thickness,
        kind,
        index,
        saturation,
        zero: 0,
    }
}

/// A row with field 5.
pub const fn row_with(thickness: u16, kind: u8, index: u8, saturation: u8, zero: u8) -> Row {
    Row {
        thickness,
        kind,
        index,
        saturation,
        zero,
    }
}

pub const fn pile(section: u8, a: u16, b: u16, method: u8, head: u16, tip: u16) -> Pile {
    Pile {
        refusal: 0,
        row: 0,
        field: 0,
        length: PILE as u8,
        section,
        a,
        b,
        method,
        head,
        tip,
        zero: 0,
        grade: 0,
    }
}

/// A pile with its zero bits.
pub const fn pile_with(pile: Pile, zero: u8) -> Pile {
    Pile { zero, ..pile }
}

/// A pile in a record of ten bytes, with its grade.
pub const fn graded(pile: Pile, grade: i16) -> Pile {
    Pile {
        length: GRADED_PILE as u8,
        grade,
        ..pile
    }
}

/// Case A's row.
pub const CLAY: Row = row(20_000, 6, 130, 95);
/// Case A's pile.
pub const PILE_A: Pile = pile(1, 600, 0, 1, 1_000, 10_000);
