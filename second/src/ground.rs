//! The ground as an array with the soil of every millimetre, and what is cut from it.

#![forbid(unsafe_code)]

use crate::fraction::Fraction;
use crate::Row;

/// What is the same in all millimetres of a stratum: kind, index, saturation.
#[derive(Clone, Copy, Debug, PartialEq, Eq)]
pub(crate) struct Soil(u32);

impl Soil {
    fn of(row: &Row) -> Soil {
        Soil(u32::from_be_bytes([0, row.kind, row.index, row.saturation]))
    }

    pub(crate) fn kind(self) -> u8 {
        self.0.to_be_bytes()[1]
    }

    /// The index as stored, hundredths plus 100.
    pub(crate) fn stored_index(self) -> u8 {
        self.0.to_be_bytes()[2]
    }

    pub(crate) fn index(self) -> Fraction {
        Fraction::new(i128::from(self.stored_index()) - 100, 100)
    }

    pub(crate) fn saturation(self) -> u8 {
        self.0.to_be_bytes()[3]
    }

    pub(crate) fn is_sand(self) -> bool {
        matches!(self.kind(), 1..=3)
    }
}

/// A longest run of equal millimetres, from its top down to, not with, its bottom.
#[derive(Clone, Copy, Debug)]
pub(crate) struct Stratum {
    pub soil: Soil,
    pub top: usize,
    pub bottom: usize,
}

/// A piece of a stratum along the shaft.
#[derive(Clone, Copy, Debug)]
pub(crate) struct Piece {
    pub soil: Soil,
    pub top: usize,
    pub thickness: usize,
}

/// The soil of every millimetre, the uppermost first.
pub(crate) fn millimetres(rows: &[Row]) -> Vec<Soil> {
    let depth = rows.iter().map(|row| usize::from(row.thickness)).sum();
    let mut ground = Vec::with_capacity(depth);
    for row in rows {
        ground.resize(ground.len() + usize::from(row.thickness), Soil::of(row));
    }
    ground
}

pub(crate) fn strata(ground: &[Soil]) -> Vec<Stratum> {
    let mut all = Vec::new();
    let mut top = 0;
    while top < ground.len() {
        let soil = ground[top];
        let bottom = top
            + ground[top..]
                .iter()
                .take_while(|below| **below == soil)
                .count();
        all.push(Stratum { soil, top, bottom });
        top = bottom;
    }
    all
}

/// Cuts what lies between head and tip into pieces of 2,000 mm, each stratum by itself.
pub(crate) fn pieces(strata: &[Stratum], head: usize, tip: usize) -> Vec<Piece> {
    let mut all = Vec::new();
    for stratum in strata {
        let mut top = stratum.top.max(head);
        let bottom = stratum.bottom.min(tip);
        while top < bottom {
            let thickness = (bottom - top).min(2_000);
            all.push(Piece {
                soil: stratum.soil,
                top,
                thickness,
            });
            top += thickness;
        }
    }
    all
}
