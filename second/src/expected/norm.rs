//! What the norm test must print: a line for each printed cell of table 7.7 and of the three columns of table 7.2, as the readers give it at
//! the cell's own marks.

#![forbid(unsafe_code)]

use second::sand::{alpha1, alpha2, alpha3, alpha4, cap};

/// The columns of table 7.7, thousandths of a degree.
fn angles() -> impl Iterator<Item = u32> {
    (23_000..=39_000).step_by(2_000)
}

/// The lines of alpha 3 for a diameter of 1,000 mm.
const DEPTHS: [u32; 10] = [
    4_000, 5_000, 7_500, 10_000, 12_500, 15_000, 17_500, 20_000, 22_500, 25_000,
];

/// The lines of table 7.2, mm.
const TIPS: [u32; 10] = [
    3_000, 4_000, 5_000, 7_000, 10_000, 15_000, 20_000, 25_000, 30_000, 35_000,
];

pub fn lines() -> Vec<String> {
    let mut lines = Vec::new();
    lines.extend(angles().map(|t| format!("1 {t} {}", alpha1(t))));
    lines.extend(angles().map(|t| format!("2 {t} {}", alpha2(t))));
    for h in DEPTHS {
        lines.extend(angles().map(|t| format!("3 {h} {t} {}", alpha3(t, h, 1_000))));
    }
    for d in [800, 4_000] {
        lines.extend(angles().map(|t| format!("4 {d} {t} {}", alpha4(t, d))));
    }
    for kind in 1..=3 {
        lines.extend(TIPS.map(|tip| format!("7 {kind} {tip} {}", cap(kind, tip))));
    }
    assert_eq!(lines.len(), 126 + 30);
    lines
}
