//! Tips in sand, which no scene has: library and plain calculator on piles about the limits of their record.

use crate::{circle_of, log_of, LIBRARY, PLAIN, TABLE};
use psamathyr_door::Sand;

/// Piles, and records of their sand: angles and weights about their limits, tips about 4 and 25 diameters deep, cuts and fills.
fn piles() -> Vec<(Vec<u8>, Sand)> {
    let mut all = Vec::new();
    for angle in (2_536..=4_353).step_by(79) {
        for (weight_below, weight_above) in
            [(10_000, 18_000), (0, 1), (1, 30_001), (30_000, 30_000)]
        {
            let sand = Sand {
                given: 1,
                angle,
                weight_below,
                weight_above,
            };
            for (diameter, tip) in [(400, 9_999), (800, 20_001), (1_250, 37_000), (2_000, 8_000)] {
                for grade in [-3_001_i16, -2_000, 0, 3_000, 3_001] {
                    let mut pile = circle_of(diameter, 1, 3_001, tip).to_vec();
                    pile.extend(grade.to_be_bytes());
                    all.push((pile, sand));
                }
            }
        }
    }
    all
}

/// Both give the same for tips in sand, refused or not.
pub fn same() -> bool {
    let mut accepted = 0;
    for (pile, sand) in piles() {
        for kind in 1..=3 {
            let log = log_of(&[(1_500, 5, 145, 80), (45_000, kind, 100, 80)]);
            let [own, other] = [PLAIN, LIBRARY].map(|by| {
                let mut table = [9; TABLE];
                ((by.calculate)(&log, &pile, sand, &mut table), table)
            });
            if own != other {
                println!("sand of kind {kind}: {sand:?} and pile {pile:?} differ");
                println!("  library {:?}\n  plain   {:?}", other.0, own.0);
                return false;
            }
            accepted += u32::from(own.0.refusal == 0);
        }
    }
    accepted > 0
}
