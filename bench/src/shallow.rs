//! The first metre, of which a scene reaches only the lower end: library and plain calculator at every middle of it.

use crate::{log_of, pile_of, LIBRARY, PLAIN, TABLE};
use psamathyr_door::Sand;

/// Kind and stored index of the stratum with the slice.
const SOILS: [(u64, u64); 4] = [(2, 100), (4, 100), (5, 137), (6, 200)];

/// Both give the same for a thin slice from the head on, down to a little below 1 m; below fill too, which moves it down.
pub fn same() -> bool {
    for middle in 1..=2_002 {
        // In half millimetres: an even middle is that of an even thickness.
        let thickness = 2 - middle % 2;
        let head = (middle - thickness) / 2;
        for (kind, index) in SOILS {
            let log = log_of(&[(head + thickness, kind, index, 80), (20_000, 6, 130, 95)]);
            for grade in [0_i16, 3_001, 3_499, 5_000] {
                let mut pile = pile_of(1, head, 10_000).to_vec();
                pile.extend(grade.to_be_bytes());
                let [own, other] = [PLAIN, LIBRARY].map(|by| {
                    let mut table = [9; TABLE];
                    let answer = (by.calculate)(&log, &pile, Sand::default(), &mut table);
                    (answer, table)
                });
                if own != other || own.0.refusal != 0 {
                    println!("middle {middle}, kind {kind}, index {index}, grade {grade} differ");
                    println!("  library {:?}\n  plain   {:?}", other.0, own.0);
                    return false;
                }
            }
        }
    }
    true
}
