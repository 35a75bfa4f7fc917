//! Case A's pile with its head in the first metre, in a stratum that ends there or just below it.

#![forbid(unsafe_code)]

use super::{accepted, clay, fine_sand, graded, pile, Case};
use crate::{Pile, Row};

/// Name; the upper row; head and grade; line, tip, shaft, capacity, uplift. Below the upper row stands case A's clay.
type Shallow = (&'static str, Row, (u16, i16), [u64; 5]);

const SHALLOW: [Shallow; 9] = [
    (
        "1,001 of clay",
        clay(1_001, 40, 95),
        (0, 0),
        [216_592, 268_605, 408_265, 676_870, 326_612],
    ),
    (
        "1,000 of clay, head 999",
        clay(1_000, 40, 95),
        (999, 0),
        [212_108, 268_605, 399_813, 668_418, 319_850],
    ),
    (
        "1,001 of clay, head 999",
        clay(1_001, 40, 95),
        (999, 0),
        [212_101, 268_605, 399_800, 668_405, 319_840],
    ),
    (
        "1,001 of clay, fill 3,000",
        clay(1_001, 40, 95),
        (0, 3_000),
        [216_592, 268_605, 408_265, 676_870, 326_612],
    ),
    (
        "1,001 of clay, fill 3,200",
        clay(1_001, 40, 95),
        (0, 3_200),
        [220_674, 272_847, 415_960, 688_807, 332_768],
    ),
    (
        "1,001 of clay, fill 5,000",
        clay(1_001, 40, 95),
        (0, 5_000),
        [246_292, 311_017, 464_249, 775_266, 371_399],
    ),
    (
        "1,001 of clay, cut 500, head 500",
        clay(1_001, 40, 95),
        (500, -500),
        [215_467, 268_605, 406_145, 674_750, 324_916],
    ),
    (
        "1,001 of fine sand",
        fine_sand(1_001),
        (0, 0),
        [220_149, 268_605, 414_970, 683_575, 331_976],
    ),
    (
        "1 of clay",
        clay(1, 37, 95),
        (0, 0),
        [223_189, 268_605, 420_700, 689_305, 336_560],
    ),
];

pub fn all() -> Vec<Case> {
    let cases = SHALLOW.map(|(name, upper, (head, grade), numbers)| {
        let shallow = Pile {
            head,
            ..pile(10_000)
        };
        let rows = [upper, clay(20_000, 30, 95)];
        accepted(name, &rows, graded(shallow, grade), numbers)
    });
    cases.to_vec()
}
