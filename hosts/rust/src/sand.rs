//! What a sand tip needs besides its pile record.

use crate::door;

/// The sand below the tip and the soils above it. A pile whose tip stands in sand (kinds 1 to 3) is worked out by it; over clay it is not
/// looked at.
#[derive(Clone, Copy, Debug, PartialEq, Eq)]
pub struct SandRecord {
    /// Friction angle of the sand below the tip in hundredths of a degree: times 0.9 it is 23 to 39 degrees.
    pub angle_hundredths: u32,
    /// Unit weight of the sand below the tip, 1 to 30,000 N/m³.
    pub weight_below_n_per_m3: u32,
    /// Mean unit weight of the soils above the tip, 1 to 30,000 N/m³.
    pub weight_above_n_per_m3: u32,
}

/// The record as the door takes it; none is not a record of zeros.
pub(crate) fn fields(sand: Option<SandRecord>) -> door::Sand {
    sand.map_or_else(door::Sand::default, |sand| door::Sand {
        given: 1,
        angle: sand.angle_hundredths,
        weight_below: sand.weight_below_n_per_m3,
        weight_above: sand.weight_above_n_per_m3,
    })
}
