//! Tips in sand: tables 7.7 and 7.2 as constant arrays, and the tip resistance by formula (7.12).

/// What a sand tip brings: friction angle in hundredths of a degree, unit weights of the soil below and above the tip in N/m³.
#[derive(Clone, Copy)]
pub struct Sand {
    pub angle: u64,
    pub weight_below: u64,
    pub weight_above: u64,
}

/// Table 7.7 for 23, 25, .. 39 degrees: tenths.
const ALPHA_1: [u64; 9] = [95, 126, 173, 244, 346, 486, 713, 1080, 1630];
const ALPHA_2: [u64; 9] = [186, 248, 328, 455, 640, 876, 1270, 1850, 2600];

/// Hundredths, a line for each depth over diameter.
const ALPHA_3: [[u64; 9]; 10] = [
    [78, 79, 80, 82, 84, 85, 85, 85, 87],
    [75, 76, 77, 79, 81, 82, 83, 84, 85],
    [68, 70, 71, 74, 76, 78, 80, 82, 84],
    [62, 65, 67, 70, 73, 75, 77, 79, 81],
    [58, 61, 63, 67, 70, 73, 75, 78, 80],
    [55, 58, 61, 65, 68, 71, 73, 76, 79],
    [51, 55, 58, 62, 66, 69, 72, 75, 78],
    [49, 53, 57, 61, 65, 68, 72, 75, 78],
    [46, 51, 55, 60, 64, 67, 71, 74, 77],
    [44, 49, 54, 59, 63, 67, 70, 74, 77],
];
/// Depth over diameter, in halves.
const HALVES: [u64; 10] = [8, 10, 15, 20, 25, 30, 35, 40, 45, 50];

/// Hundredths, for diameters of 800 and 4,000 mm.
const ALPHA_4: [[u64; 9]; 2] = [
    [34, 31, 29, 27, 26, 25, 24, 23, 22],
    [25, 24, 23, 22, 21, 20, 19, 18, 17],
];

/// Table 7.2 in kPa: medium, fine and silty sand.
const CAP: [[u64; 10]; 3] = [
    [3100, 3200, 3400, 3700, 4000, 4400, 4800, 5200, 5600, 6000],
    [2000, 2100, 2200, 2400, 2600, 2900, 3200, 3500, 3800, 4100],
    [1100, 1250, 1300, 1400, 1500, 1650, 1800, 1950, 2100, 2250],
];
const CAP_DEPTHS: [u64; 10] = [
    3_000, 4_000, 5_000, 7_000, 10_000, 15_000, 20_000, 25_000, 30_000, 35_000,
];

/// The place of the mark above a number, how far it is past that mark, and how far the next mark is; past the last mark, the last.
fn on_scale(marks: &[u64; 10], unit: u64, number: u64) -> (usize, u64, u64) {
    let mut place = 0;
    while place < 8 && marks[place + 1] * unit <= number {
        place += 1;
    }
    let span = (marks[place + 1] - marks[place]) * unit;
    (place, (number - marks[place] * unit).min(span), span)
}

/// The mean of two numbers, times the span.
fn between(upper: u64, lower: u64, past: u64, span: u64) -> u64 {
    upper * (span - past) + lower * past
}

impl Sand {
    /// The angle after the 0.9, in thousandths of a degree.
    fn reduced(&self) -> u64 {
        9 * self.angle
    }

    /// Check 17, for a tip that is so many millimetres below ground or cut.
    pub fn fits(&self, height: u64, diameter: u64) -> bool {
        (23_000..=39_000).contains(&self.reduced())
            && (1..=30_000).contains(&self.weight_below)
            && (1..=30_000).contains(&self.weight_above)
            && height >= 4 * diameter
    }

    /// A line of table 7.7 at the angle, times 2,000.
    fn at_angle(&self, line: &[u64; 9]) -> u64 {
        let past_23 = self.reduced() - 23_000;
        let place = (past_23 / 2_000).min(7);
        let past = past_23 - 2_000 * place;
        let place = place as usize;
        between(line[place], line[place + 1], past, 2_000)
    }

    /// Ten-thousandths, rounded down once.
    fn alpha_3(&self, height: u64, diameter: u64) -> u64 {
        let (place, past, span) = on_scale(&HALVES, diameter, 2 * height);
        let lines = [&ALPHA_3[place], &ALPHA_3[place + 1]].map(|line| self.at_angle(line));
        between(lines[0], lines[1], past, span) / (20 * span)
    }

    /// Ten-thousandths, rounded down once.
    fn alpha_4(&self, diameter: u64) -> u64 {
        let lines = [&ALPHA_4[0], &ALPHA_4[1]].map(|line| self.at_angle(line));
        between(lines[0], lines[1], diameter.saturating_sub(800), 3_200) / (20 * 3_200)
    }

    /// Tip resistance in whole Pa: of this kind of sand, the tip so far below ground or cut, and at this depth as read.
    #[inline(never)]
    pub fn resistance(&self, kind: u32, height: u64, diameter: u64, tip_read: u64) -> u64 {
        let over = self.weight_above * height / 1_000;
        let wide = self.at_angle(&ALPHA_1) / 2 * self.weight_below * diameter / 10_000_000;
        let deep =
            self.at_angle(&ALPHA_2) / 2 * self.alpha_3(height, diameter) * over / 100_000_000;
        let worked = 75 * self.alpha_4(diameter) * (wide + deep) / 1_000_000;
        worked.min(cap(kind, tip_read))
    }
}

/// The most that the tip resistance may be, in whole Pa.
fn cap(kind: u32, tip_read: u64) -> u64 {
    let column = &CAP[kind as usize - 1];
    let (place, past, span) = on_scale(&CAP_DEPTHS, 1, tip_read);
    between(column[place], column[place + 1], past, span) * 1_000 / span
}
