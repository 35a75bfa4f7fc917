//! A pile, the grade of its site, and the packed record of both.

use crate::{door, Refusal, GRADED_PILE_BYTES, PILE_BYTES};

/// The pile's section.
#[derive(Clone, Copy, Debug, PartialEq, Eq)]
pub enum Section {
    /// Round, 150 to 2,000 mm.
    Circle {
        /// The diameter.
        diameter_mm: u16,
    },
    /// A barrette, each side 300 to 4,000 mm.
    Rectangle {
        /// One side.
        a_mm: u16,
        /// The other.
        b_mm: u16,
    },
}

/// The way the concrete goes in.
#[derive(Clone, Copy, Debug, PartialEq, Eq)]
pub enum Method {
    /// Dry or cased.
    Dry = 1,
    /// Under water or slurry.
    UnderWater = 2,
    /// Stiff mix vibrated at depth, dry.
    Vibrated = 3,
}

/// A pile: section, method, head and tip. Depths count from natural ground.
#[derive(Clone, Copy, Debug, PartialEq, Eq)]
pub struct Pile {
    /// The section.
    pub section: Section,
    /// The way the concrete goes in.
    pub method: Method,
    /// Depth of the head.
    pub head_mm: u16,
    /// Depth of the tip.
    pub tip_mm: u16,
}

impl Pile {
    /// The pile on a site that is graded: a cut negative, a fill positive.
    ///
    /// ```
    /// use psamathyr::{Method, Pile, Section};
    /// let pile = Pile { section: Section::Circle { diameter_mm: 600 }, method: Method::Dry, head_mm: 1_000, tip_mm: 10_000 };
    /// let record = pile.graded(5_000).pack().unwrap();
    /// assert_eq!(record.bytes(), [0x49, 0x60, 0x00, 0x10, 0x3E, 0x82, 0x71, 0x00, 0x13, 0x88]);
    /// assert_eq!(record.read().unwrap(), pile.graded(5_000));
    /// ```
    pub fn graded(self, grade_mm: i16) -> SitePile {
        SitePile {
            pile: self,
            grade_mm: Some(grade_mm),
        }
    }

    /// The packed record of 8 bytes, which has no grade.
    ///
    /// ```
    /// use psamathyr::{Method, Pile, Section};
    /// let pile = Pile { section: Section::Circle { diameter_mm: 600 }, method: Method::Dry, head_mm: 1_000, tip_mm: 10_000 };
    /// let record = pile.pack().unwrap();
    /// assert_eq!(record.bytes(), [0x49, 0x60, 0x00, 0x10, 0x3E, 0x82, 0x71, 0x00]);
    /// assert_eq!(record.read().unwrap(), pile.into());
    /// ```
    pub fn pack(self) -> Result<PileRecord, Refusal> {
        SitePile::from(self).pack()
    }

    fn fields(self) -> door::Pile {
        let (section, a, b) = match self.section {
            Section::Circle { diameter_mm } => (1, diameter_mm, 0),
            Section::Rectangle { a_mm, b_mm } => (2, a_mm, b_mm),
        };
        door::Pile {
            section,
            a,
            b,
            method: self.method as u8,
            head: self.head_mm,
            tip: self.tip_mm,
            ..door::Pile::default()
        }
    }

    fn of(fields: &door::Pile) -> Pile {
        let section = match fields.section {
            1 => Section::Circle {
                diameter_mm: fields.a,
            },
            _ => Section::Rectangle {
                a_mm: fields.a,
                b_mm: fields.b,
            },
        };
        let method = match fields.method {
            1 => Method::Dry,
            2 => Method::UnderWater,
            _ => Method::Vibrated,
        };
        Pile {
            section,
            method,
            head_mm: fields.head,
            tip_mm: fields.tip,
        }
    }
}

/// A pile and the grade of its site: all that a pile record holds.
#[derive(Clone, Copy, Debug, PartialEq, Eq)]
pub struct SitePile {
    /// The pile.
    pub pile: Pile,
    /// The grade, a cut negative, a fill positive; or none, in a record of 8 bytes, which is worked out as a grade of 0.
    pub grade_mm: Option<i16>,
}

impl From<Pile> for SitePile {
    /// The pile without a grade.
    fn from(pile: Pile) -> SitePile {
        SitePile {
            pile,
            grade_mm: None,
        }
    }
}

impl SitePile {
    /// The packed record: 10 bytes with a grade, also one of 0, and 8 without.
    pub fn pack(self) -> Result<PileRecord, Refusal> {
        let mut fields = self.pile.fields();
        let mut record = match self.grade_mm {
            None => PileRecord::Plain([0; PILE_BYTES]),
            Some(grade_mm) => {
                fields.grade = grade_mm;
                PileRecord::Graded([0; GRADED_PILE_BYTES])
            }
        };
        let answer = door::pack_pile(fields, record.bytes_mut());
        match Refusal::of(answer.refusal, answer.row, answer.field) {
            Some(refusal) => Err(refusal),
            None => Ok(record),
        }
    }
}

/// A packed pile record, of either length. Any bytes may stand in it; each call judges them.
#[derive(Clone, Copy, Debug, PartialEq, Eq)]
pub enum PileRecord {
    /// Without a grade.
    Plain([u8; PILE_BYTES]),
    /// With a grade in the last two bytes.
    Graded([u8; GRADED_PILE_BYTES]),
}

impl PileRecord {
    /// The record that these bytes are: 8 or 10 of them.
    ///
    /// ```
    /// use psamathyr::{PileRecord, Refusal};
    /// assert_eq!(PileRecord::of(&[7; 8]), Ok(PileRecord::Plain([7; 8])));
    /// assert_eq!(PileRecord::of(&[7; 10]), Ok(PileRecord::Graded([7; 10])));
    /// assert_eq!(PileRecord::of(&[7; 9]), Err(Refusal::Length));
    /// ```
    pub fn of(bytes: &[u8]) -> Result<PileRecord, Refusal> {
        if let Ok(bytes) = bytes.try_into() {
            Ok(PileRecord::Plain(bytes))
        } else if let Ok(bytes) = bytes.try_into() {
            Ok(PileRecord::Graded(bytes))
        } else {
            Err(Refusal::Length)
        }
    }

    /// The packed bytes.
    pub fn bytes(&self) -> &[u8] {
        match self {
            PileRecord::Plain(bytes) => bytes,
            PileRecord::Graded(bytes) => bytes,
        }
    }

    fn bytes_mut(&mut self) -> &mut [u8] {
        match self {
            PileRecord::Plain(bytes) => bytes,
            PileRecord::Graded(bytes) => bytes,
        }
    }

    /// The pile and its grade. Packed again they are this record, as long as it was.
    ///
    /// ```
    /// use psamathyr::PileRecord;
    /// let level = PileRecord::Graded([0x49, 0x60, 0x00, 0x10, 0x3E, 0x82, 0x71, 0x00, 0x00, 0x00]);
    /// let site = level.read().unwrap();
    /// assert_eq!((site.pile.tip_mm, site.grade_mm), (10_000, Some(0)));
    /// assert_eq!(site.pack().unwrap(), level);
    /// ```
    pub fn read(&self) -> Result<SitePile, Refusal> {
        let fields = door::read_pile(self.bytes());
        match Refusal::of(fields.refusal, fields.row, fields.field) {
            Some(refusal) => Err(refusal),
            None => Ok(SitePile {
                pile: Pile::of(&fields),
                grade_mm: (usize::from(fields.length) == GRADED_PILE_BYTES).then_some(fields.grade),
            }),
        }
    }
}
