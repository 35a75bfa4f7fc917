//! The wrapper over the linked core, as a host uses it.
use psamathyr::{
    calculate, edit, Edit, Kind, Log, Method, Numbers, Pile, PileRecord, Refusal, Row, SandRecord,
    Section, SitePile, Table,
};

fn clay(thickness_mm: u16) -> Row {
    Row {
        thickness_mm,
        kind: Kind::Clay,
        index_hundredths: 30,
        saturation_hundredths: 95,
    }
}

fn pile() -> Pile {
    Pile {
        section: Section::Circle { diameter_mm: 600 },
        method: Method::Dry,
        head_mm: 1_000,
        tip_mm: 10_000,
    }
}

const A: Numbers = Numbers {
    line_n_per_m: 212_100,
    tip_n: 268_605,
    shaft_n: 399_798,
    capacity_n: 668_403,
    uplift_n: 319_838,
};

#[test]
fn case_a() {
    let log = Log::of(&[clay(20_000)]).unwrap();
    let record = pile().pack().unwrap();
    let mut table = Table::new();
    assert_eq!(calculate(&log, &record, None, &mut table), Ok(A));
    let slices = table.slices();
    assert_eq!(slices.len(), 5);
    assert_eq!((slices[4].top_mm, slices[4].thickness_mm), (9_000, 1_000));
    assert_eq!(
        (slices[4].friction_200ths_pa, slices[4].factor_tenths),
        (9_100_000, 6)
    );
    assert_eq!(table.bytes[..7], [0x03, 0xE8, 0xFA, 0x05, 0xB8, 0xD8, 0x06]);
}

#[test]
fn typing_does_not_matter() {
    let record = pile().pack().unwrap();
    let mut one = Table::new();
    let mut forty = Table::new();
    let a = calculate(&Log::of(&[clay(20_000)]).unwrap(), &record, None, &mut one);
    let b = calculate(
        &Log::of(&[clay(500); 40]).unwrap(),
        &record,
        None,
        &mut forty,
    );
    assert_eq!(a, b);
    assert_eq!(one, forty);
}

#[test]
fn rows_and_piles_come_back() {
    let rows = [
        Row {
            thickness_mm: 4_000,
            kind: Kind::FineSand,
            index_hundredths: 0,
            saturation_hundredths: 40,
        },
        clay(16_000),
    ];
    assert_eq!(Log::of(&rows).unwrap().rows().unwrap(), rows);
    assert_eq!(pile().pack().unwrap().read().unwrap(), pile().into());
    let barrette = Pile {
        section: Section::Rectangle {
            a_mm: 800,
            b_mm: 400,
        },
        ..pile()
    };
    assert_eq!(barrette.pack().unwrap().read().unwrap(), barrette.into());
}

#[test]
fn records_keep_their_length() {
    let plain = pile().pack().unwrap();
    assert_eq!(plain.bytes().len(), 8);
    assert_eq!(plain.read().unwrap().grade_mm, None);
    for grade_mm in [i16::MIN, -3_001, -1, 0, 1, 5_000, i16::MAX] {
        let record = pile().graded(grade_mm).pack().unwrap();
        assert_eq!(record.bytes()[..8], *plain.bytes());
        assert_eq!(record.bytes()[8..], grade_mm.to_be_bytes());
        assert_eq!(PileRecord::of(record.bytes()), Ok(record));
        let site = record.read().unwrap();
        assert_eq!((site.pile, site.grade_mm), (pile(), Some(grade_mm)));
        assert_eq!(site.pack(), Ok(record));
    }
    assert_eq!(
        PileRecord::Graded([0; 10]).read(),
        Err(Refusal::Section { field: 1 })
    );
    assert_eq!(PileRecord::of(&[]), Err(Refusal::Length));
}

/// Line, tip, shaft, capacity and uplift of a pile in this row alone.
fn numbers_in(row: Row, site: SitePile, sand: Option<SandRecord>) -> Result<[u64; 5], Refusal> {
    let log = Log::of(&[row]).unwrap();
    let it = calculate(&log, &site.pack().unwrap(), sand, &mut Table::new())?;
    Ok([
        it.line_n_per_m,
        it.tip_n,
        it.shaft_n,
        it.capacity_n,
        it.uplift_n,
    ])
}

/// The same in so much clay.
fn numbers(thickness_mm: u16, site: SitePile) -> Result<[u64; 5], Refusal> {
    numbers_in(clay(thickness_mm), site, None)
}

#[test]
fn graded_sites() {
    let a = numbers(20_000, pile().into());
    for grade_mm in [-1_000, 0, 3_000] {
        assert_eq!(numbers(20_000, pile().graded(grade_mm)), a);
    }
    assert_eq!(
        numbers(20_000, pile().graded(3_001)),
        Ok([212_111, 268_627, 399_819, 668_446, 319_855])
    );
    assert_eq!(
        numbers(20_000, pile().graded(5_000)),
        Ok([232_500, 311_017, 438_251, 749_268, 350_600])
    );
    let below_the_cut = Pile {
        head_mm: 5_000,
        tip_mm: 12_000,
        ..pile()
    };
    assert_eq!(
        numbers(20_000, below_the_cut.graded(-5_000)),
        Ok([176_100, 268_605, 331_940, 600_545, 265_552])
    );
}

#[test]
fn depths_of_graded_sites() {
    assert_eq!(numbers(20_000, pile().graded(-1_001)), Err(Refusal::Depths));
    let deep = Pile {
        tip_mm: 30_000,
        ..pile()
    };
    assert!(numbers(35_000, deep.graded(13_000)).is_ok());
    assert_eq!(numbers(35_000, deep.graded(13_001)), Err(Refusal::Depths));
}

#[test]
fn refusals_in_words() {
    let bad = Row {
        index_hundredths: 101,
        ..clay(1_000)
    };
    assert_eq!(
        Log::of(&[clay(1_000), bad]),
        Err(Refusal::Field { row: 2, field: 3 })
    );
    assert_eq!(
        Refusal::Field { row: 2, field: 3 }.to_string(),
        "row 2, field 3 is out of range"
    );
    assert_eq!(Log::of(&[]), Err(Refusal::Count));
    let thin = Pile {
        section: Section::Circle { diameter_mm: 149 },
        ..pile()
    };
    assert_eq!(thin.pack(), Err(Refusal::Section { field: 2 }));
    let log = Log::of(&[clay(14_999)]).unwrap();
    let mut table = Table { bytes: [7; 581] };
    assert_eq!(
        calculate(&log, &pile().pack().unwrap(), None, &mut table),
        Err(Refusal::LogShort)
    );
    assert_eq!(table, Table::new());
}

#[test]
fn edits_hold_the_answer() {
    let mut log = Log::of(&[clay(20_000)]).unwrap();
    let record = pile().pack().unwrap();
    let mut table = Table::new();
    calculate(&log, &record, None, &mut table).unwrap();
    let split = edit(
        &mut log,
        &record,
        None,
        &mut table,
        Edit::Split { k: 1, x_mm: 7_777 },
    )
    .unwrap();
    assert_eq!((split.answer, split.kept), (Ok(A), 5));
    assert_eq!(log.rows().unwrap().len(), 2);
    let before = log;
    assert_eq!(
        edit(&mut log, &record, None, &mut table, Edit::Remove { k: 3 }),
        Err(Refusal::NoSuchEdit)
    );
    assert_eq!(log, before);
    let short = edit(&mut log, &record, None, &mut table, Edit::Remove { k: 2 }).unwrap();
    assert_eq!((short.answer, short.kept), (Err(Refusal::LogShort), 0));
    assert_eq!(table, Table::new());
    let back = edit(
        &mut log,
        &record,
        None,
        &mut table,
        Edit::Insert {
            k: 2,
            row: clay(12_223).pack().unwrap(),
        },
    )
    .unwrap();
    assert_eq!((back.answer, back.kept), (Ok(A), 0));
}

#[test]
fn edits_go_by_the_grade() {
    let mut log = Log::of(&[clay(20_000)]).unwrap();
    let mut table = Table::new();
    calculate(&log, &pile().pack().unwrap(), None, &mut table).unwrap();
    let filled = pile().graded(5_000).pack().unwrap();
    let due = calculate(&log, &filled, None, &mut Table::new());
    let split = edit(
        &mut log,
        &filled,
        None,
        &mut table,
        Edit::Split { k: 1, x_mm: 7_777 },
    )
    .unwrap();
    assert_eq!((split.answer, split.kept), (due, 0));
}

fn sand(kind: Kind) -> Row {
    Row {
        thickness_mm: 20_000,
        kind,
        index_hundredths: 0,
        saturation_hundredths: 40,
    }
}

const SAND: SandRecord = SandRecord {
    angle_hundredths: 3_000,
    weight_below_n_per_m3: 10_000,
    weight_above_n_per_m3: 18_000,
};

#[test]
fn sand_tips() {
    let steep = SandRecord {
        angle_hundredths: 4_333,
        ..SAND
    };
    for (kind, worked, capped) in [
        (
            Kind::CoarseOrMediumSand,
            [345_975, 220_598, 652_146, 872_744, 521_716],
            [345_975, 1_130_972, 652_146, 1_783_118, 521_716],
        ),
        (
            Kind::FineSand,
            [247_450, 220_598, 466_431, 687_029, 373_144],
            [247_450, 735_132, 466_431, 1_201_563, 373_144],
        ),
        (
            Kind::SiltySand,
            [180_425, 220_598, 340_092, 560_690, 272_073],
            [180_425, 424_114, 340_092, 764_206, 272_073],
        ),
    ] {
        let numbers = |record| numbers_in(sand(kind), pile().into(), record);
        assert_eq!(numbers(Some(SAND)), Ok(worked));
        assert_eq!(numbers(Some(steep)), Ok(capped));
        assert_eq!(numbers(None), Err(Refusal::SandTip));
    }
    assert_eq!(
        numbers_in(clay(20_000), pile().into(), Some(steep)),
        numbers(20_000, pile().into())
    );
}

#[test]
fn sand_tips_of_graded_sites() {
    let numbers = |head_mm, grade_mm| {
        let site = Pile { head_mm, ..pile() }.graded(grade_mm);
        numbers_in(sand(Kind::FineSand), site, Some(SAND))
    };
    assert_eq!(
        numbers(1_000, -1_000),
        Ok([247_450, 205_712, 466_431, 672_143, 373_144])
    );
    assert_eq!(
        numbers(5_000, -5_000),
        Ok([142_450, 132_842, 268_511, 401_353, 214_808])
    );
    assert_eq!(
        numbers(1_000, 5_000),
        Ok([271_250, 220_598, 511_293, 731_891, 409_034])
    );
}

#[test]
fn refusals_of_sand_tips() {
    let refusal = |site: Pile, angle_hundredths, below, above| {
        let record = SandRecord {
            angle_hundredths,
            weight_below_n_per_m3: below,
            weight_above_n_per_m3: above,
        };
        numbers_in(sand(Kind::FineSand), site.into(), Some(record)).err()
    };
    let off = Some(Refusal::SandRecord);
    assert_eq!(refusal(pile(), 2_556, 1, 30_000), None);
    assert_eq!(refusal(pile(), 4_333, 30_000, 1), None);
    for (angle, below, above) in [
        (2_555, 10_000, 18_000),
        (4_334, 10_000, 18_000),
        (3_000, 0, 18_000),
        (3_000, 30_001, 18_000),
        (3_000, 10_000, 0),
        (3_000, 10_000, 30_001),
        (0, 0, 0),
        (u32::MAX, u32::MAX, u32::MAX),
    ] {
        assert_eq!(refusal(pile(), angle, below, above), off);
    }
    let thick = |tip_mm| Pile {
        section: Section::Circle { diameter_mm: 2_000 },
        tip_mm,
        ..pile()
    };
    assert_eq!(refusal(thick(8_000), 3_000, 10_000, 18_000), None);
    assert_eq!(refusal(thick(7_999), 3_000, 10_000, 18_000), off);
}

#[test]
fn sand_below_a_barrette() {
    let barrette = Pile {
        section: Section::Rectangle {
            a_mm: 800,
            b_mm: 400,
        },
        ..pile()
    };
    let refused = numbers_in(sand(Kind::SiltySand), barrette.into(), Some(SAND));
    assert_eq!(refused, Err(Refusal::SandTip));
    assert_eq!(Refusal::SandTip.number(), 9);
    assert_eq!(Refusal::SandRecord.number(), 17);
    assert!(numbers_in(clay(20_000), barrette.into(), Some(SAND)).is_ok());
}

#[test]
fn edits_go_by_the_sand() {
    let mut log = Log::of(&[clay(20_000)]).unwrap();
    let record = pile().pack().unwrap();
    let mut table = Table::new();
    let row = sand(Kind::FineSand).pack().unwrap();
    let mut replace = |record_of_sand| {
        let change = Edit::Replace { k: 1, row };
        let held = edit(&mut log, &record, record_of_sand, &mut table, change).unwrap();
        (held.answer.map(|it| it.capacity_n), held.kept)
    };
    assert_eq!(replace(None), (Err(Refusal::SandTip), 0));
    assert_eq!(replace(Some(SAND)), (Ok(687_029), 0));
    assert_eq!(replace(Some(SAND)), (Ok(687_029), 5));
    let weightless = SandRecord {
        weight_above_n_per_m3: 0,
        ..SAND
    };
    assert_eq!(replace(Some(weightless)), (Err(Refusal::SandRecord), 0));
    assert_eq!(table, Table::new());
    assert_eq!(log.rows().unwrap(), [sand(Kind::FineSand)]);
}
