//! Reading and packing of pile records, and reading of slices.

#![forbid(unsafe_code)]

use super::dice::Dice;
use super::disturb::disturb;
use super::grades::{disturb_grade, GRADES};
use super::makers::{good, with_each, ZEROS};
use super::meter::Meter;
use second::{pile_bytes, Pile, GRADED_PILE, PILE, SLICES, TABLE};

/// With and without what two bits can hold.
const SECTIONS: [u8; 9] = [0, 1, 2, 3, 4, 5, 6, 128, 255];
const METHODS: [u8; 9] = [0, 1, 2, 3, 4, 5, 7, 128, 255];
const SIDES: [u16; 20] = [
    0, 1, 149, 150, 151, 299, 300, 301, 1_999, 2_000, 2_001, 3_999, 4_000, 4_001, 4_095, 4_096,
    4_246, 4_396, 8_192, 65_535,
];
const DEPTHS: [u16; 8] = [0, 1, 2_999, 3_000, 40_000, 40_001, 65_534, 65_535];

pub fn piles(meter: &mut Meter, seed: u64, cases: u64) {
    let dice = &mut Dice::new(seed, 8, 0);
    let around = piles_around();
    meter.group("pile records read");
    read_lengths(meter, dice);
    for pile in &around {
        meter.case(format!("{pile:?}"));
        meter.read_pile(&pile_bytes(pile));
    }
    read_seeded(meter, seed, cases);

    meter.group("pile records packed");
    pack_lengths(meter, dice);
    for pile in &around {
        meter.case(format!("{pile:?}"));
        for length in [PILE, GRADED_PILE] {
            let buffer = dice.bytes(length);
            pack_and_read(meter, dice, pile, &buffer);
        }
    }
    pack_seeded(meter, seed, cases);
}

fn read_lengths(meter: &mut Meter, dice: &mut Dice) {
    for len in 0..=12 {
        meter.case(format!("length {len}"));
        for _ in 0..20 {
            let mut pile = good(dice).pile();
            pile.resize(len, 0);
            meter.read_pile(&pile);
            let pile = dice.bytes(len);
            meter.read_pile(&pile);
        }
    }
}

/// Good fields and bad ones, with a grade and without, to buffers of every length.
fn pack_lengths(meter: &mut Meter, dice: &mut Dice) {
    for len in (0..=20).chain([256 + PILE, 256 + GRADED_PILE, 65_536 + PILE]) {
        meter.case(format!("length {len}"));
        for pile in [good(dice).pile, good(dice).pile, Pile::default()] {
            for grade in [0, pile.grade, 1, -1, i16::MIN] {
                let buffer = dice.bytes(len);
                pack_and_read(meter, dice, &Pile { grade, ..pile }, &buffer);
            }
        }
    }
}

fn read_seeded(meter: &mut Meter, seed: u64, cases: u64) {
    for case in 0..cases {
        let dice = &mut Dice::new(seed, 9, case);
        meter.case(format!("case {case}"));
        let mut pile = if dice.once_in(3) {
            let len = dice.one_of(&[PILE, GRADED_PILE]);
            dice.bytes(len)
        } else {
            good(dice).pile()
        };
        if dice.once_in(2) {
            let place = dice.below(pile.len() as u32) as usize;
            pile[place] ^= 1 << dice.below(8);
        }
        meter.read_pile(&pile);
    }
}

fn pack_seeded(meter: &mut Meter, seed: u64, cases: u64) {
    for case in 0..cases {
        let dice = &mut Dice::new(seed, 10, case);
        meter.case(format!("case {case}"));
        let mut site = good(dice);
        if dice.once_in(2) {
            disturb(dice, &mut site);
        }
        let mut pile = site.pile;
        match dice.below(12) {
            0 => pile.section = dice.byte(),
            1 => pile.a = dice.bits() as u16,
            2 => pile.b = dice.bits() as u16,
            3 => pile.method = dice.byte(),
            4 => pile.head = dice.bits() as u16,
            5 => pile.tip = dice.bits() as u16,
            6 => pile.zero = dice.byte(),
            7 => pile.grade = dice.bits() as i16,
            8 => disturb_grade(dice, &mut pile),
            _ => {}
        }
        let buffer = buffer(dice, &pile);
        pack_and_read(meter, dice, &pile, &buffer);
    }
}

/// A buffer for a pile's record, mostly of its own length.
fn buffer(dice: &mut Dice, pile: &Pile) -> Vec<u8> {
    let len = match dice.below(16) {
        0..=3 => PILE,
        4..=7 => GRADED_PILE,
        8 => dice.one_of(&[7, 9, 11]),
        _ => usize::from(pile.length),
    };
    dice.bytes(len)
}

/// What is packed reads as what was asked for, but for the fields that a packing does not look at.
fn pack_and_read(meter: &mut Meter, dice: &mut Dice, pile: &Pile, buffer: &[u8]) {
    let asked = Pile {
        refusal: dice.below(20),
        row: dice.below(70),
        field: dice.below(7),
        length: dice.one_of(&[0, 8, 9, 10, 255]),
        ..*pile
    };
    let (answer, packed) = meter.pack_pile(&asked, buffer);
    if answer.refusal == 0 {
        let back = meter.read_pile(&packed);
        let same = back
            == Pile {
                refusal: 0,
                row: 0,
                field: 0,
                length: buffer.len() as u8,
                ..asked
            };
        meter.count(same, || format!("  packed {asked:?}, read {back:?}"));
    }
}

/// A pile's every field lowest, highest and one off, alone and in pairs; and with grades.
fn piles_around() -> Vec<Pile> {
    let circle = Pile {
        section: 1,
        a: 600,
        method: 1,
        head: 1_000,
        tip: 10_000,
        ..Pile::default()
    };
    let rectangle = Pile {
        section: 2,
        a: 800,
        b: 400,
        ..circle
    };
    let mut piles = Vec::new();
    for pile in [circle, rectangle] {
        piles.extend(SECTIONS.map(|section| Pile { section, ..pile }));
        piles.extend(METHODS.map(|method| Pile { method, ..pile }));
        for a in SIDES {
            piles.extend(SIDES.map(|b| Pile { a, b, ..pile }));
        }
        for head in DEPTHS {
            piles.extend(DEPTHS.map(|tip| Pile { head, tip, ..pile }));
        }
        let zeros = with_each(&[pile], &ZEROS, |pile, zero| pile.zero = zero);
        piles.extend(with_each(&zeros, &[0, 1, 3, 4], |pile, method| {
            pile.method = method
        }));
    }
    piles.extend(piles_mixed(circle));
    piles.extend(with_each(&[circle, rectangle], &GRADES, graded));
    let mixed = with_each(&piles_mixed(circle), &[0, 1, i16::MIN], graded);
    piles.extend(mixed);
    piles
}

/// In a record of ten bytes.
fn graded(pile: &mut Pile, grade: i16) {
    pile.length = GRADED_PILE as u8;
    pile.grade = grade;
}

/// All mixtures of right and wrong fields: the lowest wrong one is named.
fn piles_mixed(circle: Pile) -> Vec<Pile> {
    let mut piles = vec![circle];
    piles = with_each(&piles, &[0, 1, 2, 3, 4], |pile, section| {
        pile.section = section
    });
    piles = with_each(&piles, &[0, 600], |pile, a| pile.a = a);
    piles = with_each(&piles, &[0, 600], |pile, b| pile.b = b);
    piles = with_each(&piles, &[0, 2], |pile, method| pile.method = method);
    with_each(&piles, &[0, 8], |pile, zero| pile.zero = zero)
}

pub fn slices(meter: &mut Meter, seed: u64, cases: u64) {
    meter.group("slices read");
    let dice = &mut Dice::new(seed, 11, 0);
    for len in (0..=600).chain([65_536 + TABLE]) {
        let table = dice.bytes(len);
        for place in [0, 1, 82, 83, u32::MAX] {
            meter.read_slice(&table, place);
        }
    }
    let table = dice.bytes(TABLE);
    for place in (0..=300).chain([65_536, 65_537, 1 << 24, 1 << 31, (1 << 31) + 1, u32::MAX]) {
        meter.read_slice(&table, place);
        meter.read_slice(&vec![0xFF; TABLE], place);
        meter.read_slice(&vec![0; TABLE], place);
    }
    // Each single bit of a place.
    for bit in 0..56 {
        let mut table = vec![0; TABLE];
        let place = dice.below(SLICES as u32);
        table[place as usize * 7 + bit / 8] = 0x80 >> (bit % 8);
        meter.read_slice(&table, place);
    }
    for case in 0..cases {
        let dice = &mut Dice::new(seed, 12, case);
        let site = good(dice);
        let mut table = vec![0; TABLE];
        second::calculate(&site.log(), &site.pile(), site.sand.record(), &mut table);
        for _ in 0..4 {
            let place = dice.below(90);
            meter.read_slice(&table, place);
        }
        let table = dice.bytes(TABLE);
        let place = dice.below(90);
        meter.read_slice(&table, place);
    }
}
