//! Calls of the library written down as they are made, with what was lent, what was replied and what was left: for a program that makes
//! them again with the library of another machine. A call is a byte that names it, then its parts in the order of the door's arguments; a
//! piece is its length and its bytes, a number four or eight bytes, the lowest first. So calls 1 and 2 have the four numbers of the sand
//! record (given, angle, weight below, weight above) straight after the piece of the pile and before that of the table.

#![forbid(unsafe_code)]

use crate::{Answer, Carried, Log, Pile, Slice};
use std::cell::RefCell;
use std::io::Write;

thread_local! {
    static OUT: RefCell<Option<Box<dyn Write>>> = RefCell::new(None);
}

/// From now on the calls of this thread are written there.
pub fn start(out: Box<dyn Write>) {
    OUT.with(|held| *held.borrow_mut() = Some(out));
}

/// Nothing more is written.
pub fn finish() -> std::io::Result<()> {
    OUT.with(|held| match held.borrow_mut().take() {
        Some(mut out) => out.flush(),
        None => Ok(()),
    })
}

/// A call that is being made; nothing is kept where nothing is written down.
pub struct Call {
    bytes: Option<Vec<u8>>,
}

impl Call {
    /// The function's number: 1 calculate, 2 edit, 3 read_log, 4 pack_log, 5 read_pile, 6 pack_pile, 7 read_slice.
    pub fn of(function: u8) -> Call {
        let wanted = OUT.with(|held| held.borrow().is_some());
        Call {
            bytes: wanted.then(|| vec![function]),
        }
    }

    fn put(mut self, more: &[u8]) -> Call {
        if let Some(bytes) = &mut self.bytes {
            bytes.extend_from_slice(more);
        }
        self
    }

    pub fn number(self, number: u32) -> Call {
        self.put(&number.to_le_bytes())
    }

    fn long(self, number: u64) -> Call {
        self.put(&number.to_le_bytes())
    }

    pub fn piece(self, piece: &[u8]) -> Call {
        let length = u32::try_from(piece.len()).expect("a lent piece is short");
        self.number(length).put(piece)
    }

    pub fn sand(self, sand: Carried) -> Call {
        self.number(sand.given)
            .number(sand.angle)
            .number(sand.weight_below)
            .number(sand.weight_above)
    }

    pub fn answer(self, answer: &Answer) -> Call {
        self.number(answer.refusal)
            .number(answer.row)
            .number(answer.field)
            .number(answer.kept)
            .long(answer.line)
            .long(answer.tip)
            .long(answer.shaft)
            .long(answer.capacity)
            .long(answer.uplift)
    }

    pub fn log(self, log: &Log) -> Call {
        let head = self.number(log.refusal).number(log.row).number(log.field);
        log.rows.iter().fold(head.put(&[log.count]), |call, row| {
            call.put(&row.thickness.to_le_bytes()).put(&[
                row.kind,
                row.index,
                row.saturation,
                row.zero,
            ])
        })
    }

    pub fn pile(self, pile: &Pile) -> Call {
        self.number(pile.refusal)
            .number(pile.row)
            .number(pile.field)
            .put(&[pile.length, pile.section])
            .put(&pile.a.to_le_bytes())
            .put(&pile.b.to_le_bytes())
            .put(&[pile.method])
            .put(&pile.head.to_le_bytes())
            .put(&pile.tip.to_le_bytes())
            .put(&[pile.zero])
            .put(&pile.grade.to_le_bytes())
    }

    pub fn slice(self, slice: &Slice) -> Call {
        self.number(slice.refusal)
            .put(&slice.top.to_le_bytes())
            .put(&slice.thickness.to_le_bytes())
            .number(slice.friction)
            .put(&[slice.factor])
    }

    /// The call is made, and written down.
    pub fn made(self) {
        if let Some(bytes) = self.bytes {
            OUT.with(|held| {
                if let Some(out) = held.borrow_mut().as_mut() {
                    out.write_all(&bytes).expect("the record of the calls");
                }
            });
        }
    }
}
