//! Size, alignment and offsets of every struct that crosses, asserted where this crate is compiled; hosts/c/layout.c asserts the same
//! of the header.
//!
//! A struct made of bytes that are numbered from 0 shows where its fields stand: the first byte of a field is its offset.

use crate::{Answer, Log, Pile, Row, Sand, Slice};
use core::mem::{align_of, size_of, transmute};

macro_rules! assert_layout {
    ($name:ident: size $size:literal, align $align:literal, $(($($field:tt)+) at $offset:literal),+) => {
        const _: () = {
            assert!(size_of::<$name>() == $size);
            assert!(align_of::<$name>() == $align);
            let mut bytes = [0; $size];
            let mut place = 0;
            while place < $size {
                bytes[place] = place as u8;
                place += 1;
            }
            // SAFETY: every field is a whole number, and any bytes make one.
            let fields = unsafe { transmute::<[u8; $size], $name>(bytes) };
            $(assert!(fields.$($field)+.to_ne_bytes()[0] == $offset);)+
        };
    };
}

assert_layout!(Answer: size 56, align 8,
    (refusal) at 0, (row) at 4, (field) at 8, (kept) at 12,
    (line) at 16, (tip) at 24, (shaft) at 32, (capacity) at 40, (uplift) at 48);

assert_layout!(Row: size 6, align 2,
    (thickness) at 0, (kind) at 2, (index) at 3, (saturation) at 4, (zero) at 5);

assert_layout!(Log: size 400, align 4,
    (refusal) at 0, (row) at 4, (field) at 8, (count) at 12,
    (rows[0].thickness) at 14, (rows[1].thickness) at 20);

assert_layout!(Pile: size 28, align 4,
    (refusal) at 0, (row) at 4, (field) at 8, (length) at 12, (section) at 13, (a) at 14,
    (b) at 16, (method) at 18, (head) at 20, (tip) at 22, (zero) at 24, (grade) at 26);

assert_layout!(Sand: size 16, align 4,
    (given) at 0, (angle) at 4, (weight_below) at 8, (weight_above) at 12);

assert_layout!(Slice: size 16, align 4,
    (refusal) at 0, (top) at 4, (thickness) at 6, (friction) at 8, (factor) at 12);
