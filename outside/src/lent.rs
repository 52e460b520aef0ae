//! Whether the library keeps to the numbers and bytes lent to it: groups of the comparison are run with everything lent
//! in the middle of a larger buffer.

use crate::checks::groups::{Group, CUTS, FITNESS, HOUSE, LOADS, ORDERS, PREVIEW_LENGTHS, REFUSED, REFUSED_BLOCKS};
use crate::checks::groups::{DAMAGED_WAVES, WAVES, WAVES_WRITTEN, WAVE_CASES};
use crate::checks::groups::{REFUSED_PREVIEWS, SHEETS, SHEET_LENGTHS, SHEET_LINES};
use crate::ffi::{self, raw};
use crate::reference::{Section, Step};
use crate::subject::Subject;
use crate::unit::orders::Order;
use crate::unit::{house_unit, Numbers, UNIT_COUNT};
use crate::wave::Read;
use std::cell::Cell;
use std::hint::black_box;

const FRONT: usize = 40;
const MARK: i32 = 0x5AA5_1234;
const MARK_BYTE: u8 = 0xA5;

/// The groups that are run so: each function accepted and refused, with lengths of every kind.
const GROUPS: [Group; 16] = [
    HOUSE,
    REFUSED,
    LOADS,
    FITNESS,
    CUTS,
    REFUSED_BLOCKS,
    ORDERS,
    SHEETS,
    SHEET_LINES,
    SHEET_LENGTHS,
    PREVIEW_LENGTHS,
    REFUSED_PREVIEWS,
    WAVES,
    WAVE_CASES,
    DAMAGED_WAVES,
    WAVES_WRITTEN,
];

/// Sides and bands far away from those that there are.
const FAR: [(u32, u32); 3] = [(2, UNIT_COUNT as u32), (2, 1 << 29), (u32::MAX, u32::MAX)];

/// True where every function that takes a pointer leaves what lies around its own numbers and bytes as it was, and what
/// it only reads too.
pub fn keeps_to_its_numbers() -> bool {
    let lent = Lent { kept: Cell::new(true), turn: Cell::new(0) };
    for unit in [house_unit(), [-1; UNIT_COUNT]] {
        for (side, band) in FAR {
            let mut orders = vec![Order::mute(side, band)];
            orders.extend([0, 31, 32, 255].map(|position| Order::position(side, band, position)));
            orders.extend([0.5, -1.0, 1.0, f32::NAN].map(|factor| Order::factor(side, band, factor)));
            for order in orders {
                lent.order(&mut unit.clone(), &order);
            }
        }
    }
    GROUPS.iter().all(|group| group.run(&lent).is_ok()) && lent.kept.get()
}

/// The library, and whether it has kept to what was lent.
struct Lent {
    kept: Cell<bool>,
    turn: Cell<usize>,
}

/// So many numbers out of a list that was lent.
fn numbers<const N: usize>(lent: &mut [i32]) -> &mut [i32; N] {
    lent.try_into().expect("as many as were lent")
}

impl Lent {
    fn keep(&self, kept: bool) {
        self.kept.set(self.kept.get() && kept);
    }

    /// Lends a copy of these values between marks, at all addresses by turns, and puts back what the call leaves.
    fn lend<T: Copy + PartialEq, A>(&self, mark: T, values: &mut [T], call: impl FnOnce(&mut [T]) -> A) -> A {
        self.turn.set((self.turn.get() + 1) % 5);
        let front = FRONT + self.turn.get();
        let back = front + values.len();
        let mut buffer = vec![mark; back + FRONT];
        buffer[front..back].copy_from_slice(values);
        let answer = call(&mut buffer[front..back]);
        // The call may have written where the compiler takes it that nobody does.
        let buffer = black_box(buffer);
        self.keep(buffer[..front].iter().chain(&buffer[back..]).all(|&value| value == mark));
        values.copy_from_slice(&buffer[front..back]);
        answer
    }

    /// Lends values that are only read.
    fn show<T: Copy + PartialEq, A>(&self, mark: T, values: &[T], call: impl FnOnce(&mut [T]) -> A) -> A {
        let mut after = values.to_vec();
        let answer = self.lend(mark, &mut after, call);
        self.keep(after == values);
        answer
    }
}

impl Subject for Lent {
    fn nearest(&self, v: i64, k: u32) -> i64 {
        ffi::nearest(v, k)
    }
    fn limit(&self, v: i64, low: i64, high: i64) -> i64 {
        ffi::limit(v, low, high)
    }
    fn band_refusal(&self, a: i32, b: i32, g: i32) -> u32 {
        ffi::band_refusal(a, b, g)
    }
    fn level_moved(&self, present: i32, target: i32, slope: u32) -> i32 {
        ffi::level_moved(present, target, slope)
    }
    fn house_set(&self) -> [i32; 30] {
        let mut words = [0; 30];
        // SAFETY: thirty numbers are lent.
        self.lend(MARK, &mut words, |words| unsafe { raw::fonddrys_house_set(numbers(words)) });
        words
    }
    fn section_step(&self, section: &mut Section, x: i32) -> Step {
        self.lend(MARK, section, |section| ffi::section_step(numbers(section), x))
    }
    fn load(&self, unit: &mut Numbers, set: &[i32]) -> u32 {
        self.lend(MARK, unit, |unit| self.show(MARK, set, |set| ffi::load(numbers(unit), set)))
    }
    fn unit_fit(&self, unit: &Numbers) -> u32 {
        self.show(MARK, unit, |unit| ffi::unit_fit(numbers(unit)))
    }
    fn block(&self, unit: &mut Numbers, input: &[u8], output: &mut [u8]) -> u32 {
        let mut play = |unit: &mut [i32], input: &[u8]| {
            self.lend(MARK_BYTE, output, |output| ffi::block(numbers(unit), input, output))
        };
        self.lend(MARK, unit, |unit| self.show(MARK_BYTE, input, |input| play(unit, input)))
    }
    fn order(&self, unit: &mut Numbers, order: &Order) -> u32 {
        self.lend(MARK, unit, |unit| ffi::order(numbers(unit), order))
    }
    fn sheet_write(&self, unit: &Numbers, buffer: &mut [u8]) -> usize {
        self.show(MARK, unit, |unit| self.lend(MARK_BYTE, buffer, |buffer| ffi::sheet_write(numbers(unit), buffer)))
    }
    fn sheet_read(&self, unit: &mut Numbers, bytes: &[u8]) -> u32 {
        self.lend(MARK, unit, |unit| self.show(MARK_BYTE, bytes, |bytes| ffi::sheet_read(numbers(unit), bytes)))
    }
    fn preview(&self, band: [i32; 3], words: &[i32], results: &mut [i32], remainders: &mut [i32]) -> u32 {
        let mut fill = |words: &[i32], results: &mut [i32]| {
            self.lend(MARK, remainders, |remainders| ffi::preview(band, words, results, remainders))
        };
        self.show(MARK, words, |words| self.lend(MARK, results, |results| fill(words, results)))
    }
    fn wave_read(&self, file: &[u8]) -> Read {
        self.show(MARK_BYTE, file, |file| ffi::wave_read(file))
    }
    fn wave_write(&self, frames: &[u8], buffer: &mut [u8]) -> u32 {
        self.show(MARK_BYTE, frames, |frames| self.lend(MARK_BYTE, buffer, |buffer| ffi::wave_write(frames, buffer)))
    }
}
