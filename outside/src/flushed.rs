//! Calls as audio hosts make them: with flush-to-zero and denormals-are-zero set, so that subnormal numbers are zero.
//! Blocks, orders and previews are made so, and every answer must be that of the exact reference.

use crate::checks::groups::{Group, BLOCKS, CUTS, FACTORS, FRAMES, LISTS_OF_CALLS, ORDERS, PREVIEWS};
use crate::faults::sound::{block_with, order_with, preview_with};
use crate::faults::Wrong;
use crate::ffi;
use crate::subject::{Form, FAST, LIBRARY};
use crate::unit::orders::{Order, Setting};
use crate::unit::Numbers;
use std::hint::black_box;

/// True where this machine has the setting.
pub const AVAILABLE: bool = cfg!(target_arch = "x86_64");

/// The groups that are run so: those of the calls that work in floats.
pub const GROUPS: &[Group] = &[BLOCKS, FRAMES, CUTS, ORDERS, FACTORS, LISTS_OF_CALLS, PREVIEWS];

/// The control of floating point, MXCSR, and its two bits.
#[cfg(target_arch = "x86_64")]
mod control {
    use std::arch::asm;

    pub const FLUSH: u32 = 1 << 15 | 1 << 6;

    pub fn read() -> u32 {
        let mut control = 0;
        // SAFETY: stores one number, which is this function's own.
        unsafe { asm!("stmxcsr [{}]", in(reg) &mut control, options(nostack)) };
        control
    }

    pub fn set(control: u32) {
        // SAFETY: what was read, with or without the two bits. No float of Rust is worked in between but those that are
        // tried here.
        unsafe { asm!("ldmxcsr [{}]", in(reg) &control, options(nostack)) };
    }
}

/// A call with the setting, which is afterwards as it was.
#[cfg(target_arch = "x86_64")]
fn flushed<T>(call: impl FnOnce() -> T) -> T {
    let before = control::read();
    control::set(before | control::FLUSH);
    let answer = call();
    control::set(before);
    answer
}

#[cfg(not(target_arch = "x86_64"))]
fn flushed<T>(call: impl FnOnce() -> T) -> T {
    call()
}

/// A form with its blocks, orders and previews within the setting.
macro_rules! within {
    ($form:expr) => {
        Form {
            block: |unit, input, output| flushed(|| ($form.block)(unit, input, output)),
            order: |unit, given| flushed(|| ($form.order)(unit, given)),
            preview: |band, words, results, remainders| flushed(|| ($form.preview)(band, words, results, remainders)),
            ..$form
        }
    };
}

/// The library within the setting.
pub const FLUSHED: Form = Form { order, ..within!(LIBRARY) };

/// An order to the library. One result is another within the setting, as the header says: a subnormal factor below zero
/// is minus zero there, which the volume accepts. It must be answered as minus zero is; what is compared then is the
/// answer without the setting.
fn order(unit: &mut Numbers, given: &Order) -> u32 {
    let [mut within, mut zero] = [*unit; 2];
    let answer = flushed(|| ffi::order(&mut within, given));
    match given.setting {
        Setting::Factor(f) if given.is_volume() && f.is_subnormal() && f.is_sign_negative() => {
            let as_zero = ffi::order(&mut zero, &Order::factor(given.side, given.band, -0.0));
            let without = ffi::order(unit, given);
            if (answer, within) == (as_zero, zero) {
                without
            } else {
                u32::MAX
            }
        }
        _ => {
            *unit = within;
            answer
        }
    }
}

/// The fast form with every sample, target and result carried through a subnormal number: right without the setting,
/// and wrong within it.
pub const CARRIED: Form = Form {
    block: |unit, input, output| {
        block_with(unit, input, output, |_, sound| {
            let carry =
                |sample: &mut [u8; 2]| *sample = (carried(i16::from_le_bytes(*sample).into()) as i16).to_le_bytes();
            sound.as_chunks_mut().0.iter_mut().for_each(carry);
        })
    },
    order: |unit, given| order_with(unit, given, carried),
    preview: |band, words, results, remainders| {
        preview_with(band, words, results, remainders, |results, _| {
            results.iter_mut().for_each(|result| *result = carried(*result));
        })
    },
    ..FAST
};
pub const WRONG: Wrong = Wrong {
    name: "samples, targets and results carried through subnormal numbers that are flushed",
    found_by: GROUPS,
    form: within!(CARRIED),
};

/// A word brought below the least normal number, exactly, and back.
fn carried(word: i32) -> i32 {
    const SMALL: [f64; 2] = [f64::MIN_POSITIVE, 1.0 / 16_777_216.0];
    let subnormal = SMALL.iter().fold(f64::from(word), |number, scale| black_box(number * scale));
    SMALL.iter().rev().fold(subnormal, |number, scale| black_box(number / scale)) as i32
}

/// What the setting does to a subnormal product and to a subnormal factor: true where both are zero.
pub fn is_zero_within() -> bool {
    let least = black_box(f64::MIN_POSITIVE);
    let subnormal = black_box(least * black_box(0.5));
    let product = flushed(|| black_box(black_box(least) * black_box(0.5)));
    let factor = flushed(|| black_box(black_box(subnormal) * black_box(2.0)));
    subnormal != 0.0 && product == 0.0 && factor == 0.0
}
