//! The library's C ABI and thin safe wrappers.

use crate::reference::{Section, Step};
use crate::unit::orders::{Order, Setting};
use crate::unit::Numbers;
use crate::wave::Read;

/// The functions as the static library `exports` gives them.
pub mod raw {
    use crate::reference::Step;
    use crate::unit::Numbers;

    extern "C" {
        pub fn fonddrys_nearest(v: i64, k: u32) -> i64;
        pub fn fonddrys_limit(low: i64, high: i64, v: i64) -> i64;
        pub fn fonddrys_band_refusal(a: i32, b: i32, g: i32) -> u32;
        pub fn fonddrys_house_set(words: *mut [i32; 30]);
        pub fn fonddrys_section_step(section: *mut [i32; 7], x: i32) -> Step;
        pub fn fonddrys_level_moved(present: i32, target: i32, slope: u32) -> i32;
        pub fn fonddrys_load(unit: *mut Numbers, set: *const i32, set_len: usize) -> u32;
        pub fn fonddrys_unit_fit(unit: *const Numbers) -> u32;
        pub fn fonddrys_block(
            unit: *mut Numbers,
            input: *const u8,
            input_len: usize,
            output: *mut u8,
            output_len: usize,
        ) -> u32;
        pub fn fonddrys_order_position(unit: *mut Numbers, side: u32, band: u32, position: u8) -> u32;
        pub fn fonddrys_order_factor(unit: *mut Numbers, side: u32, band: u32, factor: f32) -> u32;
        pub fn fonddrys_order_mute(unit: *mut Numbers, side: u32, band: u32) -> u32;
        pub fn fonddrys_sheet_write(unit: *const Numbers, buffer: *mut u8, buffer_len: usize) -> usize;
        pub fn fonddrys_sheet_read(unit: *mut Numbers, bytes: *const u8, bytes_len: usize) -> u32;
        pub fn fonddrys_preview(
            alpha: i32,
            beta: i32,
            gamma: i32,
            words: *const i32,
            words_len: usize,
            results: *mut i32,
            results_len: usize,
            remainders: *mut i32,
            remainders_len: usize,
        ) -> u32;
        pub fn fonddrys_wave_refusal(file: *const u8, file_len: usize) -> u32;
        pub fn fonddrys_wave_from(file: *const u8, file_len: usize) -> usize;
        pub fn fonddrys_wave_size(file: *const u8, file_len: usize) -> usize;
        pub fn fonddrys_wave_write(frames: *const u8, frames_len: usize, buffer: *mut u8, buffer_len: usize) -> u32;
    }
}

pub fn nearest(v: i64, k: u32) -> i64 {
    // SAFETY: takes and gives numbers only, and is defined for all of them.
    unsafe { raw::fonddrys_nearest(v, k) }
}

pub fn limit(v: i64, low: i64, high: i64) -> i64 {
    // SAFETY: takes and gives numbers only, and is defined for all of them.
    unsafe { raw::fonddrys_limit(low, high, v) }
}

pub fn band_refusal(a: i32, b: i32, g: i32) -> u32 {
    // SAFETY: takes and gives numbers only, and is defined for all of them.
    unsafe { raw::fonddrys_band_refusal(a, b, g) }
}

pub fn house_set() -> [i32; 30] {
    let mut words = [i32::MIN; 30];
    // SAFETY: the pointer is to thirty numbers that nobody else holds.
    unsafe { raw::fonddrys_house_set(&mut words) };
    words
}

pub fn section_step(section: &mut Section, x: i32) -> Step {
    // SAFETY: the pointer is to seven numbers that nobody else holds.
    unsafe { raw::fonddrys_section_step(section, x) }
}

pub fn level_moved(present: i32, target: i32, slope: u32) -> i32 {
    // SAFETY: takes and gives numbers only, and is defined for all of them.
    unsafe { raw::fonddrys_level_moved(present, target, slope) }
}

pub fn load(unit: &mut Numbers, set: &[i32]) -> u32 {
    // SAFETY: the unit is 138 numbers that nobody else holds; the set is read for its own length.
    unsafe { raw::fonddrys_load(unit, set.as_ptr(), set.len()) }
}

pub fn unit_fit(unit: &Numbers) -> u32 {
    // SAFETY: the pointer is to 138 numbers, which are only read.
    unsafe { raw::fonddrys_unit_fit(unit) }
}

pub fn block(unit: &mut Numbers, input: &[u8], output: &mut [u8]) -> u32 {
    let (from, to) = (input.as_ptr(), output.as_mut_ptr());
    // SAFETY: the unit and the output are lent to the library alone, the input is only read, and each pointer comes
    // with its own length.
    unsafe { raw::fonddrys_block(unit, from, input.len(), to, output.len()) }
}

pub fn order(unit: &mut Numbers, order: &Order) -> u32 {
    let Order { side, band, .. } = *order;
    // SAFETY: the unit is 138 numbers that nobody else holds; the rest are numbers, and each function is defined for
    // all of them.
    unsafe {
        match order.setting {
            Setting::Position(position) => raw::fonddrys_order_position(unit, side, band, position),
            Setting::Factor(factor) => raw::fonddrys_order_factor(unit, side, band, factor),
            Setting::Mute => raw::fonddrys_order_mute(unit, side, band),
        }
    }
}

pub fn sheet_write(unit: &Numbers, buffer: &mut [u8]) -> usize {
    // SAFETY: the unit is only read; the buffer is lent to the library alone, with its length.
    unsafe { raw::fonddrys_sheet_write(unit, buffer.as_mut_ptr(), buffer.len()) }
}

pub fn sheet_read(unit: &mut Numbers, bytes: &[u8]) -> u32 {
    // SAFETY: the unit is 138 numbers that nobody else holds; the bytes are read for their own length.
    unsafe { raw::fonddrys_sheet_read(unit, bytes.as_ptr(), bytes.len()) }
}

pub fn preview([a, b, g]: [i32; 3], words: &[i32], results: &mut [i32], remainders: &mut [i32]) -> u32 {
    let (from, count) = (words.as_ptr(), words.len());
    let [(to, room), (left, spare)] = [results, remainders].map(|buffer| (buffer.as_mut_ptr(), buffer.len()));
    // SAFETY: the words are only read, both buffers are lent to the library alone, and each pointer comes with its own
    // length.
    unsafe { raw::fonddrys_preview(a, b, g, from, count, to, room, left, spare) }
}

pub fn wave_read(file: &[u8]) -> Read {
    let (bytes, count) = (file.as_ptr(), file.len());
    // SAFETY: the file is read for its own length.
    unsafe {
        let refusal = raw::fonddrys_wave_refusal(bytes, count);
        (refusal, raw::fonddrys_wave_from(bytes, count), raw::fonddrys_wave_size(bytes, count))
    }
}

pub fn wave_write(frames: &[u8], buffer: &mut [u8]) -> u32 {
    let (from, to) = (frames.as_ptr(), buffer.as_mut_ptr());
    // SAFETY: the frames are only read, the buffer is lent to the library alone, and each pointer comes with its own
    // length.
    unsafe { raw::fonddrys_wave_write(from, frames.len(), to, buffer.len()) }
}
