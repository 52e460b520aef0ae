//! What the comparison can be run against.

use crate::reference::{self, fast, Section, Step};
use crate::unit::{self, orders, orders::Order, sheet, Numbers};
use crate::wave::{self, Read};
use crate::{ffi, preview};

/// The functions by name, each with the fast form's.
macro_rules! functions {
    ($($name:ident($($argument:ident: $kind:ty),*) -> $answer:ty = $fast:expr;)*) => {
        /// The functions of the C ABI, whoever implements them. The three of the orders are one here, and so are the
        /// three that read a wave file.
        pub trait Subject {
            $(fn $name(&self, $($argument: $kind),*) -> $answer;)*
        }

        /// An implementation as a table of functions.
        pub struct Form {
            $(pub $name: fn($($kind),*) -> $answer,)*
        }

        impl Subject for Form {
            $(fn $name(&self, $($argument: $kind),*) -> $answer {
                (self.$name)($($argument),*)
            })*
        }

        /// The fast form of the reference.
        pub const FAST: Form = Form { $($name: $fast,)* };
        /// The library, over the C ABI.
        pub const LIBRARY: Form = Form { $($name: ffi::$name,)* };
    };
}

functions! {
    nearest(v: i64, k: u32) -> i64 = fast::nearest;
    limit(v: i64, low: i64, high: i64) -> i64 = |v, low, high| if v < low { low } else { v.min(high) };
    band_refusal(a: i32, b: i32, g: i32) -> u32 = reference::band_refusal;
    house_set() -> [i32; 30] = reference::house_set;
    section_step(section: &mut Section, x: i32) -> Step = fast::step;
    level_moved(present: i32, target: i32, slope: u32) -> i32 = unit::fast::level_moved;
    load(numbers: &mut Numbers, set: &[i32]) -> u32 = unit::load;
    unit_fit(numbers: &Numbers) -> u32 = |numbers| unit::fast::fit(numbers).into();
    block(numbers: &mut Numbers, input: &[u8], output: &mut [u8]) -> u32 = unit::fast::block;
    order(numbers: &mut Numbers, order: &Order) -> u32 = orders::fast::order;
    sheet_write(numbers: &Numbers, buffer: &mut [u8]) -> usize = sheet::fast::write;
    sheet_read(numbers: &mut Numbers, bytes: &[u8]) -> u32 = sheet::fast::read;
    preview(band: [i32; 3], words: &[i32], results: &mut [i32], remainders: &mut [i32]) -> u32 = preview::fast::preview;
    wave_read(file: &[u8]) -> Read = wave::read;
    wave_write(frames: &[u8], buffer: &mut [u8]) -> u32 = wave::write;
}
