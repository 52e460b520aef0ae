//! The strip sheet, written and read. Quoted sentences are the specification's. `exact` goes by the formatting and
//! parsing of the standard library; `fast` fills and reads the columns itself.

pub mod exact;
pub mod fast;
pub mod places;

/// "1,200 bytes, 33 lines, each a letter, fields of nine columns with decimal numbers right-justified in blanks, and a
/// line feed (byte 10)."
pub const SHEET: usize = 1_200;
pub const FIELD: usize = 9;
pub const LINE_FEED: u8 = 10;

/// "A sheet of 1,128 bytes is still read, with remainders 0". "The longer one is always written."
pub const SHORT_SHEET: usize = 1_128;

/// "11 neither 1,128 nor 1,200 bytes; then from the first byte on, 12 wrong letter or line end, 13 field badly written,
/// 14 number outside its range".
pub const NOT_A_SHEET: u32 = 11;
pub const LETTER_OR_END: u32 = 12;
pub const BADLY_WRITTEN: u32 = 13;
pub const OUTSIDE: u32 = 14;
