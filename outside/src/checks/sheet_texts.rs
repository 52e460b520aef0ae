//! What stands in damaged fields: text that is badly written, and numbers outside their ranges.

use super::fitness::unfit_numbers;
use crate::random::Random;
use crate::unit::sheet::FIELD;
use crate::unit::Numbers;
use std::ops::RangeInclusive;

pub type Field = [u8; FIELD];

/// "No leading zeros, no plus, minus only before a number that isn't 0"; blanks stand in front of a number and nowhere
/// else. Each field stands behind a bar.
const BADLY_WRITTEN: &[u8] = b"\
    |         |        -|-        |       - |       --|---------|        +|       +0|       +1|+       1\
    |+12345678|      +-1|      -+1|       -0|-       0|-00000000|       00|       01|      001|  0008192\
    |000000000|000000001|012345678|      -01|-00000001|1        |0        |       1 |       0 |      -1 \
    |      0 0|      1 1|1       1| 1     1 |      - 1|-       1|      --1|      1-1|       1-|       0-\
    |123456-89|       \t1|\t\t\t\t\t\t\t\t1|       1\t\
    |        \t|       1\n|       \r1|\0\0\0\0\0\0\0\x001|        \0|       1\0\
    |        A|        f|       1F|      0x1|      1.0|  1,024,0";

/// Bytes beside the digits, digits with the eighth bit set, and others that are digits or blanks somewhere.
fn no_digits() -> Vec<u8> {
    let mut bytes = vec![0x2F, 0x3A, 0xAF, 0xBA, 0xA0, 0x1F, 0x21, 0x85, 0x0B, 0x7F, 0xFF];
    bytes.extend(0xB0..=0xB9);
    bytes.extend([b',', b'.', b'_', b'e', b'E', b'x', b'l', b'O', b'#', b'*']);
    bytes
}

/// Every badly written field of the tests.
pub fn badly_written() -> Vec<Field> {
    let texts = BADLY_WRITTEN[1..].split(|&byte| byte == b'|');
    let mut fields: Vec<Field> = texts.map(|text| text.try_into().expect("nine columns")).collect();
    for byte in no_digits() {
        for number in [b"        7", b" -1234567"] {
            for place in [0, 1, 7, 8] {
                let mut field = *number;
                field[place] = byte;
                fields.push(field);
            }
        }
    }
    fields
}

/// The numbers that nine columns hold.
pub const NINE_COLUMNS: RangeInclusive<i32> = -99_999_999..=999_999_999;

/// Numbers of eight columns and more, outside every range.
const WIDE: [i32; 4] = [10_000_000, 99_999_999, 100_000_000, 123_456_789];
const WIDEST: [i32; 6] = [999_999_744, 999_999_999, -10_000_000, -16_777_216, -99_999_840, -99_999_999];

/// A number as it is written; it has at most nine columns.
pub fn well_written(number: i32) -> Field {
    let text = format!("{number:>9}").into_bytes();
    text.try_into().expect("at most nine columns")
}

/// Numbers of nine columns at most that no accepted sheet could carry at this place.
pub fn outside_numbers(numbers: &Numbers, place: usize) -> Vec<i32> {
    let mut outside = unfit_numbers(numbers, place);
    outside.extend(WIDE.into_iter().chain(WIDEST));
    outside.retain(|number| NINE_COLUMNS.contains(number));
    outside
}

/// Any text: well written or badly.
pub fn any_field(badly: &[Field], random: &mut Random) -> Field {
    let number = random.between(*NINE_COLUMNS.start(), *NINE_COLUMNS.end()) >> random.below(28);
    let text = match random.below(6) {
        0 => return random.pick(badly),
        1 => return [(); FIELD].map(|()| random.pick(b"    --+0123456789\n")),
        2 => return [(); FIELD].map(|()| random.draw() as u8),
        3 => format!("{number:09}"),
        4 => format!("{number:<9}"),
        _ => format!("{number:>9}"),
    };
    text.into_bytes().try_into().expect("nine columns")
}
