//! Arguments of desk that are no orders: the line that says how desk is used, before the sheet is read.

use outside::checks::Difference;

use super::arguments::{every, not_taken};
use super::desk::{any_orders, expect, plain, split, told};
use crate::expected::{usage, MOST_ORDERS};
use crate::folder::other_files;
use crate::run::{Input, Run, DESK};
use crate::seen::Seen;
use crate::test::Test;

/// Arguments that are no numbers at any place, with a bar between two.
const BAD: &[u8] = b"|+1|-1|-0|01|007|1 |1000000000| |         |+|-|+0|-2|-10|-99999999|-999999999|--1|00|000000001|\
    0000000001| 01| -1|1 1|1,1|1.0|1e0|0x1|1-|1x|x|x1|\t1|1\t|\n|1\n|\n1|\xff|1\xff|\xd9\xa1|1\xc2\xa0|         1|\
    1111111111|4294967296|4294967297|18446744073709551616";

/// No levels.
const NO_LEVELS: &[u8] = b"mut|mutes|mute |mute\n|mute0|mutemute|Mute|MUTE|muTe|mu|m| mute|--help|--version";

/// Too few, too many, and counts that are no multiple of three, though orders stand before.
const WRONG_COUNTS: [&str; 14] = [
    "0",
    "mute",
    "0 0",
    "2 10",
    "0 mute",
    "0 3 20 x",
    "1 3 mute 20",
    "2 10 25 ",
    "2 10 mute mute",
    "0 0 32 0",
    "2 10 26 2 1",
    "0 3 20 0 3 20 1",
    "--help 0 0 0",
    "0 3 20 --version",
];

/// Numbers with blanks before them, as a field has them.
const BLANKS: [&[&[u8]]; 4] = [
    &[b" 1", b"3", b"20"],
    &[b"1", b"        3", b" 20"],
    &[b"2", b"       10", b"       25"],
    &[b"2", b"10", b"25", b"        0", b" 9", b"       31"],
];

/// The usage line, whatever the input is: a folder, a fit sheet, a longer one, none.
fn is_usage(test: &mut Test, arguments: &[&[u8]]) -> Result<(), Difference> {
    let mut sheet = test.maker.sheet(test.runs);
    match test.runs % 4 {
        0 => {
            let run = Run { arguments, ..Run::of(DESK, Input::Folder) };
            return expect(test, run, &Seen::nothing_but(usage(DESK), &other_files()));
        }
        1 => {}
        2 => sheet.push(b'\n'),
        _ => sheet.clear(),
    }
    told(test, arguments, &sheet, usage(DESK))
}

/// A bad argument at each place, the others good or not.
fn bad_places(test: &mut Test) -> Result<(), Difference> {
    let ones = [b'1'; 100_000];
    let bad = BAD.split(|&byte| byte == b'|').chain([&ones[..]]);
    for (bad, side) in bad.zip([b"0", b"3"].into_iter().cycle()) {
        is_usage(test, &[bad, b"0", b"20"])?;
        is_usage(test, &[b"0", bad, b"20"])?;
        is_usage(test, &[side, b"0", bad])?;
    }
    is_usage(test, &[b"mute", b"0", b"0"])?;
    is_usage(test, &[b"0", b"mute", b"mute"])?;
    let mutes = b"mute".repeat(20_000);
    for level in NO_LEVELS.split(|&byte| byte == b'|').chain([&mutes[..]]) {
        is_usage(test, &[b"0", b"0", level])?;
        is_usage(test, &[b"2", b"10", level])?;
        is_usage(test, &[b"2", b"10", b"20", b"0", b"0", level])?;
    }
    Ok(())
}

/// Lists: one that is too long, and a bad argument at each place of a list with a refused order ahead of it.
fn bad_lists(test: &mut Test) -> Result<(), Difference> {
    let list = any_orders(MOST_ORDERS + 1, &mut test.maker.random).join(" ");
    let arguments = split(&list);
    for count in (1..=96).filter(|count| count % 3 > 0 || *count > 3 * MOST_ORDERS) {
        is_usage(test, &arguments[..count])?;
    }
    for place in 0..3 * MOST_ORDERS {
        let mut bad = arguments[..3 * MOST_ORDERS].to_vec();
        bad[if place < 3 { 92 } else { 0 }] = b"3";
        bad[place] = [&b"x"[..], b"-1", b""][place % 3];
        is_usage(test, &bad)?;
    }
    let thousand = vec![&b"0"[..]; 3_000];
    is_usage(test, &thousand)
}

pub fn all(test: &mut Test) -> Result<(), Difference> {
    every(test, DESK)?;
    is_usage(test, &[])?;
    for list in WRONG_COUNTS {
        for _ in 0..4 {
            is_usage(test, &split(list))?;
        }
        not_taken(test, DESK, &split(list))?;
    }
    for arguments in BLANKS {
        for turn in [1, 4] {
            let sheet = test.maker.sheet(turn);
            plain(test, arguments, &sheet)?;
        }
    }
    bad_places(test)?;
    bad_lists(test)
}
