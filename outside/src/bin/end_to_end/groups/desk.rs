//! The program desk: level orders to the sheet on its input.

use outside::checks::Difference;
use outside::random::Random;
use outside::unit::sheet::places::LENGTHS;
use outside::unit::sheet::{NOT_A_SHEET, SHEET};

use super::arguments::shown;
use super::bad_sheets::{damaged, refused, DAMAGED};
use crate::expected::{self, line, MOST_ORDERS};
use crate::folder::{other_files, system_fault, Folder};
use crate::run::{seen, Input, Output, Run, DESK};
use crate::seen::{same, Seen};
use crate::test::Test;

/// Runs desk with nothing wrong but the arguments, the sheet or an order; the sheet comes from a file or through a pipe
/// by turns.
pub fn plain(test: &mut Test, arguments: &[&[u8]], sheet: &[u8]) -> Result<(), Difference> {
    let run = Run { arguments, ..Run::of(DESK, Input::by_turns(test.runs, sheet)) };
    expect(test, run, &expected::desk(arguments, sheet, &other_files()))
}

/// Runs desk and holds what is seen against what must be.
pub fn expect(test: &mut Test, run: Run, expected: &Seen) -> Result<(), Difference> {
    test.expect(&shown(DESK, run.arguments), &other_files(), run, expected)
}

/// Runs desk where this is what must be told.
pub fn told(test: &mut Test, arguments: &[&[u8]], sheet: &[u8], line: &str) -> Result<(), Difference> {
    let typed = Seen::nothing_but(line, &other_files());
    assert!(typed == expected::desk(arguments, sheet, &other_files()), "{}: not {line}", shown(DESK, arguments));
    plain(test, arguments, sheet)
}

/// The arguments of orders that are written with a blank between two.
pub fn split(orders: &str) -> Vec<&[u8]> {
    orders.split(' ').map(str::as_bytes).collect()
}

/// An order that is accepted.
pub fn any_order(random: &mut Random) -> String {
    let level = match random.below(8) {
        0 => "mute".to_string(),
        _ => random.below(32).to_string(),
    };
    match random.below(5) {
        0 => format!("2 10 {level}"),
        // Few bands, so that orders meet.
        1 | 2 => format!("{} {} {level}", random.below(3), random.below(3)),
        _ => format!("{} {} {level}", random.below(3), random.below(10)),
    }
}

/// So many orders that are accepted.
pub fn any_orders(count: usize, random: &mut Random) -> Vec<String> {
    (0..count).map(|_| any_order(random)).collect()
}

/// Orders to a random fit sheet of any length.
fn accepted(test: &mut Test, orders: &str) -> Result<(), Difference> {
    let sheet = test.maker.any_sheet(test.runs);
    plain(test, &split(orders), &sheet)
}

/// Pieces in which a sheet comes, of either length.
const PIECES: [&[usize]; 10] =
    [&[1], &[2, 7], &[100, 1], &[564], &[600], &[1_127, 1], &[1, 1_127], &[1_128, 72], &[1_199, 1], &[1, 1_199]];

/// Lists in which a later order goes to the place of an earlier one.
const MEETING: [&str; 6] = [
    "2 10 26 2 1 24",
    "0 3 20 0 3 7",
    "2 4 31 1 4 mute",
    "1 4 mute 2 4 31",
    "2 10 mute 2 10 1",
    "0 0 1 1 0 2 2 0 3 0 0 4",
];

/// Whole sheets in pieces, and ones that are too long; a sheet to a file.
fn pieces(test: &mut Test) -> Result<(), Difference> {
    let arguments: [&[u8]; 6] = [b"1", b"7", b"29", b"2", b"10", b"3"];
    for (turn, lengths) in (1..).zip(PIECES) {
        let unit = test.maker.unit(turn);
        for fit in LENGTHS.map(|length| length.sheet_of(&unit)) {
            for sheet in [&fit[..], &[&fit[..], b"\n"].concat()] {
                let run = Run { arguments: &arguments[..3], ..Run::of(DESK, Input::Pieces(sheet, lengths)) };
                expect(test, run, &expected::desk(run.arguments, sheet, &other_files()))?;
            }
        }
    }
    let sheet = test.maker.sheet(3);
    let run = Run { arguments: &arguments, output: Output::File, ..Run::of(DESK, Input::File(&sheet)) };
    expect(test, run, &expected::desk(&arguments, &sheet, &other_files()))
}

/// Accepted orders on random sheets.
pub fn orders(test: &mut Test) -> Result<(), Difference> {
    pieces(test)?;
    for list in MEETING {
        accepted(test, list)?;
    }
    for count in (1..=MOST_ORDERS).chain([2, 3, MOST_ORDERS]) {
        let list = any_orders(count, &mut test.maker.random);
        accepted(test, &list.join(" "))?;
    }
    for place in ["2 10".to_string()].into_iter().chain((0..30).map(|place| format!("{} {}", place % 3, place / 3))) {
        for level in ["0", "17", "31", "mute"] {
            accepted(test, &format!("{place} {level}"))?;
        }
    }
    for position in 0..32 {
        let random = &mut test.maker.random;
        let place = format!("{} {}", random.below(3), random.below(10));
        accepted(test, &format!("{place} {position}"))?;
        accepted(test, &format!("2 10 {position}"))?;
    }
    Ok(())
}

/// Positions over 31, and sides and bands that there are not.
const POSITIONS: [u32; 10] = [32, 33, 127, 128, 255, 256, 287, 65_536, 16_777_216, 999_999_999];
const SIDES: [u32; 8] = [3, 4, 10, 255, 256, 258, 65_536, 999_999_999];
const BANDS: [u32; 8] = [11, 12, 32, 255, 256, 266, 65_546, 999_999_999];

/// Orders that are refused on a random fit sheet of any length.
fn refused_order(test: &mut Test, orders: &str, number: u32) -> Result<(), Difference> {
    let sheet = test.maker.any_sheet(test.runs);
    told(test, &split(orders), &sheet, &line(number))
}

/// 1, with levels that would be refused too and with others; 2, for bands and for the volume.
fn refused_alone(test: &mut Test) -> Result<(), Difference> {
    let sides = SIDES.iter().flat_map(|side| [format!("{side} 0"), format!("{side} 10")]);
    let bands = BANDS.iter().flat_map(|band| [format!("0 {band}"), format!("2 {band}")]);
    let volume = ["0 10", "1 10"].map(str::to_string);
    for (place, other) in sides.chain(bands).chain(volume).zip(["32", "mute"].iter().cycle()) {
        refused_order(test, &format!("{place} 20"), 1)?;
        refused_order(test, &format!("{place} {other}"), 1)?;
    }
    for position in POSITIONS {
        for place in ["0 0", "1 9", "2 4", "2 10"] {
            refused_order(test, &format!("{place} {position}"), 2)?;
        }
    }
    Ok(())
}

/// A refused order at each place of a list, and another one behind it: the first one's number is told.
fn refused_in_lists(test: &mut Test) -> Result<(), Difference> {
    const ONE: (&str, u32) = ("0 10 5", 1);
    const TWO: (&str, u32) = ("2 3 32", 2);
    for count in [2, 5, MOST_ORDERS] {
        for place in 0..count {
            let mut list = any_orders(count, &mut test.maker.random);
            for ((order, number), (other, _)) in [(ONE, TWO), (TWO, ONE)] {
                list[place] = order.to_string();
                refused_order(test, &list.join(" "), number)?;
                let mut both = list.clone();
                both.insert(place + 1, other.to_string());
                refused_order(test, &both[..count].join(" "), number)?;
            }
        }
    }
    Ok(())
}

/// Refused sheets, with orders that are accepted and that are not; any damage with any orders.
fn refused_sheets(test: &mut Test) -> Result<(), Difference> {
    let others = ["0 3 32", "1 10 mute", "0 3 20 2 10 26", "2 10 26 0 3 32"];
    let unit = test.maker.unit(0);
    let sheets = LENGTHS.into_iter().flat_map(|length| refused(&length.sheet_of(&unit)));
    for ((case, sheet, number), other) in sheets.zip(others.iter().cycle()) {
        for orders in ["0 3 20", other] {
            told(test, &split(orders), &sheet, &line(number)).map_err(|difference| format!("{case}: {difference}"))?;
        }
    }
    for turn in 0..DAMAGED {
        let sheet = damaged(turn, &mut test.maker);
        let random = &mut test.maker.random;
        let count = 1 + random.below(3);
        let orders: Vec<String> =
            (0..3 * count).map(|place| random.below([3, 11, 34][place as usize % 3]).to_string()).collect();
        plain(test, &split(&orders.join(" ")), &sheet)?;
    }
    Ok(())
}

/// Input that can't be read, with orders that are refused and that are not; output that can't be written.
fn streams(test: &mut Test) -> Result<(), Difference> {
    let sheet = test.maker.sheet(4);
    let reset = "standard input: Connection reset by peer\n";
    let full = "standard output: No space left on device\n";
    for (orders, input, output, line) in [
        ("2 10 25", Input::Folder, Output::Pipe, "standard input: Is a directory\n"),
        ("3 0 32", Input::Folder, Output::Pipe, "standard input: Is a directory\n"),
        ("2 10 25", Input::BrokenOff(&[]), Output::Pipe, reset),
        ("2 10 25", Input::BrokenOff(&sheet[..500]), Output::Pipe, reset),
        ("2 10 25", Input::BrokenOff(&sheet), Output::Pipe, reset),
        ("2 10 25 0 0 0", Input::BrokenOff(&sheet), Output::Pipe, reset),
        ("2 10 25", Input::File(&sheet), Output::Full, full),
        ("2 10 25 0 0 0", Input::File(&sheet), Output::Full, full),
    ] {
        let run = Run { arguments: &split(orders), output, ..Run::of(DESK, input) };
        expect(test, run, &Seen::nothing_but(line, &other_files()))?;
    }
    Ok(())
}

/// An input of one byte more than a sheet is refused while it stays open.
fn too_long_at_once(test: &mut Test) -> Result<(), Difference> {
    let folder = Folder::new(&other_files()).map_err(system_fault)?;
    let arguments = split("2 10 25");
    let run = Run { arguments: &arguments, ..Run::of(DESK, Input::Pipe(&[])) };
    let mut session = run.start(test.setup.words(DESK, &arguments), &folder)?;
    test.runs += 1;
    session.send(&test.maker.bytes(SHEET + 1));
    if !session.wait_for_end(test.setup.patience) {
        return Err("more than a sheet was waited for".to_string());
    }
    same(&Seen::nothing_but(&line(NOT_A_SHEET), &other_files()), &seen(session.end(&[])?, &folder)?)
}

/// Refused sheets and orders, and streams that fail: one line on standard error and nothing on standard output. The
/// sheet's number comes ahead of the orders'.
pub fn refusals(test: &mut Test) -> Result<(), Difference> {
    too_long_at_once(test)?;
    streams(test)?;
    refused_in_lists(test)?;
    refused_alone(test)?;
    refused_sheets(test)
}
