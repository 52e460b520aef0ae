//! Sheets of fit units, written and read back, and buffers that stay as they are: "from a shorter buffer, or for an
//! unfit unit (below), it hands back an empty part and writes nothing. Bytes behind the sheet keep their contents."

use super::fitness::{spoilt, unfit_numbers, with};
use super::run::{Checked, Run};
use super::same_sheet::Writer;
use crate::unit::sheet::{exact, fast, SHEET};
use crate::unit::{Numbers, UNIT_COUNT};

/// Units held against the exact form, and against the fast one, which takes less time: a million in all.
const UNITS: u64 = 100_000;
const MANY: u64 = 900_000;

/// A sheet written into so many bytes, and read back into a given unit, also from a short sheet.
fn there_and_back(run: &mut Run, reference: Writer, numbers: &Numbers, room: usize) -> Checked {
    let (lent, given) = (run.maker.bytes(room), run.maker.given());
    run.write_and_read(reference, numbers, &lent, &given)
}

/// A unit that isn't written into so many bytes.
fn unwritten(run: &mut Run, reference: Writer, numbers: &Numbers, room: usize) -> Checked {
    let lent = run.maker.bytes(room);
    run.write(reference, numbers, &lent)?;
    let mut buffer = lent.clone();
    let written = run.subject.sheet_write(numbers, &mut buffer);
    run.same((0, lent), (written, buffer), || format!("writing the unit {numbers:?} into {room} bytes"))
}

/// Each number of a fit unit in turn unfit in every way.
fn each_number(run: &mut Run, numbers: &Numbers) -> Checked {
    for place in 0..UNIT_COUNT {
        for number in unfit_numbers(numbers, place) {
            let behind = run.maker.random.below(20) as usize;
            for room in [SHEET, SHEET + behind, SHEET - 1] {
                unwritten(run, exact::write, &with(numbers, place, number), room)?;
            }
        }
    }
    Ok(())
}

/// A fit unit, and now and then a short buffer or an unfit unit.
fn unit(run: &mut Run, reference: Writer, turn: u64) -> Checked {
    let numbers = run.maker.unit(turn);
    let random = &mut run.maker.random;
    let behind = match random.below(8) {
        0..=3 => 0,
        4..=6 => 1 + random.below(40),
        _ => 1 + random.below(4_000),
    };
    let room = SHEET + behind as usize;
    let (short, also) = (random.below(SHEET as u64) as usize, random.below(16));
    there_and_back(run, reference, &numbers, room)?;
    match also {
        0 => unwritten(run, reference, &numbers, short),
        1 => {
            let spoilt = spoilt(&numbers, &mut run.maker.random);
            unwritten(run, reference, &spoilt, room)
        }
        _ => Ok(()),
    }
}

pub fn units(run: &mut Run) -> Checked {
    for turn in 0..6 {
        let numbers = run.maker.unit(turn);
        each_number(run, &numbers)?;
        for room in 0..SHEET {
            unwritten(run, exact::write, &numbers, room)?;
        }
        for room in SHEET..SHEET + 100 {
            there_and_back(run, exact::write, &numbers, room)?;
        }
    }
    for turn in 0..UNITS {
        unit(run, exact::write, turn)?;
    }
    Ok(())
}

pub fn many(run: &mut Run) -> Checked {
    for turn in 0..MANY {
        unit(run, fast::write, turn)?;
    }
    Ok(())
}
