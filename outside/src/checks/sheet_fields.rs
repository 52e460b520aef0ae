//! Each field of a sheet by itself: badly written in every way, and with numbers at the ends of their ranges and past
//! them.

use super::fitness::{edge_numbers, with};
use super::run::{Checked, Run};
use super::sheet_texts::{outside_numbers, well_written};
use super::units::{kind, Kind};
use crate::reference::{ACCEPTED, REFUSED_A, REFUSED_B, REFUSED_G};
use crate::unit::sheet::places::{Length, LENGTHS, LONG};
use crate::unit::sheet::{BADLY_WRITTEN, OUTSIDE};
use crate::unit::{house_unit, Numbers};

/// B at its ends and past them.
const EVERY_B: [i32; 13] =
    [-4_194_304, -4_194_303, -4_194_302, -1_000_000, -10, -1, 0, 1, 99_999, 3_000_000, 4_194_302, 4_194_303, 4_194_304];

/// Each field badly written in every way.
fn badly(run: &mut Run, length: Length, numbers: &Numbers) -> Checked {
    let right = length.sheet_of(numbers);
    for (_, field) in length.fields() {
        let mut sheet = right.clone();
        for text in run.badly.clone() {
            sheet[field.clone()].copy_from_slice(&text);
            run.stated_sheet(&sheet, BADLY_WRITTEN)?;
        }
    }
    Ok(())
}

/// Each number at the ends of its range, and outside: 14, or "8 to 10" in its place.
fn ranges(run: &mut Run, length: Length, numbers: &Numbers) -> Checked {
    let right = length.sheet_of(numbers);
    for (place, field) in length.fields() {
        let mut sheet = right.clone();
        for number in edge_numbers(numbers, place) {
            sheet[field.clone()].copy_from_slice(&well_written(number));
            run.stated_sheet(&sheet, ACCEPTED)?;
            let given = run.maker.given();
            run.leaves(&sheet, &given, (ACCEPTED, length.carried(&with(numbers, place, number))))?;
        }
        let refusal = match kind(place) {
            Kind::Coefficient(which) => REFUSED_A + which as u32,
            _ => OUTSIDE,
        };
        for number in outside_numbers(numbers, place) {
            sheet[field.clone()].copy_from_slice(&well_written(number));
            run.stated_sheet(&sheet, refusal)?;
        }
    }
    Ok(())
}

/// "|G| less than 4,194,304 + B", in each C line.
fn g_beside_b(run: &mut Run, numbers: &Numbers) -> Checked {
    let mut sheet = LONG.sheet_of(numbers);
    for line in LONG.lines.iter().filter(|line| line.letter == b'C') {
        let right = sheet.clone();
        for b in EVERY_B {
            let edge = 4_194_304 + b;
            for g in [0, edge - 1, 1 - edge, edge, -edge, edge + 1, -edge - 1] {
                let number = match b {
                    -4_194_303..=4_194_303 if g.abs() < edge => ACCEPTED,
                    -4_194_303..=4_194_303 => REFUSED_G,
                    _ => REFUSED_B,
                };
                sheet[line.field(1)].copy_from_slice(&well_written(b));
                sheet[line.field(2)].copy_from_slice(&well_written(g));
                run.stated_sheet(&sheet, number)?;
            }
        }
        sheet = right;
    }
    Ok(())
}

pub fn each(run: &mut Run) -> Checked {
    for turn in 0..12 {
        let numbers = run.maker.unit(turn);
        LENGTHS.into_iter().try_for_each(|length| ranges(run, length, &numbers))?;
        g_beside_b(run, &numbers)?;
    }
    let (ends, mixed) = (run.maker.unit(3), run.maker.unit(5));
    for numbers in [house_unit(), ends, mixed] {
        LENGTHS.into_iter().try_for_each(|length| badly(run, length, &numbers))?;
    }
    Ok(())
}
