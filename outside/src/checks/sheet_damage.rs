//! Sheets of either length with bytes changed anywhere: one byte, two, several fields, letters and line ends, and bytes
//! put in or left out.

use super::run::{Checked, Run};
use super::sheet_makers::lines_of;
use super::sheet_texts::any_field;
use crate::figures::typed_sheets;
use crate::reference::ACCEPTED;
use crate::unit::house_unit;
use crate::unit::sheet::places::LENGTHS;
use crate::unit::sheet::{SHEET, SHORT_SHEET};

/// What each byte is changed into, its neighbours and random bytes apart.
const BYTES: &[u8] = b" -+09158\n\r\tVCLSRX/:\0\x7F\x80\xB0\xFF";

/// Any place of a sheet.
fn any_place(run: &mut Run, sheet: &[u8]) -> usize {
    run.maker.random.below(sheet.len() as u64) as usize
}

fn read(run: &mut Run, right: &[u8], sheet: &[u8]) -> Checked {
    let answer = run.read(sheet)?;
    run.tally.accepted_changed += u64::from(answer == ACCEPTED && right != sheet);
    Ok(())
}

/// Each byte in turn, changed into many others.
fn each_byte(run: &mut Run, right: &[u8]) -> Checked {
    for (place, &byte) in right.iter().enumerate() {
        let beside = [byte.wrapping_sub(1), byte.wrapping_add(1), byte ^ 0x20, byte ^ 0x80];
        let mut sheet = right.to_vec();
        for other in [BYTES, &beside, &run.maker.bytes(2)].concat() {
            sheet[place] = other;
            read(run, right, &sheet)?;
        }
    }
    Ok(())
}

/// Two bytes, often close together.
fn two_bytes(run: &mut Run, right: &[u8]) -> Checked {
    let mut sheet = right.to_vec();
    let first = any_place(run, right);
    let second = match run.maker.random.below(2) {
        0 => (first + run.maker.random.below(40) as usize) % right.len(),
        _ => any_place(run, right),
    };
    for place in [first, second] {
        let anything = run.maker.random.draw() as u8;
        let byte = run.maker.random.pick(BYTES);
        sheet[place] = run.maker.random.pick(&[byte, byte, anything]);
    }
    read(run, right, &sheet)
}

/// Several fields, letters and line ends, often of the same line.
fn several_parts(run: &mut Run, right: &[u8]) -> Checked {
    let mut sheet = right.to_vec();
    let random = &mut run.maker.random;
    let same_line = random.below(2) == 0;
    let lines = lines_of(right);
    let mut line = random.pick(lines);
    for _ in 0..=random.below(5) {
        if !same_line {
            line = random.pick(lines);
        }
        match random.below(6) {
            0 => line.spoil_letter(&mut sheet, random),
            1 => line.spoil_end(&mut sheet, random),
            _ => {
                let field = line.field(random.below(line.count as u64) as usize);
                sheet[field].copy_from_slice(&any_field(&run.badly, random));
            }
        }
    }
    read(run, right, &sheet)
}

/// A byte put in and the last one dropped, a byte left out and one put behind, two lines exchanged.
fn shifted(run: &mut Run, right: &[u8]) -> Checked {
    let (place, byte) = (any_place(run, right), run.maker.random.pick(BYTES));
    let mut longer = right.to_vec();
    longer.insert(place, byte);
    read(run, right, &longer[..right.len()])?;
    let mut shorter = right.to_vec();
    shorter.remove(place);
    shorter.push(byte);
    read(run, right, &shorter)?;
    let [one, other] = [(); 2].map(|()| run.maker.random.pick(lines_of(right)));
    let mut exchanged = right.to_vec();
    if one.count == other.count {
        exchanged[one.begin..=one.end()].copy_from_slice(&right[other.begin..=other.end()]);
        exchanged[other.begin..=other.end()].copy_from_slice(&right[one.begin..=one.end()]);
    }
    read(run, right, &exchanged)
}

/// So many bytes left out or put in that the sheet has the other length.
fn other_length(run: &mut Run, right: &[u8]) -> Checked {
    const MORE: usize = SHEET - SHORT_SHEET;
    let place = any_place(run, &right[..SHORT_SHEET]);
    let mut sheet = right.to_vec();
    if right.len() == SHEET {
        sheet.drain(place..place + MORE);
    } else {
        let from = any_place(run, &right[MORE..]);
        sheet.splice(place..place, right[from..from + MORE].iter().copied());
    }
    read(run, right, &sheet)
}

pub fn anywhere(run: &mut Run) -> Checked {
    for turn in 0..2_000 {
        let sheet = run.maker.any_sheet(turn);
        for _ in 0..50 {
            two_bytes(run, &sheet)?;
            several_parts(run, &sheet)?;
        }
        for _ in 0..5 {
            shifted(run, &sheet)?;
            other_length(run, &sheet)?;
        }
    }
    let mut right = LENGTHS.map(|length| length.sheet_of(&house_unit())).to_vec();
    right.extend(typed_sheets());
    right.extend((1..13).map(|turn| run.maker.any_sheet(turn)));
    for sheet in right {
        each_byte(run, &sheet)?;
    }
    Ok(())
}
