//! Lists of orders and blocks from cleared units, also carried on from sheets. Each call compares the answer, all
//! numbers of the unit and every byte of the output.

use super::makers::Maker;
use super::run::{Checked, Run};
use super::sheet_makers::without_remainders;
use crate::calls::List;
use crate::reference::ACCEPTED;
use crate::unit::sheet::{exact, SHEET};
use crate::unit::{cleared, UNIT_COUNT};

/// One list, from the loading of its band set on.
fn play(run: &mut Run, list: &List) -> Checked {
    let mut numbers = [-1; UNIT_COUNT];
    let answer = run.subject.load(&mut numbers, &list.set);
    run.same((ACCEPTED, cleared(&list.set)), (answer, numbers), || format!("loading {:?}", list.set))?;
    for (place, call) in list.calls.iter().enumerate() {
        run.call(&mut numbers, call).map_err(|difference| format!("call {place} of a list, {difference}"))?;
    }
    Ok(())
}

pub fn lists(run: &mut Run) -> Checked {
    let mut maker = Maker::new(run.seed);
    for turn in 0..1_200 {
        let set = maker.set(turn);
        play(run, &maker.list(set, turn % 4 == 0, 40, 30))?;
    }
    for turn in 0..60 {
        let set = maker.set(turn);
        play(run, &maker.list(set, true, 12, 2_000))?;
    }
    Ok(())
}

/// One list: "Reading back the sheet that a list wrote under these same rules continues that list". Before each call
/// and at the end the unit is written and read back. Where `short` says so, the list goes on from a short sheet, with
/// remainders 0.
fn carry_on(run: &mut Run, list: &List, short: bool) -> Checked {
    let mut numbers = cleared(&list.set);
    let lent = [0x33; SHEET + 1];
    for call in &list.calls {
        run.write_and_read(exact::write, &numbers, &lent, &[-1; UNIT_COUNT])?;
        if short {
            numbers = without_remainders(&numbers);
        }
        run.call(&mut numbers, call)?;
    }
    run.write_and_read(exact::write, &numbers, &lent, &[-1; UNIT_COUNT])
}

pub fn carried_on(run: &mut Run) -> Checked {
    let mut maker = Maker::new(run.seed);
    for turn in 0..300 {
        let set = maker.set(turn);
        carry_on(run, &maker.list(set, turn % 2 == 0, 30, 60), turn % 5 == 4)?;
    }
    Ok(())
}
