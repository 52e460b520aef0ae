//! Orders to every side and band, with positions and mute.

use super::fitness::spoilt;
use super::run::{Checked, Run};
use crate::reference::ACCEPTED;
use crate::unit::orders::{Order, NO_SIDE_AND_BAND, POSITION_OVER_31};
use crate::unit::{house_unit, Numbers, UNFIT};

/// Sides and bands that there are, the next ones, and larger ones that equal one of them modulo 2^8, 2^16 or 2^31.
const SIDES: [u32; 15] =
    [0, 1, 2, 3, 4, 255, 256, 257, 258, 65_536, 65_538, 1 << 31, (1 << 31) + 2, u32::MAX - 1, u32::MAX];
const BANDS: [u32; 20] = [0, 1, 2, 3, 4, 5, 6, 7, 8, 9, 10, 11, 12, 255, 256, 265, 266, 65_536, 65_545, 65_546];
const LARGE_BANDS: [u32; 5] = [1 << 31, (1 << 31) + 10, u32::MAX - 9, u32::MAX - 1, u32::MAX];

/// Each side with each band.
pub fn every_side_and_band() -> impl Iterator<Item = (u32, u32)> {
    SIDES.into_iter().flat_map(|side| BANDS.into_iter().chain(LARGE_BANDS).map(move |band| (side, band)))
}

/// One order: compared with the reference, and its number as the specification states it.
fn stated(run: &mut Run, numbers: &Numbers, order: &Order, number: u32) -> Checked {
    let answer = run.order(&mut numbers.clone(), order)?;
    run.same(number, answer, || format!("{order:?}"))
}

/// Every side and band with all 256 positions, and muted.
fn every_place(run: &mut Run, numbers: &Numbers, fit: bool) -> Checked {
    for (side, band) in every_side_and_band() {
        let [right, over] = match (side, band) {
            _ if !fit => [UNFIT; 2],
            (0..=2, 0..=9) | (2, 10) => [ACCEPTED, POSITION_OVER_31],
            _ => [NO_SIDE_AND_BAND; 2],
        };
        for position in 0..=255 {
            let number = if position <= 31 { right } else { over };
            stated(run, numbers, &Order::position(side, band, position), number)?;
        }
        stated(run, numbers, &Order::mute(side, band), right)?;
    }
    Ok(())
}

/// Orders one after another on the same unit.
fn in_turn(run: &mut Run, mut numbers: Numbers) -> Checked {
    for _ in 0..200 {
        let (side, band) = (run.random.below(4) as u32, run.random.below(12) as u32);
        let order = match run.random.below(4) {
            0 => Order::mute(side, band),
            _ => Order::position(side, band, run.random.below(36) as u8),
        };
        run.order(&mut numbers, &order)?;
    }
    Ok(())
}

pub fn places(run: &mut Run) -> Checked {
    let numbers = run.fit_unit(2);
    let unfit = spoilt(&numbers, &mut run.random);
    for (numbers, fit) in [(&house_unit(), true), (&numbers, true), (&unfit, false)] {
        every_place(run, numbers, fit)?;
    }
    for turn in 0..1_000 {
        let numbers = run.fit_unit(turn);
        in_turn(run, numbers)?;
        let unfit = spoilt(&numbers, &mut run.random);
        in_turn(run, unfit)?;
    }
    Ok(())
}
