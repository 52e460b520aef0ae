//! Orders with factors: edges, halves and random bits.

use super::fitness::spoilt;
use super::orders::every_side_and_band;
use super::run::{Checked, Run};
use crate::random::Random;
use crate::unit::orders::Order;
use crate::unit::{house_unit, Numbers};

/// Sides and bands for every edge: those that there are, and others.
const PLACES: [(u32, u32); 7] = [(0, 0), (1, 9), (2, 5), (2, 10), (0, 10), (3, 0), (2, 11)];

/// Factors for every side and band: accepted, outside and not finite.
const EVERYWHERE: [f32; 8] = [0.0, -0.0, 0.25, -0.25, -1.0, 1.0, f32::INFINITY, f32::NAN];

/// Bits of infinity and the largest numbers, and of what is no number, with several payloads.
const LARGEST: [u32; 3] = [0x7F7F_FFFE, 0x7F7F_FFFF, 0x7F80_0000];
const NO_NUMBERS: [u32; 7] =
    [0x7F80_0001, 0x7FA0_0000, 0x7FBF_FFFF, 0x7FC0_0000, 0x7FC1_2345, 0x7FFF_FFFE, 0x7FFF_FFFF];

/// Multiples of 2^-24, so that the odd ones × 2^23 lie at a half.
fn multiples(random: &mut Random) -> Vec<f32> {
    const ONE: i32 = 1 << 24;
    let mut multiples: Vec<i32> = (0..=64).chain(ONE - 64..=ONE + 2).collect();
    for power in 6..24 {
        multiples.extend((1 << power) - 3..=(1 << power) + 3);
    }
    multiples.extend((0..200).map(|_| random.between(0, ONE)));
    multiples.into_iter().map(|n| n as f32 / ONE as f32).collect()
}

/// The factors at which something changes, and their neighbours, both signs.
fn edges(random: &mut Random) -> Vec<f32> {
    let mut sizes: Vec<u32> = multiples(random).iter().map(|f| f.to_bits()).collect();
    sizes.extend((0..=255).map(|exponent| exponent << 23));
    sizes.extend((0..=22).map(|place| 1 << place));
    let beside = |size: u32| (-2..=2).filter_map(move |n| size.checked_add_signed(n));
    let mut every: Vec<u32> = sizes.into_iter().flat_map(beside).chain(LARGEST).chain(NO_NUMBERS).collect();
    every.sort_unstable();
    every.dedup();
    let both = |size: u32| [size, size | 1 << 31].map(f32::from_bits);
    every.into_iter().flat_map(both).collect()
}

/// A factor of random bits, or of a size at which its bits matter.
pub fn any_factor(random: &mut Random) -> f32 {
    let bits = random.draw() as u32;
    if bits & 1 == 0 {
        return f32::from_bits(random.draw() as u32);
    }
    let exponent = random.between(98, 127) as u32;
    f32::from_bits((bits & 0x807F_FFFF) | exponent << 23)
}

/// Random factors one after another on the same unit.
fn in_turn(run: &mut Run, mut numbers: Numbers, count: u32) -> Checked {
    for _ in 0..count {
        let band = run.random.below(11) as u32;
        let side = if band == 10 { 2 } else { run.random.below(3) as u32 };
        let order = Order::factor(side, band, any_factor(&mut run.random));
        run.order(&mut numbers, &order)?;
    }
    Ok(())
}

pub fn factors(run: &mut Run) -> Checked {
    let edges = edges(&mut run.random);
    let fit = run.fit_unit(2);
    for numbers in [house_unit(), fit, spoilt(&fit, &mut run.random)] {
        let at_edges = edges.iter().flat_map(|&edge| PLACES.map(|place| (place, edge)));
        let everywhere = every_side_and_band().flat_map(|place| EVERYWHERE.map(|factor| (place, factor)));
        for ((side, band), factor) in at_edges.chain(everywhere) {
            run.order(&mut numbers.clone(), &Order::factor(side, band, factor))?;
        }
    }
    for turn in 0..1_000 {
        let fit = run.fit_unit(turn);
        in_turn(run, fit, 3_000)?;
        let unfit = spoilt(&fit, &mut run.random);
        in_turn(run, unfit, 30)?;
    }
    Ok(())
}
