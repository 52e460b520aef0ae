//! The arithmetic of the exact sound by itself: small numbers against i128, large ones by what they leave when divided,
//! and figures worked by hand.

use super::run::{Checked, Run};
use crate::exact_sound::big::Big;
use crate::exact_sound::fraction::Fraction;
use crate::exact_sound::response::Responses;
use crate::exact_sound::ExactSound;
use crate::random::Random;
use crate::reference::house_set;
use crate::unit::orders::{Order, VOLUME_BAND};

/// Divisors, each under 2^63.
const DIVISORS: [u128; 4] = [(1 << 61) - 1, 1_000_000_007, 3, (1 << 62) - 57];

/// What a number leaves when divided, from 0 up.
fn residue(number: &Big, divisor: u128) -> u128 {
    let (mut left, mut weight) = (0, 1);
    for &limb in number.limbs() {
        left = (left + u128::from(limb) % divisor * weight) % divisor;
        weight = (weight << 64) % divisor;
    }
    let sign = if number.is_negative() { divisor - weight } else { 0 };
    (left + sign) % divisor
}

/// 2^shift as a number that is left.
fn power_residue(shift: usize, divisor: u128) -> u128 {
    (0..shift).fold(1, |left, _| left * 2 % divisor)
}

/// A number of up to so many limbs, many of them all zeros or all ones.
fn any_big(random: &mut Random, limbs: u64) -> Big {
    let count = random.below(limbs + 1);
    let limb = |_| match random.below(4) {
        0 => 0,
        1 => u64::MAX,
        2 => random.pick(&[1, 1 << 63, u64::MAX - 1, u64::MAX >> 1]),
        _ => random.draw(),
    };
    Big::from_limbs((0..count).map(limb).collect())
}

/// The number as an i128, where it is one.
fn narrow(number: &Big) -> Option<i128> {
    let fill = if number.is_negative() { u64::MAX } else { 0 };
    let limb = |n: usize| u128::from(*number.limbs().get(n).unwrap_or(&fill));
    (number.limbs().len() <= 2).then(|| (limb(1) << 64 | limb(0)) as i128)
}

fn wide(number: i128) -> Big {
    Big::from_limbs(vec![number as u64, (number >> 64) as u64])
}

/// a + c × b × 2^shift in numbers that fit into an i128.
fn small(run: &mut Run) -> Checked {
    let [a, b] = [(); 2].map(|()| i128::from(run.random.any_size()) >> run.random.below(20));
    let coefficient = run.random.any_size() >> 22;
    let shift = run.random.below(20) as usize;
    let mut sum = wide(a << 40);
    sum.add_scaled(coefficient, &wide(b), shift);
    let expected = (a << 40) + ((i128::from(coefficient) * b) << shift);
    let inputs = || format!("{a} × 2^40 + {coefficient} × {b} × 2^{shift}");
    run.same(Some(expected), narrow(&sum), inputs)?;
    run.same(&wide(expected), &sum, inputs)?;
    run.same(wide(expected.abs()), sum.size(), inputs)?;
    run.same(expected < 0, sum.is_negative(), inputs)
}

/// a + c × b × 2^shift in large numbers: what is left of the sum, and the way back.
fn large(run: &mut Run) -> Checked {
    let [a, b] = [(); 2].map(|()| any_big(&mut run.random, 30));
    let coefficient = run.random.any_size() >> 1;
    let shift = run.random.below(700) as usize;
    let mut sum = a.clone();
    sum.add_scaled(coefficient, &b, shift);
    let inputs = || format!("{a:?} + {coefficient} × {b:?} × 2^{shift}");
    for divisor in DIVISORS {
        let factor = i128::from(coefficient).rem_euclid(divisor as i128) as u128;
        let product = factor * power_residue(shift, divisor) % divisor * residue(&b, divisor) % divisor;
        run.same((product + residue(&a, divisor)) % divisor, residue(&sum, divisor), inputs)?;
    }
    sum.add_scaled(-coefficient, &b, shift);
    run.same(&a, &sum, inputs)
}

/// Sums, sizes and comparisons of fractions, against i128 over 2^44.
fn fractions(run: &mut Run) -> Checked {
    let numbers = [(); 2].map(|()| run.random.any_size() >> 16);
    let powers = [(); 2].map(|()| run.random.below(3) as u32);
    let [a, b] = [0, 1].map(|n| (0..powers[n]).fold(Fraction::whole(numbers[n]), |sum, _| sum.over_2_22()));
    let [wide_a, wide_b] = [0, 1].map(|n| i128::from(numbers[n]) << (22 * (2 - powers[n])));
    let inputs = || format!("{numbers:?} over 2^22 to the powers {powers:?}");
    run.same(wide_a.cmp(&wide_b), a.compared_with(&b), inputs)?;
    let sum = Fraction::sum(&[(3, &a), (-5, &b)]);
    let expected = 3 * wide_a - 5 * wide_b;
    run.same(expected < 0, sum.is_negative(), inputs)?;
    run.same(expected == 0, sum.is_zero(), inputs)?;
    let about = expected.abs() as f64 / 2_f64.powi(44);
    let close = (sum.size().approximately() - about).abs() <= about * 1e-12;
    run.same(true, close, inputs)
}

/// H after so many frames, in quarters, of band 4 and of band 3, which feeds its remainder back. With B = 0, h(k) is (G
/// / 2^22)^k, so H is 1 + 1/2 + 1/4 and for the other band 1 + |1/2 - 1| + |1/4 - 1/2|; with a minus 1 + |-1/2 - 1| +
/// |1/4 + 1/2|. The last has h = 1, -3/2, 9/4 - 1/2.
fn responses(run: &mut Run) -> Checked {
    let figures = [
        (0, 1 << 21, [[4, 6, 7], [4, 6, 7]]),
        (0, -(1 << 21), [[4, 6, 7], [4, 10, 13]]),
        (0, 0, [[4, 4, 4], [4, 8, 8]]),
        (1 << 21, -3 << 21, [[4, 10, 17], [4, 14, 27]]),
    ];
    for (b, g, quarters) in figures {
        let mut responses = Responses::new(&std::array::from_fn(|n| [1, b, g][n % 3]));
        for frame in 0..3 {
            responses.grow();
            for (band, quarters) in [4, 3].into_iter().zip(quarters) {
                let got = responses.weighted(&std::array::from_fn(|n| if n == band { 4 } else { 0 }));
                let equal = got.compared_with(&Fraction::whole(quarters[frame])).is_eq();
                run.same(true, equal, || format!("H of B = {b}, G = {g} in band {band}"))?;
            }
        }
    }
    Ok(())
}

/// "V = 419, gains 0, s = 32,767": the exact output is 419 × 256 × 32,767 / 2^31. With the 31 Hz band's gain at 839
/// too, it has 839 × 6,606 × 256 × 32,767 / 2^45 more in the mix.
fn first_frame(run: &mut Run) -> Checked {
    let mut sound = ExactSound::new(&house_set());
    sound.order(&Order::position(2, VOLUME_BAND, 31));
    sound.order(&Order::position(1, 0, 31));
    sound.frame([32_767; 2]);
    let x = 256 * 32_767;
    let plain = Fraction::sum(&[(419 << 23, &Fraction::whole(x))]);
    let y = Fraction::whole(6_606 * x).over_2_22();
    let more = Fraction::sum(&[(1, &plain), (419 * 839, &y)]);
    for (side, expected) in [plain, more].iter().enumerate() {
        let equal = sound.output(side).compared_with(expected).is_eq();
        run.same(true, equal, || format!("first frame, side {side}"))?;
    }
    Ok(())
}

pub fn agree(run: &mut Run) -> Checked {
    for _ in 0..100_000 {
        small(run)?;
        fractions(run)?;
    }
    for _ in 0..5_000 {
        large(run)?;
    }
    responses(run)?;
    first_frame(run)
}
