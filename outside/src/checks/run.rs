//! The comparison under way. Whatever is asked of the subject is asked of the exact reference too; the answers are
//! compared, and what they met is counted.

use super::sheet_makers::SheetMaker;
use super::sheet_texts::{badly_written, Field};
use super::units::{random_fit, Sets};
use super::{Difference, Tally};
use crate::calls::Call;
use crate::random::Random;
use crate::reference::{exact, Section, ACCEPTED};
use crate::subject::Subject;
use crate::unit::orders::{self, Order};
use crate::unit::{self, Numbers};
use std::fmt::Debug;

/// What a check gives where nothing differs.
pub type Checked<T = ()> = Result<T, Difference>;

/// A subject, what its inputs are drawn with, and what they met.
pub struct Run<'a> {
    pub subject: &'a dyn Subject,
    pub seed: u64,
    pub random: Random,
    pub sets: Sets,
    /// What sheets are drawn with, and badly written fields.
    pub maker: SheetMaker,
    pub badly: Vec<Field>,
    pub tally: Tally,
}

impl<'a> Run<'a> {
    pub fn new(subject: &'a dyn Subject, seed: u64) -> Run<'a> {
        let (random, sets, maker) = (Random::new(seed), Sets::all(), SheetMaker::new(seed));
        Run { subject, seed, random, sets, maker, badly: badly_written(), tally: Tally::default() }
    }

    /// Counts one answer, or says how it differs.
    pub fn same<T: PartialEq + Debug>(&mut self, expected: T, got: T, inputs: impl FnOnce() -> String) -> Checked {
        self.tally.answers += 1;
        if expected == got {
            Ok(())
        } else {
            Err(format!("{}: expected {expected:?}, got {got:?}", inputs()))
        }
    }

    /// One step: compares the four numbers of the answer and all seven of the section afterwards.
    pub fn step(&mut self, section: &mut Section, x: i32) -> Checked {
        let before = *section;
        let mut other = before;
        let expected = exact::step(section, x);
        let got = self.subject.section_step(&mut other, x);
        let inputs = || format!("step of A, B, G, x1, x2, y1, y2 = {before:?} with x = {x}");
        self.same((expected, *section), (got, other), inputs)?;
        match expected.refusal {
            ACCEPTED => self.tally.steps.count(&before, x, expected),
            _ => self.tally.refused += 1,
        }
        Ok(())
    }

    /// One block into a buffer of `room` bytes: compares the answer, all numbers of the unit and every byte of the
    /// buffer, and gives the buffer.
    pub fn block(&mut self, numbers: &mut Numbers, input: &[u8], room: usize) -> Checked<Vec<u8>> {
        let before = *numbers;
        let (mut expected, mut got, mut unit) = (marks(room), marks(room), before);
        let refusal = unit::exact::block(numbers, input, &mut expected, &mut self.tally.met);
        let answers = [refusal, self.subject.block(&mut unit, input, &mut got)];
        let inputs = || format!("block of bytes, {}, into {room} on the unit {before:?}", briefly(input));
        same_left(answers, [&*numbers, &unit], inputs)?;
        same_left(answers, [&expected, &got], inputs)?;
        self.tally.count_block(input, refusal);
        Ok(expected)
    }

    /// One order: compares the answer and all numbers of the unit, and gives the answer.
    pub fn order(&mut self, numbers: &mut Numbers, order: &Order) -> Checked<u32> {
        let before = *numbers;
        let mut got = before;
        let expected = orders::exact::order(numbers, order);
        let answer = self.subject.order(&mut got, order);
        same_left([expected, answer], [&*numbers, &got], || format!("{order:?} on the unit {before:?}"))?;
        self.tally.count_order(order, expected);
        Ok(expected)
    }

    pub fn call(&mut self, numbers: &mut Numbers, call: &Call) -> Checked {
        match call {
            Call::Order(order) => self.order(numbers, order).map(|_| ()),
            Call::Block { input, room } => self.block(numbers, input, *room).map(|_| ()),
        }
    }

    /// A fit unit with the band set of this turn.
    pub fn fit_unit(&mut self, turn: u64) -> Numbers {
        let set = self.sets.draw(turn, &mut self.random);
        random_fit(&set, &mut self.random)
    }
}

/// Compares the answers of the reference and of the subject, and what both left in a list lent to them. A difference
/// names the inputs, both answers and the first place of the list that differs.
pub fn same_left<A: PartialEq + Debug, T: PartialEq + Debug>(
    [expected, got]: [A; 2],
    [right, wrong]: [&[T]; 2],
    inputs: impl FnOnce() -> String,
) -> Checked {
    if expected == got && right == wrong {
        return Ok(());
    }
    let place = right.iter().zip(wrong).position(|(right, wrong)| right != wrong);
    let left = place.map(|n| format!("; place {n} expected {:?}, got {:?}", right[n], wrong[n]));
    Err(format!("{}: expected {expected:?}, got {got:?}{}", inputs(), left.unwrap_or_default()))
}

/// A list by its length and its beginning.
pub fn briefly<T: Debug>(list: &[T]) -> String {
    format!("{} beginning {:?}", list.len(), &list[..list.len().min(16)])
}

/// A buffer of so many bytes, no two neighbours alike.
pub fn marks(room: usize) -> Vec<u8> {
    (0..room).map(|n| (n * 151 + 97) as u8).collect()
}
