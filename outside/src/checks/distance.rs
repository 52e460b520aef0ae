//! The distance from the exact sound: each list is played by the subject alone, and its outputs are held against a
//! reckoning that takes nothing from it. Right outputs changed in a single sample must be noticed.

use super::distance_lists::lists;
use super::makers::Maker;
use super::run::{marks, Checked, Run};
use super::sounds::Sound;
use super::Tally;
use crate::calls::{Call, List};
use crate::exact_sound::judge::judge;
use crate::reference::house_set;
use crate::subject::Subject;
use crate::unit::UNIT_COUNT;
use std::sync::atomic::{AtomicUsize, Ordering};
use std::thread;

const THREADS: usize = 2;

/// The outputs that a subject's blocks handed back, refused ones too.
fn played(subject: &dyn Subject, list: &List) -> Vec<Vec<u8>> {
    let mut numbers = [0; UNIT_COUNT];
    subject.load(&mut numbers, &list.set);
    let mut outputs = Vec::new();
    for call in &list.calls {
        match call {
            Call::Order(order) => {
                subject.order(&mut numbers, order);
            }
            Call::Block { input, room } => {
                let mut output = marks(*room);
                subject.block(&mut numbers, input, &mut output);
                outputs.push(output);
            }
        }
    }
    outputs
}

/// A list and its outputs.
type Played = (List, Vec<Vec<u8>>);

/// Judges the next list that nobody has taken, until none is left or one lies beyond the bound.
fn judge_in_turn(every: &[Played], next: &AtomicUsize) -> Checked<Tally> {
    let mut tally = Tally::default();
    while let Some((list, outputs)) = every.get(next.fetch_add(1, Ordering::Relaxed)) {
        let judged = judge(list, outputs).inspect_err(|_| next.store(every.len(), Ordering::Relaxed));
        tally.count_distances(judged.map_err(|what| format!("{what}; band set {:?}", list.set))?);
    }
    Ok(tally)
}

/// Judges them all, several at a time.
fn judge_all(every: &[Played], tally: &mut Tally) -> Checked {
    let next = AtomicUsize::new(0);
    thread::scope(|scope| {
        let begin = |_| scope.spawn(|| judge_in_turn(every, &next));
        let threads: Vec<_> = (0..THREADS).map(begin).collect();
        for thread in threads {
            tally.add(&thread.join().expect("no thread gives up")?);
        }
        Ok(())
    })
}

pub fn from_the_exact(run: &mut Run) -> Checked {
    let play = |list: List| {
        let outputs = played(run.subject, &list);
        (list, outputs)
    };
    let every: Vec<Played> = lists(run.seed).into_iter().map(play).collect();
    judge_all(&every, &mut run.tally)
}

/// Levels rising, and soft noise that limits nothing; the bound stays under 1.
fn list(seed: u64) -> List {
    let mut maker = Maker::new(seed);
    let mut calls: Vec<Call> = (0..11).map(|band| Call::Order(maker.level(band))).collect();
    for _ in 0..3 {
        let input = Sound::Soft(14).block(20, &mut maker.random);
        calls.push(Call::block(input));
        calls.push(Call::Order(maker.order()));
    }
    let set = house_set();
    List { set, calls }
}

/// True where the list is found with this sample moved by one step.
fn is_found(list: &List, outputs: &[Vec<u8>], [block, at]: [usize; 2], step: i16) -> bool {
    let mut moved = outputs.to_vec();
    let sample = &mut moved[block][at..at + 2];
    let number = i16::from_le_bytes([sample[0], sample[1]]);
    sample.copy_from_slice(&number.wrapping_add(step).to_le_bytes());
    judge(list, &moved).is_err()
}

/// Every sample must be found when moved away from the exact sound, which is one step up or one step down.
pub fn found_everywhere(run: &mut Run) -> Checked {
    let list = list(run.seed);
    let outputs = played(run.subject, &list);
    judge(&list, &outputs)?;
    for (block, output) in outputs.iter().enumerate() {
        for at in (0..output.len()).step_by(2) {
            let place = [block, at];
            if ![1, -1].iter().any(|&step| is_found(&list, &outputs, place, step)) {
                return Err(format!("a sample one step away isn't found: byte {at} of block {block}"));
            }
            run.tally.answers += 1;
        }
    }
    Ok(())
}
