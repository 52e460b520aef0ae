//! Random orders, blocks and lists of them, refused ones among them.

use super::bands::slow_accepted;
use super::factors::any_factor;
use super::sounds::{Sound, SOUNDS};
use super::units::Sets;
use crate::calls::{Call, List};
use crate::random::Random;
use crate::unit::orders::{Order, Setting};

/// What lists are made with.
pub struct Maker {
    pub sets: Sets,
    pub random: Random,
}

impl Maker {
    pub fn new(seed: u64) -> Maker {
        Maker { sets: Sets::all(), random: Random::new(seed) }
    }

    /// The sets that units are drawn with, and by turns bands of slow decay.
    pub fn set(&mut self, turn: u64) -> [i32; 30] {
        let mut set = self.sets.draw(turn % 6, &mut self.random);
        if turn % 6 == 5 {
            for band in set.chunks_exact_mut(3) {
                band.copy_from_slice(&slow_accepted(&mut self.random));
            }
        }
        set
    }

    fn setting(&mut self) -> Setting {
        let random = &mut self.random;
        match random.below(8) {
            0 => Setting::Mute,
            1 => Setting::Position(random.draw() as u8),
            2 => Setting::Position(random.between(30, 33) as u8),
            3 | 4 => Setting::Position(random.below(32) as u8),
            _ => Setting::Factor(any_factor(random)),
        }
    }

    /// Any order; about one in two is accepted.
    pub fn order(&mut self) -> Order {
        let random = &mut self.random;
        let side = match random.below(9) {
            0 => random.pick(&[3, 4, 256, 258, u32::MAX]),
            1..=4 => 2,
            n => n as u32 & 1,
        };
        let band = match random.below(8) {
            0 => random.pick(&[11, 12, 256, 266, u32::MAX]),
            1 => 10,
            _ => random.below(10) as u32,
        };
        let setting = self.setting();
        Order { side, band, setting }
    }

    /// An accepted order to both sides of a band, or to the volume.
    pub fn level(&mut self, band: u32) -> Order {
        match self.random.below(3) {
            0 => Order::position(2, band, self.random.below(32) as u8),
            1 => Order::factor(2, band, self.random.between(0, 255) as f32 / 256.0),
            _ => Order::position(2, band, self.random.pick(&[0, 31])),
        }
    }

    /// A block of this sound with a few bytes of room behind it; one in eight is cut short, one in eight has too little
    /// room.
    pub fn block(&mut self, sound: Sound, frames: usize) -> Call {
        let mut input = sound.block(frames, &mut self.random);
        let random = &mut self.random;
        if random.below(8) == 0 {
            let cut = input.len().saturating_sub(random.between(1, 3) as usize);
            input.truncate(cut);
        }
        let room = if random.below(8) == 0 {
            random.below(input.len() as u64 + 1) as usize
        } else {
            input.len() + random.below(9) as usize
        };
        Call::Block { input, room }
    }

    /// Any sound, and often a soft one.
    pub fn sound(&mut self) -> Sound {
        match self.random.below(2) {
            0 => Sound::Soft(self.random.between(4, 15) as u32),
            _ => self.random.pick(SOUNDS),
        }
    }

    /// Orders and blocks of up to so many frames in any order; every level is set first where `levels` says so.
    pub fn list(&mut self, set: [i32; 30], levels: bool, calls: usize, frames: u64) -> List {
        let mut list = Vec::new();
        if levels {
            list.extend((0..11).map(|band| Call::Order(self.level(band))));
        }
        for _ in 0..calls {
            let call = match self.random.below(2) {
                0 => Call::Order(self.order()),
                _ => {
                    let frames = self.random.below(frames + 1) as usize;
                    let sound = self.sound();
                    self.block(sound, frames)
                }
            };
            list.push(call);
        }
        List { set, calls: list }
    }
}
