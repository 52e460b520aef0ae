//! Level orders: their refusals and the targets they set. Quoted sentences are the specification's. `exact` works a
//! factor from its bits in whole numbers; `fast` works it in floating point.

pub mod exact;
pub mod fast;

use crate::reference::{ACCEPTED, WORD_MIN};

/// "The desk: 1 no such side and band; 2 position over 31; 3 factor not finite; 4 factor outside its range."
pub const NO_SIDE_AND_BAND: u32 = 1;
pub const POSITION_OVER_31: u32 = 2;
pub const FACTOR_NOT_FINITE: u32 = 3;
pub const FACTOR_OUTSIDE: u32 = 4;

/// The side that stands for both, and the band that stands for the volume.
pub const BOTH: u32 = 2;
pub const VOLUME_BAND: u32 = 10;

/// "A level is a position, a factor as an f32, or mute."
#[derive(Clone, Copy, Debug)]
pub enum Setting {
    Position(u8),
    Factor(f32),
    Mute,
}

/// "A level order names a side (0 left, 1 right, 2 both), a band (0 to 9, or 10 for the volume, with side 2 only) and a
/// level."
#[derive(Clone, Copy, Debug)]
pub struct Order {
    pub side: u32,
    pub band: u32,
    pub setting: Setting,
}

impl Order {
    pub fn position(side: u32, band: u32, position: u8) -> Order {
        Order { side, band, setting: Setting::Position(position) }
    }

    pub fn factor(side: u32, band: u32, factor: f32) -> Order {
        Order { side, band, setting: Setting::Factor(factor) }
    }

    pub fn mute(side: u32, band: u32) -> Order {
        Order { side, band, setting: Setting::Mute }
    }

    /// True for an order to the volume.
    pub fn is_volume(&self) -> bool {
        self.band == VOLUME_BAND
    }

    /// True where there is such a side and band.
    fn has_place(&self) -> bool {
        match self.band {
            0..=9 => self.side <= BOTH,
            VOLUME_BAND => self.side == BOTH,
            _ => false,
        }
    }

    /// True where an order to a band names this side.
    pub fn names(&self, side: usize) -> bool {
        self.side == BOTH || self.side as usize == side
    }
}

/// The refusals of an order to a fit unit, "The first that applies, in numerical order"; the factor is judged by the
/// given function.
fn refusal_by(order: &Order, factor: impl Fn(f32, bool) -> u32) -> u32 {
    if !order.has_place() {
        return NO_SIDE_AND_BAND;
    }
    match order.setting {
        Setting::Position(32..) => POSITION_OVER_31,
        Setting::Factor(f) => factor(f, order.is_volume()),
        _ => ACCEPTED,
    }
}

/// The target that an accepted order sets, "Mute sets a band's target to -8,388,608; it sets the volume's to 0"; a
/// factor's is worked by the given function.
fn target_by(order: &Order, factor: impl Fn(f32) -> i32) -> i32 {
    match order.setting {
        Setting::Position(position) => position_target(position, order.is_volume()),
        Setting::Factor(f) => factor(f),
        Setting::Mute if order.is_volume() => 0,
        Setting::Mute => WORD_MIN,
    }
}

/// "Position p (0 to 31) sets a band's target to (p - 16) × 558,681 from 16 up and (p - 16) × 104,857 below; it sets
/// the volume's to p × 270,600."
pub fn position_target(position: u8, volume: bool) -> i32 {
    let p = i32::from(position);
    match position {
        _ if volume => p * 270_600,
        16.. => (p - 16) * 558_681,
        _ => (p - 16) * 104_857,
    }
}
