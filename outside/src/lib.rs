//! Outside tests of the equaliser: an implementation of the section, of its preview, of the unit and of wave files
//! written from the specification alone, and the comparison of the library and of the programs with it.

pub mod calls;
pub mod checks;
pub mod exact_sound;
pub mod faults;
pub mod ffi;
pub mod figures;
pub mod flushed;
pub mod lent;
pub mod noise;
pub mod preview;
pub mod random;
pub mod reference;
pub mod subject;
pub mod system;
pub mod temporary;
pub mod timer;
pub mod unit;
pub mod wave;
