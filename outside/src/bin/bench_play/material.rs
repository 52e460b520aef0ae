//! The sound and the sheet that all are timed with.

use std::fs;
use std::path::PathBuf;

use outside::checks::sheet_makers::sheet_of;
use outside::random::Random;
use outside::reference::ACCEPTED;
use outside::temporary::Temporary;
use outside::unit::orders::{exact::order, Order, BOTH, VOLUME_BAND};
use outside::unit::{house_unit, Numbers};
use outside::wave;

pub const SEED: u64 = 0xF0DD_00E0;
/// Four minutes at 44.1 kHz.
pub const RATE: usize = 44_100;
pub const FRAMES: usize = 4 * 60 * RATE;

/// The play program, a folder with the sheet, and the sound as raw frames and as a wave file beside it, and in memory.
pub struct Material {
    pub play: PathBuf,
    pub folder: Temporary,
    pub unit: Numbers,
    pub noise: Vec<u8>,
}

/// The house unit after orders to the volume and to every band.
fn unit() -> Numbers {
    let mut unit = house_unit();
    let volume = Order::position(BOTH, VOLUME_BAND, 20);
    let bands = (0..10).map(|band| Order::position(BOTH, band, 12 + band as u8));
    for given in bands.chain([volume]) {
        assert_eq!(order(&mut unit, &given), ACCEPTED);
    }
    unit
}

impl Material {
    pub fn new(play: PathBuf) -> std::io::Result<Material> {
        let mut random = Random::new(SEED);
        let noise = (0..FRAMES / 2).flat_map(|_| random.draw().to_le_bytes()).collect();
        let material = Material { play, folder: Temporary::new("bench_play")?, unit: unit(), noise };
        fs::write(material.noise_path(), &material.noise)?;
        let heading = wave::heading(material.noise.len() as u32);
        fs::write(material.wave_path(), [&heading[..], &material.noise].concat())?;
        fs::write(material.folder.path().join("strip.sht"), sheet_of(&material.unit))?;
        Ok(material)
    }

    pub fn noise_path(&self) -> PathBuf {
        self.folder.path().join("noise.raw")
    }

    pub fn wave_path(&self) -> PathBuf {
        self.folder.path().join("noise.wav")
    }

    /// The sheet that the play program wrote.
    pub fn new_sheet(&self) -> Vec<u8> {
        fs::read(self.folder.path().join("strip.new")).unwrap_or_default()
    }
}
