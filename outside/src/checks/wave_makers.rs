//! Wave files with chunks of every kind, most of them short.

use crate::random::Random;
use crate::wave::FORMAT;

/// Names of chunks that are passed over, of four letters each, some of them close to those that count.
const OTHERS: &[u8] = b"LISTfactbextjunk\0\0\0\0FMT fmt\0fmt_DATADatadat\0atadRIFFWAVE";

/// Sizes that a RIFF heading tells, its own file's apart.
const RIFF_SIZES: [u32; 6] = [0, 1, 4, 36, 1 << 31, u32::MAX];

/// A file, and where the headings of its chunks stand.
pub struct Wave {
    pub file: Vec<u8>,
    pub headings: Vec<usize>,
}

/// So many bytes: random, all alike, or such as look like the chunks that count.
fn contents(count: usize, random: &mut Random) -> Vec<u8> {
    const CHUNKS: &[u8] = b"data\x04\0\0\0\x01\x02\x03\x04fmt \x10\0\0\0data\x02\0\0\0\x05\x06";
    let (kind, byte) = (random.below(3), random.draw() as u8);
    let from = random.below(CHUNKS.len() as u64) as usize;
    let looks_like = CHUNKS.iter().cycle().skip(from);
    match kind {
        0 => (0..count).map(|_| random.draw() as u8).collect(),
        1 => vec![byte; count],
        _ => looks_like.take(count).copied().collect(),
    }
}

/// A small count.
fn count(random: &mut Random) -> usize {
    let most = random.pick(&[3, 9, 9, 30]);
    random.below(most) as usize
}

impl Wave {
    /// A chunk behind the others, with its pad byte.
    fn push(&mut self, name: &[u8; 4], contents: &[u8], random: &mut Random) {
        self.headings.push(self.file.len());
        self.file.extend(name);
        self.file.extend((contents.len() as u32).to_le_bytes());
        self.file.extend(contents);
        if contents.len() % 2 == 1 {
            self.file.push(random.pick(b"\0\0d\xFF"));
        }
    }

    /// A few chunks that are passed over.
    fn push_others(&mut self, random: &mut Random) {
        for _ in 0..random.pick(&[0, 0, 1, 1, 2, 3]) {
            let contents = contents(count(random), random);
            let any = (random.draw() as u32).to_le_bytes();
            let other = random.pick(OTHERS.as_chunks().0);
            let name = random.pick(&[other, other, any]);
            self.push(&name, &contents, random);
        }
    }

    /// A fitting format, often with more behind its sixteen bytes.
    fn push_format(&mut self, random: &mut Random) {
        let more = random.pick(&[0, 0, 1, 2, 5, 24]);
        let contents = [FORMAT.as_slice(), &contents(more, random)].concat();
        self.push(b"fmt ", &contents, random);
    }

    /// A file with a fitting format and then data, both often more than once and with other chunks around them. Now and
    /// then the data is no multiple of four bytes, or bytes stand behind it that are no chunk.
    pub fn draw(random: &mut Random) -> Wave {
        let mut wave = Wave { file: b"RIFF    WAVE".to_vec(), headings: Vec::new() };
        wave.push_others(random);
        for _ in 0..random.pick(&[1, 1, 1, 2, 3]) {
            wave.push_format(random);
            wave.push_others(random);
            let second = contents(count(random), random);
            if random.below(4) == 0 {
                wave.push(b"fmt ", &second, random);
            }
        }
        for _ in 0..random.pick(&[1, 1, 1, 2]) {
            let size = count(random) * random.pick(&[1, 4, 4, 4, 4]);
            let data = contents(size, random);
            wave.push(b"data", &data, random);
            wave.push_others(random);
        }
        let behind = random.pick(&[0, 0, 0, 1, 7]);
        wave.file.extend(contents(behind, random));
        let (own, other) = (wave.file.len() as u32 - 8, random.pick(&RIFF_SIZES));
        let size = random.pick(&[own, own, other]);
        wave.file[4..8].copy_from_slice(&size.to_le_bytes());
        wave
    }
}
