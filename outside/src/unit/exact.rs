//! The plain meaning of a unit: named numbers, i128, floor division.

use super::{block_refusal, feeds_back, Band, Level, Numbers, Side, Strip, Unit};
use super::{GAIN_SLOPE, REMAINDER_SIZE, VOLUME_SLOPE};
use crate::reference::{band_refusal, exact, is_word, Section, Step, ACCEPTED};

/// Roundings that lay at a half: the even number was above it or below.
#[derive(Clone, Copy, Default)]
pub struct Halves {
    pub up: u64,
    pub down: u64,
}

impl Halves {
    /// Counts v / 2^k where it lies at a half.
    pub fn count(&mut self, v: i128, k: u32) {
        let below = v >> k;
        if v - (below << k) == 1 << (k - 1) {
            self.up += u64::from(below & 1 == 1);
            self.down += u64::from(below & 1 == 0);
        }
    }
}

/// What sections that feed their remainder back met.
#[derive(Clone, Copy, Default)]
pub struct Fed {
    /// Remainders carried on at the upper end of their range, and at the lower end.
    pub highest: u64,
    pub lowest: u64,
    /// Steps that limited and carried on 0 in place of a remainder.
    pub dropped: u64,
    /// Steps that would have given another result without what was fed back; and of these, those that limited only for
    /// it, and those that it kept from limiting.
    pub turned: u64,
    pub into_limiting: u64,
    pub out_of_limiting: u64,
}

impl Fed {
    /// Counts a step: what plain S would have given, what the increased S gives, and the remainder carried on.
    fn count(&mut self, plain: Step, step: Step, carried: i32) {
        self.highest += u64::from(carried == REMAINDER_SIZE);
        self.lowest += u64::from(carried == -REMAINDER_SIZE);
        self.dropped += u64::from(step.limited == 1 && step.remainder != 0);
        self.turned += u64::from(plain.y != step.y || plain.limited != step.limited);
        self.into_limiting += u64::from(plain.limited < step.limited);
        self.out_of_limiting += u64::from(plain.limited > step.limited);
    }
}

/// What the frames of a block met.
#[derive(Clone, Copy, Default)]
pub struct Met {
    pub sections_high: u64,
    pub sections_low: u64,
    pub outputs_high: u64,
    pub outputs_low: u64,
    pub section_halves: Halves,
    pub mix_halves: Halves,
    pub output_halves: Halves,
    /// Flags that went from 0 to 1.
    pub flags_raised: u64,
    pub fed: Fed,
}

/// A level moved "towards its target by" the slope, "or by the whole distance where that is less".
pub fn level_moved(present: i32, target: i32, slope: u32) -> i32 {
    let distance = i128::from(target) - i128::from(present);
    let step = distance.abs().min(i128::from(slope));
    (i128::from(present) + distance.signum() * step) as i32
}

impl Level {
    pub fn move_once(&mut self, slope: u32) {
        self.present = level_moved(self.present, self.target, slope);
    }
}

/// "A unit is unfit when no accepted sheet could carry its numbers." "the volume V is 0 to 8,388,607", and its target
/// too.
pub fn fit(numbers: &Numbers) -> bool {
    let Unit { volume, bands, sides } = Unit::from_numbers(numbers);
    [volume.present, volume.target].iter().all(|number| (0..=8_388_607).contains(number))
        && bands.iter().all(|band| band_refusal(band.a, band.b, band.g) == ACCEPTED)
        && sides.iter().all(side_is_fit)
}

/// "x1 and x2 are words and multiples of 256; a flag is 0 or 1."
fn side_is_fit(side: &Side) -> bool {
    [side.x1, side.x2].iter().all(|&x| is_word(x) && x % 256 == 0)
        && (side.flag == 0 || side.flag == 1)
        && side.strips.iter().enumerate().all(|(band, strip)| strip_is_fit(band, strip))
}

/// "every y1, y2, gain and gain's target is a word, and a remainder is from -2,097,152 to 2,097,152 in bands 0 to 3 and
/// 0 in bands 4 to 9."
fn strip_is_fit(band: usize, strip: &Strip) -> bool {
    let most = if feeds_back(band) { REMAINDER_SIZE } else { 0 };
    [strip.y1, strip.y2, strip.gain.present, strip.gain.target].into_iter().all(is_word)
        && (-most..=most).contains(&strip.remainder)
}

/// Rounded to nearest, halves to even; a half is counted.
fn rounded(v: i128, k: u32, halves: &mut Halves) -> i64 {
    halves.count(v, k);
    exact::nearest(v as i64, k)
}

/// S of a section in a unit, given the remainder of the step before: "In bands 0 to 3 the remainder is added to S in
/// the next step". "In bands 4 to 9 nothing is added to S".
pub fn increased(section: &Section, band: usize, remainder: i32, x: i32) -> i128 {
    exact::sum(section, x) + if feeds_back(band) { i128::from(remainder) } else { 0 }
}

/// What a step of the increased S carries on: its remainder, but "A step that limits" carries 0 on, and in bands 4 to 9
/// "every step carries 0 on."
fn carried_on(step: Step, band: usize) -> i32 {
    if feeds_back(band) && step.limited == 0 {
        step.remainder
    } else {
        0
    }
}

/// A step of the section of a band as a unit takes it, with the remainder that it carries on.
pub fn fed_step(section: &mut Section, band: usize, remainder: &mut i32, x: i32) -> Step {
    let step = exact::worked(increased(section, band, *remainder, x));
    exact::pass_on(section, x, step.y);
    *remainder = carried_on(step, band);
    step
}

/// One band of a side: its y, by "Words and the section". The flag is "1 from the first time one of its sections
/// limits."
fn section(band: &Band, side: &mut Side, place: usize, x: i32, met: &mut Met) -> i32 {
    let strip = &mut side.strips[place];
    let numbers = [band.a, band.b, band.g, side.x1, side.x2, strip.y1, strip.y2];
    let sum = increased(&numbers, place, strip.remainder, x);
    let step = exact::worked(sum);
    met.section_halves.count(sum, 22);
    if step.limited == 1 {
        met.sections_high += u64::from(step.y > 0);
        met.sections_low += u64::from(step.y < 0);
        met.flags_raised += u64::from(side.flag == 0);
        side.flag = 1;
    }
    strip.remainder = carried_on(step, place);
    if feeds_back(place) {
        met.fed.count(exact::worked(exact::sum(&numbers, x)), step, strip.remainder);
    }
    strip.y2 = strip.y1;
    strip.y1 = step.y;
    step.y
}

/// "Each side works its ten sections on x. T = 2^23 × x + sum of g × y, exact. m = T / 2^23 rounded, not limited".
fn mix(bands: &[Band; 10], side: &mut Side, x: i32, met: &mut Met) -> i64 {
    let mut total = (1 << 23) * i128::from(x);
    for (place, band) in bands.iter().enumerate() {
        let y = section(band, side, place, x, met);
        total += i128::from(side.strips[place].gain.present) * i128::from(y);
    }
    side.x2 = side.x1;
    side.x1 = x;
    rounded(total, 23, &mut met.mix_halves)
}

/// "The output is V × m / 2^31 rounded, then limited to -32,768 to 32,767."
fn output(volume: i32, m: i64, met: &mut Met) -> i16 {
    let product = i128::from(volume) * i128::from(m);
    let number = rounded(product, 31, &mut met.output_halves);
    met.outputs_high += u64::from(number > 32_767);
    met.outputs_low += u64::from(number < -32_768);
    exact::limit(number, -32_768, 32_767) as i16
}

/// "In each frame, before sound is worked, every gain moves" and the volume.
fn move_levels(unit: &mut Unit) {
    unit.volume.move_once(VOLUME_SLOPE);
    unit.sides.iter_mut().flat_map(|side| &mut side.strips).for_each(|strip| strip.gain.move_once(GAIN_SLOPE));
}

/// One frame: "left then right", each sample entering "as x = 256 × s". "Both sides use the same V."
fn frame(unit: &mut Unit, samples: [i16; 2], met: &mut Met) -> [i16; 2] {
    move_levels(unit);
    [0, 1].map(|place| {
        let x = 256 * i32::from(samples[place]);
        let m = mix(&unit.bands, &mut unit.sides[place], x, met);
        output(unit.volume.present, m, met)
    })
}

/// "A block of frames is bytes: left then right, low byte first, four a frame; an empty block is accepted. Output bytes
/// beyond the block keep their contents."
pub fn block(numbers: &mut Numbers, input: &[u8], output: &mut [u8], met: &mut Met) -> u32 {
    let refusal = block_refusal(fit(numbers), input.len(), output.len());
    if refusal != ACCEPTED {
        return refusal;
    }
    let mut unit = Unit::from_numbers(numbers);
    for (bytes, played) in input.chunks_exact(4).zip(output.chunks_exact_mut(4)) {
        let samples = [[bytes[0], bytes[1]], [bytes[2], bytes[3]]].map(i16::from_le_bytes);
        played.copy_from_slice(frame(&mut unit, samples, met).map(i16::to_le_bytes).as_flattened());
    }
    *numbers = unit.to_numbers();
    ACCEPTED
}
