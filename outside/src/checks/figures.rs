//! The figures of the specification, asked of a subject. Whatever is asked is compared with the reference as well.

use super::run::{Checked, Run};
use super::sheet_makers::without_remainders;
use crate::figures::*;
use crate::reference::{Section, Step, ACCEPTED};
use crate::unit::orders::{Order, BOTH, VOLUME_BAND};
use crate::unit::sheet::{exact, SHEET};
use crate::unit::{cleared, feeds_back, house_unit, strip_at, Numbers, VOLUME};
use crate::unit::{FEEDBACK_COUNT, GAIN, LEFT, REMAINDER, RIGHT, STRIPS, UNIT_COUNT};

/// The present gain of a band; its target stands behind it.
fn gain(side: usize, band: usize) -> usize {
    strip_at(side, band) + GAIN
}

impl Run<'_> {
    fn step_gives(&mut self, section: &mut Section, x: i32, limited: bool, [y, remainder]: [i32; 2]) -> Checked {
        let before = *section;
        let answer = self.subject.section_step(&mut before.clone(), x);
        self.step(section, x)?;
        let expected = Step { y, remainder, limited: limited.into(), refusal: ACCEPTED };
        self.same(expected, answer, || format!("step of {before:?} with x = {x}"))
    }

    /// A list with its results and its remainders, an entry behind the first and two behind the others.
    fn preview_gives(&mut self, band: [i32; 3], words: &[i32], given: [&[i32]; 2]) -> Checked {
        let behind: [&[i32]; 2] = [&[i32::MIN], &[i32::MAX, i32::MIN]];
        let mut lent = behind.map(|behind| [vec![7; words.len()], behind.to_vec()].concat());
        self.preview_into(band, words, &lent)?;
        let answer = self.asked_preview(band, words, &mut lent);
        let expected = [0, 1].map(|buffer| [given[buffer], behind[buffer]].concat());
        self.same((ACCEPTED, expected), (answer, lent), || format!("preview with {band:?} of {words:?}"))
    }

    /// A level in silence: after all frames but one, after all, and after one more.
    fn slope(&mut self, mut numbers: Numbers, level: usize, (far, way, frames): (i32, i32, i32)) -> Checked {
        let mut levels = Vec::new();
        for length in [frames - 1, 1, 1] {
            let silence = vec![0; 4 * length as usize];
            self.block(&mut numbers, &silence, silence.len())?;
            levels.push(numbers[level]);
        }
        let expected = vec![way * (frames - 1), far, far];
        self.same(expected, levels, || format!("number {level} from 0 to {far} in {frames} frames"))
    }

    /// Ten bands all 31 Hz, loaded, and the frame played.
    fn ten_alike(&mut self) -> Checked {
        let set: [i32; 30] = std::array::from_fn(|n| FIRST_TWO[n % 3]);
        let mut numbers = [-1; UNIT_COUNT];
        let answer = self.subject.load(&mut numbers, &set);
        let mut expected = cleared(&set);
        self.same((ACCEPTED, expected), (answer, numbers), || "ten bands all 31 Hz".to_string())?;
        let sound = self.block(&mut numbers, &FRAME, 4)?;
        expected[LEFT] = RUN_WORDS[0];
        for band in 0..10 {
            let strip = strip_at(LEFT, band);
            expected[strip] = RUN_RESULTS[0];
            expected[strip + REMAINDER] = if feeds_back(band) { RUN_REMAINDERS[0] } else { 0 };
        }
        self.same((vec![0; 4], expected), (sound, numbers), || "ten bands after the frame (1000, 0)".to_string())
    }

    /// Quiet frames through ten bands all 31 Hz, the same on both sides.
    fn quiet_run(&mut self) -> Checked {
        let mut numbers = cleared(&std::array::from_fn(|n| FIRST_TWO[n % 3]));
        for (place, (sample, fed, plain)) in QUIET_RUN.into_iter().enumerate() {
            self.block(&mut numbers, [sample; 2].map(i16::to_le_bytes).as_flattened(), 4)?;
            for (side, band) in [LEFT, RIGHT].into_iter().flat_map(|side| (0..10).map(move |band| (side, band))) {
                let strip = strip_at(side, band);
                let got = [numbers[strip], numbers[strip + REMAINDER]];
                self.same(if feeds_back(band) { fed } else { plain }, got, || {
                    format!("quiet frame {place}, band {band}")
                })?;
            }
        }
        Ok(())
    }

    /// A frame through four sections alike on a side, with this remainder each. The other bands are silent.
    fn fed_step_gives(&mut self, side: usize, (given, remainder, limited, y, carried): FedStep) -> Checked {
        let set = std::array::from_fn(|n| if feeds_back(n / 3) { FED_BAND[n % 3] } else { 0 });
        let (mut numbers, mut expected) = (cleared(&set), cleared(&set));
        let [x, y1, y2] = given;
        expected[side] = x;
        expected[side + 2] = limited.into();
        for strip in (0..FEEDBACK_COUNT).map(|band| strip_at(side, band)) {
            (numbers[strip], numbers[strip + 1], numbers[strip + REMAINDER]) = (y1, y2, remainder);
            (expected[strip], expected[strip + 1], expected[strip + REMAINDER]) = (y, y1, carried);
        }
        let sample = (x / 256) as i16;
        let frame = if side == LEFT { [sample, 0] } else { [0, sample] };
        self.block(&mut numbers, frame.map(i16::to_le_bytes).as_flattened(), 4)?;
        self.same(expected, numbers, || format!("x, y1, y2 = {given:?} with the remainder {remainder}"))
    }

    /// One order on a unit: the answer, and the unit with the target at exactly these places, or as it was.
    fn order_gives(&mut self, order: &Order, wanted: Wanted, targets: &[usize]) -> Checked {
        let mut expected = house_unit();
        (0..).zip(&mut expected[LEFT + STRIPS..RIGHT]).for_each(|(n, number)| *number = n);
        (FEEDBACK_COUNT..10).for_each(|band| expected[strip_at(LEFT, band) + REMAINDER] = 0);
        expected[VOLUME + 1] = 7;
        let mut got = expected;
        if let Ok(target) = wanted {
            targets.iter().for_each(|&place| expected[place] = target);
        }
        let answer = self.order(&mut got, order)?;
        let number = wanted.err().unwrap_or(ACCEPTED);
        self.same((number, expected), (answer, got), || format!("{order:?}"))
    }

    /// The order for each side and band, with these targets of a band and of the volume.
    fn every_place(&mut self, order: impl Fn(u32, u32) -> Order, of_band: Wanted, of_volume: Wanted) -> Checked {
        for band in 0..10 {
            let targets = [LEFT, RIGHT].map(|side| gain(side, band as usize) + 1);
            self.order_gives(&order(0, band), of_band, &targets[..1])?;
            self.order_gives(&order(1, band), of_band, &targets[1..])?;
            self.order_gives(&order(BOTH, band), of_band, &targets)?;
        }
        self.order_gives(&order(BOTH, VOLUME_BAND), of_volume, &[VOLUME + 1])
    }

    /// A unit whose sheet must be these lines: written, and read back; and read from the short sheet, without its
    /// remainders.
    fn sheet_gives(&mut self, numbers: &Numbers, lines: Lines) -> Checked {
        let mut expected = sheet(lines);
        expected.extend([0xAA; 7]);
        let buffer = self.write(exact::write, numbers, &[0xAA; SHEET + 7])?;
        self.same(&expected, &buffer, || format!("sheet of {numbers:?}"))?;
        let unfit = [-1; UNIT_COUNT];
        for (sheet, numbers) in [(sheet(lines), *numbers), (short_sheet(lines), without_remainders(numbers))] {
            self.read_into(&unfit, &sheet)?;
            self.leaves(&sheet, &unfit, (ACCEPTED, numbers))?;
        }
        Ok(())
    }
}

pub fn of_sections(run: &mut Run) -> Checked {
    for (s, y, remainder) in ROUNDED {
        run.same(y.into(), run.subject.nearest(s.into(), 22), || format!("S = {s}"))?;
        // With B = G = 0 and x = 1 or -1, S is A or -A.
        run.step_gives(&mut [s.abs(), 0, 0, 0, 0, 0, 0], s.signum(), false, [y, remainder])?;
    }
    for (mut section, x, limited, y, remainder) in STEPS_AT_THE_ENDS {
        run.step_gives(&mut section, x, limited, [y, remainder])?;
    }
    let house = run.subject.house_set();
    run.same(&FIRST_TWO[..], &house[..6], || "house set".to_string())?;
    let mut section = [house[0], house[1], house[2], 0, 0, 0, 0];
    for (place, x) in RUN_WORDS.into_iter().enumerate() {
        run.step_gives(&mut section, x, false, [RUN_RESULTS[place], RUN_REMAINDERS[place]])?;
    }
    Ok(())
}

pub fn of_previews(run: &mut Run) -> Checked {
    for (s, y, remainder) in ROUNDED {
        run.preview_gives([s.abs(), 0, 0], &[s.signum()], [&[y], &[remainder]])?;
    }
    for (band, words, results, remainders) in PREVIEWS_AT_THE_ENDS {
        run.preview_gives(band, &words, [&results, &remainders])?;
    }
    let house = run.subject.house_set();
    run.preview_gives([house[0], house[1], house[2]], &RUN_WORDS, [&RUN_RESULTS, &RUN_REMAINDERS])?;
    Ok(())
}

pub fn of_units(run: &mut Run) -> Checked {
    for (target, volume, sample) in QUIET {
        let mut numbers = house_unit();
        numbers[VOLUME + 1] = target;
        let output = run.block(&mut numbers, &[255, 127, 255, 127], 4)?;
        let expected = (vec![sample, 0, sample, 0], volume);
        run.same(expected, (output, numbers[VOLUME]), || format!("a full sample at V = {volume}"))?;
    }
    let bands = [gain(LEFT, 0), gain(LEFT, 9), gain(RIGHT, 9)].map(|level| (level, BAND_31));
    for (level, figure) in bands.into_iter().chain([(VOLUME, VOLUME_31)]) {
        let mut numbers = house_unit();
        numbers[level + 1] = figure.0;
        run.slope(numbers, level, figure)?;
    }
    run.ten_alike()?;
    run.quiet_run()?;
    for (side, frame) in [(LEFT, FRAME), (RIGHT, [0, 0, FRAME[0], FRAME[1]])] {
        let mut numbers = house_unit();
        let strip = strip_at(side, 0);
        for (place, input) in [frame, frame, [0; 4]].into_iter().enumerate() {
            run.block(&mut numbers, &input, 4)?;
            let got = [numbers[strip], numbers[strip + REMAINDER]];
            run.same([RUN_RESULTS[place], RUN_CARRIED[place]], got, || {
                format!("frame {place} through the 31 Hz band")
            })?;
        }
        FED_STEPS.into_iter().try_for_each(|step| run.fed_step_gives(side, step))?;
    }
    Ok(())
}

pub fn of_orders(run: &mut Run) -> Checked {
    for (bits, of_band, of_volume) in FACTORS {
        run.every_place(|side, band| Order::factor(side, band, f32::from_bits(bits)), of_band, of_volume)?;
    }
    for (position, of_band, of_volume) in POSITIONS {
        run.every_place(|side, band| Order::position(side, band, position), Ok(of_band), Ok(of_volume))?;
    }
    run.every_place(Order::mute, Ok(BAND_MUTED.0), Ok(0))?;
    for (order, level, figure) in [
        (Order::position(0, 0, 31), gain(LEFT, 0), BAND_31),
        (Order::position(1, 9, 31), gain(RIGHT, 9), BAND_31),
        (Order::position(BOTH, 4, 31), gain(LEFT, 4), BAND_31),
        (Order::position(BOTH, 4, 31), gain(RIGHT, 4), BAND_31),
        (Order::position(BOTH, VOLUME_BAND, 31), VOLUME, VOLUME_31),
        (Order::mute(0, 1), gain(LEFT, 1), BAND_MUTED),
        (Order::mute(BOTH, 9), gain(RIGHT, 9), BAND_MUTED),
    ] {
        let mut numbers = house_unit();
        run.order(&mut numbers, &order)?;
        run.slope(numbers, level, figure)?;
    }
    Ok(())
}

/// The numbers of a sheet, by the standard library; 0 for the remainder of an S line without one.
fn numbers_of(lines: Lines) -> Numbers {
    let text = String::from_utf8(sheet(lines)).expect("a typed sheet");
    let mut numbers: Vec<i32> = Vec::new();
    for line in text.lines() {
        let fields = line[1..].split_whitespace().map(|field| field.parse().expect("a number"));
        let count = fields.clone().count();
        numbers.extend(fields.chain((count == 4).then_some(0)));
    }
    numbers.try_into().expect("as many as a unit has")
}

/// The frame is played by a unit that comes from a sheet.
pub fn of_sheets(run: &mut Run) -> Checked {
    let mut numbers = [-1; UNIT_COUNT];
    run.subject.load(&mut numbers, &FIRST_TWO[..3].repeat(10));
    run.sheet_gives(&numbers, CLEARED)?;
    run.subject.sheet_read(&mut numbers, &sheet(CLEARED));
    let mut sound = [7; 4];
    let answer = run.subject.block(&mut numbers, &FRAME, &mut sound);
    run.same((ACCEPTED, [0; 4]), (answer, sound), || "the frame (1000, 0)".to_string())?;
    run.sheet_gives(&numbers, PLAYED)?;
    run.sheet_gives(&numbers_of(ENDS), ENDS)?;
    Ok(())
}
