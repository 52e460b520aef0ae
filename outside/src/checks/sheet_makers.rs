//! Fit units with numbers of every length, their sheets, and the units that a reading is given.

use super::fitness::spoilt;
use super::units::{kind, strips, Kind, Sets};
use crate::random::Random;
use crate::reference::{WORD_MAX, WORD_MIN};
use crate::unit::sheet::places::{Length, Lines, LENGTHS, LONG, SHORT};
use crate::unit::sheet::{exact, FIELD, SHEET, SHORT_SHEET};
use crate::unit::{cleared, house_unit, Numbers, REMAINDER, REMAINDER_SIZE, UNIT_COUNT};

/// A number of any count of digits, brought into this range; often the least or the most of that count.
fn any_length([low, high]: [i32; 2], random: &mut Random) -> i32 {
    let least = random.pick(&[1, 10, 100, 1_000, 10_000, 100_000, 1_000_000, 10_000_000]);
    let any = random.between(least, 10 * least - 1);
    let size = random.pick(&[least - 1, least, any, any]);
    let sign = if low < 0 { random.pick(&[1, -1]) } else { 1 };
    (sign * size).clamp(low, high)
}

/// A number of this range, by its style: 0 cleared, 1 of one digit, 2 of any count of digits, 3 at the ends of the
/// range or beside them, 4 anywhere, 5 of any of these.
fn number(style: u64, [low, high]: [i32; 2], random: &mut Random) -> i32 {
    match style {
        0 => 0,
        1 => random.between(-9, 9).clamp(low, high),
        2 => any_length([low, high], random),
        3 => random.pick(&[low, low + 1, high - 1, high]).clamp(low, high),
        4 => random.between(low, high),
        _ => number(random.below(5), [low, high], random),
    }
}

/// The range of a number of this kind; that of G goes by the B before it.
fn range(kind: Kind, b: i32) -> [i32; 2] {
    match kind {
        Kind::Volume | Kind::Coefficient(0) => [0, WORD_MAX],
        Kind::Coefficient(1) => [-4_194_303, 4_194_303],
        Kind::Coefficient(_) => [-4_194_303 - b, 4_194_303 + b],
        Kind::Flag => [0, 1],
        Kind::Input | Kind::Strip => [WORD_MIN, WORD_MAX],
        Kind::Remainder => [-REMAINDER_SIZE, REMAINDER_SIZE],
        Kind::NoRemainder => [0, 0],
    }
}

/// What sheets are made with.
pub struct SheetMaker {
    pub random: Random,
    sets: Sets,
    given: Vec<Numbers>,
    bytes: Vec<u8>,
}

impl SheetMaker {
    pub fn new(seed: u64) -> SheetMaker {
        let mut maker = SheetMaker {
            random: Random::new(seed),
            sets: Sets::all(),
            given: vec![[-1; UNIT_COUNT], [i32::MIN; UNIT_COUNT], [i32::MAX; UNIT_COUNT]],
            bytes: Vec::new(),
        };
        let fit = [3, 4, 5].map(|turn| maker.unit(turn));
        let unfit = fit.map(|numbers| spoilt(&numbers, &mut maker.random));
        let anything = [(); UNIT_COUNT].map(|()| maker.random.any_i32());
        maker.given.extend(fit);
        maker.given.extend(unfit);
        maker.given.extend([anything, house_unit()]);
        maker.bytes = (0..20_000).map(|_| maker.random.draw() as u8).collect();
        maker
    }

    /// A fit unit, by turns of each style.
    pub fn unit(&mut self, turn: u64) -> Numbers {
        let style = turn % 6;
        if style == 0 {
            return cleared(&self.sets.draw(turn / 6, &mut self.random));
        }
        let mut numbers = [0; UNIT_COUNT];
        for place in 0..UNIT_COUNT {
            let kind = kind(place);
            let before = if place == 0 { 0 } else { numbers[place - 1] };
            let number = number(style, range(kind, before), &mut self.random);
            numbers[place] = if kind == Kind::Input { number & -256 } else { number };
        }
        numbers
    }

    /// The sheet of such a unit.
    pub fn sheet(&mut self, turn: u64) -> Vec<u8> {
        sheet_of(&self.unit(turn))
    }

    /// The sheet of such a unit, of any length.
    pub fn any_sheet(&mut self, turn: u64) -> Vec<u8> {
        self.random.pick(&LENGTHS).sheet_of(&self.unit(turn))
    }

    /// A unit to read into: fit, unfit in some numbers or in all.
    pub fn given(&mut self) -> Numbers {
        self.random.pick(&self.given)
    }

    /// Up to 10,000 bytes.
    pub fn bytes(&mut self, count: usize) -> Vec<u8> {
        let begin = self.random.below(10_000) as usize;
        self.bytes[begin..begin + count].to_vec()
    }
}

/// The sheet of a fit unit.
pub fn sheet_of(numbers: &Numbers) -> Vec<u8> {
    let mut sheet = vec![0; SHEET];
    assert_eq!(exact::write(numbers, &mut sheet), SHEET, "a fit unit");
    sheet
}

/// A sheet without its fifth fields: the short one of the same unit.
pub fn shortened(sheet: &[u8]) -> Vec<u8> {
    let mut short = Vec::with_capacity(SHORT_SHEET);
    for (line, cut) in LONG.lines.iter().zip(SHORT.lines) {
        short.extend_from_slice(&sheet[line.begin..line.begin + 1 + FIELD * cut.count]);
        short.push(sheet[line.end()]);
    }
    short
}

/// The lines of a sheet, by its length.
pub fn lines_of(sheet: &[u8]) -> &'static Lines {
    Length::of(sheet.len()).expect("a sheet").lines
}

/// A unit with every remainder 0.
pub fn without_remainders(numbers: &Numbers) -> Numbers {
    let mut without = *numbers;
    strips(&mut without).for_each(|strip| strip[REMAINDER] = 0);
    without
}

impl Length {
    /// The sheet of this length of a fit unit.
    pub fn sheet_of(self, numbers: &Numbers) -> Vec<u8> {
        match self.bytes {
            SHORT_SHEET => shortened(&sheet_of(numbers)),
            _ => sheet_of(numbers),
        }
    }

    /// The unit that this sheet reads as.
    pub fn carried(self, numbers: &Numbers) -> Numbers {
        match self.bytes {
            SHORT_SHEET => without_remainders(numbers),
            _ => *numbers,
        }
    }
}
