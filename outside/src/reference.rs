//! The section, the rounding, the limiting, the refusals and the house set, written from the specification. Quoted
//! sentences are the specification's.
//!
//! Two forms stand side by side. `exact` is the plain meaning, in i128 with floor division. `fast` is what one would
//! write for use, in i64 with shifts. The comparison holds them against each other as well as against the library.

/// "A word is a whole number from -8,388,608 to 8,388,607 (24 bits, unit 2^-23)."
pub const WORD_MIN: i32 = -8_388_608;
pub const WORD_MAX: i32 = 8_388_607;

/// A section as it crosses the C ABI: A, B, G, x1, x2, y1, y2.
pub type Section = [i32; 7];

/// Accepted, and the numbers of "The filter designer" and of "Whoever steps a section alone".
pub const ACCEPTED: u32 = 0;
pub const REFUSED_A: u32 = 8;
pub const REFUSED_B: u32 = 9;
pub const REFUSED_G: u32 = 10;
pub const NO_WORD: u32 = 15;

/// Table 1 of the note: alpha, beta, gamma for the centre frequencies 31, 62, 125, 250, 500, 1000, 2000,
/// 4000, 8000, 16000 Hz. The listing's figures, which differ from these, are not used.
pub const TABLE_1: [[&str; 3]; 10] = [
    ["0.000787462865", "0.498425074", "0.998415336"],
    ["0.00157244917", "0.496855102", "0.996816209"],
    ["0.00316016172", "0.493679677", "0.993522095"],
    ["0.00628062774", "0.487438745", "0.986812425"],
    ["0.0124054279", "0.475189144", "0.972715729"],
    ["0.0242101804", "0.451579639", "0.941937749"],
    ["0.0461841095", "0.407631781", "0.871031797"],
    ["0.0845577687", "0.330884463", "0.699565951"],
    ["0.1199464", "0.2601072", "0.3176087"],
    ["0.159603", "0.1800994", "-0.4435172"],
];

/// "The house set is Table 1 of the note, each figure × 2^23 to the nearest whole number": A, B, G of each band in turn.
pub fn house_set() -> [i32; 30] {
    std::array::from_fn(|n| figure_to_word(TABLE_1[n / 3][n % 3]))
}

/// A decimal figure × 2^23 to the nearest whole number, in whole numbers only. No figure of the table lies halfway
/// between two.
pub fn figure_to_word(figure: &str) -> i32 {
    let size = figure.trim_start_matches('-');
    let decimals = size.strip_prefix("0.").expect("a figure begins 0.");
    let digits: i128 = decimals.parse().expect("decimal digits");
    let one = 10_i128.pow(decimals.len() as u32);
    let scaled = digits * (1 << 23);
    let (below, over) = (scaled / one, scaled % one);
    assert!(2 * over != one, "{figure} lies halfway between two words");
    let nearest = if 2 * over > one { below + 1 } else { below };
    (if figure.starts_with('-') { -nearest } else { nearest }) as i32
}

/// True for a word.
pub fn is_word(number: i32) -> bool {
    (WORD_MIN..=WORD_MAX).contains(&number)
}

/// "Accepted: A from 0 to 8,388,607; B from -4,194,303 to 4,194,303; |G| less than 4,194,304 + B". Refused with the
/// first that applies of "8 (A), 9 (B), 10 (G)".
pub fn band_refusal(a: i32, b: i32, g: i32) -> u32 {
    if !(0..=8_388_607).contains(&a) {
        REFUSED_A
    } else if !(-4_194_303..=4_194_303).contains(&b) {
        REFUSED_B
    } else if i64::from(g).abs() >= 4_194_304 + i64::from(b) {
        REFUSED_G
    } else {
        ACCEPTED
    }
}

/// "Whoever steps a section alone: 8 to 10, then 15 where x or one of the four remembered numbers is no word".
pub fn step_refusal(section: &Section, x: i32) -> u32 {
    let [a, b, g, x1, x2, y1, y2] = *section;
    let band = band_refusal(a, b, g);
    if band != ACCEPTED {
        band
    } else if [x, x1, x2, y1, y2].into_iter().all(is_word) {
        ACCEPTED
    } else {
        NO_WORD
    }
}

/// What a step gives, as it crosses the C ABI.
#[repr(C)]
#[derive(Clone, Copy, Debug, Default, PartialEq, Eq)]
pub struct Step {
    pub y: i32,
    pub remainder: i32,
    /// 1 where the section has limited, else 0.
    pub limited: u32,
    pub refusal: u32,
}

impl Step {
    /// After a refusal "the result and the remainder are 0".
    pub fn refused(refusal: u32) -> Step {
        Step { refusal, ..Step::default() }
    }
}

/// The plain meaning.
pub mod exact {
    use super::{step_refusal, Section, Step, ACCEPTED, WORD_MAX, WORD_MIN};

    /// v / 2^k by "Rounding to nearest, halves to even".
    pub fn nearest(v: i64, k: u32) -> i64 {
        // From k = 65 on, v / 2^k is at most a quarter in size and so rounds to 0, as it does at 100.
        let unit = 1_i128 << k.min(100);
        let below = i128::from(v).div_euclid(unit);
        let over = i128::from(v).rem_euclid(unit);
        let up = if 2 * over == unit { below.rem_euclid(2) == 1 } else { 2 * over > unit };
        (if up { below + 1 } else { below }) as i64
    }

    /// The number limited to low..high; low is tested first.
    pub fn limit(v: i64, low: i64, high: i64) -> i64 {
        if v < low {
            low
        } else if high < v {
            high
        } else {
            v
        }
    }

    /// "S = A × (x - x2) + G × y1 - B × y2, exact."
    pub fn sum(section: &Section, x: i32) -> i128 {
        let [a, b, g, _, x2, y1, y2] = section.map(i128::from);
        a * (i128::from(x) - x2) + g * y1 - b * y2
    }

    /// What S gives: "y is S / 2^22 rounded, then limited to a word. The section has limited in this step exactly when
    /// the rounded number was no word." The remainder is "S less 2^22 times the rounded number, before limiting".
    pub fn worked(sum: i128) -> Step {
        let rounded = nearest(sum as i64, 22);
        let remainder = (sum - 4_194_304 * i128::from(rounded)) as i32;
        let y = limit(rounded, i64::from(WORD_MIN), i64::from(WORD_MAX)) as i32;
        Step { y, remainder, limited: u32::from(rounded != i64::from(y)), refusal: ACCEPTED }
    }

    /// "x1 passes to x2 and x to x1, y1 to y2 and y to y1: the limited y is the one remembered."
    pub fn pass_on(section: &mut Section, x: i32, y: i32) {
        let [a, b, g, x1, _, y1, _] = *section;
        *section = [a, b, g, x, x1, y, y1];
    }

    /// One step of a section alone. After a refusal "the section is unchanged."
    pub fn step(section: &mut Section, x: i32) -> Step {
        let refusal = step_refusal(section, x);
        if refusal != ACCEPTED {
            return Step::refused(refusal);
        }
        let step = worked(sum(section, x));
        pass_on(section, x, step.y);
        step
    }
}

/// What one would write for use: i64, shifts, no division.
pub mod fast {
    use super::{step_refusal, Section, Step, ACCEPTED, WORD_MAX, WORD_MIN};

    /// v / 2^k rounded to nearest, halves to even.
    pub fn nearest(v: i64, k: u32) -> i64 {
        match k {
            0 => v,
            1..=63 => {
                let below = v >> k;
                let over = v - (below << k);
                let half = 1 << (k - 1);
                let up = over > half || (over == half && below & 1 == 1);
                below + i64::from(up)
            }
            _ => 0,
        }
    }

    /// S / 2^22 rounded. S is under 2^48 in size, so the sum can't overflow: just under a half is added to an even
    /// quotient and a half to an odd one.
    fn round_sum(sum: i64) -> i64 {
        let odd = (sum >> 22) & 1;
        (sum + ((1 << 21) - 1) + odd) >> 22
    }

    /// One step of a section.
    #[inline]
    pub fn step(section: &mut Section, x: i32) -> Step {
        let refusal = step_refusal(section, x);
        if refusal != ACCEPTED {
            return Step::refused(refusal);
        }
        let [a, b, g, x1, x2, y1, y2] = *section;
        let inputs = i64::from(a) * i64::from(x - x2);
        let results = i64::from(g) * i64::from(y1) - i64::from(b) * i64::from(y2);
        let sum = inputs + results;
        let rounded = round_sum(sum);
        let limited = rounded.clamp(i64::from(WORD_MIN), i64::from(WORD_MAX));
        let y = limited as i32;
        section[3..].copy_from_slice(&[x, x1, y, y1]);
        Step { y, remainder: (sum - (rounded << 22)) as i32, limited: u32::from(limited != rounded), refusal }
    }
}
