//! The floating preview of a section. Quoted sentences are the specification's.
//!
//! Two forms stand side by side, as for the section. `exact` is the plain meaning: the exact section, stepped over the
//! list. `fast` is what one would write for use, in f64.

use crate::reference::{band_refusal, is_word, ACCEPTED, NO_WORD};

/// "6 (either buffer shorter than the words)".
pub const BUFFER_TOO_SHORT: u32 = 6;

/// "8 to 10, then 6 (either buffer shorter than the words), then 15 a number that is no word."
fn refusal([a, b, g]: [i32; 3], words: &[i32], rooms: [usize; 2]) -> u32 {
    match band_refusal(a, b, g) {
        ACCEPTED if rooms.into_iter().any(|room| room < words.len()) => BUFFER_TOO_SHORT,
        // None is left out after a wrong one, so several are tested at a time.
        ACCEPTED if !words.iter().fold(true, |all, &word| all & is_word(word)) => NO_WORD,
        refusal => refusal,
    }
}

/// The plain meaning.
pub mod exact {
    use super::refusal;
    use crate::reference::{exact, Section, Step, ACCEPTED};

    /// "For an accepted band and any list of words, from a cleared start its results and remainders equal the
    /// section's". After a refusal "both buffers are unchanged; after an accepted call entries past the results, and
    /// past the remainders, keep their contents." Each step is shown: the section before it, x and the answer.
    pub fn preview(
        band: [i32; 3],
        words: &[i32],
        [results, remainders]: [&mut [i32]; 2],
        mut show: impl FnMut(&Section, i32, Step),
    ) -> u32 {
        let refusal = refusal(band, words, [results.len(), remainders.len()]);
        if refusal != ACCEPTED {
            return refusal;
        }
        let [a, b, g] = band;
        let mut section = [a, b, g, 0, 0, 0, 0];
        for ((result, remainder), &x) in results.iter_mut().zip(remainders).zip(words) {
            let before = section;
            let answer = exact::step(&mut section, x);
            show(&before, x, answer);
            (*result, *remainder) = (answer.y, answer.remainder);
        }
        ACCEPTED
    }
}

/// What one would write for use: "coefficients and delayed words as f64".
pub mod fast {
    use super::refusal;
    use crate::reference::{ACCEPTED, WORD_MAX, WORD_MIN};

    /// 1.5 × 2^52. An f64 of that size has no fraction, so a number that this is added to and taken from again is
    /// rounded to nearest, halves to even.
    const WHOLE: f64 = 6_755_399_441_055_744.0;

    /// The coefficients over 2^22, the delayed words, and G × y1, which is worked as soon as y1 is known. All products
    /// and sums are exact: multiples of 2^-22 below 2^26.
    #[derive(Default)]
    struct Preview {
        a: f64,
        b: f64,
        g: f64,
        x1: f64,
        x2: f64,
        y1: f64,
        y2: f64,
        g_y1: f64,
    }

    impl Preview {
        fn cleared(band: [i32; 3]) -> Preview {
            let [a, b, g] = band.map(|word| f64::from(word) / 4_194_304.0);
            Preview { a, b, g, ..Preview::default() }
        }

        /// The next y and the remainder. The sum is S / 2^22, so 2^22 times what rounding took from it is what it took
        /// from S.
        #[inline(always)]
        fn step(&mut self, x: f64) -> (f64, f64) {
            let sum = self.a * (x - self.x2) - self.b * self.y2 + self.g_y1;
            let rounded = (sum + WHOLE) - WHOLE;
            let y = rounded.clamp(f64::from(WORD_MIN), f64::from(WORD_MAX));
            (self.x2, self.x1) = (self.x1, x);
            (self.y2, self.y1, self.g_y1) = (self.y1, y, self.g * y);
            (y, (sum - rounded) * 4_194_304.0)
        }
    }

    /// Previews a list.
    pub fn preview(band: [i32; 3], words: &[i32], results: &mut [i32], remainders: &mut [i32]) -> u32 {
        let refusal = refusal(band, words, [results.len(), remainders.len()]);
        if refusal != ACCEPTED {
            return refusal;
        }
        let mut preview = Preview::cleared(band);
        for ((result, remainder), &x) in results.iter_mut().zip(remainders).zip(words) {
            let (y, left) = preview.step(f64::from(x));
            (*result, *remainder) = (y as i32, left as i32);
        }
        ACCEPTED
    }
}
