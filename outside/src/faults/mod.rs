//! Wrong implementations: the fast form with one thing spoiled. The comparison must find a difference in each, in every
//! group named beside it; a comparison that passes one of them is itself wrong.

mod feedback;
mod sheets;
pub mod sound;
mod waves;

use self::feedback::{block_fed, clear_remainders, keep_remainders, narrowed, preview_fed, Feedback, FEEDBACK};
use self::sheets::{
    exchanged, flag_2, four_blanks_for_eight, last_line_unread, letters_first, remainders_unread, right_side_short,
    wide_remainders, write_short,
};
use self::sound::{
    block_with, frames_with, halves_up, levels, mix, nine_first, order_with, output, output_unlimited, passes_and,
    past_target, preview_with, raise_flags, step_leaving, step_with, worked_again, wrapped, PASS,
};
use self::waves::{number, read_by, write_riff, write_with, Rules, RULES};
use crate::checks::groups::*;
use crate::preview::{fast::preview, BUFFER_TOO_SHORT};
use crate::reference::fast::{nearest, step};
use crate::reference::{
    band_refusal, house_set, is_word, Step, ACCEPTED, NO_WORD, REFUSED_A, REFUSED_G, TABLE_1, WORD_MAX, WORD_MIN,
};
use crate::subject::{Form, FAST};
use crate::unit::fast::{block, fit, level_moved};
use crate::unit::orders::fast::{order, refusal};
use crate::unit::orders::{Order, Setting, BOTH, NO_SIDE_AND_BAND, POSITION_OVER_31};
use crate::unit::sheet::fast::{read, write};
use crate::unit::sheet::{BADLY_WRITTEN, NOT_A_SHEET, OUTSIDE, SHEET, SHORT_SHEET};
use crate::unit::{block_refusal, cleared, house_unit, load, strip_at, LEFT, REMAINDER};
use crate::unit::{OUTPUT_TOO_SHORT, PART_OF_A_FRAME, UNFIT};
use crate::wave::{read as read_wave, refused, walk, write as write_wave};
use crate::wave::{FORMAT, HEADING, MOST, NO_DATA, NO_WAVE, OTHER_FORMAT};

/// A wrong implementation, in words, and the groups that must find it.
pub struct Wrong {
    pub name: &'static str,
    pub found_by: &'static [Group],
    pub form: Form,
}

/// What is wrong, the groups that must find it, and the functions of the fast form that are replaced.
macro_rules! wrong {
    ($($name:literal [$($group:ident)+] $($function:ident = $spoiled:expr),+;)*) => {
        pub const WRONG: &[Wrong] = &[$(Wrong {
            name: $name,
            found_by: &[$($group),+],
            form: Form { $($function: $spoiled,)+ ..FAST },
        }),*];
    };
}

/// What the wrong sections, units and readers have in common, with nothing wrong in it; and the units that go by other
/// rules for their remainders.
pub const RIGHT: Form = Form {
    section_step: |section, x| step_with(section, x, |products| nearest(products.iter().sum(), 22)),
    block: |unit, input, sound| {
        frames_with(unit, input, sound, |_, after, frame| {
            worked_again(frame, |side| output(after, mix(after, after, side)))
        })
    },
    wave_read: |file| read_by(file, RULES),
    ..FAST
};
pub const RIGHT_FED: Form = Form { block: |unit, input, sound| block_fed(unit, input, sound, FEEDBACK), ..FAST };

wrong! {
    "halves rounded upwards" [NEAREST LISTS CORNERS FIGURES]
        nearest = halves_up,
        section_step = |section, x| step_with(section, x, |products| halves_up(products.iter().sum(), 22));
    "each product rounded by itself" [LISTS CORNERS FIGURES]
        section_step = |section, x| step_with(section, x, |products| products.map(|v| nearest(v, 22)).iter().sum());
    "the word left to wrap" [LISTS CORNERS FIGURES]
        section_step = |section, x| step_with(section, x, |products| wrapped(nearest(products.iter().sum(), 22)));
    "counted as limited where y is at the end of a word" [CORNERS FIGURES]
        section_step = |section, x| match step(section, x) {
            right @ Step { y: WORD_MIN | WORD_MAX, .. } => Step { limited: 1, ..right },
            right => right,
        };
    "the remainder taken after limiting" [LISTS CORNERS FIGURES]
        section_step = |section, x| step_leaving(section, x, |sum, right| (sum - (i128::from(right.y) << 22)) as i32);
    "the remainder's sign turned" [LISTS CORNERS FIGURES]
        section_step = |section, x| step_leaving(section, x, |_, right| -right.remainder);
    "no remainder of a step that limits" [LISTS CORNERS FIGURES]
        section_step = |section, x| step_leaving(section, x, |_, right| match right.limited {
            0 => right.remainder,
            _ => 0,
        });
    "what lies above the number below in place of the remainder" [LISTS CORNERS FIGURES]
        section_step = |section, x| step_leaving(section, x, |sum, _| sum.rem_euclid(1 << 22) as i32);
    "a remainder of a refused step" [REFUSED]
        section_step = |section, x| match step(section, x) {
            right @ Step { refusal: ACCEPTED, .. } => right,
            right => Step { remainder: 1, ..right },
        };
    "9 tested ahead of 8" [BANDS REFUSED]
        band_refusal = |a, b, g| nine_first(b, band_refusal(a, b, g)),
        section_step = |section, x| {
            let right = step(section, x);
            Step { refusal: nine_first(section[1], right.refusal), ..right }
        };
    "15 tested ahead of 8 to 10" [REFUSED]
        section_step = |section, x| {
            let [_, _, _, x1, x2, y1, y2] = *section;
            let words = [x, x1, x2, y1, y2].into_iter().all(is_word);
            if words { step(section, x) } else { Step::refused(NO_WORD) }
        };
    "high tested ahead of low" [LIMIT]
        limit = |v, low, high| if v > high { high } else { v.max(low) };
    "the shift taken modulo 64" [NEAREST]
        nearest = |v, k| nearest(v, k % 64);
    "the house set cut off, not to the nearest" [HOUSE FIGURES]
        house_set = || {
            let figure = |n: usize| TABLE_1[n / 3][n % 3].parse::<f64>().expect("a decimal figure");
            std::array::from_fn(|n| (figure(n) * 8_388_608.0) as i32)
        };

    "input copied to output" [BLOCKS FRAMES UNIT_FIGURES DISTANCE]
        block = |unit, input, output| block_with(unit, input, output, |_, sound| sound.copy_from_slice(input));
    "silence for an answer" [BLOCKS FRAMES UNIT_FIGURES DISTANCE]
        block = |unit, input, output| block_with(unit, input, output, |_, sound| sound.fill(0));
    "the first frame filtered and repeated" [BLOCKS CUTS DISTANCE]
        block = |unit, input, output| block_with(unit, input, output, |_, sound| {
            (4..sound.len()).for_each(|place| sound[place] = sound[place - 4]);
        });
    "the mix limited before the volume" [BLOCKS FRAMES]
        block = |unit, input, sound| frames_with(unit, input, sound, |_, after, frame| {
            let limited = |m: i64| m.clamp(WORD_MIN.into(), WORD_MAX.into());
            worked_again(frame, |side| output(after, limited(mix(after, after, side))));
        });
    "the output left to wrap" [BLOCKS FRAMES DISTANCE]
        block = |unit, input, sound| frames_with(unit, input, sound, |_, after, frame| {
            worked_again(frame, |side| output_unlimited(after, mix(after, after, side)));
        });
    "gains moved after the sound" [BLOCKS FRAMES LISTS_OF_CALLS DISTANCE]
        block = |unit, input, sound| frames_with(unit, input, sound, |before, after, frame| {
            worked_again(frame, |side| output(after, mix(before, after, side)));
        });
    "a level that steps past its target and comes back" [LEVELS BLOCKS FRAMES UNIT_FIGURES]
        level_moved = past_target,
        block = |unit, input, sound| frames_with(unit, input, sound, |before, after, _| {
            levels().for_each(|(n, slope)| after[n] = past_target(before[n], before[n + 1], slope));
        });
    "levels moved once a block" [BLOCKS CUTS UNIT_FIGURES]
        block = |unit, input, output| {
            let before = *unit;
            block_with(unit, input, output, |unit, _| {
                levels().for_each(|(n, slope)| unit[n] = level_moved(before[n], before[n + 1], slope));
            })
        };
    "the flag raised at the start" [BLOCKS FRAMES UNIT_FIGURES]
        block = |unit, input, output| block_with(unit, input, output, |unit, _| raise_flags(unit));
    "silence with the flags raised at the start" [BLOCKS FRAMES UNIT_FIGURES LISTS_OF_CALLS DISTANCE]
        block = |unit, input, output| block_with(unit, input, output, |unit, sound| {
            raise_flags(unit);
            sound.fill(0);
        });
    "a sample of each block off by one" [BLOCKS FRAMES CUTS LISTS_OF_CALLS DISTANCE]
        block = |unit, input, output| block_with(unit, input, output, |_, sound| {
            sound[sound.len() - 2] ^= 1;
        });
    "the frames behind the last whole 64 left out" [BLOCKS FRAMES CUTS UNIT_FIGURES LISTS_OF_CALLS DISTANCE]
        block = |unit, input, output| passes_and(unit, input, output, |_, _, _| ());
    "a single frame behind whole 64s played twice" [CUTS]
        block = |unit, input, output| {
            let twice = input.len() > PASS && input.len() % PASS == 4;
            passes_and(unit, input, output, |unit, rest, sound| {
                (0..1 + u8::from(twice)).for_each(|_| _ = block(unit, rest, sound));
            })
        };
    "no remainder fed back" [BLOCKS FRAMES CUTS UNIT_FIGURES LISTS_OF_CALLS DISTANCE]
        block = |unit, input, sound| block_fed(unit, input, sound, Feedback {
            feeds: |_| false,
            carried: |_, _, _| 0,
        });
    "band 3 without feedback" [BLOCKS FRAMES CUTS UNIT_FIGURES LISTS_OF_CALLS DISTANCE]
        block = |unit, input, sound| block_fed(unit, input, sound, Feedback {
            feeds: |band| band < 3,
            carried: |band, sums, limits| if band < 3 { (FEEDBACK.carried)(band, sums, limits) } else { 0 },
        });
    "band 4 with feedback" [BLOCKS FRAMES CUTS UNIT_FIGURES LISTS_OF_CALLS]
        block = |unit, input, sound| block_fed(unit, input, sound, Feedback {
            feeds: |band| band < 5,
            carried: |band, sums, limits| (FEEDBACK.carried)(if band == 4 { 3 } else { band }, sums, limits),
        });
    "the remainder of a step that limits carried on" [BLOCKS FRAMES CUTS UNIT_FIGURES LISTS_OF_CALLS]
        block = |unit, input, sound| block_fed(unit, input, sound, Feedback {
            carried: |band, sums, _| (FEEDBACK.carried)(band, sums, false),
            ..FEEDBACK
        });
    "the remainder of S without what was fed back" [BLOCKS FRAMES CUTS UNIT_FIGURES LISTS_OF_CALLS DISTANCE]
        block = |unit, input, sound| block_fed(unit, input, sound, Feedback {
            carried: |band, [sum, _], limits| (FEEDBACK.carried)(band, [sum; 2], limits),
            ..FEEDBACK
        });
    "the remainder taken away in the next step" [BLOCKS FRAMES CUTS UNIT_FIGURES LISTS_OF_CALLS DISTANCE]
        block = |unit, input, sound| block_fed(unit, input, sound, Feedback {
            carried: |band, sums, limits| -(FEEDBACK.carried)(band, sums, limits),
            ..FEEDBACK
        });
    "the remainder carried on, and not fed back" [BLOCKS FRAMES CUTS UNIT_FIGURES LISTS_OF_CALLS DISTANCE]
        block = |unit, input, sound| block_fed(unit, input, sound, Feedback { feeds: |_| false, ..FEEDBACK });
    "the remainders lost between two blocks" [BLOCKS FRAMES CUTS LISTS_OF_CALLS]
        block = |unit, input, output| {
            let mut begun = *unit;
            clear_remainders(&mut begun);
            let refusal = block(&mut begun, input, output);
            if refusal == ACCEPTED && !input.is_empty() { *unit = begun; }
            refusal
        };
    "the remainders cleared by a refused block" [REFUSED_BLOCKS FITNESS]
        block = |unit, input, output| {
            let refusal = block(unit, input, output);
            if refusal != ACCEPTED { clear_remainders(unit); }
            refusal
        };
    "a remainder one too large fit" [FITNESS]
        unit_fit = |unit| fit(&narrowed(unit)).into();
    "a remainder in band 4 fit" [FITNESS]
        unit_fit = |unit| {
            let mut other = *unit;
            other[strip_at(LEFT, 4) + REMAINDER] = 0;
            fit(&other).into()
        };
    "bytes behind the block cleared" [BLOCKS FRAMES CUTS REFUSED_BLOCKS]
        block = |unit, input, output| {
            let behind = input.len().min(output.len());
            output[behind..].fill(0);
            block(unit, input, output)
        };
    "6 tested ahead of 5" [REFUSED_BLOCKS]
        block = |unit, input, output| match block(unit, input, output) {
            PART_OF_A_FRAME if output.len() < input.len() => OUTPUT_TOO_SHORT,
            right => right,
        };
    "14 tested after 5 and 6" [FITNESS]
        block = |unit, input, output| match (block(unit, input, output), block_refusal(true, input.len(), output.len())) {
            (UNFIT, refusal @ (PART_OF_A_FRAME | OUTPUT_TOO_SHORT)) => refusal,
            (right, _) => right,
        };
    "the output cleared by a refused block" [REFUSED_BLOCKS FITNESS]
        block = |unit, input, output| {
            let refusal = block(unit, input, output);
            if refusal != ACCEPTED { output.fill(0); }
            refusal
        };
    "the band set of a refused loading kept" [LOADS]
        load = |unit, set| {
            let refusal = load(unit, set);
            *unit = cleared(set.try_into().unwrap_or(&house_set()));
            refusal
        };
    "the remainders kept by a loading" [LOADS UNIT_FIGURES LISTS_OF_CALLS]
        load = |unit, set| {
            let given = *unit;
            let refusal = load(unit, set);
            keep_remainders(unit, &given);
            refusal
        };
    "the remainders kept by a refused loading" [LOADS]
        load = |unit, set| {
            let given = *unit;
            let refusal = load(unit, set);
            if refusal != ACCEPTED { keep_remainders(unit, &given); }
            refusal
        };
    "the volume kept by a loading" [LOADS UNIT_FIGURES]
        load = |unit, set| {
            let volume = unit[0];
            let refusal = load(unit, set);
            unit[0] = volume;
            refusal
        };

    "each order refused" [ORDERS FACTORS ORDER_FIGURES LISTS_OF_CALLS DISTANCE]
        order = |_, _| NO_SIDE_AND_BAND;
    "positions below 16 on the steeper slope" [ORDERS ORDER_FIGURES LISTS_OF_CALLS DISTANCE]
        order = |unit, given| order_with(unit, given, |right| match given.setting {
            Setting::Position(p @ 0..16) if !given.is_volume() => (i32::from(p) - 16) * 558_681,
            _ => right,
        });
    "the factor cut off, not rounded" [FACTORS ORDER_FIGURES LISTS_OF_CALLS]
        order = |unit, given| order_with(unit, given, |right| match given.setting {
            Setting::Factor(f) => (f * 8_388_608.0) as i32,
            _ => right,
        });
    "halves of factors rounded upwards" [FACTORS ORDER_FIGURES]
        order = |unit, given| order_with(unit, given, |right| match given.setting {
            Setting::Factor(f) => ((f64::from(f) * 8_388_608.0 + 0.5).floor() as i32).min(WORD_MAX),
            _ => right,
        });
    "a muted band left flat" [ORDERS ORDER_FIGURES LISTS_OF_CALLS DISTANCE]
        order = |unit, given| order_with(unit, given, |right| match given.setting {
            Setting::Mute => 0,
            _ => right,
        });
    "a muted band one above the lowest gain" [ORDERS ORDER_FIGURES LISTS_OF_CALLS]
        order = |unit, given| order_with(unit, given, |right| match given.setting {
            Setting::Mute if !given.is_volume() => WORD_MIN + 1,
            _ => right,
        });
    "the volume accepted for side 0" [ORDERS FACTORS LISTS_OF_CALLS DISTANCE]
        order = |unit, given| match given.side {
            0 if given.is_volume() => order(unit, &Order { side: BOTH, ..*given }),
            _ => order(unit, given),
        };
    "the remainders cleared by an order" [ORDERS FACTORS ORDER_FIGURES LISTS_OF_CALLS]
        order = |unit, given| {
            let refusal = order(unit, given);
            if refusal == ACCEPTED { clear_remainders(unit); }
            refusal
        };
    "the remainders cleared by a refused order" [ORDERS FACTORS LISTS_OF_CALLS]
        order = |unit, given| {
            let refusal = order(unit, given);
            if refusal != ACCEPTED { clear_remainders(unit); }
            refusal
        };
    "2 tested ahead of 1" [ORDERS LISTS_OF_CALLS]
        order = |unit, given| match (order(unit, given), given.setting) {
            (NO_SIDE_AND_BAND, Setting::Position(32..)) => POSITION_OVER_31,
            (right, _) => right,
        };
    "14 tested after 1 to 4" [ORDERS FACTORS]
        order = |unit, given| match (order(unit, given), refusal(given)) {
            (UNFIT, refusal @ 1..) => refusal,
            (right, _) => right,
        };
    "side and band taken modulo 256" [ORDERS FACTORS LISTS_OF_CALLS]
        order = |unit, given| order(unit, &Order { side: given.side % 256, band: given.band % 256, ..*given });

    "zeros in place of blanks" [SHEETS SHEET_FIGURES SHEET_LISTS]
        sheet_write = |unit, buffer| {
            let written = write(unit, buffer);
            buffer[..written].iter_mut().filter(|byte| **byte == b' ').for_each(|byte| *byte = b'0');
            written
        };
    "y1 and y2 exchanged in sheets" [SHEETS SHEET_FIGURES SHEET_FIELDS SHEET_LISTS]
        sheet_write = |unit, buffer| write(&exchanged(unit), buffer),
        sheet_read = |unit, bytes| {
            let refusal = read(unit, bytes);
            if refusal == ACCEPTED { *unit = exchanged(unit); }
            refusal
        };
    "the buffer cleared where no sheet is written" [SHEETS]
        sheet_write = |unit, buffer| {
            let written = write(unit, buffer);
            if written == 0 { buffer.fill(0); }
            written
        };
    "all sheets called badly written"
        [SHEETS SHEET_FIGURES SHEET_FIELDS SHEET_LINES DAMAGED_SHEETS SHEET_LENGTHS SHEET_LISTS]
        sheet_read = |_, _| BADLY_WRITTEN;
    "12 tested ahead of all else" [SHEET_LINES DAMAGED_SHEETS]
        sheet_read = letters_first;
    "14 in place of 8 to 10" [SHEET_FIELDS SHEET_LINES DAMAGED_SHEETS]
        sheet_read = |unit, bytes| match read(unit, bytes) {
            REFUSED_A..=REFUSED_G => OUTSIDE,
            right => right,
        };
    "tabs accepted for blanks" [SHEET_FIELDS DAMAGED_SHEETS]
        sheet_read = |unit, bytes| {
            let blank = |&byte: &u8| if byte == b'\t' { b' ' } else { byte };
            read(unit, &bytes.iter().map(blank).collect::<Vec<u8>>())
        };
    "four blank columns taken for eight" [SHEETS SHEET_FIGURES SHEET_FIELDS SHEET_LINES DAMAGED_SHEETS SHEET_LISTS]
        sheet_read = four_blanks_for_eight;
    "the flag 2 accepted" [SHEET_FIELDS SHEET_LINES]
        sheet_read = flag_2;
    "bytes behind a sheet ignored" [SHEET_LENGTHS]
        sheet_read = |unit, bytes| read(unit, &bytes[..bytes.len().min(SHEET)]);
    "the last line not read" [SHEETS SHEET_FIGURES SHEET_FIELDS SHEET_LINES DAMAGED_SHEETS SHEET_LISTS]
        sheet_read = last_line_unread;
    "1,128 bytes written" [SHEETS SHEET_FIGURES SHEET_FIELDS SHEET_LINES DAMAGED_SHEETS SHEET_LISTS]
        sheet_write = write_short;
    "the remainders written as 0" [SHEETS SHEET_FIGURES SHEET_FIELDS SHEET_LINES DAMAGED_SHEETS SHEET_LISTS]
        sheet_write = |unit, buffer| {
            let mut other = *unit;
            clear_remainders(&mut other);
            if fit(unit) { write(&other, buffer) } else { 0 }
        };
    "the fifth fields not read" [SHEETS SHEET_FIGURES SHEET_FIELDS SHEET_LINES DAMAGED_SHEETS SHEET_LISTS]
        sheet_read = remainders_unread;
    "a remainder one too large accepted" [SHEET_FIELDS SHEET_LINES]
        sheet_read = wide_remainders;
    "short sheets refused" [SHEETS SHEET_FIGURES SHEET_FIELDS SHEET_LINES DAMAGED_SHEETS SHEET_LISTS]
        sheet_read = |unit, bytes| if bytes.len() == SHORT_SHEET { NOT_A_SHEET } else { read(unit, bytes) };
    "the given remainders kept by a short sheet"
        [SHEETS SHEET_FIGURES SHEET_FIELDS SHEET_LINES DAMAGED_SHEETS SHEET_LISTS]
        sheet_read = |unit, bytes| {
            let given = *unit;
            let refusal = read(unit, bytes);
            if refusal == ACCEPTED && bytes.len() == SHORT_SHEET { keep_remainders(unit, &given); }
            refusal
        };
    "a sheet with fifth fields on the left alone accepted" [SHEET_LENGTHS]
        sheet_read = right_side_short;
    "the remainders cleared by a refused sheet" [SHEET_FIELDS SHEET_LINES DAMAGED_SHEETS SHEET_LENGTHS]
        sheet_read = |unit, bytes| {
            let refusal = read(unit, bytes);
            if refusal != ACCEPTED { clear_remainders(unit); }
            refusal
        };
    "the house unit given for a refused sheet" [SHEET_FIELDS SHEET_LINES DAMAGED_SHEETS SHEET_LENGTHS]
        sheet_read = |unit, bytes| {
            let refusal = read(unit, bytes);
            if refusal != ACCEPTED { *unit = house_unit(); }
            refusal
        };

    "silence for a preview" [PREVIEWS PREVIEW_LENGTHS PREVIEW_FIGURES PREVIEW_AND_SECTION]
        preview = |band, words, results, remainders| {
            preview_with(band, words, results, remainders, |results, _| results.fill(0))
        };
    "a preview that feeds its remainders back" [PREVIEWS PREVIEW_LENGTHS PREVIEW_FIGURES PREVIEW_AND_SECTION]
        preview = preview_fed;
    "no remainders from a preview" [PREVIEWS PREVIEW_LENGTHS PREVIEW_FIGURES PREVIEW_AND_SECTION]
        preview = |band, words, results, remainders| {
            preview_with(band, words, results, remainders, |_, remainders| remainders.fill(0))
        };
    "results and remainders exchanged" [PREVIEWS PREVIEW_LENGTHS PREVIEW_FIGURES PREVIEW_AND_SECTION]
        preview = |band, words, results, remainders| {
            preview_with(band, words, results, remainders, |results, remainders| results.swap_with_slice(remainders))
        };
    "remainders one place late" [PREVIEWS PREVIEW_LENGTHS PREVIEW_FIGURES PREVIEW_AND_SECTION]
        preview = |band, words, results, remainders| {
            preview_with(band, words, results, remainders, |_, remainders| {
                remainders.rotate_right(usize::from(!remainders.is_empty()));
            })
        };
    "the length taken modulo 65,536" [PREVIEWS PREVIEW_LENGTHS PREVIEW_AND_SECTION]
        preview = |band, words, results, remainders| {
            preview(band, &words[..words.len() % 65_536], results, remainders)
        };
    "the entry behind the results written" [PREVIEWS PREVIEW_LENGTHS PREVIEW_FIGURES]
        preview = |band, words, results, remainders| {
            let refusal = preview(band, words, results, remainders);
            if refusal == ACCEPTED && results.len() > words.len() { results[words.len()] = 0; }
            refusal
        };
    "the entry behind the remainders written" [PREVIEWS PREVIEW_LENGTHS PREVIEW_FIGURES]
        preview = |band, words, results, remainders| {
            let refusal = preview(band, words, results, remainders);
            if refusal == ACCEPTED && remainders.len() > words.len() { remainders[words.len()] = 0; }
            refusal
        };
    "each list refused" [PREVIEWS PREVIEW_LENGTHS REFUSED_PREVIEWS PREVIEW_FIGURES PREVIEW_AND_SECTION]
        preview = |_, _, _, _| NO_WORD;
    "15 tested ahead of 6" [REFUSED_PREVIEWS]
        preview = |band, words, results, remainders| match preview(band, words, results, remainders) {
            BUFFER_TOO_SHORT if !words.iter().all(|&word| is_word(word)) => NO_WORD,
            right => right,
        };
    "only the results' buffer tested by 6" [PREVIEW_LENGTHS REFUSED_PREVIEWS]
        preview = |band, words, results, remainders| {
            let count = words.len().min(remainders.len());
            match preview(band, words, results, remainders) {
                BUFFER_TOO_SHORT if results.len() >= words.len() => preview(band, &words[..count], results, remainders),
                right => right,
            }
        };
    "short buffers filled" [PREVIEW_LENGTHS REFUSED_PREVIEWS]
        preview = |band, words, results, remainders| {
            let refusal = preview(band, words, results, remainders);
            let count = words.len().min(results.len()).min(remainders.len());
            if refusal == BUFFER_TOO_SHORT { preview(band, &words[..count], results, remainders); }
            refusal
        };
    "the remainders' buffer cleared by a refused call" [PREVIEW_LENGTHS REFUSED_PREVIEWS]
        preview = |band, words, results, remainders| {
            let refusal = preview(band, words, results, remainders);
            if refusal != ACCEPTED { remainders.fill(0); }
            refusal
        };
    "a buffer longer than the words refused" [PREVIEWS PREVIEW_LENGTHS REFUSED_PREVIEWS PREVIEW_FIGURES]
        preview = |band, words, results, remainders| {
            if results.len() > words.len() {
                preview(band, &[0], &mut [], &mut [])
            } else {
                preview(band, words, results, remainders)
            }
        };
    "buffers of different lengths refused" [PREVIEWS PREVIEW_LENGTHS REFUSED_PREVIEWS PREVIEW_FIGURES]
        preview = |band, words, results, remainders| {
            if results.len() != remainders.len() {
                preview(band, &[0], &mut [], &mut [])
            } else {
                preview(band, words, results, remainders)
            }
        };

    "the RIFF size used" [WAVES WAVE_CASES DAMAGED_WAVES]
        wave_read = |file| match read_wave(file) {
            right @ (NO_WAVE, ..) => right,
            _ => read_wave(&file[..file.len().min(8 + number(file, 4))]),
        };
    "the letters RIFF not looked at" [WAVE_CASES DAMAGED_WAVES]
        wave_read = |file| read_wave(&[b"RIFF", file.get(4..).unwrap_or_default()].concat());
    "pad bytes forgotten" [WAVES WAVE_CASES DAMAGED_WAVES HUGE_WAVES]
        wave_read = |file| read_by(file, Rules { next: |from, size| from + size, ..RULES });
    "a pad byte behind every chunk" [WAVES WAVE_CASES DAMAGED_WAVES]
        wave_read = |file| read_by(file, Rules { next: |from, size| from + size + 1, ..RULES });
    "the next chunk looked for modulo 2^32" [WAVE_CASES DAMAGED_WAVES]
        wave_read = |file| read_by(file, Rules {
            // A step back ends the walk, which might go on for ever.
            next: |from, size| match (from + size + size % 2) % (1 << 32) {
                next if next < from => 1 << 40,
                next => next,
            },
            ..RULES
        });
    "the end of the data taken modulo 2^32" [WAVE_CASES DAMAGED_WAVES HUGE_WAVES]
        wave_read = |file| match walk(file) {
            Ok((from, size)) if size % 4 == 0 && (from + size as usize) % (1 << 32) <= file.len() => {
                (ACCEPTED, from, size as usize)
            }
            _ => read_wave(file),
        };
    "where the data begins taken modulo 2^32" [HUGE_WAVES]
        wave_read = |file| {
            let (refusal, from, size) = read_wave(file);
            (refusal, from % (1 << 32), size)
        };
    "zeros read behind the file" [WAVES WAVE_CASES DAMAGED_WAVES]
        wave_read = |file| read_wave(&[file, &[0; 8]].concat());
    "data that runs past the file cut off at its end" [WAVES WAVE_CASES DAMAGED_WAVES HUGE_WAVES]
        wave_read = |file| match walk(file) {
            Ok((from, size)) if size as usize > file.len() - from => (ACCEPTED, from, (file.len() - from) / 4 * 4),
            _ => read_wave(file),
        };
    "the pad byte of the data asked for" [WAVES WAVE_CASES DAMAGED_WAVES HUGE_WAVES]
        wave_read = |file| match walk(file) {
            Ok((from, size)) if (size as usize).next_multiple_of(2) > file.len() - from => refused(NO_DATA),
            _ => read_wave(file),
        };
    "the last data taken" [WAVES WAVE_CASES DAMAGED_WAVES]
        wave_read = |file| read_by(file, Rules {
            data: |chunks| chunks.iter().rposition(|chunk| chunk.0 == b"data"),
            ..RULES
        });
    "a format behind the data taken" [WAVES WAVE_CASES DAMAGED_WAVES]
        wave_read = |file| read_by(file, Rules {
            format: |chunks, _| chunks.iter().position(|chunk| chunk.0 == b"fmt "),
            ..RULES
        });
    "the last format ahead of the data taken" [WAVES WAVE_CASES DAMAGED_WAVES]
        wave_read = |file| read_by(file, Rules {
            format: |chunks, data| chunks[..data].iter().rposition(|chunk| chunk.0 == b"fmt "),
            ..RULES
        });
    "a format of fifteen bytes accepted" [WAVE_CASES DAMAGED_WAVES]
        wave_read = |file| read_by(file, Rules {
            fits: |rest, size| (RULES.fits)(rest, if size == 15 { 16 } else { size }),
            ..RULES
        });
    "the bytes a second not looked at" [WAVE_CASES DAMAGED_WAVES]
        wave_read = |file| read_by(file, Rules {
            fits: |rest, size| {
                (16..=rest.len()).contains(&size) && rest[..8] == FORMAT[..8] && rest[12..16] == FORMAT[12..]
            },
            ..RULES
        });
    "17 and 18 exchanged" [WAVES WAVE_CASES DAMAGED_WAVES HUGE_WAVES]
        wave_read = |file| match read_wave(file) {
            (OTHER_FORMAT, ..) => refused(NO_DATA),
            (NO_DATA, ..) => refused(OTHER_FORMAT),
            right => right,
        };
    "5 tested ahead of 18" [WAVES WAVE_CASES DAMAGED_WAVES HUGE_WAVES]
        wave_read = |file| match walk(file) {
            Ok((_, size)) if size % 4 != 0 => refused(PART_OF_A_FRAME),
            _ => read_wave(file),
        };
    "data refused with 5 handed back" [WAVES WAVE_CASES DAMAGED_WAVES HUGE_WAVES]
        wave_read = |file| match (read_wave(file), walk(file)) {
            ((PART_OF_A_FRAME, ..), Ok((from, size))) => (PART_OF_A_FRAME, from, size as usize),
            (right, _) => right,
        };
    "each wave file refused" [WAVES WAVE_CASES DAMAGED_WAVES WAVES_WRITTEN HUGE_WAVES]
        wave_read = |_| refused(NO_WAVE);

    "the RIFF size that of the whole file" [WAVE_CASES WAVES_WRITTEN]
        wave_write = |frames, buffer| write_riff(frames, buffer, |size| size + 44);
    "the RIFF size that of the frames" [WAVE_CASES WAVES_WRITTEN]
        wave_write = |frames, buffer| write_riff(frames, buffer, |size| size);
    "the RIFF size modulo 2^24" [WAVES_WRITTEN]
        wave_write = |frames, buffer| write_riff(frames, buffer, |size| (size + 36) % (1 << 24));
    "silence written" [WAVE_CASES WAVES_WRITTEN]
        wave_write = |frames, buffer| write_with(frames, buffer, |file, _| file[HEADING..].fill(0));
    "bytes behind the file cleared" [WAVE_CASES WAVES_WRITTEN]
        wave_write = |frames, buffer| write_with(frames, buffer, |_, behind| behind.fill(0));
    "the heading written into a short buffer" [WAVES_WRITTEN HUGE_WAVES]
        wave_write = |frames, buffer| {
            let refusal = write_wave(frames, buffer);
            if refusal == OUTPUT_TOO_SHORT { write_wave(&[], buffer); }
            refusal
        };
    "6 tested ahead of 5 for frames" [WAVES_WRITTEN HUGE_WAVES]
        wave_write = |frames, buffer| {
            if buffer.len() < HEADING + frames.len() { OUTPUT_TOO_SHORT } else { write_wave(frames, buffer) }
        };
    "the count of frames taken modulo 2^32" [HUGE_WAVES]
        wave_write = |frames, buffer| write_wave(&frames[..frames.len() % (1 << 32)], buffer);
    "the most frames refused" [HUGE_WAVES]
        wave_write = |frames, buffer| if frames.len() == MOST { PART_OF_A_FRAME } else { write_wave(frames, buffer) };
}
