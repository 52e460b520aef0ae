//! The groups of tests by name.

use super::run::{Checked, Run};
use super::{arithmetic, bands, big_numbers, blocks, call_lists, distance, factors, figures, fitness, loads};
use super::{huge_waves, wave_cases, wave_damage, wave_writing, waves};
use super::{
    orders, preview_refusals, previews, sheet_damage, sheet_fields, sheet_lengths, sheet_lines, sheets, steps,
};
use super::{Difference, Tally};
use crate::subject::Subject;

/// A group of tests: its name, what it compares, the seed of its random numbers, 0 where it draws none, and its cases.
#[derive(Clone, Copy)]
pub struct Group {
    pub name: &'static str,
    pub what: &'static str,
    pub seed: u64,
    cases: fn(&mut Run) -> Checked,
}

impl Group {
    /// Holds a subject against the exact reference: what the cases went through, or the first difference.
    pub fn run(&self, subject: &dyn Subject) -> Result<Tally, Difference> {
        let mut run = Run::new(subject, self.seed);
        (self.cases)(&mut run)?;
        Ok(run.tally)
    }
}

/// A constant for each group, and all of them in this order.
macro_rules! groups {
    ($list:ident: $($constant:ident: $cases:path, $seed:literal, $name:literal, $what:literal;)*) => {
        $(pub const $constant: Group = Group { name: $name, what: $what, seed: $seed, cases: $cases };)*
        pub const $list: &[Group] = &[$($constant),*];
    };
}

groups! { GROUPS:
    NEAREST: arithmetic::nearest, 0xF0DD_0001, "nearest",
        "every shift to 70 and larger ones; corners, halves, random numbers";
    LIMIT: arithmetic::limit, 0xF0DD_0002, "limit",
        "corners and random numbers, also with low above high";
    BANDS: bands::refusals, 0xF0DD_0003, "bands",
        "refusals at the corners of the accepted ranges and of random bands";
    HOUSE: bands::house, 0, "house set",
        "thirty words from the printed figures, ten bands accepted";
    LISTS: steps::lists, 0xF0DD_0005, "lists",
        "steps of house, random and extreme bands, up to a million words a list";
    CORNERS: steps::corners, 0, "corners",
        "steps with the corners of a word in all five places, extreme bands";
    REFUSED: steps::refused_calls, 0xF0DD_0007, "refused calls",
        "steps with one number wrong or several";
    FIGURES: figures::of_sections, 0, "figures",
        "those that the specification gives for a section";

    LEVELS: arithmetic::moved, 0xF0DD_0011, "levels",
        "one move from corners and random numbers, slopes of every size";
    LOADS: loads::sets, 0xF0DD_0012, "loadings",
        "band sets of right and wrong lengths, with none, one or several numbers wrong";
    FITNESS: fitness::units, 0xF0DD_0013, "fitness",
        "units with each number at its edges, unfit in every way, or several unfit";
    BLOCKS: blocks::long, 0xF0DD_0014, "blocks",
        "long sounds on cleared, loud, random and half-making units";
    FRAMES: blocks::frames, 0xF0DD_0015, "frames",
        "single frames on random units";
    CUTS: blocks::sizes_and_cuts, 0xF0DD_0016, "cuts",
        "blocks of 0 to 200 frames and about multiples of 64 to 4,096, limiting, moving and ringing; cuts of one sound";
    REFUSED_BLOCKS: blocks::lengths, 0xF0DD_0017, "refused blocks",
        "input and output of every small length and of larger ones";
    UNIT_FIGURES: figures::of_units, 0, "unit figures",
        "those that the specification gives for a unit";

    ORDERS: orders::places, 0xF0DD_0018, "orders",
        "every side and band, all 256 positions, mute; fit and unfit units";
    FACTORS: factors::factors, 0xF0DD_0019, "factors",
        "edges, halves and their neighbours, random bits; fit and unfit units";
    ORDER_FIGURES: figures::of_orders, 0, "order figures",
        "those that the specification gives for orders, and their targets";
    LISTS_OF_CALLS: call_lists::lists, 0xF0DD_001A, "lists of calls",
        "orders and blocks from cleared units, refused ones among them";
    DISTANCE: distance::from_the_exact, 0xF0DD_001B, "distance",
        "samples of lists of calls held to the bound around the exact sound";

    SHEETS: sheets::units, 0xF0DD_001E, "sheets",
        "fit units written and read back; short buffers, unfit units";
    SHEET_FIGURES: figures::of_sheets, 0, "sheet figures",
        "the sheets that the specification gives, and the ends of every range";
    SHEET_FIELDS: sheet_fields::each, 0xF0DD_0020, "sheet fields",
        "each field badly written, at the ends of its range and outside";
    SHEET_LINES: sheet_lines::every, 0xF0DD_0021, "sheet lines",
        "letter, fields and end of each line wrong in all ways together";
    DAMAGED_SHEETS: sheet_damage::anywhere, 0xF0DD_0022, "damaged sheets",
        "each byte changed; two bytes, several fields; bytes put in or left out";
    SHEET_LENGTHS: sheet_lengths::wrong, 0xF0DD_0023, "sheet lengths",
        "sheets cut short at every byte, and too long";
    SHEET_LISTS: call_lists::carried_on, 0xF0DD_0024, "lists through sheets",
        "units that orders and blocks lead to, written and read back";

    PREVIEWS: previews::lists, 0xF0DD_0025, "previews",
        "lists of house, random, slow and extreme bands, up to a million words a list";
    PREVIEW_LENGTHS: previews::lengths, 0xF0DD_0026, "preview lengths",
        "lists of every small length and of larger ones, buffers shorter and longer";
    REFUSED_PREVIEWS: preview_refusals::calls, 0xF0DD_0027, "refused previews",
        "band, buffer and words wrong alone and together, a wrong word at each place";
    PREVIEW_FIGURES: figures::of_previews, 0, "preview figures",
        "those that the specification gives for a section, from a cleared start";
    PREVIEW_AND_SECTION: previews::beside_section, 0xF0DD_0028, "preview and section",
        "lists held against the same implementation's own section";

    WAVES: waves::files, 0xF0DD_0029, "waves",
        "wave files of chunks of every kind, order and size";
    WAVE_CASES: wave_cases::typed, 0, "wave cases",
        "files and headings typed out, each with its answer";
    DAMAGED_WAVES: wave_damage::anywhere, 0xF0DD_002A, "damaged waves",
        "sizes, names, formats and other bytes changed; files cut at every byte";
    WAVES_WRITTEN: wave_writing::lengths, 0xF0DD_002B, "waves written",
        "frames and buffers of every small length and of larger ones, read back";
    HUGE_WAVES: huge_waves::beyond_32_bits, 0, "huge waves",
        "files and frames of 2^32 bytes and more";
}

// Groups for the library alone, and for what the tests themselves go by.
groups! { OTHERS:
    MANY_SHEETS: sheets::many, 0xF0DD_001F, "many sheets",
        "the same with more units, held against the fast form";
    BIG_NUMBERS: big_numbers::agree, 0xF0DD_001C, "big numbers",
        "the arithmetic of the exact sound";
    ONE_STEP: distance::found_everywhere, 0xF0DD_001D, "one step",
        "each sample of a list one step away from what it was";
}
