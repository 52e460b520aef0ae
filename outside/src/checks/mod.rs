//! The comparison, group by group. A group holds any subject against the exact reference, up to the first difference.

pub mod arithmetic;
pub mod bands;
pub mod big_numbers;
pub mod blocks;
pub mod call_lists;
pub mod distance;
pub mod distance_lists;
pub mod factors;
pub mod figures;
pub mod fitness;
pub mod groups;
pub mod huge_waves;
pub mod loads;
pub mod makers;
pub mod orders;
pub mod preview_refusals;
pub mod previews;
pub mod report;
pub mod run;
pub mod same_preview;
pub mod same_sheet;
pub mod same_wave;
pub mod sheet_damage;
pub mod sheet_fields;
pub mod sheet_lengths;
pub mod sheet_lines;
pub mod sheet_makers;
pub mod sheet_texts;
pub mod sheets;
pub mod sounds;
pub mod steps;
pub mod tally;
pub mod units;
pub mod wave_cases;
pub mod wave_damage;
pub mod wave_makers;
pub mod wave_writing;
pub mod waves;

pub use self::tally::Tally;

/// The inputs of a difference and both answers.
pub type Difference = String;
