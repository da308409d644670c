//! Every definition of document 01, literally, on slices.
//!
//! A draft is given as its word, the lifts of its picks (`word`): "from here two picks are
//! the same when their lifts are equal". Under distinct lifts, as the fixed ones are, its
//! letters themselves do as well. Record and show are of letters.
//! Picks are numbered from 1, so picks i+1 to j of a draft are `draft[i..j]`.
//! Lengths and places are in whole picks, centres in half picks.

mod centres;
mod endings;
mod gathered;
mod layout;
mod picks;
mod record;
mod rows;
mod show;
mod splits;
mod stretch;
mod unfolding;

pub use centres::{longest_centre, next_ending, radius_at, NextEnding};
pub use endings::{
    endings, is_ending, is_leading, longest_ending, next_leading_by_formula, next_shorter,
    next_shorter_leading, visits,
};
pub use gathered::{gathered_places, gathered_word};
pub use layout::break_place;
pub use picks::{fixed_lifts, is_pick, lift, word, Lifts};
pub use record::folded_record;
pub use rows::{is_joined, is_most_sections, mask, row_word};
pub use show::section;
pub use splits::{all_splits, are_ends, named_split, section_lengths, turn_count};
pub use stretch::{centre, is_mirrored, is_period, is_section, least_period, periods, radius};
pub use unfolding::{turn, unfolded, Turn};
