//! The plain book, "kept beside a run, from the calls' arguments alone, the state
//! not among them".

use crate::plain::{fixed_lifts, is_most_sections, is_pick, word, Lifts};
use crate::{FIRST_PICK, LETTERS, MOST_MARKS, MOST_PICKS, VISIT_ROOM};
use std::collections::BTreeMap;

/// "It holds K and a row of letters", "the plain book holds 26 lifts too", and it "keeps
/// marks": the row's length of each name. The first start of a run writes them all.
#[derive(Clone, Debug, Default, PartialEq, Eq)]
pub struct Book {
    pub most_sections: usize,
    pub row: Vec<u8>,
    pub lifts: Lifts,
    pub marks: BTreeMap<u8, usize>,
}

impl Book {
    /// "A start with K from 1 to 8 writes K and clears the row"; the book takes the fixed
    /// lifts "at each accepted start", and "start drops all marks". Tells whether the book
    /// takes the start.
    pub fn start(&mut self, most_sections: usize) -> bool {
        let taken = is_most_sections(most_sections);
        if taken {
            self.most_sections = most_sections;
            self.row.clear();
            self.lifts = fixed_lifts();
            self.marks.clear();
        }
        taken
    }

    /// "A feed adds its pick at the end when the pick is A to Z, the visit list has
    /// at least 19 entries and the row has under 2,048 letters." Tells whether the
    /// book takes the feed.
    pub fn feed(&mut self, pick: u8, visit_entries: usize) -> bool {
        let taken = is_pick(pick) && visit_entries >= VISIT_ROOM && self.row.len() < MOST_PICKS;
        if taken {
            self.row.push(pick);
        }
        taken
    }

    /// The book "takes those of a load of 26 bytes, none of them 0, while its row is
    /// empty". Tells whether it takes them.
    pub fn load(&mut self, table: &[u8]) -> bool {
        match Lifts::try_from(table) {
            Ok(lifts) if !lifts.contains(&0) && self.row.is_empty() => {
                self.lifts = lifts;
                true
            }
            _ => false,
        }
    }

    /// A mark is "a letter A to Z with the draft's length at that moment; setting a name
    /// again moves it". There are "up to four". Tells whether the book takes it.
    pub fn mark(&mut self, name: u8) -> bool {
        let mut names = self.marks.clone();
        names.insert(name, self.row.len());
        let taken = is_pick(name) && names.len() <= MOST_MARKS;
        if taken {
            self.marks = names;
        }
        taken
    }

    /// Going back is "cutting its row to the mark's length", and "drops marks of greater
    /// length". Tells whether the book has the mark.
    pub fn back(&mut self, name: u8) -> bool {
        let Some(&length) = self.marks.get(&name) else {
            return false;
        };
        self.row.truncate(length);
        self.marks.retain(|_, other| *other <= length);
        true
    }

    /// The marks as they are stored, A to Z: one more than the length, 0 where the letter is
    /// none.
    pub fn stored_marks(&self) -> [u16; LETTERS] {
        let length = |at: usize| self.marks.get(&(FIRST_PICK + at as u8));
        std::array::from_fn(|at| length(at).map_or(0, |&length| length as u16 + 1))
    }

    /// The lifts of the row. The book takes none while a letter is in it, so that each
    /// letter has here the lift that "the book held at that feed".
    pub fn word(&self) -> Vec<u8> {
        word(&self.lifts, &self.row)
    }
}
