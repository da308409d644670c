//! The tables of the word asked about last, kept so that a run of calls on a
//! growing draft does not build them anew for each call.

use std::cell::RefCell;

use crate::fast::Fast;
use crate::MOST_SECTIONS;

thread_local! {
    static LAST: RefCell<Fast> = RefCell::new(Fast::new(&[], MOST_SECTIONS));
}

/// Puts a question to the tables of a word that opens with this one.
pub fn ask<T>(word: &[u8], most_sections: usize, question: impl FnOnce(&Fast) -> T) -> T {
    LAST.with_borrow_mut(|fast| {
        cover(fast, word, most_sections);
        question(fast)
    })
}

/// Makes the tables be those of a word that opens with this one.
fn cover(fast: &mut Fast, word: &[u8], most_sections: usize) {
    if fast.most_sections() != most_sections {
        *fast = Fast::new(word, most_sections);
    } else if !fast.word().starts_with(word) {
        fast.turn_to(word);
    }
}
