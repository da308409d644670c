//! Gathered words that lie unread for hundreds of picks and then decide an answer. That
//! they do is shown by the comparison program; then the library is compared there.

use crate::support::compared::{compare_all, feed_compared};
use crate::support::unread::{unread_words, Unread};
use comparison::fast::Fast;
use comparison::full_drafts::{self, Named};
use comparison::library::Board;
use comparison::samples::Generator;
use comparison::structured::palindrome;
use comparison::{MOST_PICKS, MOST_SECTIONS};

/// A word lies unread longer than this many picks.
const LONG: usize = 300;

/// Feeds the library's board up to the visit: before it the place holds the word of
/// the visit before, and after it the new one. The pick's answer and all that is kept
/// are compared.
fn compare_at(fast: &Fast, draft: &[u8], unread: Unread, name: &str) {
    let Unread { place, left, read } = unread;
    let mut board = Board::fed(&draft[..read - 1], fast.most_sections());
    let name = format!("{name}, {unread:?}");
    let old = fast.gathered(left)[place];
    assert_eq!(board.gathered()[place], old, "{name}, word before");
    feed_compared(&mut board, fast, draft[read - 1], &name);
    let new = fast.gathered(read)[place];
    assert_eq!(board.gathered()[place], new, "{name}, word after");
    compare_all(&mut board, fast, draft, &name);
}

/// Compares the library at the visits of the drafts of which this is true; in each
/// draft there must be such a visit.
fn compare_where(drafts: &[Named], is_sought: impl Fn(Unread, &Fast) -> bool) {
    for (name, draft) in drafts {
        let fast = Fast::new(draft, MOST_SECTIONS);
        let sought: Vec<Unread> = unread_words(&fast, MOST_PICKS, LONG)
            .into_iter()
            .filter(|&unread| is_sought(unread, &fast))
            .collect();
        assert!(!sought.is_empty(), "no such word in {name}");
        for &unread in sought.iter().rev().take(40) {
            compare_at(&fast, draft, unread, name);
        }
    }
}

/// "Without that word the mask would differ."
#[test]
fn an_unread_word_alone_decides() {
    compare_where(&full_drafts::come_back(), Unread::decides);
    compare_where(&full_drafts::long_periods(), Unread::decides);
}

/// The old word is joined with one row word more, and the rows of the old word alone
/// decide.
#[test]
fn an_unread_word_goes_on_and_decides() {
    compare_where(&full_drafts::long_periods(), Unread::old_word_decides);
}

/// The same at a place other than the first, whose row word is another.
#[test]
fn an_unread_word_inside_the_draft_decides() {
    compare_where(&full_drafts::long_periods(), |unread, fast| {
        unread.place > 0 && unread.old_word_decides(fast)
    });
}

/// "Keeping an old gathered word when the ending no longer holds three periods": the
/// old word would add a section count that is not there.
#[test]
fn an_unread_word_must_go() {
    compare_where(&full_drafts::come_back(), Unread::old_word_must_go);
}

/// A draft that is kept, an ending that is abandoned, and the one that is fed then.
struct Endings {
    kept: Vec<u8>,
    abandoned: Vec<u8>,
    fed: Vec<u8>,
}

impl Endings {
    /// Each as blocks in a row, A and B standing for palindromes of so many picks.
    fn of(seed: u64, lengths: [usize; 2], [kept, abandoned, fed]: [&str; 3]) -> Endings {
        let generator = &mut Generator(seed);
        let units = lengths.map(|length| palindrome(generator, 3, length));
        let unit = |block: u8| units[usize::from(block - b'A')].clone();
        let blocks = |text: &str| text.bytes().flat_map(unit).collect();
        Endings {
            kept: blocks(kept),
            abandoned: blocks(abandoned),
            fed: blocks(fed),
        }
    }

    /// The kept picks and the ending that is fed then.
    fn draft(&self) -> Vec<u8> {
        [&self.kept[..], &self.fed].concat()
    }

    /// The visit of the last pick fed that reads a word which the abandoned picks have mended,
    /// and by which the mask would be another; and that word and that mask.
    fn spoiled(&self) -> Option<(Unread, u16, u8)> {
        let (draft, n) = (self.draft(), self.kept.len() + self.fed.len());
        let fast = Fast::new(&draft, MOST_SECTIONS);
        let abandoned = [&self.kept[..], &self.abandoned].concat();
        let words = Fast::new(&abandoned, MOST_SECTIONS).gathered(abandoned.len());
        let unread = unread_words(&fast, n, self.fed.len() - 1).into_iter();
        let last = unread.filter(|unread| unread.read == n && unread.left <= self.kept.len());
        let by = last.map(|at| (at, words[at.place], at.mask_by(&fast, words[at.place])));
        by.into_iter()
            .find(|&(at, _, mask)| mask != fast.mask(at.read))
    }

    /// Goes back over the abandoned picks and feeds on: the place holds the word of the visit
    /// before, and the last pick's answer is by it. Gives the right mask and the wrong one.
    fn compare(&self, name: &str) -> [u8; 2] {
        let spoiled = self.spoiled();
        let (unread, word, wrong) = spoiled.unwrap_or_else(|| panic!("no such word, {name}"));
        let (Unread { place, left, read }, draft) = (unread, self.draft());
        let fast = Fast::new(&draft, MOST_SECTIONS);
        let mut board = Board::fed(&self.kept, MOST_SECTIONS);
        assert_eq!(board.mark(b'K'), Ok(()), "{name}");
        board.feed_all(&self.abandoned);
        assert_eq!(board.gathered()[place], word, "{name}, abandoned word");
        assert_eq!(board.back(b'K'), Ok(()), "{name}");
        board.feed_all(&draft[board.n()..read - 1]);
        let old = fast.gathered(left)[place];
        assert_eq!(board.gathered()[place], old, "{name}, word before");
        feed_compared(&mut board, &fast, draft[read - 1], name);
        compare_all(&mut board, &fast, &draft, name);
        [fast.mask(read), wrong]
    }
}

/// The abandoned picks have joined the row word of AAABAAA, which is one section, to the word
/// behind AAAB: by that AAABAAA itself would be split in two, 250 picks after going back.
#[test]
fn an_abandoned_word_would_add_a_section_count() {
    for seed in 0..8 {
        let endings = Endings::of(seed, [250, 20], ["AAABAA", "AAA", "A"]);
        let masks = endings.compare(&format!("seed {seed}"));
        assert_eq!(masks, [0b1111_1101, 0b1111_1111], "seed {seed}");
    }
}

/// The abandoned picks come back to the place behind AB without the period, and leave it its
/// own row word alone: by that ABAAAA would not be split in two, 280 picks after going back.
#[test]
fn an_abandoned_word_would_lose_a_section_count() {
    for seed in 0..8 {
        let endings = Endings::of(seed, [280, 20], ["ABAAA", "BAAA", "A"]);
        let masks = endings.compare(&format!("seed {seed}"));
        assert_eq!(masks, [0b1111_1110, 0b1111_1100], "seed {seed}");
    }
}
