//! The examples of document 004, Sections 3 and 4, in upper case letters and with
//! centres in half picks.

use crate::support::both::both;
use comparison::calls::NextEnding;
use comparison::fast::Fast;
use comparison::{plain, MOST_SECTIONS};

/// Centres of all endings of the whole draft, by going to the next shorter ending
/// from the longest one on.
fn ending_centres(longest: usize, next: impl Fn(usize) -> Option<NextEnding>) -> Vec<usize> {
    let mut centres = vec![longest];
    while let Some(ending) = next(centres[centres.len() - 1]) {
        centres.push(ending.centre);
    }
    centres
}

fn assert_ending_centres(draft: &str, expected: &[usize]) {
    both(
        draft,
        expected.to_vec(),
        |letters| {
            ending_centres(plain::longest_centre(letters), |at| {
                plain::next_ending(letters, at)
            })
        },
        |fast, n| ending_centres(fast.longest_centre(n), |at| fast.next_ending(n, at)),
    );
}

fn assert_visits(draft: &str, expected: &[usize]) {
    both(draft, expected.to_vec(), plain::visits, Fast::visits);
}

/// The places whose row words the gathered word at place i joins, and their union.
fn assert_gathered(draft: &str, i: usize, places: &[usize]) {
    both(
        draft,
        places.to_vec(),
        |letters| plain::gathered_places(letters, i),
        |fast, n| fast.gathered_places(n).swap_remove(i),
    );
    let union = places.iter().fold(0, |word, &place| {
        word | plain::row_word(&draft.as_bytes()[..place], MOST_SECTIONS)
    });
    both(
        draft,
        union,
        |letters| plain::gathered_word(letters, i, MOST_SECTIONS),
        |fast, n| fast.gathered(n)[i],
    );
}

#[test]
fn example_3_longest_ending_radii_and_next_endings() {
    let draft = "AABACABAA";
    both(draft, 10, plain::longest_centre, Fast::longest_centre);
    let radii = vec![0, 0, 1, 0, 0, 1, 0, 0, 0, 4, 0, 0, 0, 1, 0, 0, 1, 0, 0];
    both(
        draft,
        radii,
        |letters| (1..=19).map(|at| plain::radius_at(letters, at)).collect(),
        |fast, n| (1..=19).map(|at| fast.radius(n, at)).collect(),
    );
    let mut next = vec![None; 19];
    next[10 - 1] = Some([17, 9, 7]);
    next[17 - 1] = Some([18, 2, 1]);
    next[18 - 1] = Some([19, 1, 1]);
    let values = |next: Option<NextEnding>| next.map(NextEnding::values);
    both(
        draft,
        next,
        |letters| {
            (1..=19)
                .map(|at| values(plain::next_ending(letters, at)))
                .collect()
        },
        |fast, n| (1..=19).map(|at| values(fast.next_ending(n, at))).collect(),
    );
}

#[test]
fn example_4_centres_of_endings_before_and_after_the_append() {
    assert_ending_centres("AABACABA", &[10, 14, 16, 17]);
    assert_ending_centres("AABACABAA", &[10, 17, 18, 19]);
}

/// "The only cubic subpalindrome of w = aabababa is w[2..8] = abababa, and the only
/// non-leading subpalindrome is w[4..8] = ababa."
#[test]
fn section_4_the_only_ending_that_is_not_leading() {
    let letters = b"AABABABA";
    let fast = Fast::new(letters, MOST_SECTIONS);
    let mut cubic = Vec::new();
    let mut not_leading = Vec::new();
    for last in 1..=letters.len() {
        for first in 1..=last {
            let stretch = &letters[first - 1..last];
            let leading = plain::is_leading(&letters[..last], stretch.len());
            assert_eq!(fast.visits(last).contains(&stretch.len()), leading);
            if plain::is_section(stretch) && 3 * plain::least_period(stretch) <= stretch.len() {
                cubic.push((first, last));
            }
            if plain::is_section(stretch) && !leading {
                not_leading.push((first, last));
            }
        }
    }
    assert_eq!((cubic, not_leading), (vec![(2, 8)], vec![(4, 8)]));
}

/// Picks i+1 to the largest j at which they are a leading ending, with u and v.
fn opening_leading(letters: &[u8], i: usize) -> (&[u8], &[u8], &[u8]) {
    let j = (i..=letters.len())
        .rev()
        .find(|&j| plain::is_leading(&letters[..j], j - i))
        .unwrap();
    let stretch = &letters[i..j];
    let p = plain::least_period(stretch).min(stretch.len());
    let u_length = stretch.len() % p.max(1);
    (stretch, &stretch[..u_length], &stretch[u_length..p])
}

#[test]
fn example_5_table_of_ababab() {
    let table: [(&[u8], &[u8], &[u8]); 7] = [
        (b"ABABA", b"A", b"B"),
        (b"BABAB", b"B", b"A"),
        (b"ABA", b"A", b"B"),
        (b"BAB", b"B", b"A"),
        (b"A", b"", b"A"),
        (b"B", b"", b"B"),
        (b"", b"", b""),
    ];
    let fast = Fast::new(b"ABABAB", MOST_SECTIONS);
    for (i, row) in table.into_iter().enumerate() {
        assert_eq!(opening_leading(b"ABABAB", i), row, "place {i}");
        let latest = (i + 1..=6)
            .rev()
            .find(|&j| fast.visits(j).contains(&(j - i)))
            .unwrap_or(i);
        assert_eq!(latest - i, row.0.len(), "place {i}");
        assert_gathered("ABABAB", i, &[i]);
    }
}

#[test]
fn example_5_visits_and_gathered_words_of_abababa() {
    assert_visits("ABABABA", &[7, 3, 1]);
    assert_gathered("ABABABA", 0, &[0, 2]);
    assert_gathered("ABABABA", 4, &[4]);
    assert_gathered("ABABABA", 6, &[6]);
    assert_gathered("ABABABA", 7, &[7]);
    let rows = [0, 2, 4, 6].map(|i| plain::row_word(&b"ABABABA"[..i], MOST_SECTIONS));
    let joined = rows.iter().fold(0, |word, row| word | row << 1) & 0x1FF;
    both(
        "ABABABA",
        joined,
        |letters| plain::row_word(letters, MOST_SECTIONS),
        Fast::row,
    );
}

#[test]
fn example_5_the_next_two_calls() {
    assert_visits("ABABABAB", &[7, 3, 1]);
    assert_gathered("ABABABAB", 1, &[1, 3]);
    assert_gathered("ABABABAB", 0, &[0, 2]);
    assert_visits("ABABABABA", &[9, 3, 1]);
    assert_gathered("ABABABABA", 0, &[0, 2, 4]);
}

/// The final call: 18 picks, and pick 19 makes the whole draft an ending that is not
/// cubic. Nine picks alternate on each side of the middle one; the middle pick is
/// not B, or the whole would be cubic.
#[test]
fn example_5_the_final_call_resets_place_0() {
    for before in ["ABABABABACABABABAB", "ABABABABAAABABABAB"] {
        let after = format!("{before}A");
        assert_gathered(before, 0, &[0, 2, 4]);
        for m in 10..=18 {
            assert!(!plain::is_mirrored(&before.as_bytes()[..m]), "{before} {m}");
        }
        both(&after, 19, plain::longest_ending, Fast::longest);
        assert!(3 * plain::least_period(after.as_bytes()) > 19, "{after}");
        assert_gathered(&after, 0, &[0]);
    }
}

/// The words themselves at place 0 before and after the final call: the union of row
/// words 1, 4 and 20, then row word 1 alone.
#[test]
fn example_5_the_words_at_place_0() {
    for (draft, word) in [("ABABABABACABABABAB", 21), ("ABABABABACABABABABA", 1)] {
        both(
            draft,
            word,
            |letters| plain::gathered_word(letters, 0, MOST_SECTIONS),
            |fast, n| fast.gathered(n)[0],
        );
    }
}
