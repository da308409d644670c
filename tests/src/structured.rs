//! Drafts of a known structure, long enough for the board's arrays.

use crate::samples::Generator;
use crate::FIRST_PICK;

/// The Thue–Morse word over A and B: the letter by the parity of the ones of its
/// number from 0.
pub fn thue_morse(length: usize) -> Vec<u8> {
    (0..length)
        .map(|at| FIRST_PICK + (at.count_ones() % 2) as u8)
        .collect()
}

/// The ruler word ABACABAD..: the letter by the twos in its number from 1.
pub fn ruler(length: usize) -> Vec<u8> {
    (1..=length)
        .map(|at| FIRST_PICK + at.trailing_zeros() as u8)
        .collect()
}

/// A random palindrome over the first few letters.
pub fn palindrome(generator: &mut Generator, letters: u8, length: usize) -> Vec<u8> {
    let half = generator.draft(letters, length.div_ceil(2));
    let back = half[..length / 2].iter().rev();
    half.iter().chain(back).copied().collect()
}

/// Random palindromes of up to the given number of picks each, joined.
pub fn joined_palindromes(
    generator: &mut Generator,
    letters: u8,
    most: usize,
    length: usize,
) -> Vec<u8> {
    let mut draft = Vec::new();
    while draft.len() < length {
        let next = 1 + generator.below(most);
        draft.extend(palindrome(generator, letters, next));
    }
    draft.truncate(length);
    draft
}

/// Two palindromes u and v in turn: uvuv..u, with the given number of v.
pub fn series(u: &[u8], v: &[u8], times: usize) -> Vec<u8> {
    let mut draft = u.to_vec();
    for _ in 0..times {
        draft.extend(v);
        draft.extend(u);
    }
    draft
}

/// Series of three periods and more, some with one letter changed, each followed by
/// the mirror of some of the last picks.
pub fn broken_cubes(generator: &mut Generator, letters: u8, length: usize) -> Vec<u8> {
    let mut draft = Vec::new();
    while draft.len() < length {
        let (u, v) = (generator.below(4), 1 + generator.below(4));
        let u = palindrome(generator, letters, u);
        let v = palindrome(generator, letters, v);
        let mut cubes = series(&u, &v, 3 + generator.below(5));
        if generator.below(2) == 0 {
            let at = generator.below(cubes.len());
            cubes[at] = FIRST_PICK + generator.below(usize::from(letters)) as u8;
        }
        draft.extend(cubes);
        let back = 1 + generator.below(draft.len());
        mirror(&mut draft, back, generator.below(2));
    }
    draft.truncate(length);
    draft
}

/// Adds the mirror of the last picks, so that they and it are one palindrome; the
/// last pick is its middle where one is shared.
pub fn mirror(draft: &mut Vec<u8>, back: usize, shared: usize) {
    let n = draft.len();
    let mirrored: Vec<u8> = draft[n - back..n - shared].iter().rev().copied().collect();
    draft.extend(mirrored);
}

/// A series of one period, a long random stretch, and the mirror of all of it: the
/// places that gathered in the series are visited again only at the end.
pub fn come_back_to(generator: &mut Generator, u: &[u8], v: &[u8], length: usize) -> Vec<u8> {
    let mut draft = series(u, v, 12);
    let between = length / 2 - draft.len();
    draft.extend(generator.draft(3, between));
    let n = draft.len();
    mirror(&mut draft, n, 0);
    draft
}

/// A series of so many long periods and a short end, where the number divides 30. Its
/// first place gathers a word at two periods, and comes back to it a whole period
/// later, again and again.
pub fn long_periods(generator: &mut Generator, times: usize, length: usize) -> Vec<u8> {
    let u = palindrome(generator, 2, length % times + 30);
    let v = palindrome(generator, 2, (length - u.len()) / times - u.len());
    series(&u, &v, times)
}

/// A walk that goes on with some period and now and then breaks it or turns back.
pub fn broken_periods(generator: &mut Generator, letters: u8, length: usize) -> Vec<u8> {
    let mut draft = generator.draft(letters, 8);
    while draft.len() < length {
        let p = 1 + generator.below(draft.len().min(24));
        for _ in 0..generator.below(6 * p) {
            draft.push(draft[draft.len() - p]);
        }
        match generator.below(3) {
            0 => draft.push(FIRST_PICK + generator.below(usize::from(letters)) as u8),
            1 => {
                let back = 1 + generator.below(draft.len());
                mirror(&mut draft, back, generator.below(2));
            }
            _ => {}
        }
    }
    draft.truncate(length);
    draft
}
