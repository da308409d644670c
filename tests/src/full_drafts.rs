//! Drafts of 2,048 picks, each with its name.

use crate::samples::{fibonacci, repeated, Generator};
use crate::structured::{
    self, broken_cubes, broken_periods, come_back_to, joined_palindromes, ruler, thue_morse,
};
use crate::MOST_PICKS;

/// A name and a draft.
pub type Named = (String, Vec<u8>);

/// A short unit again and again.
pub fn repeated_units() -> Vec<Named> {
    let units = ["A", "AB", "AAB", "ABA", "ABAC", "AABABAA"];
    let draft = |unit: &str| repeated(unit.as_bytes(), MOST_PICKS);
    units
        .map(|unit| (format!("{unit} repeated"), draft(unit)))
        .to_vec()
}

/// Words with a name of their own.
pub fn well_known_words() -> Vec<Named> {
    vec![
        ("Fibonacci word".to_string(), fibonacci(MOST_PICKS)),
        ("Thue–Morse word".to_string(), thue_morse(MOST_PICKS)),
        ("ruler word".to_string(), ruler(MOST_PICKS)),
    ]
}

/// Random palindromes one after the other.
pub fn palindromes(seeds: u64) -> Vec<Named> {
    let mut drafts = Vec::new();
    for seed in 0..seeds {
        let generator = &mut Generator(seed);
        for (letters, most) in [(2, 20), (2, 600), (3, 60), (26, 300)] {
            let name = format!("palindromes over {letters} to {most}, seed {seed}");
            let draft = joined_palindromes(generator, letters, most, MOST_PICKS);
            drafts.push((name, draft));
        }
    }
    drafts
}

/// Two letters or three, by the seed.
fn letters_by(seed: u64) -> u8 {
    2 + (seed % 2) as u8
}

/// Series of three periods and more, broken and mirrored.
pub fn cubes(seeds: u64) -> Vec<Named> {
    let draft = |seed| broken_cubes(&mut Generator(seed), letters_by(seed), MOST_PICKS);
    (0..seeds)
        .map(|seed| (format!("broken cubes, seed {seed}"), draft(seed)))
        .collect()
}

/// Periods, broken and mirrored.
pub fn periods(seeds: u64) -> Vec<Named> {
    let draft = |seed| broken_periods(&mut Generator(seed), letters_by(seed), MOST_PICKS);
    (0..seeds)
        .map(|seed| (format!("broken periods, seed {seed}"), draft(seed)))
        .collect()
}

/// Random letters.
pub fn random() -> Vec<Named> {
    let draft = |letters: u8| Generator(u64::from(letters)).draft(letters, MOST_PICKS);
    [2, 3, 26]
        .map(|letters| (format!("random over {letters} letters"), draft(letters)))
        .to_vec()
}

/// A short series whose places are visited again only at the end.
pub fn come_back() -> Vec<Named> {
    let units = [(1, "A", "B"), (2, "", "A"), (3, "ABA", "C")];
    let draft = |seed, u: &str, v: &str| {
        come_back_to(&mut Generator(seed), u.as_bytes(), v.as_bytes(), MOST_PICKS)
    };
    units
        .map(|(seed, u, v)| (format!("{v} in {u} come back to"), draft(seed, u, v)))
        .to_vec()
}

/// Exactly so many long periods and a short end, with a seed.
pub fn long_periods() -> Vec<Named> {
    let times = [(3, 0), (3, 1), (3, 2), (5, 3), (6, 4)];
    let draft = |times, seed| structured::long_periods(&mut Generator(seed), times, MOST_PICKS);
    times
        .map(|(times, seed)| {
            (
                format!("{times} long periods, seed {seed}"),
                draft(times, seed),
            )
        })
        .to_vec()
}

/// Some of each kind.
pub fn of_each_kind() -> Vec<Named> {
    [
        repeated_units(),
        well_known_words(),
        palindromes(1),
        cubes(3),
        periods(3),
        random(),
        come_back(),
        long_periods(),
    ]
    .concat()
}
