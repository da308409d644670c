//! Least periods by the prefix function (the failure function of Knuth, Morris
//! and Pratt).

/// The least period of each non-empty suffix, by length from 1. A suffix read
/// backwards is a prefix of the reversed word and has the same periods; its
/// least period is its length less its longest border.
pub fn least_periods_of_suffixes(word: &[u8]) -> Vec<usize> {
    let reversed: Vec<u8> = word.iter().rev().copied().collect();
    longest_borders(&reversed)
        .iter()
        .enumerate()
        .map(|(at, border)| at + 1 - border)
        .collect()
}

/// The least period of a non-empty stretch: its length less its longest border.
pub fn least_period(stretch: &[u8]) -> usize {
    let borders = longest_borders(stretch);
    stretch.len() - borders[stretch.len() - 1]
}

/// For each non-empty prefix of the text, by length from 1, the length of the
/// longest shorter prefix that also closes it.
fn longest_borders(text: &[u8]) -> Vec<usize> {
    let mut borders: Vec<usize> = Vec::with_capacity(text.len());
    for at in 0..text.len() {
        let mut border = if at == 0 { 0 } else { borders[at - 1] };
        while border > 0 && text[border] != text[at] {
            border = borders[border - 1];
        }
        if at > 0 && text[border] == text[at] {
            border += 1;
        }
        borders.push(border);
    }
    borders
}
