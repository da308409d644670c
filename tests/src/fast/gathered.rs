//! Gathered words at the end of a prefix.

use super::Fast;

/// The leading ending that opens at some place and ends latest: the prefix j that
/// it closes, its least period p and the length d of the next shorter leading one.
#[derive(Clone, Copy)]
struct Latest {
    j: usize,
    p: usize,
    d: usize,
}

/// The places whose row words are joined at place i: i alone where none is the latest.
fn joined(i: usize, latest: Option<Latest>) -> impl Iterator<Item = usize> {
    let Latest { j, p, d } = latest.unwrap_or(Latest {
        j: i + 1,
        p: 1,
        d: 0,
    });
    (i..=j - d - p).step_by(p)
}

impl Fast {
    /// For each place from 0 to n, the places whose row words its gathered word
    /// joins after n picks: i, i+p, i+2p and so on to j-d-p; at n, n alone.
    pub fn gathered_places(&self, n: usize) -> Vec<Vec<usize>> {
        let latest = self.latest_leading(n).into_iter().enumerate();
        latest
            .map(|(i, latest)| joined(i, latest).collect())
            .collect()
    }

    /// The gathered word of each place from 0 to n after n picks.
    pub fn gathered(&self, n: usize) -> Vec<u16> {
        let latest = self.latest_leading(n).into_iter().enumerate();
        let words = latest.map(|(i, latest)| joined(i, latest).map(|at| self.row(at)));
        words
            .map(|rows| rows.fold(0, |word, row| word | row))
            .collect()
    }

    /// For each place from 0 to n, the non-empty leading ending that opens after
    /// it and closes the longest prefix up to n. Place n has none.
    fn latest_leading(&self, n: usize) -> Vec<Option<Latest>> {
        let mut latest = vec![None; n + 1];
        for j in 1..=n {
            let leading = &self.leading[j];
            for (at, ending) in leading.iter().enumerate() {
                latest[j - ending.length] = Some(Latest {
                    j,
                    p: ending.period,
                    d: leading.get(at + 1).map_or(0, |next| next.length),
                });
            }
        }
        latest
    }
}
