//! The library's splits and records of drafts of 2,048 picks, at many prefixes and
//! for every k.

use comparison::beside::{BYTE, ENTRY};
use comparison::fast::Fast;
use comparison::full_drafts;
use comparison::library::{Board, Lent};
use comparison::scripted::{given, refused, Call, Reply};
use comparison::support::turns::turns_by_parts;
use comparison::{plain, FIRST_PICK, MOST_PICKS, MOST_SECTIONS};

/// Entries of each ends list, more than the ends there can be.
const ENTRIES: usize = 11;

/// How many splits there were, by k and by the turn count.
type Counts = [[usize; MOST_SECTIONS + 1]; MOST_SECTIONS + 1];

/// Prefixes to split: the first ones, every 23rd, and the last ones.
fn prefixes() -> impl Iterator<Item = usize> {
    (0..=MOST_PICKS).filter(|i| *i < 12 || i % 23 == 0 || *i > MOST_PICKS - 12)
}

/// The reply to a split, and the list after it, by the tables.
fn split_by(fast: &Fast, i: usize, k: usize) -> (Reply, Vec<u16>) {
    let mut list = vec![ENTRY; ENTRIES];
    let Some(ends) = fast.split(i, k) else {
        return (refused(9), list);
    };
    for (entry, &end) in list.iter_mut().zip(&ends) {
        *entry = end as u16;
    }
    (given([plain::turn_count(&ends)]), list)
}

/// Splits every one of the prefixes for every k and compares. Counts the splits.
fn compare_splits(board: &mut Board, fast: &Fast, name: &str, splits: &mut Counts) {
    for i in prefixes() {
        let calls: Vec<Call> = (1..=fast.most_sections() as u8)
            .map(|k| Call::Split {
                prefix: i as u16,
                k,
                entries: ENTRIES as u16,
            })
            .collect();
        let mut lent = Lent::to(&calls, ENTRY, BYTE);
        let replies = board.run(&calls, &mut lent);
        for (at, list) in lent.lists.chunks(ENTRIES).enumerate() {
            let k = at + 1;
            let (reply, expected) = split_by(fast, i, k);
            let case = format!("{name}, prefix {i} in {k}");
            assert_eq!((replies[at], list), (reply, &expected[..]), "{case}");
            if let Ok([turns, ..]) = reply {
                splits[k][turns] += 1;
            }
        }
    }
}

/// Compares the records of the whole draft for every k: exact, and a byte too short.
fn compare_records(board: &mut Board, fast: &Fast, draft: &[u8], name: &str) {
    for k in 1..=fast.most_sections() {
        let Some(ends) = fast.split(MOST_PICKS, k) else {
            continue;
        };
        let expected = plain::folded_record(draft, &ends);
        let mut output = vec![BYTE; expected.len()];
        let short = &mut output[1..];
        let refused = board.folded_record(MOST_PICKS, k, short);
        assert_eq!(refused, Err(5), "{name} in {k}");
        assert!(short.iter().all(|&byte| byte == BYTE), "{name} in {k}");
        let count = board.folded_record(MOST_PICKS, k, &mut output);
        assert_eq!(count, Ok(expected.len()), "{name} in {k}");
        assert_eq!(output, expected, "{name} in {k}");
    }
}

/// Every count of turns from 0 to k must be among the splits into k.
#[test]
fn splits_and_records_of_full_drafts() {
    let mut splits = Counts::default();
    for (name, draft) in full_drafts::of_each_kind() {
        for most_sections in [MOST_SECTIONS, 3] {
            let name = format!("{name}, K {most_sections}");
            let fast = Fast::new(&draft, most_sections);
            let mut board = Board::fed(&draft, most_sections);
            let before = board.clone();
            compare_splits(&mut board, &fast, &name, &mut splits);
            compare_records(&mut board, &fast, &draft, &name);
            assert!(board == before, "a byte of the state changed, {name}");
        }
    }
    assert!(splits.iter().flatten().sum::<usize>() > 5_000, "{splits:?}");
    for (k, times) in splits.iter().enumerate().skip(1) {
        let every = times[..=k].iter().all(|&times| times > 0);
        assert!(every, "in {k}, by the turn count: {times:?}");
    }
}

/// "Cutting off the longest ending first, whether or not the rest can be split": at
/// many prefixes of these drafts that is another split, or none.
#[test]
fn the_longest_ending_is_often_no_last_section() {
    let mut others = 0;
    for (name, draft) in full_drafts::of_each_kind() {
        let fast = Fast::new(&draft, MOST_SECTIONS);
        let mut board = Board::fed(&draft, MOST_SECTIONS);
        for i in prefixes().skip(1) {
            for k in 2..=MOST_SECTIONS {
                let Some(ends) = fast.split(i, k) else {
                    continue;
                };
                if ends[k - 2] + fast.longest(i) == i {
                    continue;
                }
                others += 1;
                let mut list = vec![ENTRY; k];
                let case = format!("{name}, prefix {i} in {k}");
                let turns = turns_by_parts(&draft, &ends);
                assert_eq!(board.split(i, k, &mut list), Ok(turns), "{case}");
                assert_eq!(usize::from(list[k - 2]), ends[k - 2], "{case}");
            }
        }
    }
    assert!(others > 500, "{others} other splits");
}

/// Runs of eight letters, one behind the other. No stretch over two of them is mirrored,
/// so that the runs are the sections of the one split into 8.
fn eight_runs(lengths: [usize; MOST_SECTIONS]) -> Vec<u8> {
    let letters = FIRST_PICK..;
    let runs = letters
        .zip(lengths)
        .map(|(pick, length)| vec![pick; length]);
    runs.collect::<Vec<_>>().concat()
}

/// Eight sections, of which any but a long one have one pick, and the others two, three,
/// 256 or 257: the turn count is the number of the others and the long one.
#[test]
fn sections_of_one_pick_at_each_place() {
    for long in [0, 3, 7] {
        for of_one_pick in (0..=u8::MAX).filter(|sections| sections >> long & 1 == 0) {
            let mut lengths: [usize; 8] = std::array::from_fn(|at| match of_one_pick >> at & 1 {
                1 => 1,
                _ => [2, 3, 256, 257][at % 4],
            });
            lengths[long] += MOST_PICKS - lengths.iter().sum::<usize>();
            let mut board = Board::fed(&eight_runs(lengths), MOST_SECTIONS);
            let mut ends = [ENTRY; MOST_SECTIONS];
            let turns = 8 - of_one_pick.count_ones() as usize;
            let answer = board.split(MOST_PICKS, 8, &mut ends);
            assert_eq!(answer, Ok(turns), "{lengths:?}");
            let sums = (1..=8).map(|s| lengths[..s].iter().sum::<usize>());
            assert!(sums.eq(ends.map(usize::from)), "{lengths:?}, {ends:?}");
        }
    }
}
