//! The library's marks as goings back leave them, and runs of both, beside the book: marks kept,
//! dropped, moved and set anew, with loads and starts between.

use crate::support::made_calls::{back, feed, mark};
use comparison::beside::Beside;
use comparison::library::Board;
use comparison::plain::fixed_lifts;
use comparison::samples::Generator;
use comparison::scripted::{given, refused, Call};
use comparison::structured::mirror;
use comparison::tables::{some_lifts, Table};
use comparison::MOST_SECTIONS;

/// Four marks of any lengths from 0 to 4, in any order: going back to one keeps those that
/// are as long or shorter, and drops the longer ones.
#[test]
fn marks_kept_and_dropped() {
    let fed: Vec<Board> = (0..=4).map(|n| Board::fed(&b"ABAB"[..n], 8)).collect();
    for set in 0..5usize.pow(4) {
        let lengths = [0, 1, 2, 3].map(|at| set / 5usize.pow(at) % 5);
        let mut board = fed[4].clone();
        for (name, length) in lengths.into_iter().enumerate() {
            board.marks_mut()[7 * name] = length as u16 + 1;
        }
        for (name, kept) in lengths.into_iter().enumerate() {
            let mut expected = fed[kept].clone();
            for (at, length) in lengths.into_iter().enumerate() {
                let stays = length <= kept;
                expected.marks_mut()[7 * at] = u16::from(stays) * (length as u16 + 1);
            }
            let mut shortened = board.clone();
            let reply = shortened.back(b'A' + 7 * name as u8);
            assert_eq!(reply, Ok(()), "lengths {lengths:?}, name {name}");
            assert!(shortened == expected, "lengths {lengths:?}, name {name}");
        }
    }
}

/// Picks that go on with the last ones: their mirror, their repeat, or any.
fn some_picks(generator: &mut Generator, row: &[u8]) -> Vec<u8> {
    let length = 1 + generator.below(40);
    let mut longer = row.to_vec();
    match (generator.below(3), row.len()) {
        (0, n @ 1..) => mirror(&mut longer, 1 + generator.below(n), generator.below(2)),
        (1, n @ 1..) => {
            let period = 1 + generator.below(n.min(9));
            (0..length).for_each(|_| longer.push(longer[longer.len() - period]));
        }
        _ => longer.extend(generator.draft(2, length)),
    }
    let picks = longer.split_off(row.len());
    picks.into_iter().take(length).collect()
}

/// Long runs in which marks are set at any length, moved, dropped and set anew, by five names,
/// one more than there may be; each call beside the book. Some goings back must abandon no
/// pick, some a few, and some over fifty.
#[test]
fn long_runs() {
    let (mut counts, mut most) = ([0; 3], 0);
    for seed in 0..12 {
        let generator = &mut Generator(seed);
        let lifts = [fixed_lifts(), some_lifts(generator)][generator.below(2)];
        let mut run = Beside::fed_under(&lifts, b"", 1 + generator.below(MOST_SECTIONS));
        for step in 0..60 {
            for pick in some_picks(generator, &run.book.row) {
                assert!(run.make(feed(pick)).is_ok(), "seed {seed}, step {step}");
                if generator.below(20) == 0 {
                    run.make(mark(b"PQRST"[generator.below(5)])).ok();
                }
            }
            let n = run.book.row.len();
            if run.make(back(b"PQRST"[generator.below(5)])).is_ok() {
                let abandoned = n - run.book.row.len();
                counts[abandoned.div_ceil(50).min(2)] += 1;
            }
            most = most.max(n);
        }
    }
    let often = counts.iter().all(|&count| count > 4);
    assert!(often && most > 400, "{counts:?}, {most} picks");
}

/// Back to no pick a load is accepted, and its lifts are those of all that is fed from then
/// on; a start drops the marks.
#[test]
fn back_to_no_pick_and_a_load() {
    let generator = &mut Generator(29);
    for at in 0..60 {
        let mut run = Beside::fed(b"", 1 + at % MOST_SECTIONS);
        assert_eq!(run.make(mark(b'O')), given([]));
        for _ in 0..5 {
            let table = Table::of(some_lifts(generator));
            assert_eq!(run.make(Call::Load { table }), given([]), "{at}");
            for pick in generator.draft(3, 4) {
                assert!(run.make(feed(pick)).is_ok(), "{at}");
                assert_eq!(run.make(Call::Load { table }), refused(16), "{at}");
                run.make(mark(b"PQ"[generator.below(2)])).ok();
            }
            assert_eq!(run.make(back(b'O')), given([]), "{at}");
            assert_eq!(run.board.lifts(), table.lifts, "{at}");
            assert_eq!(run.make(back(b'P')), refused(17), "{at}");
        }
        assert_eq!(run.make(Call::Start { most_sections: 8 }), given([]));
        assert_eq!(run.make(back(b'O')), refused(17), "{at}");
    }
}
