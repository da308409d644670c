//! Runs of all calls of the library, good and bad arguments mixed, with the plain
//! book beside: every reply and every lent byte is the one that the book gives, and
//! refused and reading calls keep every byte of the state.

use crate::support::visited::assert_visits_lead_on;
use comparison::beside::Beside;
use comparison::book::Book;
use comparison::library::Board;
use comparison::plain;
use comparison::samples::Generator;
use comparison::scripted::{given, refused, Call, Reply};
use comparison::structured::{broken_cubes, broken_periods};
use comparison::support::some_calls::some_call;
use comparison::tables::{some_lifts, Table};
use comparison::{MOST_PICKS, MOST_SECTIONS};

/// A run that opens with a start on some bytes, and often goes on with a load.
fn some_run(generator: &mut Generator) -> Beside {
    let byte = generator.below(1 << 16) as u16;
    let mut board = Board::filled(|| byte);
    let stored = generator.below(300);
    board.store(generator.below(5_000), stored, generator.below(9_000));
    let mut run = Beside::started_on(board, 1 + generator.below(MOST_SECTIONS) as u8);
    if generator.below(2) == 0 {
        let table = Table::of(some_lifts(generator));
        assert_eq!(run.make(Call::Load { table }), given([]), "{table:?}");
    }
    run
}

/// Makes a call. After an accepted feed its visits lead on by what the board tells.
fn make(run: &mut Beside, call: Call) -> Reply {
    let (reply, list, _) = run.make_lent(call);
    if let (Call::Feed { .. }, Ok([_, count, _])) = (call, reply) {
        let (draft, lifts) = (String::from_utf8_lossy(&run.book.row), run.book.lifts);
        let name = format!("{draft}, lifts {lifts:?}");
        assert_visits_lead_on(&mut run.board, &list[..count], &name);
    }
    reply
}

/// How many calls were accepted, and how many refused; how many were splits in which every
/// section turns, and how many such as have sections of one pick; how many were loads,
/// accepted and refused; how many feeds took a pick whose draft has another mask by its
/// letters than by its lifts; how many marks were set, and how many were a fifth; and how many
/// goings back left fewer picks, and how many found no such mark.
type Counts = [usize; 11];

/// Whether a feed was taken whose mask would be another by the letters.
fn differs_by_letters(run: &Beside, call: Call, reply: Reply) -> bool {
    let Book { row, .. } = &run.book;
    match (call, reply) {
        (Call::Feed { .. }, Ok([mask, ..])) if row.len() < 12 => {
            mask != plain::mask(row, run.book.most_sections).into()
        }
        _ => false,
    }
}

/// Makes some calls, and counts them.
fn make_some(run: &mut Beside, generator: &mut Generator, calls: usize) -> Counts {
    let mut counts = [0; 11];
    for _ in 0..calls {
        let n = run.book.row.len();
        let call = some_call(generator, n);
        let reply = make(run, call);
        counts[usize::from(reply.is_err())] += 1;
        if let (Call::Split { k, .. }, Ok([turns, ..])) = (call, reply) {
            counts[2 + usize::from(turns < k.into())] += 1;
        }
        if let Call::Load { .. } = call {
            counts[4 + usize::from(reply.is_err())] += 1;
        }
        counts[6] += usize::from(differs_by_letters(run, call, reply));
        counts[7] += usize::from(matches!((call, reply), (Call::Mark { .. }, Ok(_))));
        counts[8] += usize::from(reply == refused(18));
        counts[9] += usize::from(matches!(call, Call::Back { .. }) && run.book.row.len() < n);
        counts[10] += usize::from(reply == refused(17));
    }
    counts
}

/// 10,000 runs of some 35 calls each. Many calls of both kinds must be among them, many
/// splits, loads, marks and goings back of both kinds, and many drafts that are mirrored by
/// lifts alone.
#[test]
fn random_runs() {
    let generator = &mut Generator(41);
    let mut counts = [0; 11];
    for _ in 0..10_000 {
        let run = &mut some_run(generator);
        let calls = 25 + generator.below(20);
        let more = make_some(run, generator, calls);
        counts = std::array::from_fn(|at| counts[at] + more[at]);
    }
    let [accepted, refused, turning, passing, loads, refused_loads, alike, marking @ ..] = counts;
    assert!(accepted.min(refused) > 60_000, "{counts:?}");
    assert!(turning > 300 && passing > 2_000, "{counts:?}");
    assert!(loads.min(refused_loads) > 5_000, "{counts:?}");
    assert!(alike > 10_000, "{counts:?}");
    assert!(marking.iter().all(|&count| count > 1_000), "{counts:?}");
}

/// Runs of some hundred calls each.
#[test]
fn longer_runs() {
    let generator = &mut Generator(42);
    for _ in 0..200 {
        let run = &mut some_run(generator);
        make_some(run, generator, 400);
    }
}

/// Runs that begin some picks before the draft is full and go on past it.
#[test]
fn runs_at_a_full_draft() {
    let generator = &mut Generator(43);
    for at in 0..24 {
        let length = MOST_PICKS - generator.below(24);
        let draft = match at % 2 {
            0 => broken_cubes(generator, 2, length),
            _ => broken_periods(generator, 3, length),
        };
        let most_sections = 1 + generator.below(MOST_SECTIONS);
        let run = &mut match at % 3 {
            0 => Beside::fed_under(&some_lifts(generator), &draft, most_sections),
            _ => Beside::fed(&draft, most_sections),
        };
        for _ in 0..120 {
            let call = some_call(generator, run.book.row.len());
            if !matches!(call, Call::Start { .. }) {
                make(run, call).ok();
            }
        }
        let entries = 19;
        while run.book.row.len() < MOST_PICKS {
            let fed = make(run, Call::Feed { pick: 90, entries });
            assert!(fed.is_ok(), "{fed:?}, {} picks", run.book.row.len());
        }
        assert_eq!(run.make(Call::Feed { pick: 90, entries }), refused(8));
    }
}

/// Two boards called in turn, with different K, give what each gives alone.
#[test]
fn two_boards_in_turn() {
    let generator = &mut Generator(44);
    for _ in 0..200 {
        let mut runs = [some_run(generator), some_run(generator)];
        for _ in 0..40 {
            let run = &mut runs[generator.below(2)];
            make_some(run, generator, 1);
        }
    }
}
