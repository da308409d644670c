//! Marks in a draft and goings back to them, worked out by hand.

use crate::scripted::{given, refused, Call, Reply};
use crate::tables::{alike, Table};

/// A call, what it replies, and the entries that it fills in.
pub type Step = (Call, Reply, &'static [u16]);

/// A call that is accepted and gives nothing.
fn done(call: Call) -> Step {
    (call, given([]), &[])
}

/// A start with K = 8.
fn start() -> Step {
    done(Call::Start { most_sections: 8 })
}

/// A feed with its mask and its visits.
fn feed(pick: u8, mask: usize, visits: &'static [u16]) -> Step {
    let entries = 19;
    let reply = given([mask, visits.len()]);
    (Call::Feed { pick, entries }, reply, visits)
}

/// A mark that is set.
fn mark(name: u8) -> Step {
    done(Call::Mark { name })
}

/// A mark that is gone back to.
fn back(name: u8) -> Step {
    done(Call::Back { name })
}

/// A call that is refused with this number.
fn refusal(call: Call, number: u8) -> Step {
    (call, refused(number), &[])
}

/// A call that gives these values.
fn asked<const COUNT: usize>(call: Call, values: [usize; COUNT]) -> Step {
    (call, given(values), &[])
}

/// Another ending of ABA: ABACDDC first, then ABABABA, whose visits and masks are those of
/// document 01, and ABAC once more.
fn another_ending() -> Vec<Step> {
    let (name, prefix) = (b'M', 3);
    let split = Call::Split {
        prefix,
        k: 1,
        entries: 1,
    };
    let record = Call::Record {
        prefix,
        k: 2,
        bytes: 99,
    };
    vec![
        start(),
        feed(b'A', 0b1, &[1]),
        feed(b'B', 0b10, &[1]),
        feed(b'A', 0b101, &[3, 1]),
        mark(name),
        feed(b'C', 0b1010, &[1]),
        feed(b'D', 0b1_0100, &[1]),
        feed(b'D', 0b11_1100, &[2, 1]),
        feed(b'C', 0b111_1010, &[4, 1]),
        asked(Call::LongestCentre, [11]),
        back(name),
        asked(Call::LongestCentre, [4]),
        asked(Call::Mask { prefix }, [0b101]),
        refusal(Call::Mask { prefix: 4 }, 4),
        asked(Call::Radius { centre: 4 }, [1]),
        asked(Call::Radius { centre: 7 }, [0]),
        refusal(Call::Radius { centre: 8 }, 4),
        asked(Call::NextEnding { centre: 4 }, [6, 3, 2]),
        (split, given([1]), &[3]),
        refusal(record, 9),
        feed(b'B', 0b1010, &[3, 1]),
        feed(b'A', 0b1_0101, &[5, 3, 1]),
        feed(b'B', 0b10_1010, &[5, 3, 1]),
        feed(b'A', 0b101_0101, &[7, 3, 1]),
        asked(Call::LongestCentre, [8]),
        back(name),
        feed(b'C', 0b1010, &[1]),
        asked(Call::LongestCentre, [8]),
    ]
}

/// Four names and no fifth; one of them moved; marks of equal length kept, longer ones
/// dropped, of AAA.
fn four_names() -> Vec<Step> {
    let refused_mark = |name| refusal(Call::Mark { name }, 18);
    let refused_back = |name| refusal(Call::Back { name }, 17);
    vec![
        start(),
        refused_back(b'A'),
        mark(b'A'),
        feed(b'A', 0b1, &[1]),
        mark(b'B'),
        feed(b'A', 0b11, &[2, 1]),
        mark(b'C'),
        feed(b'A', 0b111, &[3, 1]),
        mark(b'D'),
        refused_mark(b'E'),
        mark(b'A'),
        refused_mark(b'Z'),
        back(b'D'),
        back(b'A'),
        asked(Call::Mask { prefix: 3 }, [0b111]),
        back(b'C'),
        refusal(Call::Mask { prefix: 3 }, 4),
        refused_back(b'A'),
        refused_back(b'D'),
        mark(b'E'),
        mark(b'Z'),
        refused_mark(b'A'),
        back(b'B'),
        refused_back(b'C'),
        refused_back(b'E'),
        asked(Call::Mask { prefix: 1 }, [0b1]),
        back(b'B'),
        feed(b'B', 0b10, &[1]),
        start(),
        refused_back(b'B'),
    ]
}

/// A and B lift alike: going back leaves the lifts, and a load is refused until it leaves no
/// pick.
fn own_lifts() -> Vec<Step> {
    let alike = Table::of(alike(b"AB"));
    let load = |lifts| Call::Load {
        table: Table::of(lifts),
    };
    let lift = Call::Lift { letter: b'B' };
    vec![
        start(),
        done(Call::Load { table: alike }),
        mark(b'N'),
        feed(b'A', 0b1, &[1]),
        feed(b'C', 0b10, &[1]),
        mark(b'M'),
        feed(b'B', 0b101, &[3, 1]),
        back(b'M'),
        asked(lift, [3]),
        feed(b'A', 0b101, &[3, 1]),
        back(b'M'),
        feed(b'C', 0b110, &[2, 1]),
        refusal(load([7; 26]), 16),
        back(b'N'),
        refusal(Call::Back { name: b'M' }, 17),
        asked(Call::LongestCentre, [1]),
        asked(lift, [3]),
        feed(b'A', 0b1, &[1]),
        feed(b'B', 0b11, &[2, 1]),
        back(b'N'),
        done(load([7; 26])),
        asked(lift, [7]),
        feed(b'A', 0b1, &[1]),
        feed(b'C', 0b11, &[2, 1]),
        back(b'N'),
        asked(lift, [7]),
        start(),
        asked(lift, [5]),
        refusal(Call::Back { name: b'N' }, 17),
    ]
}

/// All of them.
pub fn sessions() -> [Vec<Step>; 3] {
    [another_ending(), four_names(), own_lifts()]
}
