//! Each call by itself.

use super::board::Board;
use super::running::Lent;
use crate::calls::{Answer, NextEnding, Placed, Taken};
use crate::plain::Lifts;
use crate::scripted::{Call, Reply, VALUES};
use crate::tables::Table;
use crate::VISIT_ROOM;

/// A number of a script's call, which has 16 bits.
fn short(number: usize) -> u16 {
    u16::try_from(number).expect("an argument of 16 bits")
}

/// A section count of a script's call, which has 8 bits.
fn byte(number: usize) -> u8 {
    u8::try_from(number).expect("an argument of 8 bits")
}

/// The values of a reply, or its number, which names no place.
fn values(call: Call, reply: Reply) -> Answer<[usize; VALUES]> {
    reply.map_err(|(number, place)| {
        assert_eq!(place, None, "place of {number}, {call:?}");
        number
    })
}

/// The value of a reply that has one.
fn one_value(call: Call, reply: Reply) -> Answer<usize> {
    let [value, none @ ..] = values(call, reply)?;
    assert_eq!(none, [0, 0], "more values of {call:?}");
    Ok(value)
}

impl Board {
    /// The state after a start with K and a feed of each pick, all accepted.
    pub fn fed(draft: &[u8], most_sections: usize) -> Board {
        let mut board = Board::started(most_sections);
        board.feed_all(draft);
        board
    }

    /// The state after a start with K, a load of these lifts and a feed of each pick, all
    /// accepted.
    pub fn fed_under(lifts: &Lifts, draft: &[u8], most_sections: usize) -> Board {
        let mut board = Board::started(most_sections);
        assert_eq!(board.load(Table::of(*lifts)), Ok(()), "load of {lifts:?}");
        board.feed_all(draft);
        board
    }

    /// Feeds each pick, all of them as one script; each is accepted.
    pub fn feed_all(&mut self, draft: &[u8]) {
        let entries = VISIT_ROOM as u16;
        let feeds: Vec<Call> = draft
            .iter()
            .map(|&pick| Call::Feed { pick, entries })
            .collect();
        let replies = self.run(&feeds, &mut Lent::to(&feeds, 0, 0));
        let text = String::from_utf8_lossy(draft);
        assert!(replies.iter().all(Reply::is_ok), "feeds of {text}");
    }

    /// Start.
    pub fn start(&mut self, most_sections: u8) -> Answer<()> {
        self.nothing(Call::Start { most_sections })
    }

    /// Mark.
    pub fn mark(&mut self, name: u8) -> Answer<()> {
        self.nothing(Call::Mark { name })
    }

    /// Going back to a mark.
    pub fn back(&mut self, name: u8) -> Answer<()> {
        self.nothing(Call::Back { name })
    }

    /// Load.
    pub fn load(&mut self, table: Table) -> Result<(), Placed> {
        let call = Call::Load { table };
        let none = self.make(call, &mut [], &mut [])?;
        assert_eq!(none, [0; VALUES], "values of {call:?}");
        Ok(())
    }

    /// The lift of a letter.
    pub fn lift(&mut self, letter: u8) -> Answer<usize> {
        self.value(Call::Lift { letter })
    }

    /// Feed.
    pub fn feed(&mut self, pick: u8, visit_list: &mut [u16]) -> Answer<Taken> {
        let entries = short(visit_list.len());
        let call = Call::Feed { pick, entries };
        let [mask, visits, none] = values(call, self.make(call, visit_list, &mut []))?;
        assert_eq!(none, 0, "third value of {call:?}");
        let mask = u8::try_from(mask).expect("a mask of 8 bits");
        Ok(Taken { mask, visits })
    }

    /// Split.
    pub fn split(&mut self, i: usize, k: usize, ends_list: &mut [u16]) -> Answer<usize> {
        let (prefix, k, entries) = (short(i), byte(k), short(ends_list.len()));
        let call = Call::Split { prefix, k, entries };
        one_value(call, self.make(call, ends_list, &mut []))
    }

    /// Folded record.
    pub fn folded_record(&mut self, i: usize, k: usize, output: &mut [u8]) -> Answer<usize> {
        let (prefix, k, bytes) = (short(i), byte(k), short(output.len()));
        let call = Call::Record { prefix, k, bytes };
        one_value(call, self.make(call, &mut [], output))
    }

    /// Centre of the longest ending.
    pub fn longest_centre(&mut self) -> Answer<usize> {
        self.value(Call::LongestCentre)
    }

    /// Mask of prefix i.
    pub fn mask_of_prefix(&mut self, i: usize) -> Answer<usize> {
        self.value(Call::Mask { prefix: short(i) })
    }

    /// Radius at a centre.
    pub fn radius_at(&mut self, centre: usize) -> Answer<usize> {
        let centre = short(centre);
        self.value(Call::Radius { centre })
    }

    /// Centre of the next shorter ending after the one at the given centre, and that
    /// one's length and least period.
    pub fn next_ending(&mut self, centre: usize) -> Answer<NextEnding> {
        let centre = short(centre);
        let call = Call::NextEnding { centre };
        let [centre, length, period] = values(call, self.make(call, &mut [], &mut []))?;
        Ok(NextEnding {
            centre,
            length,
            period,
        })
    }

    /// A call that is lent nothing and gives no value.
    fn nothing(&mut self, call: Call) -> Answer<()> {
        let none = values(call, self.make(call, &mut [], &mut []))?;
        assert_eq!(none, [0; VALUES], "values of {call:?}");
        Ok(())
    }

    /// The one value of a call that is lent nothing.
    fn value(&mut self, call: Call) -> Answer<usize> {
        one_value(call, self.make(call, &mut [], &mut []))
    }
}
