//! The stored state: letters, codes, lifts, marks, lanes by centre and by place, and three numbers.

/// The most picks of a draft.
pub const PICKS: usize = 2_048;

/// The letters A to Z: entries of a table of lifts, and of the marks.
pub const ALPHABET: usize = 26;

/// The most sections that are asked for.
pub const SECTIONS: usize = 8;

/// The fewest entries of a visit list.
pub const VISITS: usize = 19;

/// The most names that are marks at a time.
pub const MARKS: usize = 4;

/// Entries of a lane by centre: 1 to 2 × 2,048 + 1, and entry 0, which is not used.
pub const CENTRES: usize = 2 * PICKS + 2;

/// Entries of a lane by place: 0 to 2,048.
pub const PLACES: usize = PICKS + 1;

/// The lane by centre that has the radii.
pub const RADIUS: usize = 0;
/// The lane by centre that has the lend lists' next centres.
pub const LENDS: usize = 1;
/// The lane by centre that has the list of the endings' centres.
pub const NEXT: usize = 2;
/// The lane by centre that has the same list backward.
pub const PREV: usize = 3;
/// How many lanes by centre there are.
pub const CENTRE_LANES: usize = 4;

/// The lane by place that has the lend lists' first centres.
pub const HEADS: usize = 0;
/// The lane by place that has the row words.
pub const ROWS: usize = 1;
/// The lane by place that has the gathered words.
pub const GATHERED: usize = 2;
/// How many lanes by place there are.
pub const PLACE_LANES: usize = 3;

/// The number that is the count of picks.
pub const N: usize = 0;
/// The number that is K.
pub const K: usize = 1;
/// The number that is the centre of the longest ending.
pub const LONGEST: usize = 2;
/// How many numbers there are.
pub const NUMBERS: usize = 3;

/// A place in whole picks: place i stands behind the first i picks.
#[derive(Clone, Copy, Debug, PartialEq, Eq, PartialOrd, Ord)]
pub struct Place(pub usize);

/// A centre in half picks.
#[derive(Clone, Copy, Debug, PartialEq, Eq, PartialOrd, Ord)]
pub struct Centre(pub usize);

/// All that is stored of a draft, laid out as `struct board` in C. It may hold any numbers: on
/// those that are no draft a call still ends within what it is lent.
#[repr(C)]
#[derive(Clone, Debug, PartialEq, Eq)]
pub struct State {
    /// The letters of the picks.
    pub letters: [u8; PICKS],
    /// Of each pick the lift, by the table in force when it was fed: what is compared.
    pub codes: [u8; PICKS],
    /// The table of lifts in force, A to Z.
    pub lifts: [u8; ALPHABET],
    /// The marks, A to Z: 0 where the letter is none, else one more than the length that it marks.
    pub marks: [u16; ALPHABET],
    /// The lanes by centre.
    pub centres: [[u16; CENTRES]; CENTRE_LANES],
    /// The lanes by place.
    pub places: [[u16; PLACES]; PLACE_LANES],
    /// The count of picks, K and the centre of the longest ending.
    pub numbers: [usize; NUMBERS],
}

impl State {
    /// A state of zeros, which is no draft yet.
    pub const ZEROS: State = State {
        letters: [0; PICKS],
        codes: [0; PICKS],
        lifts: [0; ALPHABET],
        marks: [0; ALPHABET],
        centres: [[0; CENTRES]; CENTRE_LANES],
        places: [[0; PLACES]; PLACE_LANES],
        numbers: [0; NUMBERS],
    };
}
