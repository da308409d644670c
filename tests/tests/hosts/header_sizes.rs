//! The constants, types, sizes and offsets of include/board.h and of the Rust package are
//! those of the Rattle sources: a C compiler holds them to their declarations.

use crate::support::compiled::{compiler, folder};
use crate::support::rattle::declarations;
use board::State;
use comparison::support::own_name::own_name;
use std::fs::{read_to_string, remove_file, write};
use std::mem::{offset_of, size_of};

/// The Rattle sources that the header repeats.
const SOURCES: [&str; 5] = [
    "../crates/cells/src/lib.rt",
    "../crates/drive/src/numbers.rt",
    "../crates/drive/src/request.rt",
    "../crates/drive/src/follow.rt",
    "../crates/drive/src/lib.rt",
];

/// Each constant in Rattle, in the header and in the Rust package.
const CONSTANTS: [(&str, &str, usize); 7] = [
    ("PICKS", "BOARD_PICKS", board::PICKS),
    ("ALPHABET", "BOARD_ALPHABET", board::ALPHABET),
    ("MARKS", "BOARD_MARKS", board::MARKS),
    ("SECTIONS", "BOARD_SECTIONS", board::SECTIONS),
    ("VISITS", "BOARD_VISITS", board::VISITS),
    ("CALL_SIZE", "BOARD_CALL_SIZE", board::CALL_BYTES),
    ("ANSWER_SIZE", "BOARD_ANSWER_SIZE", board::ANSWER_NUMBERS),
];

/// Each lane's place among its own, by the field that it is in Rattle, in C; the same in the
/// header and in the Rust package.
const LANES: [(&str, &str, usize); 9] = [
    (
        "sizeof(struct Centres) / sizeof(ByCentre)",
        "BOARD_CENTRE_LANES",
        board::CENTRE_LANES,
    ),
    (
        "offsetof(struct Centres, radius) / sizeof(ByCentre)",
        "BOARD_RADIUS_LANE",
        board::RADIUS,
    ),
    (
        "offsetof(struct Centres, lends) / sizeof(ByCentre)",
        "BOARD_LENDS_LANE",
        board::LENDS,
    ),
    (
        "offsetof(struct Centres, next) / sizeof(ByCentre)",
        "BOARD_NEXT_LANE",
        board::NEXT,
    ),
    (
        "offsetof(struct Centres, prev) / sizeof(ByCentre)",
        "BOARD_PREV_LANE",
        board::PREV,
    ),
    (
        "sizeof(struct Places) / sizeof(ByPlace)",
        "BOARD_PLACE_LANES",
        board::PLACE_LANES,
    ),
    (
        "offsetof(struct Places, heads) / sizeof(ByPlace)",
        "BOARD_HEADS_LANE",
        board::HEADS,
    ),
    (
        "offsetof(struct Places, rows) / sizeof(ByPlace)",
        "BOARD_ROWS_LANE",
        board::ROWS,
    ),
    (
        "offsetof(struct Places, gathered) / sizeof(ByPlace)",
        "BOARD_GATHERED_LANE",
        board::GATHERED,
    ),
];

/// Each call's number in Rattle and in the header.
const CALLS: [(&str, &str); 12] = [
    ("Op_Start", "BOARD_START_CALL"),
    ("Op_Feed", "BOARD_FEED_CALL"),
    ("Op_Load", "BOARD_LOAD_CALL"),
    ("Op_Mark", "BOARD_MARK_CALL"),
    ("Op_Back", "BOARD_BACK_CALL"),
    ("Op_Split", "BOARD_SPLIT_CALL"),
    ("Op_LongestEnding", "BOARD_LONGEST_CALL"),
    ("Op_Mask", "BOARD_MASK_CALL"),
    ("Op_RadiusAt", "BOARD_RADIUS_CALL"),
    ("Op_NextShorter", "BOARD_NEXT_CALL"),
    ("Op_Record", "BOARD_RECORD_CALL"),
    ("Op_Lift", "BOARD_LIFT_CALL"),
];

/// What follows from the counts of the calls and the sizes of the Rattle types, in C.
const LAYOUT: [&str; 25] = [
    "(size_t)BOARD_CALLS == Op_Lift + 1",
    "BOARD_CENTRES == sizeof(ByCentre) / sizeof(uint16_t)",
    "BOARD_PLACES == sizeof(ByPlace) / sizeof(uint16_t)",
    "BOARD_RECORD == PICKS / 2 + 7 * SECTIONS + 8",
    "BOARD_N == 0 && BOARD_K == 1 && BOARD_LONGEST == 2 && BOARD_NUMBERS == 3",
    "_Generic(&((struct board *)0)->letters, Letters *: 1, default: 0)",
    "_Generic(&((struct board *)0)->codes, Letters *: 1, default: 0)",
    "_Generic(&((struct board *)0)->lifts, Lifts *: 1, default: 0)",
    "_Generic(&((struct board *)0)->marks, Marks *: 1, default: 0)",
    "_Generic(&((struct board *)0)->centres, Centres *: 1, default: 0)",
    "_Generic(&((struct board *)0)->places, Places *: 1, default: 0)",
    "_Generic(&((struct board *)0)->numbers, size_t (*)[3]: 1, default: 0)",
    "sizeof(((struct board *)0)->letters) == sizeof(Letters)",
    "sizeof(((struct board *)0)->codes) == sizeof(Letters)",
    "sizeof(((struct board *)0)->lifts) == sizeof(Lifts)",
    "sizeof(((struct board *)0)->marks) == sizeof(Marks)",
    "sizeof(((struct board *)0)->centres) == sizeof(Centres)",
    "sizeof(((struct board *)0)->places) == sizeof(Places)",
    "offsetof(struct board, codes) == sizeof(Letters)",
    "offsetof(struct board, lifts) == 2 * sizeof(Letters)",
    "offsetof(struct board, marks) == 2 * sizeof(Letters) + sizeof(Lifts)",
    "offsetof(struct board, centres) == offsetof(struct board, marks) + sizeof(Marks)",
    "offsetof(struct board, places) == offsetof(struct board, centres) + sizeof(Centres)",
    "offsetof(struct board, numbers) == (offsetof(struct board, places) + sizeof(Places) + 7) / 8 * 8",
    "sizeof(struct board) == offsetof(struct board, numbers) + 3 * sizeof(size_t)",
];

/// The sizes and offsets of the Rust package's state, as those of the header.
fn of_rust() -> Vec<String> {
    let sizes = [
        (board::CENTRES, "sizeof(ByCentre) / sizeof(uint16_t)"),
        (board::PLACES, "sizeof(ByPlace) / sizeof(uint16_t)"),
        (
            offset_of!(State, letters),
            "offsetof(struct board, letters)",
        ),
        (offset_of!(State, codes), "offsetof(struct board, codes)"),
        (offset_of!(State, lifts), "offsetof(struct board, lifts)"),
        (offset_of!(State, marks), "offsetof(struct board, marks)"),
        (
            offset_of!(State, centres),
            "offsetof(struct board, centres)",
        ),
        (offset_of!(State, places), "offsetof(struct board, places)"),
        (
            offset_of!(State, numbers),
            "offsetof(struct board, numbers)",
        ),
        (size_of::<State>(), "sizeof(struct board)"),
        (
            size_of::<State>() - offset_of!(State, numbers),
            "3 * sizeof(size_t)",
        ),
    ];
    let constants = CONSTANTS.into_iter().chain(LANES);
    let constants = constants.map(|(name, _, value)| format!("{value} == {name}"));
    let sizes = sizes.map(|(value, size)| format!("{value} == {size}"));
    constants.chain(sizes).collect()
}

/// The text of the Rattle sources.
fn sources() -> String {
    let text = |path| read_to_string(path).unwrap_or_else(|error| panic!("{path}: {error}"));
    SOURCES.map(text).concat()
}

/// What the compiler says to a file with the header, the declarations of the Rattle
/// sources and all that must hold; nothing where it takes it.
fn refusal(sources: &str, name: &str) -> Option<String> {
    let constants = CONSTANTS.into_iter().chain(LANES);
    let constants = constants.map(|(rattle, header, _)| format!("(size_t){header} == {rattle}"));
    let calls = CALLS.map(|(rattle, header)| format!("(size_t){header} == {rattle}"));
    let layout = LAYOUT.map(String::from);
    let numbers = constants.chain(calls);
    let facts = numbers.chain(layout).chain(of_rust());
    let facts = facts.map(|fact| format!("_Static_assert({fact}, \"{fact}\");\n"));
    let (declared, asserted) = (declarations(sources), facts.collect::<String>());
    let path = folder().join(own_name(&format!("header_sizes_{name}")) + ".c");
    let text = format!("#include \"board.h\"\n{declared}{asserted}");
    write(&path, text).expect("room for a file");
    let output = compiler("gcc -std=c11 -fsyntax-only", &[&path]);
    remove_file(&path).expect("that file");
    let said = String::from_utf8_lossy(&output.stderr).into_owned();
    (!output.status.success()).then_some(said)
}

/// The header, and the numbers of the Rust package, beside the sources as they are.
#[test]
fn the_header_and_the_package_are_those_of_the_sources() {
    let sources = sources();
    let three_numbers = "numbers: &mut [usize; 3],";
    assert!(sources.contains(three_numbers), "no {three_numbers}");
    assert_eq!(refusal(&sources, "as_they_are"), None);
}

/// The header has each call that there is.
#[test]
fn there_are_no_other_calls() {
    let declared = declarations(&sources());
    let names = declared
        .lines()
        .filter_map(|line| line.strip_prefix("enum { Op_"));
    assert_eq!(names.count(), CALLS.len());
}

/// The functions that are given no state, declared in C as the sources have them.
fn stateless(sources: &str) -> Vec<String> {
    let declared = declarations(sources);
    let lines = declared.lines().map(String::from);
    lines
        .filter(|line| line.starts_with("size_t drive_"))
        .collect()
}

/// Those of them that the header has otherwise, or not at all.
fn undeclared(sources: &str) -> Vec<String> {
    let header = read_to_string("../include/board.h").expect("the header");
    let header = header.split_whitespace().collect::<Vec<_>>().join(" ");
    let mut functions = stateless(sources);
    functions.retain(|function| !header.contains(function));
    functions
}

/// The header has each function that is given no state, word for word: a C compiler does
/// not hold the length of an answer to anything.
#[test]
fn the_answers_are_as_long_as_in_the_sources() {
    let sources = sources();
    let count = stateless(&sources).len();
    assert_eq!(count, 3, "show, unfold and section");
    assert_eq!(undeclared(&sources), [""; 0]);
    let (old, new) = ("answer: &mut [usize; 4]", "answer: &mut [usize; 3]");
    assert_eq!(undeclared(&changed(&sources, old, new)).len(), 1);
}

/// A copy of the sources with one text in place of the other, which stands there once.
fn changed(sources: &str, old: &str, new: &str) -> String {
    assert_eq!(sources.matches(old).count(), 1, "{old} in the sources");
    sources.replace(old, new)
}

/// Asserts that the compiler refuses the changed sources, and says this.
fn assert_refused(changed: &str, name: &str, said: &str) {
    let refusal = refusal(changed, name);
    let is_said = refusal
        .as_ref()
        .is_some_and(|refusal| refusal.contains(said));
    assert!(is_said, "{name} is changed: {refusal:?}");
}

/// Each constant that is another is refused.
#[test]
fn a_changed_constant_is_refused() {
    let sources = sources();
    for (name, _, _) in CONSTANTS {
        let line = format!("const {name}: ");
        let (_, behind) = sources.split_once(&line).expect(name);
        let (old, _) = behind.split_once(';').expect("the end of the constant");
        let old = format!("{line}{old};");
        let new = old.replace(';', " + 1;");
        let changed = changed(&sources, &old, &new);
        assert_refused(&changed, name, "static assertion failed");
    }
}

/// So is a call's number.
#[test]
fn a_changed_number_is_refused() {
    let sources = sources();
    for (name, _) in CALLS {
        let call = name.replace("Op_", " => Ok(Op::") + ")";
        let (before, _) = sources.split_once(&call).expect(name);
        let (_, number) = before.rsplit_once(' ').expect("a number");
        let old = format!(" {number}{call}");
        let new = format!(" 1{number}{call}");
        let changed = changed(&sources, &old, &new);
        assert_refused(&changed, name, "static assertion failed");
    }
}

/// So is a type that is another, a field in another place, and a parameter.
#[test]
fn a_changed_type_is_refused() {
    let failed = "static assertion failed";
    let conflict = "conflicting types";
    for (old, new, said) in [
        ("[u8; PICKS]", "[u16; PICKS]", failed),
        ("[u8; ALPHABET]", "[u8; ALPHABET + 1]", failed),
        ("[u8; ALPHABET]", "[u16; ALPHABET]", failed),
        ("[u16; ALPHABET]", "[u16; ALPHABET + 1]", failed),
        ("[u16; ALPHABET]", "[u8; ALPHABET]", failed),
        ("= PICKS + 1;", "= PICKS + 2;", failed),
        ("[u16; BY_PLACE]", "[u8; BY_PLACE]", failed),
        ("= 2 * PICKS + 2;", "= 2 * PICKS + 1;", failed),
        ("lends: ByCentre", "lends: ByPlace", failed),
        (
            "    pub radius: ByCentre,\n    pub lends: ByCentre,",
            "    pub lends: ByCentre,\n    pub radius: ByCentre,",
            failed,
        ),
        (
            "    pub next: ByCentre,\n    pub prev: ByCentre,",
            "    pub prev: ByCentre,\n    pub next: ByCentre,",
            failed,
        ),
        (
            "    pub heads: ByPlace,\n    pub rows: ByPlace,",
            "    pub rows: ByPlace,\n    pub heads: ByPlace,",
            failed,
        ),
        (
            "    pub rows: ByPlace,\n    pub gathered: ByPlace,",
            "    pub gathered: ByPlace,\n    pub rows: ByPlace,",
            failed,
        ),
        ("    pub prev: ByCentre,\n", "", failed),
        ("    pub gathered: ByPlace,\n", "", failed),
        (
            "pub extern \"C\" fn drive_section(record: &[u8], at: usize,",
            "pub extern \"C\" fn drive_section(record: &[u8], at: u16,",
            conflict,
        ),
        (
            "    s: usize,\n    part: &mut [u8],",
            "    part: &mut [u8],\n    s: usize,",
            conflict,
        ),
    ] {
        let changed = changed(&sources(), old, new);
        assert_refused(&changed, "type", said);
    }
}
