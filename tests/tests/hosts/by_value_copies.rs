//! What a call that only reads copies of a state by value, by the code that is proved and
//! built: the arrays that it reads, each once, and never the whole state. No proof sees a
//! copy; `bench/copies` counts their bytes in the object code.

use std::fs::read_to_string;

/// The code of the crate `board`, as `rt ci`, or `rt lib` in its folder, leaves it.
const CODE: &str = "../crates/board/out/rlib/board.rlib/toolchain/mir.json";

/// Where the state is declared, and what its fields are.
const DECLARED: [&str; 2] = [
    "../crates/promises/src/lib.rt",
    "../crates/cells/src/lib.rt",
];

/// A copy of a value, or of a field of it, or of a field of that. The state is the first parameter.
const STATE: &str = r#"{"Copy":{"local":1,"steps":["#;
const FIELD: &str = r#"{"Field":"#;
const BEHIND: &str = "},";

fn text(path: &str) -> String {
    read_to_string(path)
        .unwrap_or_else(|error| panic!("{path}: {error}: run `rt lib` in crates/board"))
}

/// The number at the start of a text.
fn number(text: &str) -> usize {
    let digits = text.split(|c: char| !c.is_ascii_digit()).next();
    let number = digits.and_then(|digits| digits.parse().ok());
    number.unwrap_or_else(|| panic!("no number: {text:.60}"))
}

/// The fields of a struct in their order, each with its type; none of what is no struct.
fn fields(of: &str) -> Vec<(String, String)> {
    let opens = format!("pub struct {of} {{\n");
    let declared = DECLARED.map(text);
    let struct_of = |text: &String| text.split_once(&opens).map(|(_, after)| after.to_owned());
    let Some(after) = declared.iter().find_map(struct_of) else {
        return Vec::new();
    };
    let (inside, _) = after.split_once("\n}").expect("its end");
    let field = |line: &str| {
        let field = line.trim().strip_prefix("pub ")?.strip_suffix(',')?;
        let (name, kind) = field.split_once(": ")?;
        Some((name.to_owned(), kind.to_owned()))
    };
    inside.lines().filter_map(field).collect()
}

/// The names on the way into the state that the text begins with, from its field on.
fn way(text: &str) -> Vec<String> {
    let (mut names, mut of, mut rest) = (Vec::new(), "Draft".to_owned(), text);
    while let Some(field) = rest.strip_prefix(FIELD) {
        let (name, kind) = fields(&of).swap_remove(number(field));
        names.push(name);
        of = kind;
        rest = field.trim_start_matches(|c: char| c.is_ascii_digit());
        rest = rest.strip_prefix(BEHIND).unwrap_or_default();
    }
    names
}

/// The code of one call. The functions of the crate are one list.
fn code(call: &str) -> String {
    let all = text(CODE);
    let functions = all.strip_prefix(r#"[["board::"#).expect("the list");
    let start = format!(r#"{call}","#);
    let mut functions = functions.split(r#"],["board::"#);
    let code = functions.find_map(|function| function.strip_prefix(&start));
    code.expect("the call").to_owned()
}

/// Where a copy goes, by the code before it.
fn target(before: &str) -> usize {
    let (_, to) = before.rsplit_once(r#""local":"#).expect("where to");
    number(to)
}

/// How a copy of a local begins.
fn copy_of(local: usize) -> String {
    format!(r#"{{"Copy":{{"local":{local},"#)
}

/// The arrays of the state that a call copies, in the order of its code.
fn copied(call: &str) -> Vec<String> {
    copied_in(call, &code(call))
}

/// The same of a call with this code.
fn copied_in(call: &str, code: &str) -> Vec<String> {
    let whole = code.contains(&format!("{STATE}]"));
    assert!(!whole, "{call} copies the whole state");
    let mut copied = Vec::new();
    for (before, after) in code.match_indices(STATE).map(|(at, _)| code.split_at(at)) {
        let way = way(&after[STATE.len()..]);
        if way.first().expect("a field") == "numbers" {
            continue;
        }
        let name = way.last().expect("a field");
        let again = copy_of(target(before));
        assert!(!code.contains(&again), "{call} copies its {name} again");
        copied.push(name.clone());
    }
    copied
}

#[test]
fn the_arrays_that_are_read() {
    assert_eq!(copied("mask"), ["rows"]);
    assert_eq!(copied("radius"), ["radius"]);
    assert_eq!(copied("longest"), [""; 0]);
    assert_eq!(copied("next"), ["radius", "next"]);
    assert_eq!(copied("split"), ["rows", "radius"]);
    assert_eq!(copied("fold"), ["letters", "rows", "radius"]);
    assert_eq!(copied("lift"), ["lifts"]);
}

/// No call copies an array more than once: this is the code of one in which every copy of a part of the state is copied again.
#[test]
#[should_panic(expected = "mask copies its rows again")]
fn a_second_copy_is_seen() {
    let code = code("mask");
    let copies = code.match_indices(STATE);
    let again = copies.map(|(at, _)| copy_of(target(&code[..at])));
    copied_in("mask", &[&*code, &String::from_iter(again)].concat());
}

/// A load hands the state on to the function that changes its lifts.
#[test]
#[should_panic(expected = "load copies the whole state")]
fn a_whole_state_is_seen() {
    copied("load");
}
