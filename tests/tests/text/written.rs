//! The text as Rust is the text: nothing but clauses and ghost members is left out, and what is not
//! known is refused.

use as_rust::sources::{Text, DRAFT, EDGES, LIBRARY};
use as_rust::text::{rust_of, AS_IN_C, DERIVED, FMT, MAIN, NEVER_INLINED, RUST_FMT, RUST_MAIN};
use comparison::support::executables::of_text;
use std::fs;
use std::path::Path;
use std::process::Command;

/// What opens a clause of a function, and the brace that opens its body; the same of a function of
/// a trait or an `impl`.
const OPENINGS: [(&str, &str); 4] = [
    ("\n    requires ", "\n{\n"),
    ("\n    ensures ", "\n{\n"),
    ("\n        requires ", "\n    {\n"),
    ("\n        ensures ", "\n    {\n"),
];

/// The end of the last clause of a function that has no body.
const BODILESS: &str = " };\n";

/// The source without its clauses, by where the contracts begin and the bodies in the whole text.
/// Gives the number of clauses too.
fn without_clauses(source: &str) -> (String, usize) {
    let (mut kept, mut rest, mut clauses) = (String::new(), source, 0);
    let first = |rest: &str| {
        let found = OPENINGS.map(|(word, body)| rest.find(word).map(|from| (from, body)));
        found.into_iter().flatten().min()
    };
    while let Some((from, body)) = first(rest) {
        let (front, behind) = rest.split_at(from);
        let with_body = behind.find(body).unwrap_or(behind.len());
        let contract = match behind.find(BODILESS) {
            Some(end) if end < with_body => &behind[..end + " }".len()],
            _ => &behind[..with_body],
        };
        kept.push_str(front);
        rest = &behind[contract.len()..];
        let opened = OPENINGS.map(|(word, _)| contract.matches(word).count());
        clauses += opened.iter().sum::<usize>();
    }
    kept.push_str(rest);
    (kept, clauses)
}

/// What opens a ghost member, and what closes it: of a struct with a comma.
const MEMBERS: [&str; 2] = ["\n    ghost ", "\n    pub ghost "];
const CLOSINGS: [&str; 2] = ["};\n", "},\n"];

/// The source without its ghost members.
fn without_members(source: &str) -> String {
    let (mut kept, mut rest) = (String::new(), source);
    let first = |rest: &str| MEMBERS.iter().filter_map(|word| rest.find(word)).min();
    while let Some(from) = first(rest) {
        let (front, behind) = rest.split_at(from);
        kept.push_str(front);
        let ends = CLOSINGS.iter().filter_map(|end| behind.find(end)).min();
        let import = behind.starts_with("\n    ghost use ");
        let end = if import {
            behind.find(";\n").map(|end| end + 1)
        } else {
            ends.map(|end| end + 2)
        };
        rest = &behind[end.expect("its end")..];
    }
    kept.push_str(rest);
    kept
}

/// How a line begins that is left out for what it is.
const LEFT: [&str; 7] = [
    "ghost use ",
    "#[derive(Drop)]",
    "#[unsafe(no_mangle)]",
    "#![tactic(",
    "#[tactic(",
    "    #[tactic(",
    "#[cycle(",
];

/// The other lines.
fn plain_lines(text: &str) -> Vec<&str> {
    let left = |line: &&str| LEFT.iter().any(|word| line.starts_with(word));
    text.lines().filter(|line| !left(line)).collect()
}

fn text() -> Text {
    Text::read(Path::new("..")).expect("the sources")
}

#[test]
fn nothing_but_clauses_is_left_out() {
    let mut all = 0;
    for (path, source) in &text().sources {
        let rust = rust_of(source).unwrap_or_else(|unknown| panic!("{path}, {unknown}"));
        let (expected, clauses) = without_clauses(&without_members(source));
        let expected = expected.replace(MAIN, RUST_MAIN).replace(FMT, RUST_FMT);
        let expected = expected.replace(", Drop)]", ")]");
        let written: Vec<&str> = rust.lines().collect();
        assert_eq!(written, plain_lines(&expected), "{path}");
        all += clauses;
    }
    assert!(all > 280, "{all} clauses");
}

/// A derive, with `Clone` and `Copy`, or with `Drop` where the type has a lifetime, and for C the
/// line that says so.
#[test]
fn a_line_stands_before_each_type_alone() {
    for (path, source) in &text().sources {
        let mut above = Vec::new();
        for line in source.lines() {
            if line.starts_with("#[derive(") || line == AS_IN_C {
                above.push(line);
                continue;
            }
            let mut words = line.split(' ').filter(|word| *word != "pub");
            let opens = ["struct", "enum"].contains(&words.next().unwrap_or_default());
            above.retain(|line| *line != AS_IN_C || !opens);
            assert_eq!(above.len(), usize::from(opens), "{path}: {line}");
            let derive = above.pop().unwrap_or_default();
            let (copied, dropped) = (derive.contains("Clone, Copy"), derive.contains("Drop"));
            assert_eq!(copied ^ dropped, opens, "{path}: {line}");
            assert!(!dropped || line.contains('\''), "{path}: {line}");
        }
    }
}

#[test]
fn every_crate_of_the_library_and_the_programs_is_written() {
    let text = text();
    let parts = [
        (&text.library, LIBRARY),
        (&text.draft, DRAFT),
        (&text.edges, EDGES),
    ];
    for (crates, last) in parts {
        assert_eq!(crates.last().map(|each| each.name.as_str()), Some(last));
        for each in crates {
            let below = format!("crates/{}/src/", each.name);
            let found = text.sources.keys().any(|path| path.starts_with(&below));
            assert!(found, "sources of {}", each.name);
        }
    }
}

/// A function with a line of its contract, or of its body.
fn function(contract: &str, body: &str) -> String {
    format!("fn f(x: u8) -> u8\n{contract}{{\n{body}    x\n}}\n")
}

#[test]
fn a_contract_of_several_lines_is_left_out_whole() {
    let contract =
        "    requires { (x < 4)\n        × P { x } }\n    ensures value { result ≡ x }\n";
    let without = function("", "");
    assert_eq!(rust_of(&function(contract, "")), Ok(without));
}

/// The attributes that are known, each before a function: no other is, and none before another
/// item than its own.
#[test]
fn attributes_before_a_function() {
    let without = function("", "");
    let before = |line: &str| rust_of(&format!("{line}\n{without}"));
    for known in [
        "#![tactic(auto)]",
        "#[tactic(auto, using(crate::proofs::Facts::fact))]",
        "#[cycle(walk)]",
        "#[unsafe(no_mangle)]",
    ] {
        assert_eq!(before(known), Ok(without.clone()), "{known}");
    }
    for unknown in [
        "#[inline]",
        NEVER_INLINED,
        "#[no_mangle]",
        "#[derive(Debug)]",
        "#[derive(Clone, Copy)]",
        "#[derive(Drop)]",
        AS_IN_C,
        "    #[tactic(auto)]",
        "#[tactic(auto)] #[inline]",
        "#[tactic(auto,",
    ] {
        assert!(before(unknown).is_err(), "{unknown}");
    }
}

#[test]
fn attributes_before_a_type() {
    let typed = |attribute: &str, line: &str| rust_of(&format!("{attribute}\n{line}\n"));
    for line in [
        "pub struct Pair(u8, u8);",
        "enum Side {",
        "pub struct Reader<'a> {",
    ] {
        let all = format!("#[derive({})]", DERIVED.join(", "));
        for known in ["#[derive(Clone, Copy)]", AS_IN_C, &all] {
            assert_eq!(typed(known, line), Ok(format!("{known}\n{line}\n")));
        }
        assert_eq!(typed("#[derive(Drop)]", line), Ok(format!("{line}\n")));
        let dropped = typed("#[derive(Debug, Drop)]", line);
        assert_eq!(dropped, Ok(format!("#[derive(Debug)]\n{line}\n")));
        let two = format!("{AS_IN_C}\n#[derive(Clone, Copy)]");
        assert_eq!(typed(&two, line), Ok(format!("{two}\n{line}\n")));
        for unknown in [
            "#[derive(Clone, Hash)]",
            "#[derive(Clone,Copy)]",
            "#[repr(u8)]",
            "#[derive(Drop",
        ] {
            assert!(typed(unknown, line).is_err(), "{unknown} {line}");
        }
    }
}

/// A block of an item, and the same without these lines of it.
fn block(item: &str, lines: &str) -> String {
    format!("{item} {{\n{lines}}}\n")
}

#[test]
fn a_contract_of_a_method_is_left_out() {
    let contract =
        "        requires { self.old.x < 4 }\n        ensures { self.new\n            ≡ f }\n";
    let method =
        |contract| format!("    pub fn f(&self) -> u8\n{contract}    {{\n        self.x\n    }}\n");
    let source = block("impl Pair", &method(contract));
    assert_eq!(rust_of(&source), Ok(block("impl Pair", &method(""))));
    let attribute = format!(
        "    #[tactic(auto, using(crate::proofs::Facts::fact))]\n{}",
        method(contract)
    );
    assert_eq!(rust_of(&block("impl Pair", &attribute)), rust_of(&source));
}

#[test]
fn an_attribute_of_a_method() {
    let method = "    pub fn f(&self) -> u8\n    {\n        self.x\n    }\n";
    let before = |attribute: &str| block("impl Pair", &format!("{attribute}\n{method}"));
    let known = before(NEVER_INLINED);
    assert_eq!(rust_of(&known), Ok(known));
    for unknown in ["    #[inline]", "    #[inline(always)]", "#[inline(never)]"] {
        assert!(rust_of(&before(unknown)).is_err(), "{unknown}");
    }
}

#[test]
fn a_function_of_a_trait_ends_behind_its_signature() {
    let contract = "        requires { x < 4 }\n        ensures { P { result }\n            x };\n";
    let source = block(
        "pub trait Index<const N: usize>: Copy",
        &format!("    fn f(self, x: u8) -> u8\n{contract}\n    fn g(self);\n"),
    );
    let rust = block(
        "pub trait Index<const N: usize>: Copy",
        "    fn f(self, x: u8) -> u8;\n\n    fn g(self);\n",
    );
    assert_eq!(rust_of(&source), Ok(rust));
    let outside = "fn f(x: u8) -> u8\n    ensures { x };\n";
    assert!(rust_of(outside).is_err());
}

#[test]
fn ghost_members_are_left_out() {
    let without = |item| Ok(block(item, "    x: u8,\n"));
    let with = |item, member: &str| rust_of(&block(item, &format!("    x: u8,\n{member}")));
    for item in [
        "pub trait Small: Copy",
        "impl Small for Pair",
        "impl<T> Small for (T, T)",
    ] {
        for member in [
            "    ghost number: { Self → ℕ };\n",
            "    ghost number = { λ c. c.0 };\n",
            "    ghost number: { Self → ℕ } = { λ _. 0 };\n",
            "    ghost laws: {\n        (x : ℕ) → P { x }\n    };\n",
            "    ghost use Rattle.std.specs.Prelude.{ℕ};\n",
        ] {
            assert_eq!(with(item, member), without(item), "{item} {member}");
        }
    }
    for member in [
        "    ghost low: { x < 4 },\n",
        "    pub ghost low: { x < 4 },\n",
    ] {
        assert_eq!(with("pub struct Low", member), without("pub struct Low"));
        assert!(with("enum Low", member).is_err(), "{member}");
        assert!(with("impl Low", member).is_err(), "{member}");
    }
    for member in [
        "    ghost number = { λ c. c.0 }\n",
        "    ghost number = { λ c. c.0 }; // c\n",
        "    ghost number = λ c. c.0;\n",
        "    ghost a number = { c };\n",
        "        ghost number = { c };\n",
        "    ghost number = { c\n",
        "    ghost let x = { c };\n",
    ] {
        assert!(with("impl Small for Pair", member).is_err(), "{member}");
    }
    assert!(rust_of("ghost number = { c };\n").is_err());
    assert!(rust_of(&function("", "    ghost number = { c };\n")).is_err());
}

/// Generic functions, constants as parameters and as arguments stand as they are.
#[test]
fn generic_functions_are_left_as_they_are() {
    let line =
        "pub fn entry<T: Copy, const N: usize, I: Index<N>>(array: &[T; N], i: I, outside: T) -> T";
    let contract = "    ensures { result ≡ get_or array.now (I.number i) outside }\n";
    let body = "{\n    at(array, i.number(), outside)\n}\n";
    let rust = format!("{line}\n{body}");
    assert_eq!(rust_of(&format!("{line}\n{contract}{body}")), Ok(rust));
    let bounds = "fn f<T>(x: T) -> T\nwhere\n    T: Copy,\n";
    let rust = format!("{bounds}{{\n    x\n}}\n");
    let source = format!("{bounds}    ensures {{ result ≡ x }}\n{{\n    x\n}}\n");
    assert_eq!(rust_of(&source), Ok(rust));
    let of = block(
        "impl Index<{ BY_CENTRE }> for Centre",
        "    type Error = Refusal;\n",
    );
    assert_eq!(rust_of(&of), Ok(of));
}

/// A type that is printed, one that is made of a byte, and an iterator.
#[test]
fn library_traits_are_left_as_they_are() {
    let printed = |line: &str| {
        block(
            "impl fmt::Display for Refusal",
            &format!("{line} {{\n        write!(f, \"refused\")\n    }}\n"),
        )
    };
    assert_eq!(rust_of(&printed(FMT)), Ok(printed(RUST_FMT)));
    let with = |member: &str, contract: &str| {
        let line = "    fn try_from(op: u8) -> Result<Op, NoCall>\n";
        block("impl TryFrom<u8> for Op", &format!("    type Error = NoCall;\n{member}{line}{contract}    {{\n        Err(NoCall)\n    }}\n"))
    };
    let source = with(
        "    ghost try_from_gives = { Decodes };\n",
        "        ensures { OkIff result (is_call op) }\n",
    );
    assert_eq!(rust_of(&source), Ok(with("", "")));
    let with = |member: &str| {
        let next = "    fn next(&mut self) -> Option<Section> {\n        None\n    }\n";
        block(
            "impl Iterator for Reader<'_>",
            &format!("    type Item = Section;\n{member}{next}"),
        )
    };
    let source = with("    ghost next_gives = { λ s r t. NextPromise s r t };\n");
    assert_eq!(rust_of(&source), Ok(with("")));
}

#[test]
fn a_program_makes_its_host() {
    let rust = rust_of(&format!("{MAIN}\n    run(rt)\n}}\n"));
    assert_eq!(rust, Ok(format!("{RUST_MAIN}\n    run(rt)\n}}\n")));
    assert!(rust_of("fn main(rt: HostRuntime) {\n}\n").is_err());
}

#[test]
fn what_is_not_known_is_refused() {
    let clauses = [
        "    requires { x < 4\n",
        "    requires { x < 4 } {\n",
        "    requires x < 4\n",
        "    requires (x) { x }\n",
        "    ensures { x < 4 }}\n",
        "    decreases { x }\n",
        "        ensures { x < 4 }\n",
        "    ensures { x < 4 }\n    x: u8,\n",
        "    ensures { x < 4 } = { 4 }\n",
        "    ensures { x < 4 };\n",
    ];
    let lines = [
        "    ghost let y = x;\n",
        "    ghost use Rattle.std.specs.Prelude;\n",
        "        ensures { x };\n",
        "    invariant { x < 4 }\n",
        "    let y = x; // y ≡ x\n",
        "    #[inline]\n",
        "    let y = trusted(x);\n",
        "    prove!(x < 4);\n",
        "    #[tactic(auto)]\n",
        "    let y = rt(HostRuntime);\n",
        "    let y: &dyn Drop = x;\n",
        "    fn g<T: Copy + Drop>(x: T) {\n",
        "    ensures { x < 4 }\n",
    ];
    let named = function("", "    ensures_it(x);\n");
    assert_eq!(rust_of(&named), Ok(named));
    for clause in clauses {
        assert!(rust_of(&function(clause, "")).is_err(), "{clause}");
    }
    for line in lines {
        assert!(rust_of(&function("", line)).is_err(), "{line}");
    }
    let attribute = function("", "    #[inline]\n");
    let unknown = rust_of(&attribute).expect_err("an attribute");
    assert_eq!(unknown.to_string(), "line 3: an attribute");
}

/// The calls by value, by what the program that makes them prints.
#[test]
fn the_calls_by_value_print_what_the_proved_ones_do() {
    let printed = Command::new(of_text(EDGES)).output().expect("the program");
    let expected = fs::read_to_string("../crates/edges/stdout").expect("what it prints");
    assert_eq!(String::from_utf8_lossy(&printed.stdout), expected);
    assert!(printed.status.success(), "{}", printed.status);
}
