//! A source in Rattle as Rust: every line as it stands, but for what Rust does not have.
//!
//! Left out are imports of the proofs (`ghost use ..;`), the clauses of a contract (`requires`
//! and `ensures`, with all lines up to their closing brace), ghost members of a trait, an `impl`
//! or a struct (`ghost NAME = { .. };`, `ghost NAME: { .. };`, `ghost NAME: { .. },`), attributes
//! for the prover (`tactic` and `cycle`), `Drop` in a derive, since Rust drops every value, and
//! `#[unsafe(no_mangle)]`, since a slice has no C form in Rust: the functions are exported by
//! `exports.rs`. Where a contract ends a function of a trait that has no body, its semicolon stands
//! behind the signature. `fmt` has a type parameter for what is written to, which Rust's has not. A
//! program's `main` makes its host itself, which `host.rs` has. Whatever else Rust does not have is
//! refused.

use std::borrow::Cow;
use std::fmt;

/// What a type may derive, in both; and what it may derive in Rattle alone.
pub const DERIVED: [&str; 6] = ["Clone", "Copy", "Debug", "Default", "PartialEq", "Eq"];
pub const DROPPED: &str = "Drop";

/// The line before a type that stands in memory as C has it, in both.
pub const AS_IN_C: &str = "#[repr(C)]";

/// Before a method that has a frame of its own, in Rust too.
pub const NEVER_INLINED: &str = "    #[inline(never)]";

/// How a program's `main` begins, and the same in Rust.
pub const MAIN: &str = "fn main(rt: HostRuntime) -> io::Result<()> {";
pub const RUST_MAIN: &str = "fn main() -> io::Result<()> {\n    let rt = host::HostRuntime;";

/// The signature of what prints a type, and the same in Rust.
pub const FMT: &str = "    fn fmt<W: fmt::Write>(&self, f: &mut fmt::Formatter<W>) -> fmt::Result";
pub const RUST_FMT: &str = "    fn fmt(&self, f: &mut fmt::Formatter<'_>) -> fmt::Result";

/// A line that is not known, counted from 1.
#[derive(Debug, PartialEq, Eq)]
pub struct Unknown {
    pub line: usize,
    pub why: &'static str,
}

impl fmt::Display for Unknown {
    fn fmt(&self, f: &mut fmt::Formatter) -> fmt::Result {
        write!(f, "line {}: {}", self.line, self.why)
    }
}

/// What becomes of a line outside of what is left out.
enum Line<'a> {
    /// It, or another in its place.
    Written(Cow<'a, str>),
    Left,
    /// Left out, and so is all up to the brace that closes it.
    Clause,
    Member,
}

/// What is left out and still open.
enum Open {
    /// So many braces of a clause.
    Clause(usize),
    /// So many braces of a ghost member.
    Member(usize),
}

/// Where a function's signature stands that has not yet come to its body, and whether a clause has
/// followed it.
struct Signature<'a> {
    indent: &'a str,
    has_clause: bool,
}

/// What is read, line by line, and what is written.
struct Writer<'a> {
    rust: String,
    open: Option<Open>,
    signature: Option<Signature<'a>>,
    /// The last line that is not indented and has code.
    item: &'a str,
}

/// The source as Rust.
pub fn rust_of(source: &str) -> Result<String, Unknown> {
    let lines: Vec<&str> = source.lines().collect();
    let mut writer = Writer {
        rust: String::new(),
        open: None,
        signature: None,
        item: "",
    };
    for (at, line) in lines.iter().enumerate() {
        let read = writer.read(line, &lines[at + 1..]);
        read.map_err(|why| Unknown { line: at + 1, why })?;
    }
    let ends = writer.ends();
    let line = lines.len();
    ends.map_err(|why| Unknown { line, why })?;
    Ok(writer.rust)
}

impl<'a> Writer<'a> {
    /// Reads a line, before those others.
    fn read(&mut self, line: &'a str, rest: &[&str]) -> Result<(), &'static str> {
        match self.open.take() {
            Some(Open::Clause(open)) => return self.clause(open, line),
            Some(Open::Member(open)) => return self.member(open, line),
            None => {}
        }
        let kind = match &self.signature {
            Some(signature) => in_signature(line, signature)?,
            None => None,
        };
        let kind = match kind {
            Some(kind) => kind,
            None => line_of(line, rest, self.item)?,
        };
        match kind {
            Line::Clause => self.clause(0, line),
            Line::Member => self.member(0, line),
            Line::Left => Ok(()),
            Line::Written(written) => {
                self.rust.extend([&written, "\n"]);
                self.pass(line);
                Ok(())
            }
        }
    }

    /// Takes note of a line that is written.
    fn pass(&mut self, line: &'a str) {
        let code = line.trim_start();
        if code.is_empty() || code.starts_with("//") || code.starts_with('#') {
            return;
        }
        if code.len() == line.len() {
            self.item = line;
        }
        if line.ends_with(['{', ';', '}']) {
            self.signature = None;
        } else if is_function(code) {
            self.signature = Some(Signature {
                indent: &line[..line.len() - code.len()],
                has_clause: false,
            });
        }
    }

    /// A line of a clause, of which so many braces are open.
    fn clause(&mut self, open: usize, line: &str) -> Result<(), &'static str> {
        match left_open(open, line)? {
            (0, "") => self.closed(false),
            (0, ";") => self.closed(true),
            (0, _) => Err("something behind a clause"),
            (open, _) => {
                self.open = Some(Open::Clause(open));
                Ok(())
            }
        }
    }

    /// Behind a clause, which may be the end of its function.
    fn closed(&mut self, ends: bool) -> Result<(), &'static str> {
        let signature = self.signature.as_mut().ok_or("a clause of no function")?;
        signature.has_clause = true;
        if ends {
            if signature.indent.is_empty() {
                return Err("a function with no body, outside of a trait");
            }
            self.rust.truncate(self.rust.trim_end().len());
            self.rust.push_str(";\n");
            self.signature = None;
        }
        Ok(())
    }

    /// A line of a ghost member, of which so many braces are open: those of its type or its value,
    /// or of its type and then of its value.
    fn member(&mut self, open: usize, line: &str) -> Result<(), &'static str> {
        let end = if is_type(self.item) { "," } else { ";" };
        match left_open(open, line)? {
            (0, behind) if behind == end => Ok(()),
            (0, behind) if behind.starts_with(" = {") => self.member(0, behind),
            (0, _) => Err("something behind a ghost member"),
            (open, _) => {
                self.open = Some(Open::Member(open));
                Ok(())
            }
        }
    }

    /// At the source's end.
    fn ends(&self) -> Result<(), &'static str> {
        match self.open {
            None if self.signature.is_none() => Ok(()),
            None => Err("a function with no body"),
            Some(Open::Clause(_)) => Err("a clause that is not closed"),
            Some(Open::Member(_)) => Err("a ghost member that is not closed"),
        }
    }
}

/// What a line is that stands behind a signature, where it is a clause; behind a clause nothing but
/// another one or the brace of the body stands.
fn in_signature<'a>(line: &str, signature: &Signature) -> Result<Option<Line<'a>>, &'static str> {
    let inside = line.strip_prefix(signature.indent);
    if inside.is_some_and(opens_clause) {
        return Ok(Some(Line::Clause));
    }
    if signature.has_clause && inside != Some("{") {
        return Err("something between a clause and the body");
    }
    Ok(None)
}

/// What another line is, before those others, in that item.
fn line_of<'a>(line: &'a str, rest: &[&str], item: &str) -> Result<Line<'a>, &'static str> {
    let code = line.trim_start();
    if code.starts_with("//") {
        return Ok(Line::Written(line.into()));
    }
    if code.starts_with('#') {
        return attribute(line, rest);
    }
    if line == MAIN {
        return Ok(Line::Written(RUST_MAIN.into()));
    }
    if let Some(behind) = line.strip_prefix(FMT) {
        return Ok(Line::Written([RUST_FMT, behind].concat().into()));
    }
    if is_import(line, item) {
        return Ok(Line::Left);
    }
    if opens_member(line, item) {
        return Ok(Line::Member);
    }
    if !code.is_ascii() {
        return Err("a character that is not ASCII, outside of a clause");
    }
    if WORDS.iter().any(|word| has_word(code, word)) {
        return Err("a word of proofs");
    }
    Ok(Line::Written(line.into()))
}

/// What an attribute is, before those other lines.
fn attribute<'a>(line: &'a str, rest: &[&str]) -> Result<Line<'a>, &'static str> {
    let mut behind = rest
        .iter()
        .skip_while(|line| line.trim_start().starts_with("#["));
    let next = behind.next().map_or("", |line| line);
    if is_for_the_prover(line) {
        return Ok(Line::Left);
    }
    if line.strip_prefix("    ").is_some_and(is_for_the_prover) && is_method(next) {
        return Ok(Line::Left);
    }
    match line {
        "#[unsafe(no_mangle)]" => Ok(Line::Left),
        AS_IN_C if is_type(next) => Ok(Line::Written(line.into())),
        NEVER_INLINED if is_method(next) => Ok(Line::Written(line.into())),
        _ if is_type(next) => derive(line).ok_or("an attribute"),
        _ => Err("an attribute"),
    }
}

/// A derive without `Drop`; none where it derives what is not known.
fn derive(line: &str) -> Option<Line<'static>> {
    let names = line.strip_prefix("#[derive(")?.strip_suffix(")]")?;
    let names = names.split(", ").filter(|name| *name != DROPPED);
    let names: Vec<&str> = names.collect();
    match names.iter().all(|name| DERIVED.contains(name)) {
        false => None,
        true if names.is_empty() => Some(Line::Left),
        true => Some(Line::Written(
            format!("#[derive({})]", names.join(", ")).into(),
        )),
    }
}

/// Whether the line imports names of the proofs, for the file, or for an item that may have ghost
/// members.
fn is_import(line: &str, item: &str) -> bool {
    let line = match may_have_members(item) {
        true => line.strip_prefix("    ").unwrap_or(line),
        false => line,
    };
    line.starts_with("ghost use ") && line.ends_with(';')
}

/// Whether the line opens a ghost member: its word, a name, and a brace, in a trait, an `impl` or a
/// struct.
fn opens_member(line: &str, item: &str) -> bool {
    let Some(code) = line.strip_prefix("    ") else {
        return false;
    };
    let member = code.strip_prefix("pub ").unwrap_or(code);
    let name = member.strip_prefix("ghost ");
    let name = name.and_then(|member| member.split_once([':', '=']));
    let is_open = |(name, behind): (&str, &str)| {
        let name = name.trim_end();
        !name.is_empty() && name.chars().all(is_part_of_name) && behind.starts_with(" {")
    };
    may_have_members(item) && name.is_some_and(is_open)
}

/// Whether the line begins an item in whose block ghost members can stand.
fn may_have_members(line: &str) -> bool {
    let bare = line.strip_prefix("pub ").unwrap_or(line);
    let words = ["trait ", "impl ", "impl<", "struct "];
    line.ends_with('{') && words.iter().any(|word| bare.starts_with(word))
}

/// Whether the line opens a clause, where it is indented once more than its function: its word, a
/// name or none, and a brace.
fn opens_clause(line: &str) -> bool {
    let words = ["    requires ", "    ensures "];
    let rest = words.iter().find_map(|word| line.strip_prefix(word));
    let name = rest.and_then(|rest| rest.split_once('{'));
    name.is_some_and(|(name, _)| name.trim().chars().all(is_part_of_name))
}

fn is_part_of_name(c: char) -> bool {
    c.is_ascii_alphanumeric() || c == '_'
}

/// Whether the line is a whole attribute that says how something is proved.
fn is_for_the_prover(line: &str) -> bool {
    let words = ["#![tactic(", "#[tactic(", "#[cycle("];
    let rest = words.iter().find_map(|word| line.strip_prefix(word));
    let inside = rest.and_then(|rest| rest.strip_suffix(")]"));
    inside.is_some_and(|inside| inside.is_ascii() && !inside.contains([']', '"']))
}

/// Words of Rattle that Rust does not have, or not in this sense.
const WORDS: [&str; 11] = [
    "ghost",
    "requires",
    "ensures",
    "invariant",
    "decreases",
    "assert",
    "assume",
    "trusted",
    "prove",
    "HostRuntime",
    DROPPED,
];

/// Whether the code has the word, by itself.
fn has_word(code: &str, word: &str) -> bool {
    let mut words = code.split(|c| !is_part_of_name(c));
    words.any(|found| found == word)
}

/// Whether the line begins a type.
fn is_type(line: &str) -> bool {
    let bare = line.strip_prefix("pub ").unwrap_or(line);
    bare.starts_with("struct ") || bare.starts_with("enum ")
}

/// Whether the code begins a function.
fn is_function(code: &str) -> bool {
    let words = ["pub ", "extern \"C\" "];
    let bare = words
        .iter()
        .fold(code, |code, word| code.strip_prefix(word).unwrap_or(code));
    bare.starts_with("fn ")
}

/// Whether the line begins a function of an `impl` or a trait.
fn is_method(line: &str) -> bool {
    line.strip_prefix("    ").is_some_and(is_function)
}

/// How many braces are open behind the line, or none and what is behind the one that closes the
/// last.
fn left_open(open: usize, line: &str) -> Result<(usize, &str), &'static str> {
    let mut open = open;
    for (at, c) in line.char_indices() {
        match c {
            '{' => open += 1,
            '}' => {
                open = open.checked_sub(1).ok_or("a brace that was not opened")?;
                if open == 0 {
                    return Ok((0, &line[at + 1..]));
                }
            }
            _ => {}
        }
    }
    Ok((open, ""))
}
