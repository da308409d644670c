//! Declarations of the Rattle sources as declarations in C.

/// The type in C; an array type keeps its name.
fn in_c(name: &str) -> &str {
    match name {
        "u8" => "uint8_t",
        "u16" => "uint16_t",
        "usize" => "size_t",
        _ => name,
    }
}

/// Each constant that is a number, each array type and each call's number of the source, then
/// each struct that stands in memory as C has it, and then each exported function.
pub fn declarations(source: &str) -> String {
    let line = |line| {
        constant(line)
            .or_else(|| array_type(line))
            .or_else(|| call(line))
    };
    let lines = source.lines().filter_map(line);
    let structs = source.split(AS_IN_C).skip(1).map(of_arrays);
    let functions = source.split("pub extern \"C\" fn ").skip(1);
    let functions = functions.filter_map(function);
    lines.chain(structs).chain(functions).collect()
}

/// `pub const PICKS: usize = 2048;` as an enum.
fn constant(line: &str) -> Option<String> {
    let line = line.strip_prefix("pub ").unwrap_or(line);
    let (name, rest) = line.strip_prefix("const ")?.split_once(": ")?;
    let (kind, value) = rest.strip_suffix(';')?.split_once(" = ")?;
    let value = value.replace("b'", "'");
    (kind != in_c(kind)).then(|| format!("enum {{ {name} = {value} }};\n"))
}

/// `0 => Ok(Op::Start),` as an enum: the call of this number.
fn call(line: &str) -> Option<String> {
    let (number, call) = line.trim_start().split_once(" => Ok(Op::")?;
    let name = call.strip_suffix("),")?;
    Some(format!("enum {{ Op_{name} = {number} }};\n"))
}

/// `pub type ByPlace = [u16; PICKS + 1];` as a typedef.
fn array_type(line: &str) -> Option<String> {
    let (name, array) = line.strip_prefix("pub type ")?.split_once(" = ")?;
    Some(format!(
        "typedef {};\n",
        array_of(array.strip_suffix(';')?, name)?
    ))
}

/// An array of this name; none where the type is no array.
fn array_of(array: &str, name: &str) -> Option<String> {
    let (element, count) = array
        .strip_prefix('[')?
        .strip_suffix(']')?
        .split_once("; ")?;
    Some(format!("{} {name}[{count}]", in_c(element)))
}

/// The line before a struct that stands in memory as C has it.
const AS_IN_C: &str = "#[repr(C)]\n";

/// What stands behind that line, a struct of arrays of one type, as a struct, and as an array of
/// that type by the same name.
fn of_arrays(text: &str) -> String {
    let (_, behind) = text.split_once("pub struct ").expect("a struct");
    let (name, fields) = behind.split_once(" {\n").expect("its fields");
    let (fields, _) = fields.split_once("\n}").expect("their end");
    let fields: Option<Vec<(&str, &str)>> = fields.lines().map(field).collect();
    let fields = fields.unwrap_or_else(|| panic!("{name} has other fields"));
    let (_, kind) = fields[0];
    let inside = fields.iter().map(|(name, kind)| format!("{kind} {name}; "));
    let inside: String = inside.collect();
    format!("struct {name} {{ {inside}}};\ntypedef {kind} {name}[sizeof(struct {name}) / sizeof({kind})];\n")
}

/// `    pub radius: ByCentre,` as its name and its type.
fn field(line: &str) -> Option<(&str, &str)> {
    let field = line.trim().strip_prefix("pub ")?.strip_suffix(',')?;
    field.split_once(": ")
}

/// What stands behind `pub extern "C" fn` as a declaration.
fn function(text: &str) -> Option<String> {
    let (name, rest) = text.split_once('(')?;
    let (parameters, _) = rest.split_once(") -> usize")?;
    let parameters: Option<Vec<String>> = parameters
        .split(',')
        .map(str::trim)
        .filter(|parameter| !parameter.is_empty())
        .map(|parameter| parameter.split_once(": "))
        .map(|parameter| parameter.map(|(name, kind)| parameter_of(name, kind)))
        .collect();
    Some(format!("size_t {name}({});\n", parameters?.join(", ")))
}

/// A parameter: a slice is its pointer and its length.
fn parameter_of(name: &str, kind: &str) -> String {
    let (constness, lent) = match (kind.strip_prefix("&mut "), kind.strip_prefix('&')) {
        (Some(lent), _) => ("", lent),
        (None, Some(lent)) => ("const ", lent),
        (None, None) => ("", kind),
    };
    let slice = lent
        .strip_prefix('[')
        .and_then(|lent| lent.strip_suffix(']'));
    match (array_of(lent, name), slice) {
        (Some(array), _) => format!("{constness}{array}"),
        (None, Some(element)) => {
            format!("{constness}{} *{name}, size_t {name}_len", in_c(element))
        }
        (None, None) => format!("{constness}{} {name}", in_c(lent)),
    }
}
