//! The calls as the header declares them, and as the Rust boundary does: a C compiler does not look at the names of arguments.

/// The header, and the file with the Rust declarations.
const HEADER: &str = include_str!("../../../../include/kvistmaur.h");
const BOUNDARY: &str = include_str!("../../src/boundary.rs");

/// A call: its name, and its arguments, each as C writes it.
type Prototype = (String, Vec<String>);

/// The declarations in a text that begin so, each cut at its brackets and commas.
fn declared(text: &str, beginning: &str, argument: fn(&str) -> String) -> Vec<Prototype> {
    let after = text.split(beginning).skip(1);
    let declarations = after.map(|rest| {
        let (name, rest) = rest.split_once('(').expect("arguments follow");
        let (arguments, _) = rest.split_once(')').expect("arguments end");
        let each = arguments.split(',').map(str::trim);
        let each = each.filter(|each| !each.is_empty()).map(argument);
        (name.to_string(), each.collect())
    });
    declarations.collect()
}

/// A Rust argument as C writes it.
fn in_c(argument: &str) -> String {
    let (name, kind) = argument.split_once(": ").expect("a name and a type");
    match kind {
        "u64" => format!("uint64_t {name}"),
        "usize" => format!("size_t {name}"),
        "*const u8" => format!("const uint8_t *{name}"),
        "*mut u8" => format!("uint8_t *{name}"),
        other => panic!("{other} is no type of the boundary"),
    }
}

/// What both files declare, in the order of the files.
pub fn both() -> [Vec<Prototype>; 2] {
    [
        declared(HEADER, "\nuint64_t kvistmaur_", str::to_string),
        declared(BOUNDARY, "\n    fn kvistmaur_", in_c),
    ]
}
