//! The library's functions are declared three times: in Rattle, where they are proved, in `include/vengloaz.h` for C,
//! and in `src/raw.rs` for Rust. No compiler sees two of these, so they are held against each other here.

use std::collections::BTreeMap;
use std::fs;
use std::path::Path;

const HEADER: &str = include_str!("../../../../include/vengloaz.h");
const RAW: &str = include_str!("../../src/raw.rs");

/// A parameter: a number of 64 bits, or a slice that is read or written.
#[derive(Clone, Copy, Debug, PartialEq, Eq)]
enum Kind {
    Number,
    Read,
    Written,
}

/// Each function's parameters, by the function's name. All return a number of 64 bits.
type Functions = BTreeMap<String, Vec<(String, Kind)>>;

/// The functions of a text: between each `start NAME(` and the next `end` stand the parameters, parted by commas.
fn declared(text: &str, start: &str, end: &str, parameters: impl Fn(Vec<&str>) -> Vec<(String, Kind)>) -> Functions {
    let function = |rest: &str| {
        let (name, rest) = rest.split_once('(').expect("parameters follow the name");
        let (said, _) = rest.split_once(end).unwrap_or_else(|| panic!("{name} ends with {end}"));
        let said = said.split(',').map(str::trim).filter(|said| !said.is_empty());
        (name.to_string(), parameters(said.collect()))
    };
    text.split(start).skip(1).map(function).collect()
}

/// A parameter `name: type`.
fn rusty(said: &str) -> (&str, &str) {
    said.split_once(": ").expect("a parameter has a type")
}

/// A parameter `type name` or `type *name`.
fn c_like(said: &str) -> (&str, &str) {
    let at = said.rfind([' ', '*']).expect("a parameter has a type") + 1;
    (&said[at..], said[..at].trim())
}

/// The functions that a text of Rattle exports. There a slice is one parameter, and the result slice is `res`, since
/// `result` in a clause is what a function returns.
fn in_rattle(text: &str) -> Functions {
    let parameter = |said: &str| {
        let (name, kind) = rusty(said);
        let name = if name == "res" { "result" } else { name };
        let kind = match kind {
            "u64" => Kind::Number,
            "&[u8]" => Kind::Read,
            "&mut [u8]" => Kind::Written,
            other => panic!("{name} is {other}"),
        };
        (name.to_string(), kind)
    };
    let start = "#[unsafe(no_mangle)]\npub extern \"C\" fn ";
    declared(text, start, ") -> u64", |said| said.into_iter().map(parameter).collect())
}

/// Parameters among which a slice is two: its pointer, then its length, which has the slice's name and an ending.
/// `types` are those of a number, a pointer to what is read, one to what is written, and a length.
fn paired(parameters: Vec<(&str, &str)>, types: [&str; 4], ending: &str) -> Vec<(String, Kind)> {
    let [number, read, written, length] = types;
    let mut rest = parameters.into_iter();
    let mut found = Vec::new();
    while let Some((name, kind)) = rest.next() {
        let kind = match kind {
            _ if kind == number => Kind::Number,
            _ if kind == read => Kind::Read,
            _ if kind == written => Kind::Written,
            other => panic!("{name} is {other}"),
        };
        if kind != Kind::Number {
            assert_eq!(rest.next(), Some((&format!("{name}{ending}")[..], length)), "behind {name} stands its length");
        }
        found.push((name.to_string(), kind));
    }
    found
}

/// The functions of a header for C.
fn in_c(text: &str) -> Functions {
    let types = ["uint64_t", "const uint8_t *", "uint8_t *", "size_t"];
    declared(text, "\nuint64_t ", ");", |said| paired(said.into_iter().map(c_like).collect(), types, "_length"))
}

/// The functions that Rust declares as foreign.
fn in_rust(text: &str) -> Functions {
    let (_, foreign) = text.split_once("extern \"C\" {").expect("there are foreign functions");
    let (foreign, _) = foreign.split_once("\n}\n").expect("they end");
    let types = ["u64", "*const u8", "*mut u8", "usize"];
    declared(foreign, "pub fn ", ") -> u64;", |said| paired(said.into_iter().map(rusty).collect(), types, "_len"))
}

/// The functions that the sources of a crate mark for export.
fn exported(name: &str) -> Functions {
    let folder = Path::new(env!("CARGO_MANIFEST_DIR")).join("../../crates").join(name).join("src");
    let mut functions = Functions::new();
    for file in fs::read_dir(folder).expect("the crate has sources") {
        let text = fs::read_to_string(file.expect("it is a file").path()).expect("it is text");
        functions.extend(in_rattle(&text));
    }
    functions
}

#[test]
fn c_and_rust_declare_what_the_archives_export() {
    let host = exported("ring_host_c");
    assert_eq!(host.keys().collect::<Vec<_>>(), ["ring_run", "ring_step", "ring_stopped"]);
    let mut all = exported("ring_tools_c");
    assert_eq!(all.keys().collect::<Vec<_>>(), ["ring_fresh", "ring_load", "ring_read", "ring_survey", "ring_write"]);
    all.extend(host);
    assert_eq!(in_c(HEADER), all);
    assert_eq!(in_rust(RAW), all);
}

/// A declaration with a fault is found: a slice that is only read passed as written, parameters exchanged, one left
/// out, a function by another name.
#[test]
fn another_declaration_is_found() {
    let faults = [
        ("ring_stopped(const uint8_t *image", "ring_stopped(uint8_t *image"),
        ("ring_survey(const uint8_t *image, size_t image_length, ", "ring_survey("),
        ("ring_fresh(uint64_t n, uint64_t home", "ring_fresh(uint64_t home, uint64_t n"),
        ("ring_read(uint64_t n, ", "ring_read("),
        ("uint64_t ring_write(", "uint64_t ring_writes("),
        ("uint64_t seed, uint64_t count", "uint64_t count, uint64_t seed"),
    ];
    for (old, new) in faults {
        assert_eq!(HEADER.matches(old).count(), 1, "{old}");
        assert_ne!(in_c(&HEADER.replace(old, new)), in_c(HEADER), "{new}");
    }
}
