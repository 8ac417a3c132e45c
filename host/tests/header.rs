//! The C header and the crate's declarations are those of the library's source.

#![forbid(unsafe_code)]

const SOURCE: &str = include_str!("../../crates/mittenschist_c/src/lib.rt");
const HEADER: &str = include_str!("../../include/mittenschist.h");
const RAW: &str = include_str!("../src/raw.rs");

/// The names of the library's C functions.
fn functions() -> Vec<&'static str> {
    let parts = SOURCE.split("pub extern \"C\" fn ").skip(1);
    parts.filter_map(|part| part.split('(').next()).collect()
}

/// What stands between the brackets after the first mention of a function, parameter by parameter.
fn parameters(text: &'static str, mention: &str) -> Vec<String> {
    let after = text.split_once(mention).expect(mention).1;
    let within = after.split(')').next().expect("a bracket");
    let spaced = |part: &str| part.split_whitespace().collect::<Vec<_>>().join(" ");
    let parts = within.split(',').map(spaced);
    parts.filter(|part| !part.is_empty()).collect()
}

/// A parameter of the source: its name, its type, and whether it is a slice that is read or written. The source has `res` where the header says result,
/// which is what a function returns in Rattle's contracts.
fn parted(parameter: &str) -> (&str, &str, Option<bool>) {
    let (name, kind) = parameter.split_once(": ").expect("a type");
    let name = if name == "res" { "result" } else { name };
    if let Some(slice) = kind.strip_prefix("&mut [") {
        return (name, slice.trim_end_matches(']'), Some(true));
    }
    match kind.strip_prefix("&[") {
        Some(slice) => (name, slice.trim_end_matches(']'), Some(false)),
        None => (name, kind, None),
    }
}

fn c_type(kind: &str) -> &'static str {
    match kind {
        "usize" => "size_t",
        "u64" => "uint64_t",
        "u32" => "uint32_t",
        "u8" => "uint8_t",
        "i64" => "int64_t",
        "f64" => "double",
        other => panic!("{other}"),
    }
}

fn in_c(parameter: &str) -> Vec<String> {
    let (name, kind, written) = parted(parameter);
    let kind = c_type(kind);
    let slice = |kept: &str| {
        vec![
            format!("{kept}{kind} *{name}"),
            format!("size_t {name}_len"),
        ]
    };
    match written {
        None => vec![format!("{kind} {name}")],
        Some(true) => slice(""),
        Some(false) => slice("const "),
    }
}

/// Types only: the names are the crate's own.
fn in_rust(parameter: &str) -> Vec<String> {
    let (_, kind, written) = parted(parameter);
    match written {
        None => vec![String::from(kind)],
        Some(true) => vec![format!("*mut {kind}"), String::from("usize")],
        Some(false) => vec![format!("*const {kind}"), String::from("usize")],
    }
}

#[test]
fn every_function_is_in_the_header() {
    let functions = functions();
    assert_eq!(
        HEADER.matches("\nuint32_t mittenschist_").count(),
        functions.len()
    );
    for name in functions {
        let source = parameters(SOURCE, &format!("fn {name}("));
        let wanted: Vec<String> = source.iter().flat_map(|each| in_c(each)).collect();
        assert_eq!(
            parameters(HEADER, &format!("uint32_t {name}(")),
            wanted,
            "{name}"
        );
    }
}

#[test]
fn every_function_is_in_the_crate() {
    for name in functions() {
        let source = parameters(SOURCE, &format!("fn {name}("));
        let wanted: Vec<String> = source.iter().flat_map(|each| in_rust(each)).collect();
        let declared = parameters(RAW, &format!("fn {name}("));
        let types = declared.iter().filter_map(|each| each.split_once(": "));
        let types: Vec<&str> = types.map(|(_, kind)| kind).collect();
        assert_eq!(types, wanted, "{name}");
    }
}

#[test]
fn the_four_of_document_01_come_first() {
    let order: Vec<&str> = HEADER
        .split("\nuint32_t mittenschist_")
        .skip(1)
        .filter_map(|part| part.split('(').next())
        .collect();
    let first = [
        "polish_route",
        "run_list_k_opt",
        "k_opt_do_move",
        "k_opt_undo_move",
    ];
    assert_eq!(order[..4], first);
}
