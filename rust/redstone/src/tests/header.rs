//! The C header declares what this crate calls, and has its constants.

use std::fmt::Display;

use crate::answer::REFUSALS;
use crate::c::{DECLARED, Parameter};
use crate::{
    Arm, BENCH_PROFILE, BENCH_PROFILE_WITH_BULB, FARTHEST, FARTHEST_OFFSET, Facing, Kind, MERGE_BYTES,
    MOST_FEEDERS, MOST_LEVEL, MOST_ROWS, NO_ROW, PROFILE_BYTES, PROFILE_BYTES_WITH_BULB, ROW_BYTES, Rounds,
    STATE_BYTES, Shape, TORCH_CHARGES_ABOVE,
};

const HEADER: &str = include_str!("../../include/redstone.h");
const README: &str = include_str!("../../../../README.md");

#[test]
fn the_header_declares_the_calls() {
    let in_crate: Vec<_> = DECLARED
        .iter()
        .map(|(name, parameters)| {
            let parameters = parameters.iter().flat_map(as_in_c).collect();
            Declaration { name: (*name).into(), parameters }
        })
        .collect();
    assert_eq!(in_header(), in_crate);
}

/// A number as it is, and a slice as a pointer and its length.
fn as_in_c(Parameter { way, name, of }: &Parameter) -> Vec<(String, String)> {
    let slice = |pointer: &str| {
        vec![((*name).into(), format!("{pointer} {of}")), (format!("{name}_length"), "usize".into())]
    };
    match *way {
        "read" => slice("*const"),
        "write" => slice("*mut"),
        "pass" => vec![((*name).into(), (*of).into())],
        _ => panic!("no way to hand a parameter over: {way}"),
    }
}

#[derive(Debug, Eq, PartialEq)]
struct Declaration {
    name: String,
    /// Each parameter's name and Rust type.
    parameters: Vec<(String, String)>,
}

/// All that the header says to a compiler, but for the preprocessor's lines and the block for C++.
fn in_header() -> Vec<Declaration> {
    let aside = |line: &str| line.starts_with('#') || line == "extern \"C\" {" || line == "}";
    let code = without_comments(HEADER);
    let code: Vec<_> = code.lines().filter(|line| !aside(line)).collect();
    let code = code.join(" ");
    let statements = code.split(';').map(str::trim).filter(|statement| !statement.is_empty());
    statements.map(declaration).collect()
}

fn without_comments(text: &str) -> String {
    let mut parts = text.split("/*");
    let before = parts.next().unwrap_or_default().to_owned();
    parts.fold(before, |code, part| {
        let (_comment, after) = part.split_once("*/").expect("each comment ends");
        code + after
    })
}

fn declaration(statement: &str) -> Declaration {
    let call = statement.strip_prefix("uint32_t ").and_then(|call| call.strip_suffix(')'));
    let (name, parameters) = call
        .and_then(|call| call.split_once('('))
        .unwrap_or_else(|| panic!("no declaration of a call: {statement}"));
    Declaration { name: name.into(), parameters: parameters.split(',').map(parameter).collect() }
}

fn parameter(text: &str) -> (String, String) {
    let text = text.trim();
    let start = text.rfind([' ', '*']).map_or(0, |at| at + 1);
    let (kind, name) = text.split_at(start);
    (name.into(), rust_type(kind.trim()).into())
}

fn rust_type(c_type: &str) -> &'static str {
    match c_type {
        "const uint8_t *" => "*const u8",
        "uint8_t *" => "*mut u8",
        "uint16_t *" => "*mut u16",
        "size_t" => "usize",
        "uint16_t" => "u16",
        "uint32_t" => "u32",
        "int32_t" => "i32",
        _ => panic!("a type that no call has: {c_type}"),
    }
}

/// Each constant of the header as its name and its value.
fn defined() -> Vec<(&'static str, &'static str)> {
    let after_name = |line: &'static str| line.strip_prefix("#define ")?.split_once(' ');
    HEADER.lines().filter_map(after_name).filter(|(name, _)| !name.contains('(')).collect()
}

#[test]
fn the_header_has_the_constants() {
    let sizes = [
        ("PROFILE_BYTES", PROFILE_BYTES),
        ("PROFILE_BYTES_WITH_BULB", PROFILE_BYTES_WITH_BULB),
        ("ROW_BYTES", ROW_BYTES),
        ("STATE_BYTES", STATE_BYTES),
        ("MOST_ROWS", MOST_ROWS),
        ("MOST_LEVEL", MOST_LEVEL.into()),
        ("MOST_ROUNDS", Rounds::MOST as usize),
        ("FARTHEST", FARTHEST as usize),
        ("FARTHEST_OFFSET", FARTHEST_OFFSET as usize),
        ("MERGE_BYTES", MERGE_BYTES),
        ("MOST_FEEDERS", MOST_FEEDERS),
    ];
    let sizes = sizes.map(|(name, size)| (format!("REDSTONE_{name}"), size.to_string()));
    let torch = ("REDSTONE_TORCH_CHARGES_ABOVE".to_owned(), TORCH_CHARGES_ABOVE.to_string());
    let no_row = ("REDSTONE_NO_ROW".to_owned(), NO_ROW.to_string());
    let profile = |name: &str, bytes: &[u8]| {
        let bytes: Vec<_> = bytes.iter().map(u8::to_string).collect();
        (format!("REDSTONE_{name}"), format!("{{{}}}", bytes.join(", ")))
    };
    let profiles = [
        profile("BENCH_PROFILE", &BENCH_PROFILE),
        profile("BENCH_PROFILE_WITH_BULB", &BENCH_PROFILE_WITH_BULB),
    ];
    let constants = sizes
        .into_iter()
        .chain(codes("KIND", Kind::ALL))
        .chain(codes("FACING", Facing::ALL))
        .chain(codes("ARM", Arm::ALL))
        .chain(codes("SHAPE", Shape::ALL))
        .chain([torch, no_row])
        .chain(profiles);
    let defined = defined().into_iter().map(|(name, value)| (name.to_owned(), value.to_owned()));
    assert_eq!(defined.collect::<Vec<_>>(), constants.collect::<Vec<_>>());
}

#[test]
fn the_header_and_the_readme_list_the_refusals() {
    for (number, _, word) in REFUSALS {
        for (text, line) in [
            (HEADER, format!("\n *   {number:<2} {word:<10}  ")),
            (README, format!("\n| {number} | {word} | ")),
        ] {
            assert_eq!(text.matches(&line).count(), 1, "{line:?}");
        }
    }
}

/// A constant for each value, named as its name is in capitals.
fn codes<T>(of: &'static str, all: &[T]) -> impl Iterator<Item = (String, String)>
where
    T: Copy + Display,
    u8: From<T>,
{
    all.iter().map(move |&value| {
        let mut name = format!("REDSTONE_{of}");
        for letter in value.to_string().chars() {
            if letter.is_uppercase() {
                name.push('_');
            }
            name.push(letter.to_ascii_uppercase());
        }
        (name, u8::from(value).to_string())
    })
}
