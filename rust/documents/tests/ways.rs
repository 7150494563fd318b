//! The two ways to settle are two in the code of crates/: both have one contract, which does not tell them apart.

use documents::{listed, text};

/// What calls what, from the C calls down to `keys` and to `rounds`: a file, a function, and what its body has.
const CALLS: [(&str, &str, &str); 10] = [
    ("redstone_c/src/lib.rt", "redstone_settle", "redstone::redstone_settle("),
    ("redstone/src/lib.rt", "redstone_settle", "solver::solve_instantaneous("),
    ("probe_c/src/lib.rt", "probe_settle_by_rounds", "probe::probe_settle_by_rounds("),
    ("probe/src/lib.rt", "probe_settle_by_rounds", "solver::solve_by_rounds("),
    ("solver/src/lib.rt", "solve_instantaneous", "settle::<Keys>("),
    ("solver/src/lib.rt", "solve_by_rounds", "settle::<ByRounds>("),
    ("solver/src/lib.rt", "settle", "solve::<W>("),
    ("solver/src/lib.rt", "solve", "W::settle("),
    ("solver/src/ways.rt", "Way for Keys::settle", "keys::settle::settle("),
    ("solver/src/ways.rt", "Way for ByRounds::settle", "rounds::settle::settle("),
];

/// The names that these bodies have from elsewhere.
const IMPORTS: [(&str, &str); 1] = [("solver/src/lib.rt", "use crate::ways::{ByRounds, Keys, Way};")];

const WHAT_FOR: &str = "rust/differential compares settling by keys with settling round by round, and no contract tells \
                        which of them a function runs: were they one, code would be compared with itself";

fn source(file: &str) -> String {
    text(format!("crates/{file}"))
}

/// The lines of an `impl` by what it is of.
fn methods<'a>(source: &'a str, of: &str) -> &'a str {
    let from_head = source.split_once(&format!("\nimpl {of} {{\n")).map(|(_, rest)| rest);
    let methods = from_head.and_then(|rest| rest.split_once("\n}")).map(|(methods, _)| methods);
    methods.unwrap_or_else(|| panic!("there is no impl {of}"))
}

/// Whether a line begins a function of this name, with type parameters or without.
fn begins(line: &str, function: &str) -> bool {
    let named = line.split_once("fn ").and_then(|(_, rest)| rest.strip_prefix(function));
    named.is_some_and(|rest| rest.starts_with(['(', '<']))
}

/// The body of a function, or of a method as IMPL::NAME, without spaces and braces.
fn body(source: &str, function: &str) -> String {
    let (source, name) = match function.rsplit_once("::") {
        Some((of, method)) => (methods(source, of), method),
        None => (source, function),
    };
    let mut lines = source.lines().skip_while(|line| !begins(line, name));
    let head = lines.next().unwrap_or_else(|| panic!("there is no function {function}"));
    let indent = &head[..head.len() - head.trim_start().len()];
    let end = format!("{indent}}}");
    let body = lines.skip_while(|line| !line.ends_with('{')).skip(1).take_while(|line| *line != end);
    let letters = body.flat_map(str::chars);
    letters.filter(|letter| !letter.is_whitespace() && !"{}".contains(*letter)).collect()
}

#[test]
fn each_way_to_settle_runs_its_own_code() {
    for (file, function, called) in CALLS {
        let body = body(&source(file), function);
        assert!(
            body.contains(called),
            "{function} of crates/{file} does not have `{called}`, but `{body}`. {WHAT_FOR}."
        );
    }
    for (file, import) in IMPORTS {
        let is_there = source(file).lines().any(|line| line == import);
        assert!(is_there, "crates/{file} does not have `{import}`. {WHAT_FOR}.");
    }
}

/// Every crate that one is made of.
fn needs(name: &str) -> Vec<String> {
    let listed = listed();
    let mut needed = vec![name.to_string()];
    let mut next = 0;
    while next < needed.len() {
        let own = listed.iter().find(|(known, _)| *known == needed[next]);
        for other in own.map(|(_, needs)| needs.as_slice()).unwrap_or_default() {
            if !needed.contains(other) {
                needed.push(other.clone());
            }
        }
        next += 1;
    }
    needed.split_off(1)
}

#[test]
fn neither_way_to_settle_is_made_of_the_other() {
    for (way, other) in [("keys", "rounds"), ("rounds", "keys"), ("keys", "round"), ("round", "keys")] {
        let needed = needs(way);
        assert!(!needed.is_empty(), "crates.txt has nothing that {way} needs");
        assert!(!needed.iter().any(|name| name == other), "{way} needs {other}. {WHAT_FOR}.");
    }
}
