//! docs/TRACE.md: every definition, function and constant that it names stands in the file that it gives.

use documents::{marked, path, table_rows, text};

#[test]
fn every_definition_stands_where_the_trace_says() {
    let rows = table_rows(&text("docs/TRACE.md"));
    assert!(rows.len() > 100, "the trace has only {} rows", rows.len());
    let missing: Vec<_> = rows.iter().flat_map(|row| missing_names(row)).collect();
    assert!(missing.is_empty(), "not where the trace says: {missing:?}");
}

/// The names of a row that none of its files declares.
fn missing_names(row: &[String]) -> Vec<String> {
    let [_, names, files] = row else {
        panic!("a row of the trace has a sentence, names and files: {row:?}");
    };
    let declared: Vec<_> = files.split(';').flat_map(|file| declarations(file.trim())).collect();
    let names = marked(names, '`');
    assert!(!names.is_empty(), "a row of the trace names no definition: {row:?}");
    let missing = names.into_iter().filter(|name| !declared.iter().any(|known| known == name));
    missing.map(|name| format!("{name} in {files}")).collect()
}

/// The public names of crates/CRATE/specs/FILE.antt, of proofs/ where there is no such file, or of src/FILE.rt where neither is there.
fn declarations(file: &str) -> Vec<String> {
    let (name, module) = file.split_once('/').unwrap_or_else(|| panic!("{file} is not CRATE/FILE"));
    let antt = ["specs", "proofs"].map(|folder| format!("crates/{name}/{folder}/{module}.antt"));
    match antt.into_iter().find(|source| path(source).is_file()) {
        Some(source) => text(source).lines().filter_map(declared).map(str::to_string).collect(),
        None => declared_in_code(&text(format!("crates/{name}/src/{module}.rt"))),
    }
}

/// The name that a line of antt declares as public.
fn declared(line: &str) -> Option<&str> {
    let line = line.trim_start();
    let line = line.strip_prefix("abbrev ").or(line.strip_prefix("unfoldable ")).unwrap_or(line);
    let line = line.strip_prefix("pub ")?;
    line.strip_prefix("record ").or(line.strip_prefix("data ")).unwrap_or(line).split_whitespace().next()
}

/// The public functions and constants of a source in Rattle, those of a type as TYPE::NAME.
fn declared_in_code(source: &str) -> Vec<String> {
    let mut names = Vec::new();
    let mut of_type = String::new();
    for line in source.lines() {
        if let Some(head) = line.strip_prefix("impl") {
            let name = head.split_whitespace().rfind(|word| *word != "{").unwrap_or_default();
            of_type = format!("{}::", name.split('<').next().unwrap_or_default());
        } else if line == "}" {
            of_type.clear();
        }
        let item = line.trim_start().strip_prefix("pub ").unwrap_or_default();
        if let Some(item) = item.strip_prefix("fn ").or(item.strip_prefix("const ")) {
            let name = item.split(['(', ':']).next().unwrap_or_default();
            names.push(format!("{of_type}{name}"));
        }
    }
    names
}
