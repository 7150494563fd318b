//! docs/PROMISES.md with the public functions and the must-fail edits, docs/DECISIONS.md with what functions require, and
//! docs/ARCHITECTURE.md with the crates.

use std::collections::{BTreeMap, BTreeSet};

use documents::{crates, marked, names_in, packages, path, table_rows, text};

/// An edit as CRATE and the name of its file, without `.edit`.
type Edit = (String, String);

fn edits() -> Vec<Edit> {
    let of = |name: String| {
        let files = names_in(format!("crates/{name}/must-fail"));
        files.into_iter().map(move |file| {
            let edit = file.strip_suffix(".edit").unwrap_or_else(|| panic!("{name}/{file} is no edit"));
            (name.clone(), edit.to_string())
        })
    };
    crates().into_iter().flat_map(of).collect()
}

/// The names of a library's functions that other crates can call: those of lib.rt and of its public modules, and the methods of all modules.
fn public_functions(name: &str) -> Vec<String> {
    let library = format!("crates/{name}/src/lib.rt");
    if !path(&library).is_file() {
        return Vec::new();
    }
    let root = text(library);
    let is_public =
        |module: &str| module == "lib" || root.lines().any(|line| line == format!("pub mod {module};"));
    let of = |file: String| {
        let source = text(format!("crates/{name}/src/{file}"));
        let called = is_public(file.strip_suffix(".rt").unwrap_or(&file));
        let lines = source.lines().filter(|line| called || line.starts_with(' '));
        lines.filter_map(declared_function).collect::<Vec<_>>()
    };
    names_in(format!("crates/{name}/src")).into_iter().flat_map(of).collect()
}

fn declared_function(line: &str) -> Option<String> {
    let line = line.trim_start().strip_prefix("pub ")?;
    let line = line.strip_prefix("extern \"C\" ").unwrap_or(line).strip_prefix("fn ")?;
    Some(line.split(['(', '<']).next()?.to_string())
}

/// The names that the promises give in the section whose heading has the crate's name.
fn promised(document: &str, name: &str) -> BTreeSet<String> {
    let has_name = |section: &&str| {
        let heading = section.lines().next().unwrap_or_default();
        heading.split(|letter: char| !letter.is_alphanumeric() && letter != '_').any(|word| word == name)
    };
    let section = document.split("\n## ").skip(1).find(has_name);
    let section = section.unwrap_or_else(|| panic!("no section of docs/PROMISES.md is about {name}"));
    let rows = table_rows(section);
    let names = rows.iter().flat_map(|row| marked(&row[0], '`'));
    names.map(|name| name.rsplit("::").next().unwrap_or(name).to_string()).collect()
}

#[test]
fn every_public_function_has_its_promise() {
    let document = text("docs/PROMISES.md");
    let mut missing = Vec::new();
    for name in crates() {
        let functions = public_functions(&name);
        if !functions.is_empty() {
            let promised = promised(&document, &name);
            let without = functions.into_iter().filter(|function| !promised.contains(function));
            missing.extend(without.map(|function| format!("{name}: {function}")));
        }
    }
    assert!(missing.is_empty(), "not in docs/PROMISES.md: {missing:#?}");
}

/// The public functions of a source that have a `requires`, and the methods of its public traits that do.
fn requiring(source: &str) -> Vec<String> {
    let mut requiring = Vec::new();
    let mut public = None;
    let mut in_trait = false;
    for line in source.lines() {
        let code = line.trim_start();
        in_trait = line.starts_with("pub trait ") || (in_trait && line != "}");
        if code.starts_with("fn ") || code == "{" {
            public = None;
        }
        let method = if in_trait { declared_function(&format!("pub {code}")) } else { None };
        public = declared_function(line).or(method).or(public);
        // A clause on memory and loans has a star.
        if code.starts_with("requires ") || code.starts_with("requires* ") {
            requiring.extend(public.take());
        }
    }
    requiring
}

#[test]
fn every_requires_of_a_public_function_has_its_reason() {
    let document = text("docs/DECISIONS.md");
    let sections =
        document.split("\n## ").filter(|section| section.starts_with("Public functions that require"));
    let rows: Vec<_> = sections.flat_map(table_rows).collect();
    let named = |name: &str, function: &str| {
        let of_crate = |row: &&Vec<String>| marked(&row[0], '`').contains(&name);
        rows.iter().filter(of_crate).any(|row| marked(&row[1], '`').contains(&function))
    };
    let mut found = 0;
    for name in crates() {
        for file in names_in(format!("crates/{name}/src")) {
            for function in requiring(&text(format!("crates/{name}/src/{file}"))) {
                assert!(
                    named(&name, &function),
                    "docs/DECISIONS.md does not say why {name}'s {function} requires something"
                );
                found += 1;
            }
        }
    }
    assert!(found > 0, "no such function was found");
}

#[test]
fn every_edit_is_named_and_every_named_edit_is_there() {
    let rows = table_rows(&text("docs/PROMISES.md"));
    let named: BTreeSet<_> = rows.iter().flatten().flat_map(|cell| marked(cell, '*')).collect();
    let edits = edits();
    let there: BTreeSet<_> = edits.iter().map(|(_, edit)| edit.as_str()).collect();
    assert!(!there.is_empty(), "no edit was found");
    let unnamed: Vec<_> = there.difference(&named).collect();
    let absent: Vec<_> = named.difference(&there).collect();
    assert!(unnamed.is_empty(), "not named in docs/PROMISES.md: {unnamed:?}");
    assert!(absent.is_empty(), "named in docs/PROMISES.md, but not there: {absent:?}");
}

/// An edit whose text is not there, or is there twice, is tried on nothing. A later change is of what the earlier ones made.
#[test]
fn every_edit_changes_one_place() {
    for (name, edit) in edits() {
        let lines = text(format!("crates/{name}/must-fail/{edit}.edit"));
        let mut edited = BTreeMap::new();
        let (mut file, mut old) = ("", "");
        let mut changes = 0;
        for line in lines.lines() {
            if let Some(named) = line.strip_prefix("file: ") {
                file = named;
            }
            if let Some(told) = line.strip_prefix("old: ") {
                old = told;
                let source = edited.entry(file).or_insert_with(|| text(format!("crates/{name}/{file}")));
                let places = source.matches(old).count();
                assert_eq!(places, 1, "{name}/{edit}: '{old}' is in {file} so many times");
                changes += 1;
            }
            if let Some(new) = line.strip_prefix("new: ") {
                let source =
                    edited.get_mut(file).unwrap_or_else(|| panic!("{name}/{edit}: a new text first"));
                *source = source.replace(old, new);
            }
        }
        assert!(changes > 0, "{name}/{edit} changes nothing");
    }
}

/// The files and folders of the repository that a document names. A path with a word in capitals stands for many.
fn paths_in(document: &str) -> Vec<&str> {
    let ends = |letter: char| letter.is_whitespace() || "`()[]|,;:\"'".contains(letter);
    let words = document.split(ends).map(|word| word.trim_start_matches("../").trim_end_matches('.'));
    let is_path = |word: &&str| {
        let in_repository =
            ["crates/", "rust/", "docs/", "bin/"].iter().any(|folder| word.starts_with(folder));
        let stands_for_many = word.contains("..") || word.contains("CRATE") || word.contains("NAME");
        in_repository && !stands_for_many
    };
    words.filter(is_path).collect()
}

#[test]
fn every_path_that_a_document_names_is_there() {
    let documents = names_in("docs").into_iter().filter(|name| name.ends_with(".md"));
    let documents = documents.map(|name| format!("docs/{name}")).chain(["README.md".to_string()]);
    let mut named = 0;
    for document in documents {
        let content = text(&document);
        for word in paths_in(&content) {
            // What a build leaves in a crate's out/ comes and goes; the crate is to be there.
            let kept = word.split("/out/").next().unwrap_or(word);
            assert!(path(kept).exists(), "{document} names {word}, which is not there");
            named += 1;
        }
    }
    assert!(named > 50, "only {named} paths were found");
}

#[test]
fn every_crate_is_in_the_architecture() {
    let rows = table_rows(&text("docs/ARCHITECTURE.md"));
    let named: BTreeSet<_> = rows.iter().flat_map(|row| marked(&row[0], '`')).collect();
    let all = crates().into_iter().chain(packages());
    let missing: Vec<_> = all.filter(|name| !named.contains(name.as_str())).collect();
    assert!(missing.is_empty(), "not in docs/ARCHITECTURE.md: {missing:?}");
}
