//! Copies the original's files to the build's own folder, with the few changes of `PATCHES`, and electrical.rs without
//! them, too.
//!
//! The files come from the folder that DUSTROUTE_SRC names or else from `shared/docs/src` beside the repository.
//! Where neither is there, the crate is built empty (cfg `no_original`).

use std::path::{Path, PathBuf};
use std::{env, fs};

const WORLD: &str = "dustroute-minecraft/src/world.rs";
const BLOCKS: &str = "dustroute-minecraft/src/blocks/mod.rs";
const AIR: &str = "dustroute-minecraft/src/blocks/air.rs";
const ELECTRICAL: &str = "dustroute-translate/src/electrical.rs";

/// Each file of the original and its place in the build's folder.
const FILES: [(&str, &str); 7] = [
    (WORLD, "world.rs"),
    (BLOCKS, "blocks/mod.rs"),
    (AIR, "blocks/air.rs"),
    ("dustroute-translate/src/connectivity.rs", "connectivity.rs"),
    ("dustroute-translate/src/wire.rs", "wire.rs"),
    (ELECTRICAL, "electrical.rs"),
    ("dustroute-translate/src/sim.rs", "sim.rs"),
];

/// The block files that are not supplied, and the number of their kind: each takes its bits from the profile in force.
const MISSING: [(&str, usize); 12] = [
    ("solid", 1),
    ("transparent", 2),
    ("redstone_wire", 3),
    ("redstone_torch", 4),
    ("repeater", 5),
    ("comparator", 6),
    ("lever", 7),
    ("button", 8),
    ("pressure_plate", 9),
    ("redstone_lamp", 10),
    ("redstone_block", 11),
    ("piston", 12),
];

struct Patch {
    file: &'static str,
    old: &'static str,
    new: &'static str,
}

const fn patch(file: &'static str, old: &'static str, new: &'static str) -> Patch {
    Patch { file, old, new }
}

/// Every change to the original's text.
const PATCHES: [Patch; 18] = [
    // The profile is an input, read while the program runs, so these two functions are const no more.
    patch(WORLD, "pub const fn properties(", "pub fn properties("),
    patch(BLOCKS, "pub const fn behavior_profile(", "pub fn behavior_profile("),
    // For the same reason the profile of each kind but Air is a call and no constant.
    patch(BLOCKS, " solid::PROFILE", " solid::profile()"),
    patch(BLOCKS, " transparent::PROFILE", " transparent::profile()"),
    patch(BLOCKS, " redstone_wire::PROFILE", " redstone_wire::profile()"),
    patch(BLOCKS, " redstone_torch::PROFILE", " redstone_torch::profile()"),
    patch(BLOCKS, " repeater::PROFILE", " repeater::profile()"),
    patch(BLOCKS, " comparator::PROFILE", " comparator::profile()"),
    patch(BLOCKS, " lever::PROFILE", " lever::profile()"),
    patch(BLOCKS, " button::PROFILE", " button::profile()"),
    patch(BLOCKS, " pressure_plate::PROFILE", " pressure_plate::profile()"),
    patch(BLOCKS, " redstone_lamp::PROFILE", " redstone_lamp::profile()"),
    patch(BLOCKS, " redstone_block::PROFILE", " redstone_block::profile()"),
    patch(BLOCKS, " piston::PROFILE", " piston::profile()"),
    // Document 02, Change 3: among the targets of strong power is the block above a torch, where the profile says so.
    patch(
        ELECTRICAL,
        "_ => Vec::new(),",
        "BlockKind::RedstoneTorch if crate::profile::torch_charges_above() => vec![pos.offset(0, 1, 0)], \
         _ => Vec::new(),",
    ),
    // Document 02, Change 4: a bulb is one kind more, after the others, whose properties are those of its byte of the
    // profile. No other line of the original names it, so it is a block like any that has no rule of its own.
    patch(WORLD, "    Piston,\n}", "    Piston,\n    CopperBulb,\n}"),
    patch(
        BLOCKS,
        " air::PROFILE,",
        " air::PROFILE,\n        BlockKind::CopperBulb => crate::profile::of_kind(13),",
    ),
    // `capabilities` has to name every kind, and nobody here asks for its answer.
    patch(
        WORLD,
        "BlockKind::Solid | BlockKind::Transparent => {",
        "BlockKind::Solid | BlockKind::Transparent | BlockKind::CopperBulb => {",
    ),
];

fn main() {
    println!("cargo:rustc-check-cfg=cfg(no_original)");
    println!("cargo:rerun-if-env-changed=DUSTROUTE_SRC");
    println!("cargo:rerun-if-changed=build.rs");
    let source = source_folder();
    println!("cargo:rerun-if-changed={}", source.display());
    let found = source.is_dir();
    println!("cargo:found={found}");
    if found {
        write_sources(&source, &set_by_cargo("OUT_DIR"));
    } else {
        println!("cargo:rustc-cfg=no_original");
    }
}

fn source_folder() -> PathBuf {
    let root = match env::var_os("DUSTROUTE_SRC") {
        Some(folder) => PathBuf::from(folder),
        None => set_by_cargo("CARGO_MANIFEST_DIR").join("../../../shared/docs/src"),
    };
    root.join("crates")
}

fn set_by_cargo(folder: &str) -> PathBuf {
    env::var_os(folder).unwrap_or_else(|| panic!("cargo sets {folder}")).into()
}

fn write_sources(source: &Path, out: &Path) {
    fs::create_dir_all(out.join("blocks")).expect("the build's folder can be written");
    for (file, place) in FILES {
        write(&out.join(place), &patched(file, read(&source.join(file))));
    }
    write(&out.join("unpatched.rs"), &read(&source.join(ELECTRICAL)));
    for (name, kind) in MISSING {
        write(&out.join(format!("blocks/{name}.rs")), &missing_profile(kind));
    }
    write(&out.join("modules.rs"), "pub mod blocks;\npub mod world;\n");
}

fn read(path: &Path) -> String {
    fs::read_to_string(path)
        .unwrap_or_else(|error| panic!("the original's file {} cannot be read: {error}", path.display()))
}

fn write(path: &Path, text: &str) {
    fs::write(path, text).unwrap_or_else(|error| panic!("{} cannot be written: {error}", path.display()));
}

fn patched(file: &str, mut text: String) -> String {
    for Patch { old, new, .. } in PATCHES.iter().filter(|patch| patch.file == file) {
        let found = text.matches(old).count();
        assert!(
            found == 1,
            "the original's file {file} was expected to have the text {old:?} once, and has it {found} times"
        );
        text = text.replace(old, new);
    }
    text
}

fn missing_profile(kind: usize) -> String {
    format!(
        "pub(super) fn profile() -> super::BlockBehaviorProfile {{\n    crate::profile::of_kind({kind})\n}}\n"
    )
}
