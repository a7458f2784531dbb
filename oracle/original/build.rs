//! Copies the Rust original into the build folder, with the listed changes, and writes its module tree.
//!
//! ORIGINAL names the folder of the original. Its default is shared/docs/src beside the repository.
use std::path::{Path, PathBuf};
use std::{env, fs};

#[path = "../slipped/book_slips.rs"]
mod book_slips;
#[path = "../slipped/call_slips.rs"]
mod call_slips;
mod change;
mod changes;
#[path = "../slipped/dump_slips.rs"]
mod dump_slips;
#[path = "../slipped/late_slips.rs"]
mod late_slips;
#[path = "../slipped/panel_slips.rs"]
mod panel_slips;
#[path = "../slipped/practice_slips.rs"]
mod practice_slips;
mod slips;

use change::{Change, changed, stop};
use changes::CHANGES;

/// Each module with its files. The original's own `mod.rs` files are not among those published.
const MODULES: [(&str, &[&str]); 9] = [
    ("errors", &["errors.rs"]),
    ("events", &["events.rs"]),
    ("geo", &["geo.rs"]),
    ("session", &["session.rs"]),
    ("containers", &["containers/charge_profile_list.rs", "containers/vehicle_list.rs", "containers/waiting_queue.rs"]),
    ("ev", &["ev/charge_profile.rs", "ev/vehicle.rs"]),
    ("evse", &["evse/charger.rs", "evse/connector.rs", "evse/site.rs"]),
    ("simulation", &["simulation/discrete.rs", "simulation/timestep.rs"]),
    (SHARES, &["shares.rs"]),
];
/// The module that the original does not have. Its file stands beside this one, and is copied so that a slip can change it.
const SHARES: &str = "shares";

fn main() {
    println!("cargo::rerun-if-env-changed=ORIGINAL");
    println!("cargo::rerun-if-env-changed=SLIP");
    let from = original_folder();
    let to = PathBuf::from(env::var("OUT_DIR").unwrap()).join("original");
    let mut changes = CHANGES.to_vec();
    if env::var("CARGO_PKG_NAME").unwrap() == "slipped" {
        changes.extend(slip());
    }
    let mut tree = String::new();
    for (module, files) in MODULES {
        let from = if module == SHARES { &own_folder() } else { &from };
        for file in files {
            copy(from, &to, file, &changes);
        }
        tree.push_str(&declaration(&to, module, files));
    }
    for change in &changes {
        if !MODULES.iter().any(|(_, files)| files.contains(&change.file)) {
            stop(&format!("A listed change names {}, which is not copied.", change.file));
        }
    }
    fs::write(to.with_file_name("modules.rs"), tree).unwrap();
}

/// The crate that is built is this folder's, or `slipped` beside it.
fn own_folder() -> PathBuf {
    PathBuf::from(env::var("CARGO_MANIFEST_DIR").unwrap()).with_file_name("original")
}

fn original_folder() -> PathBuf {
    let here = own_folder();
    let repository = here.ancestors().nth(2).unwrap();
    let folder = match env::var("ORIGINAL") {
        Ok(folder) => repository.join(folder),
        Err(_) => repository.join("../shared/docs/src"),
    };
    if !folder.join("events.rs").is_file() {
        let way = "set ORIGINAL to its src folder (a relative path starts at the repository)";
        stop(&format!("the Rust original is not in {}: {way}", folder.display()));
    }
    folder
}

/// The one further change that SLIP asks for; without SLIP, and where it names a slip of the oracle's calls, the slipped
/// copy is the original. Those of request 12 are of both.
fn slip() -> Option<Change> {
    let name = env::var("SLIP").ok().filter(|name| !name.is_empty())?;
    let of_the_run = panel_slips::PANEL_SLIPS.iter().filter(|(_, change)| change.file != panel_slips::PANEL);
    let mut found = slips::SLIPS.iter().chain(of_the_run).filter(|(known, _)| *known == name);
    let of_calls = call_slips::CALL_SLIPS.iter().chain(&dump_slips::DUMP_SLIPS);
    let of_calls = of_calls.chain(&book_slips::BOOK_SLIPS).chain(&late_slips::LATE_SLIPS);
    let of_calls = of_calls.chain(&practice_slips::PRACTICE_SLIPS).chain(&panel_slips::PANEL_SLIPS);
    let names: Vec<&str> = slips::SLIPS.iter().chain(of_calls).map(|(known, _)| *known).collect();
    if !names.contains(&name.as_str()) {
        stop(&format!("SLIP is {name}; known are: {}.", names.join(", ")));
    }
    found.next().map(|(_, change)| *change)
}

fn copy(from: &Path, to: &Path, file: &str, changes: &[Change]) {
    let source = from.join(file);
    println!("cargo::rerun-if-changed={}", source.display());
    let mut text =
        fs::read_to_string(&source).unwrap_or_else(|error| stop(&format!("Cannot read {}: {error}", source.display())));
    for change in changes.iter().filter(|change| change.file == file) {
        text = changed(&text, change);
    }
    let target = to.join(file);
    fs::create_dir_all(target.parent().unwrap()).unwrap();
    fs::write(target, text).unwrap();
}

/// A module of one file is that file; a folder's items stand in the folder's module, as its `mod.rs` would have it.
fn declaration(to: &Path, module: &str, files: &[&str]) -> String {
    if !files[0].contains('/') {
        return format!("#[path = {:?}]\npub mod {module};\n", to.join(files[0]));
    }
    let mut text = format!("pub mod {module} {{\n");
    for file in files {
        let name = Path::new(file).file_stem().unwrap().to_str().unwrap();
        text.push_str(&format!("#[path = {:?}]\nmod {name};\npub use {name}::*;\n", to.join(file)));
    }
    text + "}\n"
}
