//! Links the product where SITE_ARCHIVE names its static library (a relative path starts at the repository), and copies the
//! oracle's own calls for the slipped side.
use std::path::{Path, PathBuf};
use std::{env, fs};

#[path = "slipped/book_slips.rs"]
mod book_slips;
#[path = "slipped/call_slips.rs"]
mod call_slips;
#[path = "original/change.rs"]
mod change;
#[path = "slipped/dump_slips.rs"]
mod dump_slips;
#[path = "slipped/late_slips.rs"]
mod late_slips;
#[path = "slipped/panel_slips.rs"]
mod panel_slips;
#[path = "slipped/practice_slips.rs"]
mod practice_slips;

use book_slips::{BOOK_SLIPS, READ_BOOK};
use call_slips::{CALL_SLIPS, CALLS, PLAN};
use change::{Change, changed};
use dump_slips::{DUMP_CALLS, DUMP_SLIPS};
use late_slips::{BOOK_LATE, LATE_SLIPS};
use panel_slips::{PANEL, PANEL_SLIPS};
use practice_slips::{PRACTICE, PRACTICE_SLIPS};

fn main() {
    println!("cargo::rustc-check-cfg=cfg(product)");
    println!("cargo::rerun-if-env-changed=SITE_ARCHIVE");
    println!("cargo::rerun-if-env-changed=SLIP");
    let slip = env::var("SLIP").unwrap_or_default();
    println!("cargo::rustc-env=SLIP={slip}");
    let here = PathBuf::from(env::var("CARGO_MANIFEST_DIR").unwrap());
    copy_calls(&here, &slip);
    let Some(archive) = env::var("SITE_ARCHIVE").ok().filter(|archive| !archive.is_empty()) else {
        return;
    };
    let archive = here.parent().unwrap().join(archive);
    let name = archive.file_name().and_then(|name| name.to_str()).unwrap_or_default();
    let name = name.strip_prefix("lib").and_then(|name| name.strip_suffix(".a"));
    let (Some(name), true) = (name, archive.is_file()) else {
        println!(
            "cargo::error=SITE_ARCHIVE is {}, which is no libNAME.a: `bash examples/link` makes one",
            archive.display()
        );
        return;
    };
    println!("cargo::rerun-if-changed={}", archive.display());
    println!("cargo::rustc-link-search=native={}", archive.parent().unwrap().display());
    println!("cargo::rustc-link-lib=static={name}");
    println!("cargo::rustc-cfg=product");
}

/// Copies the oracle's own calls, with the slip where it is one of theirs, and declares them for src/slipped.rs.
fn copy_calls(here: &Path, slip: &str) {
    let out = PathBuf::from(env::var("OUT_DIR").unwrap());
    let lists: [&[(&str, Change)]; 6] =
        [&CALL_SLIPS, &DUMP_SLIPS, &BOOK_SLIPS, &LATE_SLIPS, &PRACTICE_SLIPS, &PANEL_SLIPS];
    let slip = lists.into_iter().flatten().find(|(known, _)| *known == slip).map(|(_, change)| change);
    let mut declarations = String::new();
    for file in [PLAN, CALLS, DUMP_CALLS, READ_BOOK, BOOK_LATE, PRACTICE, PANEL] {
        let source = here.join("src").join(file);
        println!("cargo::rerun-if-changed={}", source.display());
        let mut text = fs::read_to_string(&source).unwrap();
        if let Some(change) = slip.filter(|change| change.file == file) {
            text = changed(&text, change);
        }
        fs::write(out.join(file), text).unwrap();
        let module = file.strip_suffix(".rs").unwrap();
        // A slip may leave an import or a variable unused.
        declarations += &format!("#[allow(unused)]\n#[path = {:?}]\npub mod {module};\n", out.join(file));
    }
    fs::write(out.join("slipped.rs"), declarations).unwrap();
}
