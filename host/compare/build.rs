//! Lays the original's published files beside stand-ins for the unpublished ones. MIDDEN_SRC is the folder that has its `src`; if it is not
//! set, `../shared/docs/src` beside the repository. The files are copied byte for byte. Three packages are so made:
//!
//! - `compare`: behind `graph.rs` and `store.rs` come a few lines that show their private columns;
//! - `midden_his`: nothing but the published files;
//! - `midden_ours`: the same with our `host/midden/graph.rs` in the place of his.
use std::path::{Path, PathBuf};
use std::{env, fs};

const PUBLISHED: [&str; 14] = [
    "error.rs", "hprof/mod.rs", "store.rs", "parallel.rs", "sizes.rs", "dump.rs", "source.rs", "detail.rs", "analysis/mod.rs",
    "analysis/duplicates.rs", "index.rs", "graph.rs", "dom.rs", "pattern.rs",
];
const STAND_INS: [&str; 7] =
    ["hash.rs", "fmt.rs", "strings.rs", "analysis/collections.rs", "hprof/reader.rs", "hprof/archive.rs", "hprof/gunzip.rs"];
/// Unpublished files of which nothing is named.
const EMPTY: [&str; 8] = ["baseline", "garbage", "loaders", "native", "references", "suspects", "system", "threads"];
const MODULES: [&str; 16] = [
    "error", "fmt", "hash", "hprof", "store", "parallel", "sizes", "dump", "source", "strings", "detail", "analysis", "index", "graph",
    "dom", "pattern",
];

/// The bytes of a file that is laid: what the package is compiled from.
fn text(package: &str, here: &Path, from: &Path, file: &str) -> Vec<u8> {
    let path = match (package, file) {
        ("midden_ours", "graph.rs") => here.join("../midden/graph.rs"),
        _ => from.join("src").join(file),
    };
    println!("cargo:rerun-if-changed={}", path.display());
    let mut text = fs::read(&path).unwrap_or_else(|e| panic!("{}: {e} (set MIDDEN_SRC)", path.display()));
    if package == "compare" {
        text.extend(fs::read(here.join("stand-ins/shown").join(file)).unwrap_or_default());
    }
    text
}

fn main() {
    println!("cargo:rerun-if-env-changed=MIDDEN_SRC");
    let package = env::var("CARGO_PKG_NAME").expect("CARGO_PKG_NAME");
    let manifest = PathBuf::from(env::var_os("CARGO_MANIFEST_DIR").expect("CARGO_MANIFEST_DIR"));
    let here = manifest.ancestors().find(|folder| folder.join("stand-ins").exists()).expect("the comparison's folder");
    let from = env::var_os("MIDDEN_SRC").map_or_else(|| here.join("../../../shared/docs/src"), PathBuf::from);
    let out = PathBuf::from(env::var_os("OUT_DIR").expect("OUT_DIR"));
    let laid = out.join("midden");
    for part in ["hprof", "analysis"] {
        fs::create_dir_all(laid.join(part)).expect("a folder");
    }
    for file in PUBLISHED {
        fs::write(laid.join(file), text(&package, here, &from, file)).expect("a file");
    }
    for file in STAND_INS {
        fs::copy(here.join("stand-ins/midden").join(file), laid.join(file)).expect("a stand-in");
    }
    for name in EMPTY {
        fs::write(laid.join("analysis").join(name).with_extension("rs"), "").expect("a file");
    }
    println!("cargo:rerun-if-changed={}", here.join("stand-ins").display());
    let mut modules = String::new();
    for name in MODULES {
        let folder = laid.join(name).join("mod.rs");
        let path = if folder.exists() { folder } else { laid.join(format!("{name}.rs")) };
        // Ours is judged, the others are not. It has the original's public names, and `is_empty` is none of them.
        let judged = match (package.as_str(), name) {
            ("midden_ours", "graph") => "#[deny(warnings, clippy::all)]\n#[allow(clippy::len_without_is_empty)]\n",
            _ => "",
        };
        modules += &format!("{judged}#[path = {:?}]\npub mod {name};\n", path.to_str().expect("a path in UTF-8"));
    }
    fs::write(out.join("modules.rs"), modules).expect("a file");
}
