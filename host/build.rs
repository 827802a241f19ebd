//! Makes the static library of the crate `yokefathom` for the machine's own processor, by the project's own script, and links it.
//! YOKEFATHOM_ARCHIVE, if set, is such a library made before, and is taken as it is.
use std::path::{Path, PathBuf};
use std::process::Command;
use std::{env, fs};

fn main() {
    println!("cargo:rerun-if-env-changed=YOKEFATHOM_ARCHIVE");
    let root = Path::new(env!("CARGO_MANIFEST_DIR")).parent().expect("the repository").to_path_buf();
    let out = PathBuf::from(env::var_os("OUT_DIR").expect("OUT_DIR"));
    let archive = out.join("libyokefathom.a");
    match env::var_os("YOKEFATHOM_ARCHIVE") {
        Some(made) => {
            println!("cargo:rerun-if-changed={}", Path::new(&made).display());
            fs::copy(made, &archive).expect("YOKEFATHOM_ARCHIVE is a file");
        }
        None => {
            for part in ["crates.txt", "tools/staticlib"] {
                println!("cargo:rerun-if-changed={}", root.join(part).display());
            }
            // What is proved is kept in `out/` beside these: a folder named here is one that `rt` does not write.
            for crate_ in fs::read_dir(root.join("crates")).expect("the crates") {
                let folder = crate_.expect("a crate").path();
                for part in ["src", "specs", "proofs"].map(|part| folder.join(part)).into_iter().filter(|part| part.is_dir()) {
                    println!("cargo:rerun-if-changed={}", part.display());
                }
            }
            let made = Command::new("sh").arg(root.join("tools/staticlib")).arg("yokefathom").arg(&archive).status();
            let made = made.expect("sh runs");
            assert!(made.success(), "tools/staticlib: the crate is not proved, or the kit's `rt` is not on the path");
        }
    }
    println!("cargo:rustc-link-search=native={}", out.display());
    println!("cargo:rustc-link-lib=static=yokefathom");
}
