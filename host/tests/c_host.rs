//! The C example is compiled against the header and the library, and says what the Rust host says. Where there is no C compiler, that is told.
use std::path::Path;
use std::process::Command;

mod common;

/// A program of that name that answers, if there is one.
fn compiler() -> Option<&'static str> {
    ["cc", "gcc", "clang"].into_iter().find(|name| Command::new(name).arg("--version").output().is_ok_and(|said| said.status.success()))
}

#[test]
fn the_c_example_says_the_same() {
    let Some(compiler) = compiler() else {
        println!("SKIPPED: there is no C compiler on the path");
        return;
    };
    let (host, made) = (Path::new(env!("CARGO_MANIFEST_DIR")), Path::new(env!("OUT_DIR")));
    let program = Path::new(env!("CARGO_TARGET_TMPDIR")).join("worked_c");
    let source = host.join("examples/worked.c");
    let compiled = Command::new(compiler)
        .args(["-std=c11", "-Wall", "-Wextra", "-Werror", "-pedantic", "-o"])
        .args([&program, &source, &made.join("libyokefathom.a")])
        .output()
        .expect("the compiler runs");
    assert!(compiled.status.success(), "{}", String::from_utf8_lossy(&compiled.stderr));
    let said = Command::new(program).output().expect("the example runs");

    let graph = common::built(yokefathom::ReferencePolicy::default());
    let columns = graph.columns();
    assert_eq!((columns.bases, columns.short, columns.codes), (&[0][..], &[0, 1, 1, 2, 4][..], &[0, 0x8001, 2, 3][..]));
    assert_eq!((columns.targets, columns.fields), (&[1, 0, 0, 2][..], &[0, 1, 2, yokefathom::LOADER][..]));
    let loader = graph.field(3, yokefathom::LOADER).expect("an object").expect("a loader");
    let refusal = graph.field(4, yokefathom::LOADER).expect_err("four objects");
    let expected = format!("object 3: 2 numbers: 0 {loader}\nobject 4: 2 numbers: {} {}\n", refusal.number(), refusal.place());
    assert_eq!(String::from_utf8_lossy(&said.stdout), expected);
}
