//! The declarations of `src/ffi.rs` are the signatures of the Rattle functions, word for word, and a row that is lent has their fields.
//! `yokefathom.h` has the same calls for C: `YOKEFATHOM_HEADER=write cargo test --test signatures` writes it anew.
use std::collections::BTreeMap;
use std::fs;
use std::path::Path;

type Signatures = BTreeMap<String, String>;

/// Each exported function with its parameters and its result, white space and a last comma aside.
fn exported(text: &str) -> Signatures {
    let mut signatures = Signatures::new();
    for part in text.split("pub extern \"C\" fn ").skip(1) {
        let (name, rest) = part.split_once('(').expect("parameters");
        let (parameters, rest) = rest.split_once(')').expect("the end of the parameters");
        let result = rest.lines().next().unwrap_or_default().trim();
        let words = parameters.trim_end().trim_end_matches(',').split_whitespace().chain([result]);
        // The macro of `src/ffi.rs` has a placeholder for a name.
        if name.chars().all(|c| c.is_alphanumeric() || c == '_') {
            signatures.insert(name.to_string(), words.collect::<Vec<_>>().join(" "));
        }
    }
    signatures
}

/// The functions that stand on one side alone, or differently.
fn drifted(declared: &Signatures, proved: &Signatures) -> Vec<String> {
    let names = declared.keys().chain(proved.keys().filter(|&name| !declared.contains_key(name)));
    names.filter(|&name| declared.get(name) != proved.get(name)).cloned().collect()
}

fn text(path: &Path) -> String {
    fs::read_to_string(path).unwrap_or_else(|e| panic!("{}: {e}", path.display()))
}

fn read(path: &Path) -> Signatures {
    exported(&text(path))
}

/// The fields of a slot row in their order, comments left out.
fn row_fields(path: &Path) -> Vec<String> {
    let text = text(path);
    let (_, rest) = text.split_once("pub struct SlotRow {").expect("a slot row");
    let (fields, _) = rest.split_once('}').expect("the end of the fields");
    fields.lines().map(str::trim).filter(|line| !line.is_empty() && !line.starts_with("//")).map(String::from).collect()
}

#[test]
fn declarations_are_the_signatures() {
    let host = Path::new(env!("CARGO_MANIFEST_DIR"));
    let declared = read(&host.join("src/ffi.rs"));
    let files = fs::read_dir(host.join("../crates/yokefathom/src")).expect("the crate");
    let proved: Signatures = files.flat_map(|file| read(&file.expect("a file").path())).collect();
    assert!(declared.len() >= 23, "only {} declarations were found", declared.len());
    assert_eq!(drifted(&declared, &proved), [] as [&str; 0], "declared {declared:#?}, proved {proved:#?}");
}

#[test]
fn a_slot_row_has_the_same_fields() {
    let host = Path::new(env!("CARGO_MANIFEST_DIR"));
    let lent = row_fields(&host.join("src/input.rs"));
    assert_eq!(lent, ["pub offset: u32,", "pub label: u32,", "pub weak: u8,"]);
    assert_eq!(lent, row_fields(&host.join("../crates/slot_rows/src/lib.rt")));
}

/// A Rattle type of one number, or a row, in C.
fn c_type(name: &str) -> &str {
    match name {
        "u8" => "uint8_t",
        "u16" => "uint16_t",
        "u32" => "uint32_t",
        "u64" => "uint64_t",
        "usize" => "size_t",
        "bool" => "bool",
        "SlotRow" => "struct yokefathom_slot_row",
        other => panic!("{other} has no C type"),
    }
}

/// A parameter in C: a column is a pointer and a length, a table of fixed size an array.
fn c_parameter(parameter: &str) -> String {
    let (name, of) = parameter.split_once(": ").expect("a name and a type");
    let pointer = if name == "short" { "short_" } else { name };
    let (lent, constant) = (of.strip_prefix("&mut "), of.strip_prefix('&'));
    match (lent, constant) {
        (Some("[[u64; 3]; 4]"), _) => format!("uint64_t {pointer}[4][3]"),
        (Some(table), _) if table.contains(';') => {
            let (entry, count) = table.trim_matches(['[', ']']).split_once("; ").expect("a table");
            format!("{} {pointer}[{count}]", c_type(entry))
        }
        (Some(column), _) => format!("{} *{pointer}, size_t {name}_len", c_type(column.trim_matches(['[', ']']))),
        (None, Some(column)) => format!("const {} *{pointer}, size_t {name}_len", c_type(column.trim_matches(['[', ']']))),
        (None, None) => format!("{} {pointer}", c_type(of)),
    }
}

/// What `src/ffi.rs` declares, as C declarations in its order, each below its comment.
fn c_declarations(text: &str) -> String {
    let (_, calls) = text.split_once("\ncalls! {").expect("the calls");
    let mut out = String::new();
    for part in calls.split("    ///").skip(1) {
        let (comment, call) = part.split_once("\n").expect("a comment and a call");
        let (name, rest) = call.trim().strip_prefix("pub extern \"C\" fn ").expect("a call").split_once('(').expect("parameters");
        let (parameters, rest) = rest.split_once("\n    )").expect("the end of the parameters");
        let result = rest.trim().strip_prefix("-> ").map_or("void", |result| c_type(result.split_whitespace().next().expect("a type")));
        let parameters: Vec<String> = parameters.trim().trim_end_matches(',').split(",\n").map(|one| c_parameter(one.trim())).collect();
        out += &format!("\n/*{comment} */\n{result} {name}(\n    {});\n", parameters.join(",\n    "));
    }
    out
}

#[test]
fn the_header_declares_the_same_calls() {
    let host = Path::new(env!("CARGO_MANIFEST_DIR"));
    let (path, declared) = (host.join("yokefathom.h"), c_declarations(&text(&host.join("src/ffi.rs"))));
    let header = text(&path);
    let (begin, end) = ("/* The calls, as `src/ffi.rs` declares them. */\n", "\n#ifdef __cplusplus\n}");
    let (top, rest) = header.split_once(begin).expect("where the calls begin");
    let (written, bottom) = rest.split_once(end).expect("where the calls end");
    if std::env::var_os("YOKEFATHOM_HEADER").is_some() {
        fs::write(&path, [top, begin, &declared, end, bottom].concat()).expect("the header");
    } else {
        assert_eq!(written, declared);
    }
    assert_eq!(declared.matches("\n/*").count(), read(&host.join("src/ffi.rs")).len(), "each call once");
}

#[test]
fn the_header_says_the_same_numbers() {
    let header = text(&Path::new(env!("CARGO_MANIFEST_DIR")).join("yokefathom.h"));
    for (name, value) in [("ARRAY_ELEMENT", yokefathom::ARRAY_ELEMENT), ("LOADER", yokefathom::LOADER)] {
        assert!(header.contains(&format!("#define YOKEFATHOM_{name} UINT32_C({value})\n")), "{name}");
    }
    use yokefathom::Refusal::*;
    let parts = Parts { column: 0, position: 0 };
    for refusal in [Lengths, Limit, Object(0), Class(0), Copied(0), Span(0), Root(0), Places, Room(0), parts, Index(0), Columns(0)] {
        assert!(header.contains(&format!("    YOKEFATHOM_{} = {},\n", refusal.name(), refusal.number())), "{refusal}");
    }
    let (_, row) = header.split_once("struct yokefathom_slot_row {").expect("a slot row");
    let fields: Vec<&str> = row.split_once("};").expect("its end").0.lines().map(str::trim).filter(|line| !line.is_empty()).collect();
    assert_eq!(fields, ["uint32_t offset;", "uint32_t label;", "uint8_t weak;"]);
}

#[test]
fn a_drift_is_noticed() {
    let kept = r#"pub extern "C" fn one(a: &[u32], b: &mut [u64; 4]) -> u64
pub extern "C" fn two(
    object: usize,
)"#;
    let drifts = |changed: &str| drifted(&exported(kept), &exported(changed));
    assert_eq!(drifts("#[no_mangle]\npub extern \"C\" fn two(object: usize)\n{}\n").join(" "), "one", "a function is gone");
    for (old, new) in [
        ("fn one", "fn first"),
        ("a: &[u32]", "a: &[u64]"),
        ("a: &[u32]", "c: &[u32]"),
        ("a: &[u32]", "a: &mut [u32]"),
        ("u64; 4", "u64; 5"),
        ("a: &[u32], b: &mut [u64; 4]", "b: &mut [u64; 4], a: &[u32]"),
        ("4])", "4], c: u8)"),
        (" -> u64", ""),
        (" -> u64", " -> u32"),
    ] {
        assert!(drifts(&kept.replace(old, new)).contains(&"one".to_string()), "{old} as {new}");
    }
    assert!(drifts(&kept.replace(", b", ",\n    b")).is_empty(), "only the layout differs");
    assert_eq!(drifts(&format!("{kept}\npub extern \"C\" fn three()\n")), ["three"], "a function more");
}
