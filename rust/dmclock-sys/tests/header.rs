//! The declarations of this crate are those of dmclock.h: numbers, structs with their fields in
//! order, calls with their types.

use std::collections::BTreeMap;
use std::fs;
use std::path::Path;

/// The header, in a clone or in the unpacked archive.
fn header() -> String {
    let root = Path::new(env!("CARGO_MANIFEST_DIR")).join("../..");
    let files = ["c/dmclock.h", "include/dmclock.h"].map(|file| root.join(file));
    let file = files.iter().find(|file| file.exists());
    without_comments(&fs::read_to_string(file.expect("a header")).unwrap())
}

fn declarations() -> String {
    let file = Path::new(env!("CARGO_MANIFEST_DIR")).join("src/lib.rs");
    fs::read_to_string(file).unwrap()
}

fn without_comments(text: &str) -> String {
    let mut parts = text.split("/*");
    let first = parts.next().unwrap().to_string();
    parts.fold(first, |all, part| all + part.split_once("*/").unwrap().1)
}

/// What lies behind each `from` up to the next `to`.
fn between<'a>(text: &'a str, from: &'a str, to: &'a str) -> impl Iterator<Item = &'a str> {
    let parts = text.split(from).skip(1);
    parts.map(move |part| part.split_once(to).unwrap().0)
}

/// A C type in Rust.
fn rust_type(words: &str) -> String {
    let words = words.replace("struct ", "");
    if let Some(to) = words.strip_suffix('*') {
        return match to.strip_prefix("const ") {
            Some(to) => format!("*const {}", rust_type(to)),
            None => format!("*mut {}", rust_type(to)),
        };
    }
    match words.trim() {
        "void" => "c_void",
        "uint32_t" => "u32",
        "uint64_t" => "u64",
        "int64_t" => "i64",
        other => other,
    }
    .to_string()
}

/// The fields of `uint32_t kind, client; bool beyond;`, or of `void *at;`.
fn c_fields(body: &str) -> Vec<(String, String)> {
    let mut fields = Vec::new();
    for line in body
        .split(';')
        .map(str::trim)
        .filter(|line| !line.is_empty())
    {
        let (first, rest) = line.split_once(',').unwrap_or((line, ""));
        let cut = first.rfind([' ', '*']).unwrap() + 1;
        let others = rest.split(',').filter(|name| !name.is_empty());
        for name in std::iter::once(&first[cut..]).chain(others) {
            fields.push((name.trim().to_string(), rust_type(first[..cut].trim())));
        }
    }
    fields
}

/// The types of `struct dmc_queue *, uint32_t client`; the last word of a parameter with two is its
/// name.
fn c_types(params: &str) -> Vec<String> {
    let params = params
        .split(',')
        .map(str::trim)
        .filter(|param| *param != "void");
    let named = |param: &str| param.replace("struct ", "").trim().contains([' ', '*']);
    params
        .map(|param| match param.rfind([' ', '*']) {
            Some(cut) if named(param) && !param.ends_with('*') => rust_type(param[..=cut].trim()),
            _ => rust_type(param),
        })
        .collect()
}

fn rust_pairs(body: &str) -> Vec<(String, String)> {
    let parts = body
        .split(',')
        .map(str::trim)
        .filter(|part| !part.is_empty());
    let pairs = parts.map(|part| part.trim_start_matches("pub ").split_once(": ").unwrap());
    pairs
        .map(|(name, kind)| (name.to_string(), kind.to_string()))
        .collect()
}

#[test]
fn numbers() {
    let (header, declared) = (header(), declarations());
    let mut wanted = BTreeMap::new();
    for body in between(&header, "enum ", "};") {
        for pair in body.split_once('{').unwrap().1.split(',') {
            if let Some((name, number)) = pair.split_once('=') {
                wanted.insert(name.trim().to_string(), number.trim().to_string());
            }
        }
    }
    for line in between(&header, "#define DMC_", "\n").filter(|line| !line.contains('{')) {
        let (name, number) = line.split_once(' ').unwrap();
        let number = number.trim().replace("UINT64_C(1)", "1");
        let number = number.trim_matches(|c| c == '(' || c == ')');
        wanted.insert(format!("DMC_{name}"), number.to_string());
    }
    let consts = between(&declared, "pub const ", ";");
    let found: BTreeMap<_, _> = consts
        .filter_map(|text| text.split_once(": u32 = ").or(text.split_once(": u64 = ")))
        .map(|(name, number)| (name.to_string(), number.replace('_', "")))
        .collect();
    assert_eq!(found, wanted);
    assert_eq!(found.len(), 41);
}

#[test]
fn structs() {
    let (header, declared) = (header(), declarations());
    let wanted: BTreeMap<_, _> = between(&header, "\nstruct ", "};")
        .map(|text| text.split_once('{').unwrap())
        .map(|(name, body)| (name.trim().to_string(), c_fields(body)))
        .collect();
    let found: BTreeMap<_, _> = between(&declared, "pub struct ", "}")
        .map(|text| text.split_once('{').unwrap())
        .map(|(name, body)| (name.trim().to_string(), rust_pairs(body)))
        .collect();
    assert_eq!(found, wanted);
    assert_eq!(found.len(), 9);
    assert_eq!(declared.matches("#[repr(C)]").count(), 9);
}

#[test]
fn calls() {
    let (header, declared) = (header(), declarations());
    let mut wanted = BTreeMap::new();
    for (start, answers) in [("\nuint32_t dmc_", true), ("\nvoid dmc_", false)] {
        for call in between(&header, start, ";") {
            let call = call.replace('\n', " ");
            let (name, params) = call.trim_end_matches(')').split_once('(').unwrap();
            wanted.insert(format!("dmc_{name}"), (c_types(params), answers));
        }
    }
    let declared = declared.split_once("extern \"C\" {").unwrap().1;
    let text = declared.replace('\n', " ");
    let found: BTreeMap<_, _> = between(&text, "pub fn ", ";")
        .map(|call| {
            let (name, rest) = call.split_once('(').unwrap();
            let (params, result) = rest.split_once(')').unwrap();
            let types = rust_pairs(params).into_iter().map(|(_, kind)| kind);
            (
                name.to_string(),
                (types.collect(), result.trim() == "-> u32"),
            )
        })
        .collect();
    assert_eq!(found, wanted);
    assert_eq!(found.len(), 30);
}

#[test]
fn version() {
    // SAFETY: it takes nothing.
    assert_eq!(
        unsafe { dmclock_sys::dmc_version() },
        dmclock_sys::DMC_VERSION
    );
    let parts = env!("CARGO_PKG_VERSION")
        .split('.')
        .map(|part| part.parse::<u32>().unwrap());
    assert_eq!(
        parts.fold(0, |all, part| all * 100 + part),
        dmclock_sys::DMC_VERSION
    );
}
