//! Holds include/puffwidget.h, host/src/sys.rs with strip_sys.rs, and docs/HOST.md to the exported functions of the crates: names, order and types.

use puffwidget::{Kind, Refusal, RowRefusal};
use std::collections::BTreeMap;
use std::fs;
use std::path::PathBuf;

/// A function's parameters and answer: `M` a slice that is read, `W` one that is written.
type Signatures = BTreeMap<String, String>;

/// A path of the repository.
fn at(path: &str) -> PathBuf {
    option_env!("CARGO_MANIFEST_DIR").map_or(PathBuf::from("."), |host| PathBuf::from(host).join("..")).join(path)
}

fn text(path: &str) -> String {
    fs::read_to_string(at(path)).unwrap_or_else(|error| panic!("{path}: {error}"))
}

/// The functions `HEAD pw_name(parameters) TAIL`, each parameter told in one form and joined by commas.
fn functions(text: &str, answer: impl Fn(&str, &str) -> String, parameter: impl Fn(&str) -> Option<String>) -> Signatures {
    let mut found = Signatures::new();
    for (at, _) in text.match_indices("pw_") {
        let Some((name, rest)) = text[at..].split_once('(') else { continue };
        let Some((inside, tail)) = rest.split_once(')') else { continue };
        if !name.chars().all(|c| c.is_ascii_lowercase() || c == '_') {
            continue; // a mention in a comment
        }
        let parameters: Vec<String> = inside.split(',').filter_map(|one| parameter(one.trim())).collect();
        found.insert(name.to_string(), format!("({}) {}", parameters.join(", "), answer(&text[..at], tail)));
    }
    found
}

/// `name: type`, where a length beside a pointer is no parameter of its own.
fn rust_parameter(one: &str) -> Option<String> {
    let (name, kind) = one.split_once(':')?;
    match kind.trim() {
        "&mut [u8]" | "*mut u8" => Some(format!("W {name}")),
        "&[u8]" | "*const u8" => Some(format!("M {name}")),
        "usize" if name.ends_with("_len") => None,
        other => Some(format!("{other} {name}")),
    }
}

fn rust_answer(_: &str, tail: &str) -> String {
    let words = tail.trim_start().trim_start_matches("->");
    words.split_whitespace().next().unwrap_or("").trim_end_matches(';').to_string()
}

/// `type name` of C, as `u32 name`, `M name` or `W name`.
fn c_parameter(one: &str) -> Option<String> {
    let (kind, name) = one.rsplit_once([' ', '*'])?;
    match kind.trim() {
        "uint8_t" => Some(format!("W {name}")),
        "const uint8_t" => Some(format!("M {name}")),
        "size_t" if name.ends_with("_len") => None,
        other => Some(format!("{} {name}", c_number(other))),
    }
}

fn c_number(kind: &str) -> String {
    kind.trim().replace("uint", "u").replace("_t", "")
}

fn c_answer(head: &str, _: &str) -> String {
    c_number(head.split_whitespace().last().unwrap_or(""))
}

/// C without comments and lines for the preprocessor.
fn c_code(text: &str) -> String {
    let mut code = String::new();
    for part in text.split("/*") {
        code += part.split_once("*/").map_or(part, |(_, behind)| behind);
    }
    code.lines().filter(|line| !line.trim_start().starts_with('#')).collect::<Vec<_>>().join("\n")
}

/// Every `pub extern "C" fn` of every crate.
fn exported() -> Signatures {
    let mut all = Signatures::new();
    for folder in fs::read_dir(at("crates")).expect("the crates") {
        for file in fs::read_dir(folder.expect("a crate").path().join("src")).into_iter().flatten() {
            let code = fs::read_to_string(file.expect("a file").path()).unwrap_or_default(); // a folder has none
            for part in code.split("pub extern \"C\" fn ").skip(1) {
                let (head, _) = part.split_once("ensures").expect("a promise");
                all.extend(functions(head, rust_answer, rust_parameter));
            }
        }
    }
    all
}

#[test]
fn the_header_has_the_exported_functions() {
    assert!(exported().len() >= 14);
    assert_eq!(functions(&c_code(&text("include/puffwidget.h")), c_answer, c_parameter), exported());
}

#[test]
fn the_crate_declares_the_exported_functions() {
    let declared = functions(&[text("host/src/sys.rs"), text("host/src/strip_sys.rs")].concat(), rust_answer, rust_parameter);
    assert_eq!(declared, exported());
}

#[test]
fn the_page_for_hosts_has_the_exported_functions() {
    let page = text("docs/HOST.md");
    let lines = page.lines().filter(|line| line.starts_with("    "));
    let code: Vec<&str> = lines.filter(|line| line.contains("pw_") || line.trim_end().ends_with(");")).collect();
    assert_eq!(functions(&code.join("\n"), c_answer, c_parameter), exported());
}

#[test]
fn the_header_has_the_kinds_in_order() {
    let header = text("include/puffwidget.h");
    let (_, behind) = header.split_once("enum pw_kind {").expect("the kinds");
    let (inside, _) = behind.split_once('}').expect("an end");
    let name = |one: &str| one.trim().trim_end_matches(" = 1").replace("PW_", "").replace('_', "");
    let wanted = (1..=19).map(|number| format!("{:?}", Kind::of(number).unwrap()).to_uppercase());
    assert!(inside.split(',').map(name).eq(wanted), "{inside}");
}

#[test]
fn the_header_has_the_refusals_by_name_and_number() {
    let header = text("include/puffwidget.h");
    let (_, behind) = header.split_once("enum pw_refused {").expect("the refusals");
    let (inside, _) = behind.split_once('}').expect("an end");
    let told = inside.split(',').map(|one| one.trim().replace("PW_REFUSED_", "").replace('_', ""));
    let line = |name: String, number: u32| format!("{} = {number}", name.to_uppercase());
    let calls = Refusal::all().map(|refusal| line(format!("{refusal:?}"), refusal.number()));
    let rows = RowRefusal::all().map(|refusal| line(format!("{refusal:?}"), refusal.number()));
    assert!(told.eq(calls.chain(rows)), "{inside}");
}
