//! Holds the crate against include/platemaker.h: every function, constant and text of a refusal is that of the header.

use platemaker::{refusal_text, version, VERSION, VERSION_TEXT};

const HEADER: &str = include_str!("../../include/platemaker.h");
const FUNCTIONS: &str = include_str!("../src/header.rs");
const CONSTANTS: [&str; 2] = [include_str!("../src/lib.rs"), include_str!("../src/refusal.rs")];

/// A text with one space for all white space.
fn in_one_line(text: &str) -> String {
    text.split_whitespace().collect::<Vec<&str>>().join(" ")
}

/// What stands between two texts, wherever these follow each other.
fn between<'a>(text: &'a str, before: &'a str, after: &'a str) -> impl Iterator<Item = &'a str> {
    text.split(before).skip(1).filter_map(move |rest| Some(rest.split_once(after)?.0))
}

/// A parameter of the header in Rust.
fn parameter(words: &str) -> String {
    let (kind, name) = words.rsplit_once(' ').expect("a type and a name");
    let (constant, kind) = kind.strip_prefix("const ").map_or((false, kind), |kind| (true, kind));
    let kind = match kind {
        "size_t" => "usize",
        "uint8_t" => "u8",
        "int32_t" => "i32",
        "uint32_t" => "u32",
        "int64_t" => "i64",
        "uint64_t" => "u64",
        "float" => "f32",
        _ => panic!("a type that is not known: {kind}"),
    };
    match name.strip_prefix('*') {
        None => format!("{name}: {kind}"),
        Some(name) if constant => format!("{name}: *const {kind}"),
        Some(name) => format!("{name}: *mut {kind}"),
    }
}

/// A function of the header in Rust, from what stands before its `);`.
fn function(words: &str) -> String {
    let (name, parameters) = words.split_once('(').expect("a bracket");
    let parameters = parameters.split(", ").filter(|&words| words != "void").map(parameter);
    format!("pm_{name}({}) -> u32", parameters.collect::<Vec<String>>().join(", "))
}

/// The constants of the header's enums, without `PM_`, and their values.
fn enumerators() -> Vec<(String, u64)> {
    let mut found = Vec::new();
    for list in between(HEADER, "\nenum ", "\n};") {
        let list = list.split_once('{').expect("a bracket").1;
        let plain: String = list.split("*/").map(|part| part.split("/*").next().unwrap_or_default()).collect();
        let mut next = 0;
        for word in plain.split(',') {
            let (name, value) = word.split_once('=').unwrap_or((word, ""));
            next = value.trim().parse().unwrap_or(next);
            found.push((name.trim().trim_start_matches("PM_").to_string(), next));
            next += 1;
        }
    }
    found
}

#[test]
fn functions_are_those_of_the_header() {
    let (header, own) = (in_one_line(HEADER), in_one_line(FUNCTIONS));
    let header: Vec<String> =
        between(&header, " uint32_t pm_", ");").filter(|words| !words.contains('{')).map(function).collect();
    let own: Vec<&str> = between(&own, "pub fn ", ";").collect();
    assert_eq!(own, header);
    assert!(!own.is_empty());
}

#[test]
fn constants_are_those_of_the_header() {
    let mut own = Vec::new();
    for words in CONSTANTS.iter().flat_map(|text| between(text, "\npub const ", ";")) {
        let (name, value) = words.split_once(" = ").expect("a value");
        if !name.starts_with("VERSION") {
            let name = name.split(':').next().unwrap_or_default();
            own.push((name.to_string(), value.replace('_', "").parse().expect("a number")));
        }
    }
    assert_eq!(own, enumerators());
    assert!(!own.is_empty());
}

#[test]
fn refusals_have_the_words_of_the_header() {
    let numbers: Vec<(String, u64)> =
        enumerators().into_iter().filter(|(name, _)| name.starts_with("REFUSED_")).collect();
    for (name, number) in &numbers {
        let words = format!("case PM_{name}: return \"{}\";", refusal_text(*number as u32));
        assert!(HEADER.contains(&words), "{words}");
    }
    assert!(!numbers.is_empty());
    for (case, number) in [("case 0", 0), ("default", 99)] {
        assert!(HEADER.contains(&format!("{case}: return \"{}\";", refusal_text(number))));
    }
}

#[test]
fn versions_agree() {
    assert!(HEADER.contains(&format!("#define PM_VERSION_TEXT \"{VERSION_TEXT}\"\n")));
    assert!(HEADER.contains(&format!("#define PM_VERSION {VERSION}\n")));
    assert_eq!(env!("CARGO_PKG_VERSION"), VERSION_TEXT);
    assert_eq!(version(), VERSION);
}
