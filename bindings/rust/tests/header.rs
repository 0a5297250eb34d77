//! The C header says what this crate says: version, limits, and each refusal with its number and its words.

use durpaxeta::*;
use std::collections::HashMap;

const HEADER: &str = include_str!("../../../include/durpaxeta.h");

/// `#define NAME VALUE`, without comments.
fn macros() -> HashMap<&'static str, &'static str> {
    let defined = HEADER.lines().filter_map(|line| line.strip_prefix("#define ")?.split_once(' '));
    defined.map(|(name, value)| (name, value.split("/*").next().unwrap_or(value).trim())).collect()
}

/// What stands between two texts.
fn between(from: &str, to: &str) -> &'static str {
    let start = HEADER.find(from).unwrap_or_else(|| panic!("no {from}")) + from.len();
    let length = HEADER[start..].find(to).unwrap_or_else(|| panic!("no {to} behind {from}"));
    &HEADER[start..start + length]
}

/// String literals and macros that are strings, in a row.
fn text(literals: &str) -> String {
    let macros = macros();
    let mut said = String::new();
    for (number, part) in literals.split('"').enumerate() {
        if number % 2 == 1 {
            said.push_str(part);
        } else {
            said.extend(part.split_whitespace().map(|name| macros[name].trim_matches('"')));
        }
    }
    said
}

/// `PAST_END` of `PastEnd`.
fn c_name(refusal: Refusal) -> String {
    let mut name = String::new();
    for letter in format!("{refusal:?}").chars() {
        if letter.is_uppercase() && !name.is_empty() {
            name.push('_');
        }
        name.push(letter.to_ascii_uppercase());
    }
    name
}

#[test]
fn version_and_limits() {
    let macros = macros();
    assert_eq!(macros["DPX_VERSION"].trim_matches('"'), env!("CARGO_PKG_VERSION"));
    for (name, limit) in [
        ("DPX_MAX_DEPTH", MAX_DEPTH),
        ("DPX_MAX_SIZE", MAX_SIZE),
        ("DPX_MAX_SIDES", MAX_SIDES as u64),
        ("DPX_MAX_CELLS", MAX_CELLS),
        ("DPX_MAX_VALUE_BYTES", MAX_VALUE_BYTES),
        ("DPX_MAX_STORE", MAX_STORE),
        ("DPX_MAX_MOVES", MAX_MOVES),
        ("DPX_MAX_ARRANGED_DEPTH", MAX_ARRANGED_DEPTH),
        ("DPX_MAX_ARRANGED_CELLS", MAX_ARRANGED_CELLS),
    ] {
        // A number that no int holds stands in the macro of its type.
        let said =
            macros[name].strip_prefix("UINT64_C(").and_then(|said| said.strip_suffix(')')).unwrap_or(macros[name]);
        assert_eq!(said, limit.to_string(), "{name}");
    }
}

#[test]
fn refusals() {
    let numbers = between("enum dpx_refusal {", "};");
    let cases: HashMap<&str, String> = between("switch (refusal) {", "default:")
        .split("case DPX_")
        .filter_map(|case| case.split_once(": return "))
        .map(|(name, literals)| (name, text(literals.split(";\n").next().unwrap_or(literals))))
        .collect();
    for &refusal in Refusal::ALL {
        let name = c_name(refusal);
        assert!(
            numbers.split("DPX_").any(|entry| entry
                .strip_prefix(&format!("{name} = {}", refusal.number()))
                .is_some_and(|rest| !rest.starts_with(|next: char| next.is_ascii_digit()))),
            "DPX_{name} has not the number {}",
            refusal.number()
        );
        assert_eq!(cases.get(name.as_str()), Some(&refusal.to_string()), "DPX_{name}");
    }
    // DPX_OK beside them, and no more.
    assert_eq!(cases.len(), Refusal::ALL.len() + 1);
    assert_eq!(numbers.matches(" = ").count(), Refusal::ALL.len() + 1);
}
