//! The names, numbers and texts of this wrapper are those of the header.
use pickledune::Refusal;
use std::collections::BTreeMap;

fn header() -> String {
    let path = concat!(env!("CARGO_MANIFEST_DIR"), "/../../../include/pickledune.h");
    std::fs::read_to_string(path).expect(path)
}

/// From lines of the header that are `begin`, a name, `between`, something and `end`: what stands
/// there by name.
fn by_name(begin: &str, between: &str, end: &str) -> BTreeMap<String, String> {
    let named = |line: &str| {
        let rest = line.trim().strip_prefix(begin)?.strip_suffix(end)?;
        let (name, something) = rest.split_once(between)?;
        Some((name.to_string(), something.to_string()))
    };
    header().lines().filter_map(named).collect()
}

/// `NOT_OVER` for `NotOver`.
fn c_name(refusal: Refusal) -> String {
    let mut name = String::new();
    for letter in format!("{refusal:?}").chars() {
        if letter.is_uppercase() && !name.is_empty() {
            name.push('_');
        }
        name.push(letter.to_ascii_uppercase());
    }
    name
}

fn refusals(of: fn(Refusal) -> String) -> BTreeMap<String, String> {
    Refusal::ALL.iter().map(|&refusal| (c_name(refusal), of(refusal))).collect()
}

#[test]
fn refusals_have_the_numbers_of_the_header() {
    let numbers = refusals(|refusal| refusal.number().to_string());
    assert_eq!(by_name("#define PICKLEDUNE_REFUSED_", " ", ""), numbers);
}

#[test]
fn refusals_have_the_texts_of_the_header() {
    let texts = refusals(|refusal| refusal.text().to_string());
    assert_eq!(by_name("case PICKLEDUNE_REFUSED_", ": return \"", "\";"), texts);
    let other = by_name("default", ": return \"", "\";");
    assert_eq!(other[""], Refusal::numbered(99).text());
}

#[test]
fn constants_are_those_of_the_header() {
    let defined = by_name("#define PICKLEDUNE_", " ", "");
    let constants = [
        ("VERSION", pickledune::VERSION.to_string()),
        ("VERSION_TEXT", format!("{:?}", pickledune::VERSION_TEXT)),
        ("LAYOUT", pickledune::LAYOUT.to_string()),
        ("LAYOUT_WORD", pickledune::LAYOUT_WORD.to_string()),
        ("MAX_PROCESSES", pickledune::MAX_PROCESSES.to_string()),
        ("MAX_ARCS", pickledune::MAX_ARCS.to_string()),
    ];
    for (name, constant) in constants {
        assert_eq!(defined.get(name), Some(&constant), "{name}");
    }
}
