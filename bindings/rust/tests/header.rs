//! What the crate binds, beside what the installed header declares.

use std::collections::BTreeSet;
use std::fs;

/// The functions that a text declares after these words.
fn declared<'a>(text: &'a str, before: &str) -> BTreeSet<&'a str> {
    let lines = text.lines().map(str::trim_start);
    let told = lines.filter_map(|line| line.strip_prefix(before)?.split('(').next());
    told.filter(|name| name.starts_with("gb_")).collect()
}

#[test]
fn each_function_is_bound() {
    let header = fs::read_to_string(env!("GIGBEWU_HEADER")).unwrap();
    let bound = declared(include_str!("../src/raw.rs"), "pub fn ");
    assert_eq!(bound, declared(&header, "int "));
    assert!(bound.contains("gb_pass_join"));
}

#[test]
fn its_numbers_are_the_headers() {
    let header = fs::read_to_string(env!("GIGBEWU_HEADER")).unwrap();
    let own = include_str!("../src/raw.rs").lines();
    let numbers = own.filter_map(|line| line.strip_prefix("pub const ")?.split_once(": c_int = "));
    let told: Vec<_> = numbers
        .map(|(name, number)| format!(" GB_{name} = {}", number.trim_end_matches(';')))
        .collect();
    assert_eq!(told.len(), 7);
    for number in told {
        let stands = |end| header.contains(&format!("{number}{end}"));
        assert!(stands(',') || stands(' '), "{number}");
    }
}
