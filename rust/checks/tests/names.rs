//! The refusals have the same names and numbers in Rattle, in C and in Rust, and the order limit is the same.

use checks::repository;
use mulzhegat::{Refusal, MAX_ORDER};
use std::fs;

/// A refusal's number and its name, written as in Rust.
type Named = (u64, String);

fn read(file: &str) -> String {
    fs::read_to_string(repository().join(file)).unwrap_or_else(|error| panic!("{file} is not read: {error}"))
}

/// The part of a text between two marks.
fn between<'a>(text: &'a str, begin: &str, end: &str) -> &'a str {
    let (_, rest) = text.split_once(begin).unwrap_or_else(|| panic!("no {begin}"));
    rest.split_once(end).unwrap_or_else(|| panic!("no {end} after {begin}")).0
}

/// `WORDS_END_EARLY` as `WordsEndEarly`.
fn camel_case(name: &str) -> String {
    name.split('_').map(|word| word[..1].to_string() + &word[1..].to_lowercase()).collect()
}

/// The lines `Refusal::NAME => row(NUMBER, PLACE),` of Rattle's table, but for the program's own refusal, which no call
/// of C or Rust answers.
fn in_rattle() -> Vec<Named> {
    let source = read("crates/refusal/src/lib.rt");
    let cases = between(&source, "pub fn reason(self)", "\n    }\n").lines().filter_map(|line| {
        let (case, row) = line.trim().strip_prefix("Refusal::")?.split_once(" => row(")?;
        let number = row.split(',').next()?;
        Some((number.parse().unwrap(), case.split('(').next()?.to_string()))
    });
    cases.filter(|(_, name)| name != "InputUnfit").collect()
}

/// The lines `MZG_NAME = NUMBER` of the header's enum, but for `MZG_ACCEPTED`.
fn in_c() -> Vec<Named> {
    let header = read("include/mulzhegat.h");
    let constants = between(&header, "enum {", "};").lines().filter_map(|line| {
        let (name, rest) = line.trim().strip_prefix("MZG_")?.split_once(" = ")?;
        let number = rest.split([',', ' ']).next()?;
        Some((number.parse().unwrap(), camel_case(name)))
    });
    constants.filter(|(_, name)| name != "Accepted").collect()
}

/// The cases as which Rust reads answers. The place is free or 0, but 1 for one case.
fn in_rust() -> Vec<Named> {
    let read = |number: u64| {
        let refusals = [0, 1].map(|place| Refusal::check(number << 32 | place).unwrap_err());
        refusals.into_iter().find(|refusal| !matches!(refusal, Refusal::Unknown(_)))
    };
    let cases = (1..100).filter_map(read).map(|refusal| {
        let shown = format!("{refusal:?}");
        (u64::from(refusal.number()), shown.split('(').next().unwrap().to_string())
    });
    cases.collect()
}

#[test]
fn refusals_have_the_same_names_and_numbers_in_rattle_c_and_rust() {
    assert_eq!(in_rattle(), in_rust());
    assert_eq!(in_c(), in_rust());
}

#[test]
fn the_order_limit_is_the_same_in_rattle_c_and_rust() {
    let limit = |file, begin, end| between(&read(file), begin, end).parse::<usize>();
    assert_eq!(limit("crates/plan/src/lib.rt", "pub const ORDER_LIMIT: usize = ", ";"), Ok(MAX_ORDER));
    assert_eq!(limit("include/mulzhegat.h", "#define MZG_ORDER_LIMIT ", "\n"), Ok(MAX_ORDER));
}
