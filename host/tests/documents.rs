//! The wrapper, the header and docs/LINES.md say the same: sizes, places, numbers, versions, and the words of the refusals.

use kakoludar::raw;
use kakoludar::terms::*;
use std::collections::BTreeMap;

const HEADER: &str = include_str!("../kakoludar.h");
const LINES: &str = include_str!("../../docs/LINES.md");
const SAVE: &str = include_str!("../examples/save.rs");

/// The header's constants, without their common prefix.
fn constants() -> BTreeMap<&'static str, u64> {
    let mut found = BTreeMap::new();
    for line in HEADER.lines() {
        let words = line.split(|c: char| !(c.is_alphanumeric() || c == '_')).filter(|word| !word.is_empty());
        let words: Vec<&str> = words.collect();
        for pair in words.windows(2) {
            if let (Some(name), Ok(number)) = (pair[0].strip_prefix("KAKOLUDAR_"), pair[1].parse()) {
                assert!(found.insert(name, number).is_none(), "{name} twice");
            }
        }
    }
    found
}

#[test]
fn sizes_and_places_are_the_headers() {
    let header = constants();
    let sizes = [
        ("SETTINGS", SETTINGS),
        ("SESSION", SESSION),
        ("EVENT", EVENT),
        ("RECORD", RECORD),
        ("TABLE", TABLE),
        ("ROOM", ROOM),
        ("LINE", LINE),
        ("RUN", RUN),
        ("COUNTS", COUNTS),
        ("PLACE", PLACE),
        ("TEXT", TEXT),
        ("STANDING", STANDING),
    ];
    for (name, size) in sizes {
        assert_eq!(header[format!("SIZE_{name}").as_str()], size as u64, "{name}");
    }
    assert_eq!(RUN, 1 + SESSION);
    let places = [
        ("LAYOUT", at::LAYOUT),
        ("SETTINGS", at::SETTINGS),
        ("TIME", at::TIME),
        ("CLOSED", at::CLOSED),
        ("BUYS", at::BUYS),
        ("SELLS", at::SELLS),
        ("WIDENED", at::WIDENED),
        ("COOLING", at::COOLING),
        ("REFERENCE", at::REFERENCE),
        ("MINUTE_COUNT", at::MINUTE_COUNT),
        ("MINUTE_SUM", at::MINUTE_SUM),
        ("UNDER", at::UNDER),
        ("GIVEN", at::GIVEN),
        ("TRADES", at::TRADES),
        ("PRICES", at::PRICES),
        ("SIZES", at::SIZES),
        ("HALF_COUNT", at::HALF_COUNT),
        ("HALF_LOTS", at::HALF_LOTS),
        ("HALF_VALUE", at::HALF_VALUE),
    ];
    for (name, place) in places {
        assert_eq!(header[format!("SESSION_{name}").as_str()], place as u64, "{name}");
    }
    assert_eq!(header.keys().filter(|name| name.starts_with("SESSION_")).count(), places.len());
}

#[test]
fn one_version() {
    let parts: Vec<u64> = env!("CARGO_PKG_VERSION").split('.').map(|part| part.parse().unwrap()).collect();
    let package = 1_000_000 * parts[0] + 1_000 * parts[1] + parts[2];
    let header = constants();
    assert_eq!([package, header["VERSION"], raw::version()], [VERSION; 3]);
    assert_eq!([header["LAYOUT"], raw::layout()], [LAYOUT; 2]);
}

#[test]
fn refusals_are_those_of_the_header_and_of_the_table() {
    let refused: Vec<u64> = constants().iter().filter(|(name, _)| name.starts_with("REFUSED_")).map(|(_, &n)| n).collect();
    assert_eq!(refused.len(), 1 + Refusal::ALL.len());
    let table = LINES.split("## Refusal numbers").nth(1).expect("the table's section");
    let numbers = Refusal::ALL.map(Refusal::number);
    assert!(numbers.is_sorted_by(|before, number| before < number));
    for (number, refusal) in numbers.into_iter().zip(Refusal::ALL) {
        assert_eq!(Refusal::from_number(number), Some(refusal));
        assert!(refused.contains(&number));
        let row = format!("| {number} | {} |", refusal.words());
        assert!(table.contains(&row), "docs/LINES.md has no row {row}");
        assert_eq!(refusal.to_string(), format!("refused by {number}: {}", refusal.words()));
    }
    assert_eq!(Refusal::from_number(0), None);
    for unknown in (1..=255).filter(|number| !numbers.contains(number)) {
        let refusal = Refusal::from_number(unknown).expect("a code that is not 0 is a refusal");
        assert_eq!((refusal, refusal.number()), (Refusal::Unknown(unknown as u8), unknown));
    }
}

/// The code that docs/LINES.md shows is that of the example, but for comments.
#[test]
fn the_recipe_is_the_example() {
    let recipe = LINES.split("## Save and come back").nth(1).expect("the recipe's section");
    let shown: Vec<&str> =
        recipe.lines().take_while(|line| !line.starts_with("## ")).filter(|line| line.starts_with("    ")).collect();
    let code = |line: &&str| line.split("//").next().unwrap_or("").trim().to_string();
    let example: Vec<String> = SAVE.lines().map(|line| code(&line)).filter(|line| !line.is_empty()).collect();
    let shown: Vec<String> = shown.iter().map(code).filter(|line| !line.is_empty()).collect();
    let starts: Vec<usize> = (0..shown.len()).filter(|&at| shown[at].starts_with("fn ")).collect();
    assert_eq!(starts.len(), 2);
    for (at, &start) in starts.iter().enumerate() {
        let function = &shown[start..starts.get(at + 1).copied().unwrap_or(shown.len())];
        assert!(example.windows(function.len()).any(|lines| lines == function), "not in the example: {}", function[0]);
    }
}
