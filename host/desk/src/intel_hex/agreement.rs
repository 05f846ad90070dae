//! The desk's words about a refused text against the proved loader: the texts of the differential test, good, damaged in every
//! way that chapter 11 names and changed at random. Each refusal must be explained, at the line that the loader names.

use super::wrong::first;
use differ::hex::make::{make, Sort};
use std::collections::BTreeSet;

const TEXTS: u64 = 20_000;

/// What the words about a damage have in them, one of these.
fn words(damage: &str) -> &'static [&'static str] {
    match damage {
        "no colon" | "another byte than a colon" => &["it begins with"],
        "a byte before the colon" => &["it begins with", "':' in column 2 is no hex digit"],
        "no hex digit" | "a space between digits" | "no line end" | "another line end" => {
            &["is no hex digit"]
        }
        "a digit less" | "a digit more" => &["an odd number"],
        "a pair less" => &["it says", "it has 4 hex pairs"],
        "a pair more" | "length one less" | "length one more" | "another length" => &["it says"],
        "something behind the checksum" => &["is no hex digit", "an odd number", "it says"],
        "a line cut off" => &["hex pairs", "an odd number", "it says"],
        "type 01 with data" => &["type 01 takes 0"],
        "type 04 without two bytes" => &["type 04 takes 2"],
        "type 05 without four bytes" => &["type 05 takes 4"],
        "type 01 with an offset" => &["type 01 takes 0000"],
        "type 04 with an offset" => &["type 04 takes 0000"],
        "type 05 with an offset" => &["type 05 takes 0000"],
        "an empty line first" | "an empty line further on" => &["the line is empty"],
        "a lone CR as a line's end" | "a lone CR at the text's end" | "CR CR LF" => {
            &["that no LF follows"]
        }
        "LF CR" => &["it begins with '\\r'", "it follows the end record"],
        "a wrong checksum" => &["the checksum is"],
        "another type" => &["is not read"],
        "a missing end" | "an empty text" => &["the end record is missing"],
        _ if damage.starts_with("data ") => &["outside memory"],
        _ => &["it follows the end record"],
    }
}

#[test]
fn every_refusal_is_explained_at_its_line() {
    let mut explained = BTreeSet::new();
    for number in 0..TEXTS {
        let mut made = make(2, number);
        let memory = made.memory.len() as u64;
        let loaded = sporhulma::load_hex(&mut made.memory, &made.text);
        if loaded.refusal == 2 {
            continue;
        }
        let own = first(&made.text, memory);
        let line = own.as_ref().map_or(0, |(line, _)| *line);
        assert_eq!(line, loaded.line, "text {number}: {own:?}");
        if let (Sort::Damaged(damage), Some((_, said))) = (made.sort, own) {
            let fits = words(damage).iter().any(|part| said.contains(part));
            assert!(fits, "text {number}, {damage}: {said}");
            explained.insert(damage);
        }
    }
    assert_eq!(explained.len(), differ::hex::damage::DAMAGES.len());
}
