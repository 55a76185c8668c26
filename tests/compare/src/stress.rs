//! Part 3: which octet sequences are valid UTF-8. Three must agree: the library, the second program, and the standard library of
//! Rust; and for the published stress test the verdict that RFC 3629 gives. `steps` has those that tell an automaton's states.

use crate::both::Table;
use crate::hex::hex;
use crate::published::{lines_of, read_file};
use crate::settings::Settings;
use crate::steps;
use crate::stop::Stop;

/// The sequences of the published stress test, with a verdict each.
const SEQUENCES: &str = include_str!("../../data/utf8-sequences.txt");

/// Octets next to which some rule of RFC 3629 changes.
const EDGES: [u8; 26] = [
    0x00, 0x2F, 0x7F, 0x80, 0x8F, 0x90, 0x9F, 0xA0, 0xBF, 0xC0, 0xC1, 0xC2, 0xDF, 0xE0, 0xE1, 0xEC, 0xED, 0xEE, 0xEF, 0xF0, 0xF1,
    0xF3, 0xF4, 0xF5, 0xF8, 0xFF,
];

/// The first and the last octet that trail, and the octets beside them.
const TRAILING: [u8; 4] = [0x7F, 0x80, 0xBF, 0xC0];

/// Over the empty table a key is at most so many times as long as its text: a Hangul syllable becomes three jamo.
pub const KEY_GROWTH: usize = 3;

pub fn run(settings: &Settings) -> Result<u64, Stop> {
    let table = Table::new(vec![], vec![])?;
    let mut cases = listed(&table)?;
    cases += edges(&table, if settings.short { 2 } else { 4 })?;
    cases += first_octets(&table, if settings.short { 3 } else { 5 })?;
    cases += steps::run(&table, settings.short)?;
    if let Some(path) = &settings.utf8_test {
        for line in lines_of(&read_file(path)?) {
            is_valid(&table, line)?;
            cases += 1;
        }
    }
    Ok(cases)
}

/// Whether a text is valid, as all three say.
fn is_valid(table: &Table, text: &[u8]) -> Result<bool, String> {
    is_valid_in(table, text, KEY_GROWTH)
}

/// The same in a buffer of so many octets for each of the text's.
pub fn is_valid_in(table: &Table, text: &[u8], growth: usize) -> Result<bool, String> {
    let answer = table.prepare(true, 3, text, growth * text.len())?;
    let valid = answer.row[3] == 1;
    if answer.row[0] != 0 || valid != std::str::from_utf8(text).is_ok() {
        return Err(format!("{}: both programs answer {:?}, the standard library differs", hex(text), answer.row));
    }
    Ok(valid)
}

/// Every sequence of the data file, which has its number, its verdict and its octets: alone, and in a line as the published
/// file has it, between quotation marks and with plain octets around them.
fn listed(table: &Table) -> Result<u64, Stop> {
    let mut cases = 0;
    for line in SEQUENCES.lines().filter(|line| !line.is_empty() && !line.starts_with('#')) {
        let (number, expected, octets) =
            read_sequence(line).ok_or_else(|| Stop::Error(format!("the data file has a line that can't be read: {line}")))?;
        let quoted = [number.as_bytes(), b" \"", &octets, b"\"    |"].concat();
        for text in [octets, quoted] {
            let verdict = if is_valid(table, &text)? { "valid" } else { "invalid" };
            if verdict != expected {
                return Err(Stop::Difference(format!("{line}: both programs say {verdict} of {}", hex(&text))));
            }
            cases += 1;
        }
    }
    match cases {
        0 => Err(Stop::Error("the data file of UTF-8 sequences is empty".to_string())),
        _ => Ok(cases),
    }
}

/// A line of the data file: the number of the sequence, its verdict and its octets.
fn read_sequence(line: &str) -> Option<(&str, &str, Vec<u8>)> {
    let words: Vec<&str> = line.split_whitespace().collect();
    let [number, verdict, digits @ ..] = &words[..] else { return None };
    let octets: Option<Vec<u8>> = digits.iter().map(|pair| u8::from_str_radix(pair, 16).ok()).collect();
    Some((number, verdict, octets?))
}

/// Every sequence of so many octets out of a row.
fn sequences(row: &[u8], length: u32) -> impl Iterator<Item = Vec<u8>> + '_ {
    let count = row.len();
    (0..count.pow(length)).map(move |number| (0..length).map(|place| row[number / count.pow(place) % count]).collect())
}

/// Every sequence of at most so many octets out of `EDGES`.
fn edges(table: &Table, longest: u32) -> Result<u64, String> {
    let mut cases = 0;
    for text in (1..=longest).flat_map(|length| sequences(&EDGES, length)) {
        is_valid(table, &text)?;
        cases += 1;
    }
    Ok(cases)
}

/// Every first octet, with at most so many octets out of `TRAILING` after it: more than the length that it announces, too.
fn first_octets(table: &Table, most: u32) -> Result<u64, String> {
    let mut cases = 0;
    for first in 0..=u8::MAX {
        for rest in (0..=most).flat_map(|length| sequences(&TRAILING, length)) {
            is_valid(table, &[&[first], &rest[..]].concat())?;
            cases += 1;
        }
    }
    Ok(cases)
}
