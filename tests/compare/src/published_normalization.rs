//! Part 2, the published NormalizationTest.txt: a text's NFKD is its key over the published table without titlecases, so long as
//! no marks have to change places; and code points that its part 1 doesn't list are their own.

use crate::both::{Describe, Table};
use crate::hex::hex;
use crate::lines::untitled;
use crate::published::{build_any, read_hex, read_made, scalars};
use crate::settings::Settings;
use crate::stop::Stop;
use std::collections::BTreeSet;

/// What edition 15.0.0 of the file holds: different columns of its lines, those of them that are left out, and code points that
/// part 1 lists.
const COLUMNS: usize = 38_800;
const LEFT_OUT: usize = 2_395;
const LISTED: usize = 17_029;

/// As many code points as a text of 4,096 octets holds in any case.
const IN_A_TEXT: usize = 1_024;

/// What tests/second/normalization.py has written.
pub struct Normalization {
    listed: BTreeSet<char>,
    /// Texts and their NFKD.
    texts: Vec<(Vec<u8>, Vec<u8>)>,
}

pub fn read(settings: &Settings) -> Result<Normalization, Stop> {
    let (text, fault) = read_made("normalization", &settings.normalization)?;
    let mut normalization = Normalization { listed: BTreeSet::new(), texts: Vec::new() };
    let mut total = None;
    for line in text.lines() {
        let words: Vec<&str> = line.split(' ').collect();
        let is_read = match words[..] {
            ["listed", number] => read_listed(number).is_some_and(|scalar| normalization.listed.insert(scalar)),
            ["text", source, key] => read_hex(source).zip(read_hex(key)).map(|both| normalization.texts.push(both)).is_some(),
            ["total", columns, left_out] => total.replace((columns.parse(), left_out.parse())).is_none(),
            _ => false,
        };
        if !is_read {
            return Err(fault(format!("has the line {line:?}")));
        }
    }
    let (listed, texts) = (normalization.listed.len(), normalization.texts.len());
    if total != Some((Ok(COLUMNS), Ok(LEFT_OUT))) || listed != LISTED || texts != COLUMNS - LEFT_OUT {
        return Err(fault(format!("has {listed} code points and {texts} texts and says {total:?}, which is not edition 15.0.0")));
    }
    Ok(normalization)
}

fn read_listed(number: &str) -> Option<char> {
    char::from_u32(u32::from_str_radix(number, 16).ok()?)
}

pub fn run(lines: &[&[u8]], normalization: &Normalization) -> Result<u64, String> {
    let untitled: Vec<Vec<u8>> = lines.iter().map(|line| untitled(line)).collect();
    let table = build_any(&untitled.iter().map(Vec::as_slice).collect::<Vec<&[u8]>>())?;
    for (text, key) in &normalization.texts {
        compare_text(&table, text, key)?;
    }
    let unlisted = compare_unlisted(&table, &normalization.listed)?;
    let texts = normalization.texts.len() as u64;
    println!("  NormalizationTest.txt: NFKD of {texts} columns of {COLUMNS}; {LEFT_OUT} are left out, whose marks NFKD reorders");
    println!("  code points that it doesn't list, which are their own NFKD: {unlisted}");
    Ok(texts + unlisted)
}

fn compare_text(table: &Table, text: &[u8], key: &[u8]) -> Result<(), String> {
    let answer = table.prepare(true, 3, text, key.len())?;
    if answer.row[0] != 0 || answer.row[5] != key.len() as u64 || answer.first_key != key {
        let (text, key) = (hex(text), hex(key));
        return Err(format!("{text}: both programs answer {}, NFKD is {key}", answer.describe()));
    }
    Ok(())
}

fn compare_unlisted(table: &Table, listed: &BTreeSet<char>) -> Result<u64, String> {
    let unlisted: Vec<char> = scalars().filter(|scalar| !listed.contains(scalar)).collect();
    for run in unlisted.chunks(IN_A_TEXT) {
        let text: String = run.iter().collect();
        compare_text(table, text.as_bytes(), text.as_bytes())?;
    }
    Ok(unlisted.len() as u64)
}
