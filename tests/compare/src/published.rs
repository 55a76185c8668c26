//! Part 2: the published UnicodeData.txt, every scalar code point over it and in its pages, and NFKD as Python's unicodedata has
//! it.

use crate::both::Table;
use crate::building::Building;
use crate::hex::hex;
use crate::settings::Settings;
use crate::stop::Stop;
use crate::{page_lookups, published_normalization, published_titlecases};
use second::hangul::is_syllable;
use second::unicode_data::State;

/// What edition 15.0.0 of the file holds; tests/second.sh checks its SHA-256.
const LINES: usize = 34_924;
const ENTRIES: usize = 6_795;
const POOL: usize = 8_663;

/// Every scalar code point: 110000 hex but for 800 hex surrogates.
const SCALARS: u64 = 1_112_064;

/// Every Hangul syllable, AC00 to D7A3 hex.
const SYLLABLES: usize = 11_172;

/// The lines of a file, each without its line end. A last line without one counts unless it is empty.
pub fn lines_of(octets: &[u8]) -> Vec<&[u8]> {
    let mut lines: Vec<&[u8]> = octets.split(|&octet| octet == b'\n').collect();
    if lines.last().is_some_and(|line| line.is_empty()) {
        lines.pop();
    }
    lines
}

pub fn read_file(path: &str) -> Result<Vec<u8>, Stop> {
    std::fs::read(path).map_err(|error| Stop::Error(format!("{path} can't be read: {error}")))
}

/// The published file, whole.
pub fn read_unicode_data(settings: &Settings) -> Result<Vec<u8>, Stop> {
    let octets = read_file(&settings.unicode_data)?;
    match lines_of(&octets).len() {
        LINES => Ok(octets),
        other => Err(Stop::Error(format!("{} has {other} lines, edition 15.0.0 has {LINES}", settings.unicode_data))),
    }
}

pub fn run(settings: &Settings) -> Result<u64, Stop> {
    let octets = read_unicode_data(settings)?;
    let lines = lines_of(&octets);
    // Before anything takes long: a file that is missing is told at once.
    let files = if settings.short { None } else { Some((read_nfkd(settings)?, published_normalization::read(settings)?)) };
    let table = build(&lines)?.sparing();
    let built_from = lines.len() as u64 + published_titlecases::run(&lines, &table)?;
    page_lookups::compare_scalars(&table)?;
    println!("  {SCALARS} scalar code points, each found in the pages as in the entries");
    let Some((nfkd, normalization)) = files else { return Ok(built_from) };
    one_by_one(&table)?;
    in_long_texts(&table)?;
    for (scalar, key) in &nfkd {
        compare_one(&table, *scalar, key)?;
    }
    table.check_unchanged()?;
    let nfkd = nfkd.len() as u64;
    println!("  UnicodeData.txt: {} lines, {ENTRIES} entries, {POOL} pool numbers, {SCALARS} scalar code points", lines.len());
    println!("  NFKD of the titlecase by Python: {nfkd} code points, all {SYLLABLES} Hangul syllables among them");
    Ok(built_from + SCALARS + nfkd + published_normalization::run(&lines, &normalization)?)
}

/// The table of the published lines.
pub fn build(lines: &[&[u8]]) -> Result<Table, String> {
    let table = build_any(lines)?;
    match (table.entries.len() / 4, table.pool.len()) {
        (ENTRIES, POOL) => Ok(table),
        (entries, pool) => Err(format!("{} lines gave {entries} entries and {pool} pool numbers", lines.len())),
    }
}

/// Every line is accepted by both builders, and the table by both checks.
pub fn build_any(lines: &[&[u8]]) -> Result<Table, String> {
    let mut building = Building::new(16_384 * 4, 65_536);
    let mut state = State::default();
    for line in lines {
        let answer = building.add_line(state, line)?;
        if answer[0] != 0 {
            return Err(format!("refused {} in both programs: {}", answer[0], String::from_utf8_lossy(line)));
        }
        state = State { entries_used: answer[3], pool_used: answer[4], next: answer[5] };
    }
    building.compare_slices()?;
    let (entries_used, pool_used) = (state.entries_used as usize, state.pool_used as usize);
    let table = Table::new(building.entries[..4 * entries_used].to_vec(), building.pool[..pool_used].to_vec())?;
    match table.is_accepted() {
        true => Ok(table),
        false => Err(format!("the built table is refused: {:?}", table.row())),
    }
}

pub fn scalars() -> impl Iterator<Item = char> {
    '\0'..=char::MAX
}

/// Key, count and validity of every scalar code point as a text of its own.
fn one_by_one(table: &Table) -> Result<(), String> {
    let mut seen = 0;
    for scalar in scalars() {
        let answer = table.prepare(true, 3, scalar.to_string().as_bytes(), 128)?;
        if answer.row[0] != 0 || answer.row[3] != 1 {
            return Err(format!("{:04X}: both programs answer {:?}", scalar as u32, answer.row));
        }
        seen += 1;
    }
    match seen {
        SCALARS => Ok(()),
        _ => Err(format!("{seen} scalar code points were looked at")),
    }
}

/// The same in texts of up to 4,096 octets, by the call that checks the table, with just enough room and with one octet less.
fn in_long_texts(table: &Table) -> Result<(), String> {
    let all: Vec<char> = scalars().collect();
    for run in all.chunks(1_024) {
        let text: String = run.iter().collect();
        let answer = table.prepare(false, 3, text.as_bytes(), text.len() * 128)?;
        let exact = table.prepare(false, 3, text.as_bytes(), answer.row[5] as usize)?;
        let short = table.prepare(true, 3, text.as_bytes(), answer.row[5] as usize - 1)?;
        if exact.row != answer.row || short.row != [8, 1, answer.row[5], 0, 0, 0, 0] {
            return Err(format!("from {:04X} on: {:?}, {:?}", run[0] as u32, exact.row, short.row));
        }
    }
    Ok(())
}

/// A file that a script of tests/second has written, and what makes an error of a fault in it.
pub fn read_made(what: &str, path: &str) -> Result<(String, impl Fn(String) -> Stop), Stop> {
    let start = format!("the {what} file {path:?}, which tests/second.sh makes,");
    let fault = move |what: String| Stop::Error(format!("{start} {what}"));
    let octets = std::fs::read(path).map_err(|error| fault(format!("can't be read: {error}")))?;
    let text = String::from_utf8(octets).map_err(|_| fault("isn't text".to_string()))?;
    Ok((text, fault))
}

/// The key of every code point that tests/second/nfkd.py has written: a line each, its number and its octets, and last how many
/// there were.
fn read_nfkd(settings: &Settings) -> Result<Vec<(char, Vec<u8>)>, Stop> {
    let (text, fault) = read_made("NFKD", &settings.nfkd)?;
    let mut keys = Vec::new();
    let mut total: Option<usize> = None;
    for line in text.lines() {
        match line.split_once(' ') {
            Some(("total", number)) => total = number.parse().ok(),
            Some((number, key)) => keys.push(read_key(number, key).ok_or_else(|| fault(format!("has the line {line:?}")))?),
            None => return Err(fault(format!("has the line {line:?}"))),
        }
    }
    let syllables = keys.iter().filter(|(scalar, _)| is_syllable(*scalar as u32)).count();
    match total {
        Some(total) if total == keys.len() && syllables == SYLLABLES => Ok(keys),
        _ => Err(fault(format!("has {} code points, {syllables} of them Hangul syllables, and says {total:?}", keys.len()))),
    }
}

fn read_key(number: &str, key: &str) -> Option<(char, Vec<u8>)> {
    let scalar = char::from_u32(u32::from_str_radix(number, 16).ok()?)?;
    Some((scalar, read_hex(key)?))
}

fn compare_one(table: &Table, scalar: char, key: &[u8]) -> Result<(), String> {
    let answer = table.prepare(true, 3, scalar.to_string().as_bytes(), 128)?;
    let ours = &answer.first_key[..answer.row[5] as usize];
    if ours != key {
        return Err(format!("{:04X}: both programs answer {}, NFKD by Python is {}", scalar as u32, hex(ours), hex(key)));
    }
    Ok(())
}

/// Octets written as pairs of hex digits with nothing between.
pub fn read_hex(digits: &str) -> Option<Vec<u8>> {
    let pairs = digits.as_bytes().chunks(2);
    pairs.map(|pair| u8::from_str_radix(std::str::from_utf8(pair).ok()?, 16).ok()).collect()
}
