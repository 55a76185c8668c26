//! Part 4: all small cases of a kind, where luck would leave holes; and every way that a key is written (see `ways`).

use crate::both::{Case, Table};
use crate::building::Building;
use crate::examples::table_t;
use crate::page_lookups;
use crate::settings::Settings;
use crate::stop::Stop;
use crate::ways;
use second::key::key_of;
use second::unicode_data::State;

pub fn run(settings: &Settings) -> Result<u64, Stop> {
    // First, since it reads a file: one that is missing is told at once.
    let ways = ways::run(settings)?;
    let (needle, hay) = if settings.short { (3, 5) } else { (5, 9) };
    let found = words(needle, hay)?;
    let cuts = cuts(if settings.short { 2 } else { 4 })?;
    let tables = tables(settings.short)?;
    let lines = lines()?;
    let largest = page_lookups::largest(settings.short)?;
    println!("  {found} words in words, {cuts} cuts of keys, {tables} tables of one or two entries, {lines} changed lines");
    println!("  {largest} tables as large as can be, in whose pages every scalar code point was looked up");
    Ok(found + cuts + tables + lines + largest + ways)
}

/// Every word of at most so many letters, over two letters.
fn words_up_to(longest: usize) -> Vec<Vec<u8>> {
    let mut words = vec![vec![]];
    let mut last = words.clone();
    for _ in 0..longest {
        last = last.iter().flat_map(|word| [b'a', b'b'].map(|letter| [&word[..], &[letter]].concat())).collect();
        words.extend(last.clone());
    }
    words
}

/// Every short word sought in every longer one: the lowest occurrence, with all overlaps. Collation 1 needs no pages.
fn words(needle: usize, hay: usize) -> Result<u64, String> {
    let table = Table::new(vec![], vec![])?.lending(0, 0);
    let (needles, hays) = (words_up_to(needle), words_up_to(hay));
    for first in &needles {
        for second in &hays {
            let case = Case { collation: 1, first: first.clone(), second: second.clone(), first_room: 0, second_room: 0 };
            table.substring(false, &case)?;
        }
    }
    Ok((needles.len() * hays.len()) as u64)
}

/// Every part of the key of every short text over letters of table T, sought in that text: all ways a run can cover characters.
fn cuts(longest: usize) -> Result<u64, String> {
    const LETTERS: [&str; 5] = ["A", "é", "ž", "ﬁ", "\u{10000}"];
    let table = table_t()?;
    let accepted = table.verdict.as_ref().map_err(|_| "table T is refused".to_string())?;
    let mut texts = vec![String::new()];
    let mut cases = 0;
    for _ in 0..longest {
        texts = texts.iter().flat_map(|text| LETTERS.map(|letter| format!("{text}{letter}"))).collect();
        for text in &texts {
            let key = key_of(3, text.as_bytes(), accepted).octets;
            for start in 0..key.len() {
                for end in start + 1..=key.len() {
                    seek_cut(&table, &key[start..end], text.as_bytes())?;
                    cases += 1;
                }
            }
        }
    }
    Ok(cases)
}

fn seek_cut(table: &Table, first: &[u8], second: &[u8]) -> Result<(), String> {
    let case = Case { collation: 3, first: first.to_vec(), second: second.to_vec(), first_room: 64, second_room: 64 };
    table.substring(true, &case)?;
    Ok(())
}

/// Every table of one or two entries out of few numbers, over every pool of a few: all faults beside each other.
fn tables(short: bool) -> Result<u64, String> {
    let pools: [&[u32]; 6] = [&[], &[0x43], &[0x42], &[0x43, 0x41], &[0x43, 0xD800], &[0x43, 0x43, 0x43]];
    let mut entries = Vec::new();
    for code_point in [0x41, 0x42, 0xD800] {
        for titlecase in [0x41, 0x42, 0x110000] {
            for start in [0, 1, 2, u32::MAX] {
                entries.extend([0, 1, 2, 33].map(|count| [code_point, titlecase, start, count]));
            }
        }
    }
    let mut cases = 0;
    for (index, one) in entries.iter().enumerate() {
        for pool in pools {
            Table::new(one.to_vec(), pool.to_vec())?;
            cases += 1;
        }
        for other in entries.iter().filter(|_| !short || index % 4 == 1) {
            for pool in pools {
                Table::new([&one[..], &other[..]].concat(), pool.to_vec())?;
                cases += 1;
            }
        }
    }
    Ok(cases)
}

/// A line with field 14, and one without it, whose titlecase is field 12.
fn lines() -> Result<u64, String> {
    let filled = changes(b"01C4;NAME;Lu;0;L;<compat> 0044 017D;;;;N;;;01C6;01C6;01C5")?;
    Ok(filled + changes(b"0061;NAME;Ll;0;L;;;;;N;;;0041;;")?)
}

/// A line with every octet at every place: put in its stead, put before it, and the octet left out.
fn changes(line: &[u8]) -> Result<u64, String> {
    let mut cases = 0;
    for at in 0..=line.len() {
        for octet in 0..=u8::MAX {
            let mut longer = line.to_vec();
            longer.insert(at, octet);
            add(&longer)?;
            cases += 1;
        }
    }
    for at in 0..line.len() {
        for octet in 0..=u8::MAX {
            let mut changed = line.to_vec();
            changed[at] = octet;
            add(&changed)?;
        }
        add(&[&line[..at], &line[at + 1..]].concat())?;
        cases += 257;
    }
    Ok(cases)
}

fn add(line: &[u8]) -> Result<(), String> {
    let mut building = Building::new(9, 5);
    building.add_line(State { entries_used: 1, pool_used: 1, next: 0x42 }, line)?;
    building.compare_slices()
}
