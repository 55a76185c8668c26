//! The public calls, each with its refusals in the paper's order. They answer with the rows that the C header describes. What
//! they leave in the page slices goes by the answer, and `pages` tells it.

use crate::key::{key_of, Key, ASCII_CASEMAP, OCTET, UNICODE_CASEMAP};
use crate::pages::{self, Lengths};
use crate::refusal::Refusal;
use crate::substring;
use crate::table::{examine, Table, Verdict};
use std::cmp::Ordering;

pub const TEXT_MOST: usize = 4_096;

/// Two texts or two lists, the verdict on the table that is lent with them, and how long the page slices are.
pub struct Pair<'a> {
    pub collation: u32,
    pub first: &'a [u8],
    pub second: &'a [u8],
    pub verdict: &'a Verdict,
    pub pages: Lengths,
}

/// "The table may be checked by itself, with answers 3 to 7 or accepted."
pub fn check_table(entries: &[u32], pool: &[u32]) -> [u64; 3] {
    verdict_row(&examine(entries, pool))
}

pub fn verdict_row(verdict: &Verdict) -> [u64; 3] {
    match verdict {
        Ok(_) => [0; 3],
        Err(refusal) => refusal.row(),
    }
}

/// Preparation. The verdict stands for the lent table: a caller with many texts has it checked once.
pub fn prepare(collation: u32, text: &[u8], verdict: &Verdict, pages: Lengths, buffer: &mut [u8]) -> [u64; 7] {
    match leave_keys(collation, &[text], verdict, pages, &mut [buffer]) {
        Err(refusal) => refusal.row(),
        Ok(keys) => {
            let key = &keys[0];
            let (valid, length, place) = (key.valid as u64, key.octets.len() as u64, key.in_buffer as u64);
            [0, 0, 0, valid, key.lookups, length, place]
        }
    }
}

/// "Equality is equality of keys": 1 match, 2 no-match.
pub fn equal(pair: &Pair, first_buffer: &mut [u8], second_buffer: &mut [u8]) -> [u64; 4] {
    match leave_both(pair, first_buffer, second_buffer) {
        Err(refusal) => refusal.row(),
        Ok(keys) => [0, 0, 0, if keys[0].octets == keys[1].octets { 1 } else { 2 }],
    }
}

/// "Order compares keys octet by octet, unsigned; a proper prefix is less": 1 less, 2 equal, 3 greater.
pub fn order(pair: &Pair, first_buffer: &mut [u8], second_buffer: &mut [u8]) -> [u64; 4] {
    match leave_both(pair, first_buffer, second_buffer) {
        Err(refusal) => refusal.row(),
        Ok(keys) => match order_of(&keys[0].octets, &keys[1].octets) {
            Ordering::Less => [0, 0, 0, 1],
            Ordering::Equal => [0, 0, 0, 2],
            Ordering::Greater => [0, 0, 0, 3],
        },
    }
}

/// 1 match or 2 no-match, and the four positions of the match.
pub fn substring(pair: &Pair, first_buffer: &mut [u8], second_buffer: &mut [u8]) -> [u64; 8] {
    match leave_both(pair, first_buffer, second_buffer) {
        Err(refusal) => refusal.row(),
        Ok(keys) => match substring::seek(&keys[0], &keys[1]) {
            Some([start, end, text_start, text_end]) => [0, 0, 0, 1, start, end, text_start, text_end],
            None => [0, 0, 0, 2, 0, 0, 0, 0],
        },
    }
}

/// Octet by octet, unsigned, told without the language's own order of slices.
pub(crate) fn order_of(first: &[u8], second: &[u8]) -> Ordering {
    for (&one, &other) in first.iter().zip(second) {
        if one != other {
            return one.cmp(&other);
        }
    }
    first.len().cmp(&second.len())
}

/// "Comparing calls leave both keys so, each in its own buffer."
fn leave_both(pair: &Pair, first_buffer: &mut [u8], second_buffer: &mut [u8]) -> Result<Vec<Key>, Refusal> {
    let texts = [pair.first, pair.second];
    leave_keys(pair.collation, &texts, pair.verdict, pair.pages, &mut [first_buffer, second_buffer])
}

/// All checks, 15 "after 7 and before 8", then the keys: those that belong in a buffer stand at its start, "and octets after the
/// key stay".
fn leave_keys(
    collation: u32,
    texts: &[&[u8]],
    verdict: &Verdict,
    pages: Lengths,
    buffers: &mut [&mut [u8]],
) -> Result<Vec<Key>, Refusal> {
    check_collation(collation)?;
    check_texts(texts)?;
    let empty = Table::default();
    let table = table_under(collation, verdict, &empty)?;
    pages::check(collation, pages)?;
    let keys: Vec<Key> = texts.iter().map(|text| key_of(collation, text, table)).collect();
    check_room(&keys, buffers)?;
    for (key, buffer) in keys.iter().zip(buffers.iter_mut()) {
        write_key(key, buffer);
    }
    Ok(keys)
}

/// 1: "collation not 1, 2, 3".
pub(crate) fn check_collation(collation: u32) -> Result<(), Refusal> {
    match collation {
        OCTET | ASCII_CASEMAP | UNICODE_CASEMAP => Ok(()),
        _ => Err(Refusal::of_no_text(1, 0)),
    }
}

/// 2: "text over 4,096 octets; first text, then second".
fn check_texts(texts: &[&[u8]]) -> Result<(), Refusal> {
    for (index, text) in texts.iter().enumerate() {
        if text.len() > TEXT_MOST {
            return Err(Refusal::of_text(2, index, text.len()));
        }
    }
    Ok(())
}

/// "Collations 1 and 2 don't read the table. Every public call under 3 checks it."
pub(crate) fn reads_table(collation: u32) -> bool {
    collation == UNICODE_CASEMAP
}

/// The table that a collation reads, accepted or refused; the empty one where it reads none.
pub(crate) fn table_under<'a>(collation: u32, verdict: &'a Verdict, empty: &'a Table) -> Result<&'a Table, Refusal> {
    if reads_table(collation) {
        verdict.as_ref().map_err(|refusal| *refusal)
    } else {
        Ok(empty)
    }
}

/// 8: "a key that belongs in a buffer is longer than it; first text, then second".
fn check_room(keys: &[Key], buffers: &[&mut [u8]]) -> Result<(), Refusal> {
    for (index, key) in keys.iter().enumerate() {
        let (needed, room) = (key.octets.len(), buffers[index].len());
        if key.in_buffer && needed > room {
            return Err(Refusal::of_text(8, index, needed));
        }
    }
    Ok(())
}

fn write_key(key: &Key, buffer: &mut [u8]) {
    if key.in_buffer {
        buffer[..key.octets.len()].copy_from_slice(&key.octets);
    }
}
