//! The builder: "takes a state by value, one line without its line end, and the two slices. It appends at most one entry."

use crate::hangul::is_syllable;
use crate::table::{is_scalar, ENTRIES_MOST, POOL_MOST};

pub const LINE_MOST: usize = 512;
pub const PARTS_MOST: usize = 32;

/// "entries used, pool numbers used, one more than the last code point or 0".
#[derive(Clone, Copy, Debug, Default, PartialEq, Eq)]
pub struct State {
    pub entries_used: u64,
    pub pool_used: u64,
    pub next: u64,
}

/// What one line says.
struct Line {
    code_point: u32,
    parts: Vec<u32>,
    /// The titlecase that is taken: field 14, or field 12 where that is empty.
    titlecase: Option<u32>,
}

impl Line {
    /// "Lines that say nothing (no parts, titlecase none or itself ..) only move the last code point."
    fn has_mapping(&self) -> bool {
        !self.parts.is_empty() || self.titlecase.is_some_and(|titlecase| titlecase != self.code_point)
    }

    fn has_surrogate(&self) -> bool {
        let mut numbers = vec![self.code_point];
        numbers.extend(&self.parts);
        numbers.extend(self.titlecase);
        numbers.iter().any(|&number| !is_scalar(number))
    }
}

/// Adds one line: number, place, detail, and the state afterwards. "State and slices stay on refusal, place and detail are 0."
pub fn add_line(state: State, line: &[u8], entries: &mut [u32], pool: &mut [u32]) -> [u64; 6] {
    let (number, after) = match try_line(state, line, entries, pool) {
        Ok(after) => (0, after),
        Err(number) => (number, state),
    };
    [number, 0, 0, after.entries_used, after.pool_used, after.next]
}

/// The checks in the paper's order, 28 and then 20 to 27 with 29 between 23 and 24, and then the entry. "A line with a mapping"
/// for a Hangul syllable "gets 25" too.
fn try_line(state: State, line: &[u8], entries: &mut [u32], pool: &mut [u32]) -> Result<State, u64> {
    if is_impossible(state, entries.len(), pool.len()) {
        return Err(28);
    }
    if line.len() > LINE_MOST {
        return Err(20);
    }
    let said = read_line(line)?;
    if said.has_mapping() && said.has_surrogate() {
        return Err(25);
    }
    if said.has_mapping() && is_syllable(said.code_point) {
        return Err(25);
    }
    if u64::from(said.code_point) < state.next {
        return Err(26);
    }
    if said.has_mapping() && !has_room(state, &said, entries.len(), pool.len()) {
        return Err(27);
    }
    let mut after = State { next: u64::from(said.code_point) + 1, ..state };
    if said.has_mapping() {
        append(state, &said, entries, pool);
        after.entries_used += 1;
        after.pool_used += said.parts.len() as u64;
    }
    Ok(after)
}

/// 28: "more used than the slices hold, in whole entries, over the limits of 3, or last above 110000 hex".
fn is_impossible(state: State, entries_length: usize, pool_length: usize) -> bool {
    let over_slices = state.entries_used > entries_length as u64 / 4 || state.pool_used > pool_length as u64;
    let over_limits = state.entries_used > ENTRIES_MOST as u64 || state.pool_used > POOL_MOST as u64;
    over_slices || over_limits || state.next > 0x110000
}

/// 21 to 24, and 29 "even when 14 is filled, between 23 and 24": the line's fields 0, 5, 12 and 14. The others are not looked at.
/// "An empty titlecase means the simple uppercase, field 12. Take field 12 then."
fn read_line(line: &[u8]) -> Result<Line, u64> {
    let fields: Vec<&[u8]> = line.split(|&octet| octet == b';').collect();
    if fields.len() != 15 {
        return Err(21);
    }
    let code_point = read_code_point(fields[0]).ok_or(22_u64)?;
    let parts = read_decomposition(fields[5]).ok_or(23_u64)?;
    let uppercase = read_optional(fields[12], 29)?;
    let titlecase = read_optional(fields[14], 24)?;
    Ok(Line { code_point, parts, titlecase: titlecase.or(uppercase) })
}

/// A field that is empty or one code point; the refusal if it is malformed.
fn read_optional(field: &[u8], refusal: u64) -> Result<Option<u32>, u64> {
    match field {
        [] => Ok(None),
        digits => read_code_point(digits).map(Some).ok_or(refusal),
    }
}

/// "Code points have 4 to 6 digits, 0-9 and A-F, at most 10FFFF, with no leading zero past four digits."
fn read_code_point(field: &[u8]) -> Option<u32> {
    if !(4..=6).contains(&field.len()) {
        return None;
    }
    if field.len() > 4 && field[0] == b'0' {
        return None;
    }
    let mut number = 0;
    for &octet in field {
        number = number * 16 + read_digit(octet)?;
    }
    (number <= 0x10FFFF).then_some(number)
}

fn read_digit(octet: u8) -> Option<u32> {
    match octet {
        b'0'..=b'9' => Some(u32::from(octet - b'0')),
        b'A'..=b'F' => Some(u32::from(octet - b'A') + 10),
        _ => None,
    }
}

/// "Field 5 is empty, or 1 to 32 code points with single spaces between, after an optional tag of one or more letters A-Z or a-z
/// in angle brackets and one space."
fn read_decomposition(field: &[u8]) -> Option<Vec<u32>> {
    if field.is_empty() {
        return Some(Vec::new());
    }
    let mut words: Vec<&[u8]> = field.split(|&octet| octet == b' ').collect();
    if is_tag(words[0]) {
        words.remove(0);
    }
    if words.is_empty() || words.len() > PARTS_MOST {
        return None;
    }
    words.into_iter().map(read_code_point).collect()
}

fn is_tag(word: &[u8]) -> bool {
    match word {
        [b'<', letters @ .., b'>'] => !letters.is_empty() && letters.iter().all(u8::is_ascii_alphabetic),
        _ => false,
    }
}

/// 27: "no room for the entry or its parts, or a limit of 3 passed".
fn has_room(state: State, said: &Line, entries_length: usize, pool_length: usize) -> bool {
    let entries_after = state.entries_used + 1;
    let pool_after = state.pool_used + said.parts.len() as u64;
    let in_slices = entries_after <= entries_length as u64 / 4 && pool_after <= pool_length as u64;
    in_slices && entries_after <= ENTRIES_MOST as u64 && pool_after <= POOL_MOST as u64
}

/// Appends the entry and its parts: "code point, titlecase (the code point itself if none), pool start, count".
fn append(state: State, said: &Line, entries: &mut [u32], pool: &mut [u32]) {
    let entry_at = state.entries_used as usize * 4;
    let pool_at = state.pool_used as usize;
    let titlecase = said.titlecase.unwrap_or(said.code_point);
    let entry = [said.code_point, titlecase, pool_at as u32, said.parts.len() as u32];
    entries[entry_at..entry_at + 4].copy_from_slice(&entry);
    pool[pool_at..pool_at + said.parts.len()].copy_from_slice(&said.parts);
}
