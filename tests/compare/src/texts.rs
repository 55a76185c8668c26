//! Random and damaged texts, pairs of them that have something in common, and key buffers of every interesting length.

use crate::both::{Case, Table};
use crate::korean;
use crate::random::Random;
use crate::tables::code_point;
use second::key::key_of;
use second::utf8::encode;

/// The letters that texts over a table are made of: the table's own, and others; with Hangul where the table has jamo.
pub fn letters_of(random: &mut Random, table: &Table) -> Vec<u32> {
    let titlecases = table.entries.chunks_exact(4).flat_map(|row| [row[0], row[1]]);
    let known: Vec<u32> =
        titlecases.chain(table.pool.iter().copied()).filter(|&number| second::table::is_scalar(number)).collect();
    let mut letters: Vec<u32> = (0..4).map(|_| code_point(random)).collect();
    letters.push(0x61);
    if random.one_in(8) || known.iter().any(|&letter| korean::is_jamo(letter)) {
        letters.extend((0..4).map(|_| korean::letter(random)));
    }
    if !known.is_empty() {
        letters.extend((0..12).map(|_| random.pick(&known)));
    }
    letters
}

/// Two texts under a collation, with buffers.
pub fn case(random: &mut Random, table: &Table) -> Case {
    let none = random.pick(&[0, 4, 5, u32::MAX]);
    let collation = random.pick(&[3, 3, 3, 3, 3, 3, 3, 3, 3, 3, 3, 2, 2, 2, 1, 1, none]);
    let letters = letters_of(random, table);
    let periodic = random.one_in(12);
    let second = if periodic { repeated(random, &letters) } else { text(random, &letters) };
    let first = if periodic { part_of(random, &second) } else { related(random, &second, collation, table, &letters) };
    let (first, second) = if random.one_in(5) { (second, first) } else { (first, second) };
    let first_room = room(random, collation, &first, table);
    let second_room = room(random, collation, &second, table);
    Case { collation, first, second, first_room, second_room }
}

/// A text: mostly short, a third of them damaged.
pub fn text(random: &mut Random, letters: &[u32]) -> Vec<u8> {
    let mut text = Vec::new();
    if random.one_in(200) {
        let length = random.between(4_090, 4_100);
        while text.len() < length {
            encode(random.pick(letters), &mut text);
        }
        if random.one_in(2) {
            text.truncate(random.pick(&[4_096, 4_097]));
        }
        return text;
    }
    let length = random.pick(&[0, 1, 2, 3, 5, 8, 12, 30, 80]);
    // Few different letters, so that occurrences overlap.
    let letters = if random.one_in(3) { &letters[..2] } else { letters };
    for _ in 0..random.between(length / 2, length) {
        encode(random.pick(letters), &mut text);
    }
    if random.one_in(3) {
        damage(random, &mut text);
    }
    text
}

/// A short word again and again, perhaps with one octet changed: what makes a search go wrong or slow.
fn repeated(random: &mut Random, letters: &[u32]) -> Vec<u8> {
    let mut word = Vec::new();
    for _ in 0..random.between(1, 6) {
        encode(random.pick(&letters[..2]), &mut word);
    }
    let text = word.repeat(random.between(1, 60));
    if random.one_in(2) {
        changed(random, &text)
    } else {
        text
    }
}

/// A part of a text, perhaps with one octet changed.
fn part_of(random: &mut Random, text: &[u8]) -> Vec<u8> {
    let part = cut(random, text);
    if random.one_in(3) {
        changed(random, &part)
    } else {
        part
    }
}

/// Breaks a text in one of the ways that RFC 3629 knows, or in none.
pub fn damage(random: &mut Random, text: &mut Vec<u8>) {
    const BROKEN: [&[u8]; 12] = [
        &[0xC0, 0x80],
        &[0xC1, 0xBF],
        &[0xE0, 0x9F, 0xBF],
        &[0xED, 0xA0, 0x80],
        &[0xED, 0xBF, 0xBF],
        &[0xF0, 0x8F, 0xBF, 0xBF],
        &[0xF4, 0x90, 0x80, 0x80],
        &[0xF5, 0x80, 0x80, 0x80],
        &[0xF8, 0x88, 0x80, 0x80, 0x80],
        &[0xFF],
        &[0x80],
        &[0xE1, 0x80],
    ];
    if text.is_empty() {
        text.extend(random.pick(&BROKEN));
        return;
    }
    let at = random.below(text.len());
    match random.below(6) {
        0 => text[at] ^= 1 << random.below(8),
        1 => drop(text.remove(at)),
        2 => text.insert(at, random.below(256) as u8),
        3 => text.truncate(at),
        4 => drop(text.splice(at..at, random.pick(&BROKEN).iter().copied())),
        _ => text.extend(random.pick(&BROKEN)),
    }
}

/// A text that has something in common with another, or nothing.
pub fn related(random: &mut Random, other: &[u8], collation: u32, table: &Table, letters: &[u32]) -> Vec<u8> {
    match random.below(9) {
        0 | 1 => text(random, letters),
        2 => other.to_vec(),
        3 => other[..random.between(0, other.len())].to_vec(),
        4 => cut(random, other),
        5 | 6 => cut(random, &key(collation, other, table)),
        7 => changed(random, other),
        _ => other.iter().map(|octet| if random.one_in(2) { octet.to_ascii_uppercase() } else { *octet }).collect(),
    }
}

/// Some part of an octet string.
fn cut(random: &mut Random, octets: &[u8]) -> Vec<u8> {
    let start = random.between(0, octets.len());
    let end = random.between(start, octets.len());
    octets[start..end].to_vec()
}

/// A text with one octet changed or one more at its end.
fn changed(random: &mut Random, other: &[u8]) -> Vec<u8> {
    let mut text = other.to_vec();
    if text.is_empty() || random.one_in(4) {
        text.push(random.below(256) as u8);
    } else {
        let at = random.below(text.len());
        text[at] = text[at].wrapping_add(random.pick(&[1, 0x20, 0x80, 0xFF]));
    }
    text
}

/// A text's key as the second program has it; of use for making cases even where a call will be refused.
pub fn key(collation: u32, text: &[u8], table: &Table) -> Vec<u8> {
    match &table.verdict {
        Ok(accepted) => key_of(collation, text, accepted).octets,
        Err(_) => text.to_vec(),
    }
}

/// A buffer's length: just enough, one short, none, more than enough, or the 128 octets for each octet that always suffice.
fn room(random: &mut Random, collation: u32, text: &[u8], table: &Table) -> usize {
    let needed = key(collation, text, table).len();
    match random.below(12) {
        0..=3 => needed,
        4 => needed.saturating_sub(1),
        5 => random.pick(&[0, needed / 2]),
        6..=8 => text.len() * 128 + random.below(3),
        9 => (text.len() * 128).saturating_sub(1),
        _ => needed + random.between(1, 9),
    }
}
