//! Names in several spellings, broken texts, long ones, and pairs of texts that have something in common.
use crate::random::Random;
use crate::tables::code_point;
use mundeziwa::Table;

/// Letters, each in spellings that are one under `i;unicode-casemap` over the table for Latin.
const LETTERS: [&[&str]; 13] = [
    &["é", "É", "e\u{301}", "E\u{301}"],
    &["ñ", "Ñ", "n\u{303}", "N\u{303}"],
    &["ö", "Ö", "o\u{308}", "O\u{308}"],
    &["å", "Å", "a\u{30A}", "A\u{30A}"],
    &["ž", "Ž", "z\u{30C}", "Z\u{30C}"],
    &["ø", "Ø"],
    &["a", "A"],
    &["z", "Z"],
    &["_"],
    &["名"],
    &["한", "\u{1112}\u{1161}\u{11AB}", "하\u{11AB}"],
    &["글", "\u{1100}\u{1173}\u{11AF}", "그\u{11AF}"],
    &["가", "\u{1100}\u{1161}"],
];

/// What no valid text has in it, whatever stands before and after: an octet that is never used, more trailing octets than a
/// character has, cut-off, overlong and surrogate forms, and what is above U+10FFFF.
const BROKEN: [&[u8]; 9] = [
    &[0xFF],
    &[0x80, 0x80, 0x80, 0x80],
    &[0xC3, 0xC3],
    &[0xC0, 0x80],
    &[0xE0, 0x9F, 0xBF],
    &[0xED, 0xA0, 0x80],
    &[0xF0, 0x8F, 0xBF, 0xBF],
    &[0xF4, 0x90, 0x80, 0x80],
    &[0xF8, 0x88, 0x80, 0x80, 0x80],
];

/// A name as letters, not yet spelled.
pub struct Name(Vec<usize>);

impl Name {
    /// The name with each letter in one of its spellings.
    pub fn spelled(&self, random: &mut Random) -> String {
        self.0.iter().map(|&letter| random.pick(LETTERS[letter])).collect()
    }
}

/// A name of some letters.
pub fn name(random: &mut Random) -> Name {
    Name((0..random.between(1, 12)).map(|_| random.below(LETTERS.len())).collect())
}

/// A text with something in it that is no UTF-8, as long as fits.
pub fn broken(random: &mut Random, text: &[u8]) -> Vec<u8> {
    let part = random.pick(&BROKEN);
    let kept = text.len().min(4_096 - part.len());
    let at = random.between(0, kept);
    [&text[..at], part, &text[at..kept]].concat()
}

/// A text of a random length about the limit of 4,096 octets.
pub fn long(random: &mut Random) -> Vec<u8> {
    let length = random.between(4_090, 4_102);
    let mut text = Vec::new();
    while text.len() < length {
        let letter = random.below(LETTERS.len());
        text.extend(random.pick(LETTERS[letter]).as_bytes());
    }
    text.truncate(length);
    text
}

/// A text that is taken: mostly a short one, a third of them broken, and now and then one as long as may be.
fn text(random: &mut Random, table: &Table) -> Vec<u8> {
    if random.one_in(60) {
        let mut text = long(random);
        text.truncate(4_096);
        return text;
    }
    let mut text = match random.below(3) {
        0 => name(random).spelled(random).into_bytes(),
        1 => (0..random.below(20)).flat_map(|_| encoded(letter(random, table))).collect(),
        _ => encoded(letter(random, table)).repeat(random.below(30)),
    };
    if random.one_in(3) {
        text = broken(random, &text);
    }
    text
}

/// A letter of the table, or any.
fn letter(random: &mut Random, table: &Table) -> u32 {
    if table.entries().is_empty() || random.one_in(3) {
        return code_point(random);
    }
    let entry = 4 * random.below(table.entries().len() / 4);
    random.pick(&table.entries()[entry..entry + 2])
}

/// A code point in UTF-8.
fn encoded(code: u32) -> Vec<u8> {
    char::from_u32(code).expect("no table has a surrogate").to_string().into_bytes()
}

/// Two texts, mostly with something in common.
pub fn related(random: &mut Random, table: &Table) -> [Vec<u8>; 2] {
    let first = text(random, table);
    let second = variant(random, table, &first);
    [first, second]
}

/// Another text, the same one, its key, a part of it, or one with an octet changed.
pub fn variant(random: &mut Random, table: &Table, other: &[u8]) -> Vec<u8> {
    let mut variant = match random.below(6) {
        0 => text(random, table),
        1 => other.to_vec(),
        2 => table.key(mundeziwa::Collation::UnicodeCasemap, other).unwrap(),
        3 => part(random, other),
        4 => other.to_ascii_uppercase(),
        _ => {
            let mut changed = [other, b"x"].concat();
            let at = random.below(changed.len());
            changed[at] ^= 1 << random.below(8);
            changed
        }
    };
    variant.truncate(4_096);
    variant
}

/// A part of some octets.
fn part(random: &mut Random, octets: &[u8]) -> Vec<u8> {
    let start = random.between(0, octets.len());
    let end = random.between(start, octets.len());
    octets[start..end].to_vec()
}

/// A text to seek in another: a part of it or of its key, perhaps with an octet changed.
pub fn sought(random: &mut Random, text: &[u8], key: &[u8]) -> Vec<u8> {
    let from = if random.one_in(2) { text } else { key };
    let mut sought = part(random, from);
    if random.one_in(2) {
        // Short ones are found more than once.
        sought.truncate(random.between(0, 4));
    }
    if random.one_in(5) && !sought.is_empty() {
        let at = random.below(sought.len());
        sought[at] ^= 0x20;
    }
    sought.truncate(4_096);
    sought
}
