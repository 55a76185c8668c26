//! Tables over which keys are written in every way (see `ways`). Most are hostile: over them ASCII doesn't become ASCII, or not
//! octet by octet, or not by two lookups.

use crate::both::Table;
use crate::examples::{expect, table_of, table_t};
use crate::published::{build, lines_of, read_unicode_data};
use crate::settings::Settings;
use crate::stop::Stop;

/// A table, and the letters that texts over it are made of.
pub struct Spelling {
    pub name: &'static str,
    pub table: Table,
    /// Octets of ASCII, of which a text takes one after another.
    pub ascii: &'static [u8],
    /// A character of two octets, one of three and one of four.
    pub wide: [char; 3],
    /// Whether a short text's key can be longer than what the library writes aside.
    pub is_heavy: bool,
}

/// Mappings as `table_of` takes them.
type Rows = [(u32, Option<u32>, &'static [u32])];

/// What a character must come to, or the table isn't what its name says: its lookups, and the octets of its key.
type Sample = (char, u64, u64);

/// As many code points as a decomposition can have, each of as many octets as a code point can take.
const FOURS: [u32; 32] = [0x10FFFF; 32];

/// The same with one octet less.
const LIGHTER: [u32; 32] = {
    let mut parts = FOURS;
    parts[31] = 0xFFFF;
    parts
};

/// Table T, the empty one, the published one (not in a short run, which has no time to build it) and the hostile ones.
pub fn all(settings: &Settings) -> Result<Vec<Spelling>, Stop> {
    let plain = |name, table: Table, wide| Spelling { name, table, ascii: b"Fa9z \0fi\x7FZ_", wide, is_heavy: false };
    let mut all = vec![
        plain("table T", table_t()?, ['é', 'ﬁ', '\u{10000}']),
        plain("the empty table", Table::new(vec![], vec![])?, ['\u{80}', '\u{AC01}', '\u{10FFFF}']),
    ];
    if !settings.short {
        all.push(plain("the published table", build(&lines_of(&read_unicode_data(settings)?))?, ['é', '\u{1FB7}', '\u{1D400}']));
    }
    all.extend([titlecased(), decomposed(), heavy(), titlecased_then_decomposed()].into_iter().collect::<Result<Vec<_>, _>>()?);
    all.extend([one_part(), into_ascii(), no_letters()].into_iter().collect::<Result<Vec<_>, _>>()?);
    Ok(all.into_iter().map(|spelling| Spelling { table: spelling.table.sparing(), ..spelling }).collect())
}

/// A hostile table, which must be accepted, and of which the samples must hold.
fn hostile(name: &'static str, ascii: &'static [u8], wide: [char; 3], rows: &Rows, samples: &[Sample]) -> Result<Spelling, Stop> {
    let table = table_of(rows)?;
    if !table.is_accepted() {
        return Err(Stop::Error(format!("{name}: the table is refused: {:?}", table.row())));
    }
    for &(character, lookups, length) in samples {
        let answer = table.prepare(false, 3, character.to_string().as_bytes(), length as usize)?;
        expect(&format!("{name}, {character:?}"), answer.row, [0, 0, 0, 1, lookups, length, 1])?;
    }
    Ok(Spelling { name, table, ascii, wide, is_heavy: false })
}

/// Titlecases of two, three and four octets, the first code point beyond ASCII and the last within it, and one that decomposes.
fn titlecased() -> Result<Spelling, Stop> {
    let rows: &Rows = &[
        (0x61, Some(0xC1), &[]),
        (0x62, Some(0xFB00), &[]),
        (0x63, Some(0x10400), &[]),
        (0x64, Some(0x1C5), &[]),
        (0x70, Some(0x80), &[]),
        (0x71, Some(0x7F), &[]),
        (0xE1, Some(0xC1), &[]),
        (0x1C5, None, &[0x44, 0x7A]),
    ];
    let samples = [('a', 2, 2), ('b', 2, 3), ('c', 2, 4), ('d', 4, 2), ('p', 2, 2), ('q', 2, 1), ('x', 2, 1)];
    hostile("ASCII with titlecases beyond it", b"axbycpqd", ['á', 'ﬀ', '\u{10400}'], rows, &samples)
}

/// Letters that decompose into several letters, also by way of one that does.
fn decomposed() -> Result<Spelling, Stop> {
    let rows: &Rows = &[
        (0x61, None, &[0x78, 0x79, 0x7A]),
        (0x62, Some(0x42), &[0x78]),
        (0x63, None, &[0x61, 0x61]),
        (0x64, None, &[0x2126, 0x63]),
        (0xE9, None, &[0x63, 0x301]),
    ];
    let samples = [('a', 5, 3), ('b', 2, 1), ('c', 10, 6), ('d', 12, 9), ('é', 12, 8)];
    hostile("ASCII that decomposes", b"abxcdy", ['é', '\u{2126}', '\u{1F600}'], rows, &samples)
}

/// Letters that come to 128 octets, as many as there can be, and to 127; and one that stays.
fn heavy() -> Result<Spelling, Stop> {
    let rows: &Rows = &[(0x62, None, &FOURS), (0x63, None, &LIGHTER), (0xE9, Some(0x62), &[])];
    let samples = [('b', 34, 128), ('c', 34, 127), ('x', 2, 1), ('é', 34, 128)];
    let spelling = hostile("ASCII of 128 octets", b"bxxcxxxx", ['é', '\u{2126}', '\u{10FFFF}'], rows, &samples)?;
    Ok(Spelling { is_heavy: true, ..spelling })
}

/// A letter whose titlecase is another letter that decomposes, and one that itself decomposes and has a titlecase that doesn't.
fn titlecased_then_decomposed() -> Result<Spelling, Stop> {
    let rows: &Rows = &[
        (0x42, None, &[0x78, 0x79]),
        (0x61, Some(0x42), &[]),
        (0x63, Some(0x44), &[0x78, 0x79]),
        (0xE9, Some(0x42), &[0x65, 0x301]),
    ];
    let samples = [('a', 4, 2), ('B', 4, 2), ('c', 2, 1), ('é', 4, 2)];
    hostile("ASCII whose titlecase decomposes", b"aBcxD", ['é', '\u{2126}', '\u{1F600}'], rows, &samples)
}

/// Letters that become one letter, but by three lookups.
fn one_part() -> Result<Spelling, Stop> {
    let rows: &Rows = &[(0x44, None, &[0x71]), (0x61, None, &[0x5A]), (0x63, Some(0x44), &[]), (0xE9, None, &[0xC9])];
    let samples = [('a', 3, 1), ('c', 3, 1), ('D', 3, 1), ('q', 2, 1), ('é', 3, 2)];
    hostile("ASCII that decomposes into one letter", b"aqcDx", ['é', '\u{2126}', '\u{1F600}'], rows, &samples)
}

/// Characters beyond ASCII that become one letter of it, by a titlecase or by a decomposition.
fn into_ascii() -> Result<Spelling, Stop> {
    let rows: &Rows = &[(0x80, Some(0x7F), &[]), (0xE9, Some(0x45), &[]), (0x212A, None, &[0x4B]), (0x1D400, None, &[0x41])];
    let samples = [('\u{80}', 2, 1), ('é', 2, 1), ('\u{212A}', 3, 1), ('\u{1D400}', 3, 1)];
    hostile("others that become ASCII", b"ae\x7Fz", ['é', '\u{212A}', '\u{1D400}'], rows, &samples)
}

/// A digit, a space and the first and the last octet of ASCII with entries.
fn no_letters() -> Result<Spelling, Stop> {
    let rows: &Rows = &[(0x00, Some(0x7F), &[]), (0x20, None, &[0x5F, 0x5F]), (0x31, Some(0x32), &[]), (0x7F, None, &[0x00])];
    let samples = [(' ', 4, 2), ('1', 2, 1), ('\0', 3, 1), ('\x7F', 3, 1)];
    hostile("ASCII without letters", b"1 \x7F\x002", ['é', '\u{2126}', '\u{1F600}'], rows, &samples)
}
