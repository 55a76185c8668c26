//! Part 1, Hangul: keys, counts and hits of syllables.

use crate::both::{Case, Table};
use crate::examples::{expect, table_of, table_t};

/// Room for every key of these examples.
const ROOM: usize = 128;

pub fn run() -> Result<u64, String> {
    Ok(keys()? + titlecases()? + names()? + hits()?)
}

/// A text's key, its lookups and its octets as both programs have them, in both forms of the call.
fn prepared(table: &Table, text: &str, key: &str, lookups: u64) -> Result<u64, String> {
    for accepted in [false, true] {
        let answer = table.prepare(accepted, 3, text.as_bytes(), ROOM)?;
        expect(text, answer.row, [0, 0, 0, 1, lookups, key.len() as u64, 1])?;
        expect(text, &answer.first_key[..key.len()], key.as_bytes())?;
    }
    Ok(2)
}

/// "AC00: 4, AC01: 5": the first and the last syllables of each row, and the code points beside them, which stay. The table has
/// nothing to do with it.
fn keys() -> Result<u64, String> {
    const KEYS: [(&str, &str, u64); 12] = [
        ("\u{ABFF}", "\u{ABFF}", 2),
        ("\u{AC00}", "\u{1100}\u{1161}", 4),
        ("\u{AC01}", "\u{1100}\u{1161}\u{11A8}", 5),
        ("\u{AC1B}", "\u{1100}\u{1161}\u{11C2}", 5),
        ("\u{AC1C}", "\u{1100}\u{1162}", 4),
        ("\u{AE30}", "\u{1100}\u{1175}", 4),
        ("\u{AE4B}", "\u{1100}\u{1175}\u{11C2}", 5),
        ("\u{AE4C}", "\u{1101}\u{1161}", 4),
        ("\u{D558}", "\u{1112}\u{1161}", 4),
        ("\u{D788}", "\u{1112}\u{1175}", 4),
        ("\u{D7A3}", "\u{1112}\u{1175}\u{11C2}", 5),
        ("\u{D7A4}", "\u{D7A4}", 2),
    ];
    let mut cases = 0;
    for table in [Table::new(vec![], vec![])?, table_t()?] {
        for (text, key, lookups) in KEYS {
            cases += prepared(&table, text, key, lookups)?;
        }
        for jamo in ["\u{1100}", "\u{1112}", "\u{1161}", "\u{1175}", "\u{11A8}", "\u{11C2}", "\u{11A7}"] {
            cases += prepared(&table, jamo, jamo, 2)?;
        }
        cases += prepared(&table, "\u{AC01}\u{11A8}\u{D7A3}", "\u{1100}\u{1161}\u{11A8}\u{11A8}\u{1112}\u{1175}\u{11C2}", 12)?;
    }
    Ok(cases)
}

/// A syllable may be a titlecase or a part. Titlecases of jamo aren't taken, since they are "parts"; parts that decompose are
/// "asked like any others".
fn titlecases() -> Result<u64, String> {
    let table = table_of(&[
        (0x61, Some(0xD7A3), &[]),
        (0x62, Some(0xAC00), &[0x64, 0x64]),
        (0x63, None, &[0xAC00, 0x301, 0xAC01]),
        (0x1100, Some(0x1101), &[]),
        (0x1112, None, &[0x1100, 0x1109]),
        (0x11C2, None, &[0xAC1C]),
        (0xABFF, Some(0xAC01), &[]),
        (0xD7A4, Some(0x41), &[0xD7A3]),
    ])?;
    expect("syllables as titlecases and parts", table.row(), [0, 0, 0])?;
    let mut cases = 1;
    // D7A3 is 1112, 1175 and 11C2: 1100 1109, 1175 and 1100 1162.
    let last = "\u{1100}\u{1109}\u{1175}\u{1100}\u{1162}";
    cases += prepared(&table, "\u{D7A3}", last, 10)?;
    cases += prepared(&table, "a", last, 10)?;
    cases += prepared(&table, "b", "\u{1100}\u{1161}", 4)?;
    cases += prepared(&table, "c", "\u{1100}\u{1161}\u{301}\u{1100}\u{1161}\u{11A8}", 10)?;
    cases += prepared(&table, "\u{1100}", "\u{1101}", 2)?;
    cases += prepared(&table, "\u{AC00}", "\u{1100}\u{1161}", 4)?;
    cases += prepared(&table, "\u{ABFF}", "\u{1100}\u{1161}\u{11A8}", 5)?;
    cases += prepared(&table, "\u{D7A4}", "A", 2)?;
    cases += prepared(&table, "\u{1112}", "\u{1100}\u{1109}", 4)?;
    Ok(cases)
}

fn case(first: &str, second: &str) -> Case {
    let (first, second) = (first.as_bytes().to_vec(), second.as_bytes().to_vec());
    Case { collation: 3, first, second, first_room: ROOM, second_room: ROOM }
}

/// "Korean names in syllables" meet "the same names in jamo", whole or in part; a syllable is less than those after it.
fn names() -> Result<u64, String> {
    let pairs = [
        ("김민준", "\u{1100}\u{1175}\u{11B7}\u{1106}\u{1175}\u{11AB}\u{110C}\u{116E}\u{11AB}", 2),
        ("김민준", "김\u{1106}\u{1175}\u{11AB}준", 2),
        ("이서연", "\u{110B}\u{1175}\u{1109}\u{1165}\u{110B}\u{1167}\u{11AB}", 2),
        ("각", "가\u{11A8}", 2),
        ("가", "각", 1),
        ("갛", "개", 1),
        ("깋", "까", 1),
        ("힣", "\u{AC00}", 3),
        // Letters that look so, but are no parts of a syllable: 3131 and 314F.
        ("가", "ㄱㅏ", 1),
    ];
    let table = table_t()?;
    for (first, second, order) in pairs {
        for accepted in [false, true] {
            expect(first, table.order(accepted, &case(first, second))?.row, [0, 0, 0, order])?;
            let equality = if order == 2 { 1 } else { 2 };
            expect(first, table.equal(accepted, &case(first, second))?.row, [0, 0, 0, equality])?;
        }
        expect("i;octet", table.equal(false, &Case { collation: 1, ..case(first, second) })?.row, [0, 0, 0, 2])?;
    }
    Ok(5 * pairs.len() as u64)
}

/// A hit in a part of a syllable covers all of it: "the smallest run of whole characters of the text".
fn hits() -> Result<u64, String> {
    // Keys: A, then 1100 1161 11A8, then 1112 1175, then b; the texts' characters are at 0, 1, 4 and 7.
    let second = "a각히b";
    let found = [
        ("각", [1, 10, 1, 4]),
        ("가", [1, 7, 1, 4]),
        ("\u{1100}", [1, 4, 1, 4]),
        ("\u{1161}", [4, 7, 1, 4]),
        ("\u{11A8}", [7, 10, 1, 4]),
        ("\u{1161}\u{11A8}", [4, 10, 1, 4]),
        ("\u{11A8}히", [7, 16, 1, 7]),
        ("\u{11A8}\u{1112}", [7, 13, 1, 7]),
        ("A\u{1100}", [0, 4, 0, 4]),
        ("\u{1175}b", [13, 17, 4, 8]),
        ("히", [10, 16, 4, 7]),
    ];
    let table = table_t()?;
    for (first, at) in found {
        for accepted in [false, true] {
            let row = table.substring(accepted, &case(first, second))?.row;
            expect(first, row, [0, 0, 0, 1, at[0], at[1], at[2], at[3]])?;
        }
    }
    // One octet inside a part of a syllable, which is no text by itself: 86 of E1 86 A8.
    let octet = Case { first: vec![0x86], ..case("", second) };
    expect("an octet of a part", table.substring(false, &octet)?.row, [0, 0, 0, 1, 8, 9, 1, 4])?;
    expect("no syllable", table.substring(false, &case("힣", second))?.row, [0, 0, 0, 2, 0, 0, 0, 0])?;
    Ok(2 * found.len() as u64 + 2)
}
