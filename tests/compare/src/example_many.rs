//! Part 1, many texts and many keys: both edges of every rule, written by hand, over table T.

use crate::both::Table;
use crate::example_lists::faulty_tables;
use crate::examples::{expect, table_t};
use crate::huge;
use crate::matching::{KeyRooms, Keys, Matched};
use crate::preparing::{Prepared, TextRooms, Texts};

type Parts = &'static [&'static [u8]];

/// What it is, the collation, the texts; store, key ends, valid.
type Left = (&'static str, u32, Parts, &'static [u8], &'static [usize], &'static [u8]);

const PREPARED: [Left; 19] = [
    ("no texts under 1", 1, &[], b"", &[], &[]),
    ("no texts under 3", 3, &[], b"", &[], &[]),
    ("one text", 3, &[b"\xC3\xA9"], b"E\xCC\x81", &[3], &[1]),
    ("one empty text", 3, &[b""], b"", &[0], &[1]),
    ("empty texts", 2, &[b"", b"a", b"", b"b", b""], b"AB", &[0, 1, 1, 2, 2], &[1; 5]),
    ("empty texts alone", 1, &[b"", b"", b""], b"", &[0; 3], &[1; 3]),
    ("texts are copied under 1", 1, &[b"a", b"\xC3\xA9"], b"a\xC3\xA9", &[1, 3], &[1, 1]),
    ("capitals under 2", 2, &[b"az{", b"\xFFa"], b"AZ{\xFFA", &[3, 5], &[1, 1]),
    ("an invalid text is copied", 3, &[b"a\xC3", b"a"], b"a\xC3A", &[2, 3], &[0, 1]),
    ("an invalid text last", 3, &[b"a", b"\xC3"], b"A\xC3", &[1, 2], &[1, 0]),
    ("a valid text between two", 3, &[b"\xFFa", b"a", b"a\xFF"], b"\xFFaAa\xFF", &[2, 3, 5], &[0, 1, 0]),
    ("invalid texts under 1", 1, &[b"\xC3", b"\xFF"], b"\xC3\xFF", &[1, 2], &[1, 1]),
    ("invalid texts under 2", 2, &[b"\xC3", b"\xFF"], b"\xC3\xFF", &[1, 2], &[1, 1]),
    // each text by itself: together they would be valid, or have a titlecase
    ("e acute cut in two", 3, &[b"\xC3", b"\xA9"], b"\xC3\xA9", &[1, 2], &[0, 0]),
    ("a letter and a mark", 3, &[b"e", b"\xCC\x81"], b"e\xCC\x81", &[1, 3], &[1, 1]),
    ("keys shorter than their texts", 3, &[b"\xEF\xAC\x81", b"x"], b"fix", &[2, 3], &[1, 1]),
    ("keys longer than their texts", 3, &[b"\xC7\x84", b"\xC7\x84"], b"Dz\xCC\x8CDz\xCC\x8C", &[4, 8], &[1, 1]),
    (
        "one name in three forms",
        3,
        &[b"\xC3\xA9", b"E\xCC\x81", b"\xC3\x89"],
        b"E\xCC\x81E\xCC\x81E\xCC\x81",
        &[3, 6, 9],
        &[1; 3],
    ),
    ("the octet 0", 3, &[b"\0", b"\0\0"], b"\0\0\0", &[1, 3], &[1, 1]),
];

/// What it is, the keys, how many of them are the first list's; equal pairs, names with a partner; row, repeats, partners.
type Found = (&'static str, Parts, usize, [u64; 2], &'static [u32], &'static [u32], &'static [u32]);

const MATCHED: [Found; 24] = [
    ("no keys", &[], 0, [0, 0], &[], &[], &[]),
    ("one key of the first list", &[b"a"], 1, [0, 0], &[1], &[0], &[0]),
    ("one key of the second list", &[b"a"], 0, [0, 0], &[1], &[0], &[]),
    ("one key in each", &[b"a", b"a"], 1, [1, 1], &[1, 2], &[1, 0], &[1]),
    ("two keys of the first list", &[b"a", b"a"], 2, [0, 0], &[1, 2], &[1, 0], &[0, 0]),
    ("two keys of the second list", &[b"a", b"a"], 0, [0, 0], &[1, 2], &[1, 0], &[]),
    ("two keys that differ", &[b"b", b"a"], 1, [0, 0], &[2, 1], &[0, 0], &[0]),
    ("letters are as they are", &[b"a", b"A"], 1, [0, 0], &[2, 1], &[0, 0], &[0]),
    ("two groups", &[b"a", b"b", b"a", b"b"], 2, [2, 2], &[1, 3, 2, 4], &[1, 0, 1, 0], &[1, 2]),
    ("two groups, crossed", &[b"b", b"a", b"b", b"a", b"b"], 2, [3, 2], &[2, 4, 1, 3, 5], &[1, 0, 1, 1, 0], &[1, 2]),
    ("the lowest partner", &[b"b", b"a", b"b", b"c", b"b"], 1, [2, 1], &[2, 1, 3, 5, 4], &[0, 1, 1, 0, 0], &[2]),
    ("the last partner", &[b"d", b"c", b"a", b"b", b"c"], 2, [1, 1], &[3, 4, 2, 5, 1], &[0, 0, 1, 0, 0], &[0, 3]),
    ("equal in the first list", &[b"a", b"a", b"a", b"a"], 3, [3, 3], &[1, 2, 3, 4], &[1, 1, 1, 0], &[1, 1, 1]),
    ("equal in the second list", &[b"a", b"a", b"a", b"a"], 1, [3, 1], &[1, 2, 3, 4], &[1, 1, 1, 0], &[1]),
    ("equal in both", &[b"a", b"a", b"a", b"a", b"a"], 3, [6, 3], &[1, 2, 3, 4, 5], &[1, 1, 1, 1, 0], &[1, 1, 1]),
    ("all in the first list", &[b"b", b"a", b"b"], 3, [0, 0], &[2, 1, 3], &[0, 1, 0], &[0, 0, 0]),
    ("all in the second list", &[b"b", b"a", b"b"], 0, [0, 0], &[2, 1, 3], &[0, 1, 0], &[]),
    ("in order", &[b"a", b"b", b"c"], 1, [0, 0], &[1, 2, 3], &[0; 3], &[0]),
    ("in falling order", &[b"c", b"b", b"a"], 1, [0, 0], &[3, 2, 1], &[0; 3], &[0]),
    ("a proper prefix is less", &[b"aa", b"a", b"", b"b"], 4, [0, 0], &[3, 2, 1, 4], &[0; 4], &[0; 4]),
    ("octets are unsigned", &[b"\xFF", b"\x7F", b"\x80"], 1, [0, 0], &[2, 3, 1], &[0; 3], &[0]),
    ("keys that join alike", &[b"ab", b"c", b"a", b"bc"], 2, [0, 0], &[3, 1, 4, 2], &[0; 4], &[0, 0]),
    ("empty keys", &[b"", b"", b"a", b""], 2, [2, 2], &[1, 2, 4, 3], &[1, 1, 0, 0], &[2, 2]),
    ("the octet 0", &[b"\0", b"", b"\0\0", b"\0"], 2, [1, 1], &[2, 1, 4, 3], &[0, 1, 0, 0], &[2, 0]),
];

/// Room for all that is left of the small texts here.
const ENOUGH: TextRooms = TextRooms { store: 30, key_ends: 6, valid: 6 };
/// Room for all that is left of the small keys here.
const ENOUGH_KEYS: KeyRooms = KeyRooms { row: 6, repeats: 6, partners: 6 };

pub fn run() -> Result<u64, String> {
    let table = table_t()?;
    let mut cases = 0;
    for example in PREPARED {
        cases += leaves(&table, example)?;
    }
    for example in MATCHED {
        cases += finds(example)?;
    }
    cases += ends(&table)? + lengths(&table)? + tables()? + counts()? + rooms(&table)?;
    Ok(cases + rest(&table)? + longest_keys()? + huge::run(&table)?)
}

/// What is left of many texts, in just the room that it needs and in more, of which all that is beyond stays.
fn leaves(table: &Table, (what, collation, texts, store, key_ends, valid): Left) -> Result<u64, String> {
    for more in [0, 3] {
        let rooms = TextRooms { store: store.len() + more, key_ends: key_ends.len() + 2 * more, valid: valid.len() + more };
        let mut papers = Prepared::untouched(rooms);
        papers.row[3] = store.len() as u64;
        papers.store[..store.len()].copy_from_slice(store);
        papers.key_ends[..key_ends.len()].copy_from_slice(key_ends);
        papers.valid[..valid.len()].copy_from_slice(valid);
        expect_prepared(table, what, &Texts::new(collation, texts), rooms, papers)?;
    }
    Ok(2)
}

fn expect_prepared(table: &Table, what: &str, texts: &Texts, rooms: TextRooms, papers: Prepared) -> Result<(), String> {
    let prepared = table.prepare_many(texts, rooms).map_err(|difference| format!("{what}\n{difference}"))?;
    expect(what, prepared.row, papers.row)?;
    expect(what, prepared.store, papers.store)?;
    expect(what, prepared.key_ends, papers.key_ends)?;
    expect(what, prepared.valid, papers.valid)
}

/// What is left of many keys, as `leaves` has it.
fn finds((what, keys, first_names, totals, row, repeats, partners): Found) -> Result<u64, String> {
    for more in [0, 3] {
        let rooms = KeyRooms { row: row.len() + more, repeats: repeats.len() + 2 * more, partners: partners.len() + more };
        let mut papers = Matched::untouched(rooms);
        papers.answer[3..].copy_from_slice(&totals);
        papers.row[..row.len()].copy_from_slice(row);
        papers.repeats[..repeats.len()].copy_from_slice(repeats);
        papers.partners[..partners.len()].copy_from_slice(partners);
        expect_matched(what, &Keys::new(keys, first_names), rooms, papers)?;
    }
    Ok(2)
}

fn expect_matched(what: &str, keys: &Keys, rooms: KeyRooms, papers: Matched) -> Result<(), String> {
    let matched = keys.matched_in(rooms).map_err(|difference| format!("{what}\n{difference}"))?;
    expect(what, matched.answer, papers.answer)?;
    expect(what, matched.row, papers.row)?;
    expect(what, matched.repeats, papers.repeats)?;
    expect(what, matched.partners, papers.partners)
}

/// A refusal of texts: all that is lent stays.
pub fn refuses(table: &Table, what: &str, texts: &Texts, rooms: TextRooms, refusal: [u64; 3]) -> Result<(), String> {
    let mut papers = Prepared::untouched(rooms);
    papers.row[..3].copy_from_slice(&refusal);
    expect_prepared(table, what, texts, rooms, papers)
}

/// A refusal of keys: all that is lent stays.
pub fn refuses_keys(what: &str, keys: &Keys, rooms: KeyRooms, refusal: [u64; 3]) -> Result<(), String> {
    let mut papers = Matched::untouched(rooms);
    papers.answer[..3].copy_from_slice(&refusal);
    expect_matched(what, keys, rooms, papers)
}

/// What it is, the octets, the ends, and which of them is at fault.
type Faulty = (&'static str, &'static [u8], &'static [usize], u64);

const ENDS: [Faulty; 15] = [
    ("an end past the octets", b"ab", &[3], 0),
    ("an end of no octets", b"", &[1], 0),
    ("the largest end", b"ab", &[usize::MAX], 0),
    ("an end that is 2 in 32 bits", b"ab", &[1, (1 << 32) + 2], 1),
    ("an end that is negative if it has a sign", b"ab", &[1, 1 << 63], 1),
    ("the second end past the octets", b"ab", &[2, 3], 1),
    ("the last end past the octets", b"ab", &[0, 1, 2, 2, 3], 4),
    ("an end past the octets, and then one within", b"ab", &[3, 2], 0),
    ("all ends past the octets", b"ab", &[3, 3, 4], 0),
    ("an end that falls", b"ab", &[2, 1], 1),
    ("an end that falls to 0", b"ab", &[1, 2, 0], 2),
    ("an end that falls, and then rises", b"abc", &[2, 1, 3], 1),
    ("two ends that fall", b"abc", &[3, 2, 1], 1),
    ("an end that falls, and then one past the octets", b"ab", &[1, 0, 9], 1),
    ("an end past the octets, and then one that falls", b"ab", &[1, 9, 0], 1),
];

/// 36, under each collation, and of keys.
fn ends(table: &Table) -> Result<u64, String> {
    for (what, octets, ends, number) in ENDS {
        for collation in 1..=3 {
            let texts = Texts { collation, octets: octets.to_vec(), ends: ends.to_vec() };
            refuses(table, what, &texts, ENOUGH, [36, 1, number])?;
            refuses(table, what, &texts, TextRooms::of(0, 0), [36, 1, number])?;
            refuses(table, what, &Texts { collation: 4, ..texts }, ENOUGH, [1, 0, 0])?;
        }
        for first_names in [0, 1, 9] {
            let keys = Keys { octets: octets.to_vec(), ends: ends.to_vec(), first_names };
            refuses_keys(what, &keys, ENOUGH_KEYS, [36, 1, number])?;
            refuses_keys(what, &keys, KeyRooms::of(0, 0), [36, 1, number])?;
        }
    }
    Ok(15 * ENDS.len() as u64)
}

/// 2: texts of 4,096 and of 4,097 octets. Keys may be of any length.
fn lengths(table: &Table) -> Result<u64, String> {
    let (most, over) = ("a".repeat(4_096), "a".repeat(4_097));
    let rooms = TextRooms::of(9_000, 4);
    for collation in 1..=3 {
        let texts = |texts: &[&str]| Texts::new(collation, texts);
        let row = table.prepare_many(&texts(&[&most, "", &most]), rooms)?.row;
        expect("texts of 4,096 octets", row, [0, 0, 0, 8_192])?;
        refuses(table, "a text of 4,097 octets", &texts(&[&over]), rooms, [2, 1, 0])?;
        refuses(table, "a text of 4,097 octets after one of 4,096", &texts(&[&most, &over]), rooms, [2, 1, 1])?;
        refuses(table, "two texts of 4,097 octets", &texts(&["", &over, &over, ""]), rooms, [2, 1, 1])?;
        refuses(table, "a text of 4,097 octets and no room", &texts(&["a", "b", &over]), TextRooms::of(0, 0), [2, 1, 2])?;
        let mut falls = texts(&[&over, "a"]);
        falls.ends.push(4_097);
        refuses(table, "a text of 4,097 octets and an end that falls", &falls, rooms, [36, 1, 2])?;
        let none = Texts { collation: 0, ..texts(&[&over]) };
        refuses(table, "a text of 4,097 octets under collation 0", &none, rooms, [1, 0, 0])?;
    }
    expect("keys of 4,097 octets", Keys::new(&[&over, &most, &over], 2).matched()?.answer, [0, 0, 0, 1, 1])?;
    Ok(22)
}

/// "Every public call under 3 checks" the table, also for no texts; after 36 and 2 and before any 8.
fn tables() -> Result<u64, String> {
    let texts = Texts::new(3, &["a"]);
    let mut cases = 0;
    for (entries, pool, refusal) in faulty_tables() {
        let table = Table::new(entries, pool)?;
        refuses(&table, "a faulty table", &texts, ENOUGH, refusal)?;
        refuses(&table, "a faulty table and no texts", &Texts::new(3, &[""; 0]), TextRooms::of(0, 0), refusal)?;
        refuses(&table, "a faulty table and an invalid text", &Texts::new(3, &[b"\xFF"]), ENOUGH, refusal)?;
        refuses(&table, "a faulty table and no room", &texts, TextRooms::of(0, 0), refusal)?;
        refuses(&table, "a faulty table and 36", &Texts { ends: vec![2], ..texts.clone() }, ENOUGH, [36, 1, 0])?;
        refuses(&table, "a faulty table and 2", &Texts::new(3, &[[b'a'; 4_097]]), ENOUGH, [2, 1, 0])?;
        refuses(&table, "a faulty table and 1", &Texts { collation: 4, ..texts.clone() }, ENOUGH, [1, 0, 0])?;
        for collation in [1, 2] {
            let row = table.prepare_many(&Texts { collation, ..texts.clone() }, ENOUGH)?.row;
            expect("a faulty table that isn't read", row, [0, 0, 0, 1])?;
        }
        cases += 9;
    }
    Ok(cases)
}

/// 37: "the first list is said to have more names than there are keys"; after 36, and before any 8.
fn counts() -> Result<u64, String> {
    for keys in 0..4 {
        for first_names in [keys + 1, keys + 2, (1 << 32) + keys, (1 << 63) + 1, usize::MAX] {
            let given = Keys::new(&vec!["a"; keys], first_names);
            refuses_keys("too many first names", &given, ENOUGH_KEYS, [37, 0, keys as u64])?;
            refuses_keys("too many first names and no room", &given, KeyRooms::of(0, 0), [37, 0, keys as u64])?;
            let mut past = given;
            past.ends.push(9);
            refuses_keys("too many first names and 36", &past, ENOUGH_KEYS, [36, 1, keys as u64])?;
        }
    }
    Ok(60)
}

/// What it is, the lengths of the three slices, and the refusal or zeros.
type Room = (&'static str, [usize; 3], [u64; 3]);

/// Store, key ends and valid, for two texts whose keys have 4 octets.
const TEXT_ROOMS: [Room; 12] = [
    ("just enough", [4, 2, 2], [0, 0, 0]),
    ("more than enough", [1_000, 9, 9], [0, 0, 0]),
    ("a store of one less", [3, 2, 2], [8, 0, 4]),
    ("no store", [0, 9, 9], [8, 0, 4]),
    ("key ends of one less", [4, 1, 2], [8, 0, 2]),
    ("valid of one less", [4, 2, 1], [8, 0, 2]),
    ("no key ends", [9, 0, 9], [8, 0, 2]),
    ("no valid", [9, 9, 0], [8, 0, 2]),
    ("both of one less", [4, 1, 1], [8, 0, 2]),
    ("nothing", [0, 0, 0], [8, 0, 4]),
    ("the store and key ends", [3, 1, 2], [8, 0, 4]),
    ("the store and valid", [3, 2, 1], [8, 0, 4]),
];

/// Row, repeats and partners, for five keys, three of them the first list's.
const KEY_ROOMS: [Room; 14] = [
    ("just enough", [5, 5, 3], [0, 0, 0]),
    ("more than enough", [9, 9, 9], [0, 0, 0]),
    ("a row of one less", [4, 5, 3], [8, 0, 5]),
    ("repeats of one less", [5, 4, 3], [8, 0, 5]),
    ("partners of one less", [5, 5, 2], [8, 0, 3]),
    ("no row", [0, 9, 9], [8, 0, 5]),
    ("no repeats", [9, 0, 9], [8, 0, 5]),
    ("no partners", [9, 9, 0], [8, 0, 3]),
    ("row and repeats", [4, 4, 3], [8, 0, 5]),
    ("row and partners", [4, 5, 2], [8, 0, 5]),
    ("repeats and partners", [5, 4, 2], [8, 0, 5]),
    ("a row for the first list alone", [3, 5, 3], [8, 0, 5]),
    ("repeats for all but the last", [5, 4, 5], [8, 0, 5]),
    ("nothing", [0, 0, 0], [8, 0, 5]),
];

/// "8 for the store, 8 for the other two slices", and "8 for row and repeats, 8 for partners".
fn rooms(table: &Table) -> Result<u64, String> {
    let texts = Texts::new(3, &["é", "x"]);
    for (what, [store, key_ends, valid], refusal) in TEXT_ROOMS {
        let rooms = TextRooms { store, key_ends, valid };
        match refusal[0] {
            0 => expect(what, table.prepare_many(&texts, rooms)?.row, [0, 0, 0, 4])?,
            _ => refuses(table, what, &texts, rooms, refusal)?,
        }
    }
    let keys = Keys::new(&["b", "a", "b", "b", "c"], 3);
    for (what, [row, repeats, partners], refusal) in KEY_ROOMS {
        let rooms = KeyRooms { row, repeats, partners };
        match refusal[0] {
            0 => expect(what, keys.matched_in(rooms)?.answer, [0, 0, 0, 2, 2])?,
            _ => refuses_keys(what, &keys, rooms, refusal)?,
        }
    }
    // No first names need no partners; empty keys need no store, but a place each.
    expect("no first names", Keys::new(&["a", "a"], 0).matched_in(KeyRooms::of(2, 0))?.answer, [0; 5])?;
    expect("empty keys", table.prepare_many(&Texts::new(3, &["", ""]), TextRooms::of(0, 2))?.row, [0; 4])?;
    refuses(table, "empty keys and no room", &Texts::new(3, &["", ""]), TextRooms::of(0, 1), [8, 0, 2])?;
    refuses_keys("empty keys and no room", &Keys::new(&["", ""], 1), KeyRooms::of(1, 1), [8, 0, 2])?;
    Ok((TEXT_ROOMS.len() + KEY_ROOMS.len()) as u64 + 4)
}

/// "Octets after the last end belong to none."
fn rest(table: &Table) -> Result<u64, String> {
    let octets = b"aa\xFFb".to_vec();
    for (ends, keys, valid) in
        [(vec![], "", vec![]), (vec![0], "", vec![1]), (vec![1], "A", vec![1]), (vec![1, 2], "AA", vec![1, 1])]
    {
        let texts = Texts { collation: 3, octets: octets.clone(), ends: ends.clone() };
        let prepared = table.prepare_many(&texts, TextRooms::of(keys.len(), ends.len()))?;
        expect("octets after the last text", prepared.store, keys.as_bytes().to_vec())?;
        expect("octets after the last text", prepared.valid, valid)?;
    }
    let long = Texts { collation: 3, octets: vec![b'a'; 5_000], ends: vec![1] };
    expect("many octets after the last text", table.prepare_many(&long, ENOUGH)?.row, [0, 0, 0, 1])?;
    let keys = Keys { octets, ends: vec![1, 2], first_names: 1 };
    expect("octets after the last key", keys.matched()?.answer, [0, 0, 0, 1, 1])?;
    Ok(6)
}

/// Keys of 128 octets for each octet of their texts.
fn longest_keys() -> Result<u64, String> {
    let table = Table::new(vec![0x61, 0x61, 0, 32], vec![0x10FFFF; 32])?;
    let texts = Texts::new(3, &["a", "", "aa"]);
    let prepared = table.prepare_many(&texts, TextRooms::of(384, 3))?;
    expect("keys of 128 octets", prepared.row, [0, 0, 0, 384])?;
    expect("keys of 128 octets", prepared.key_ends, vec![128, 128, 384])?;
    refuses(&table, "keys of 128 octets in one octet less", &texts, TextRooms::of(383, 3), [8, 0, 384])?;
    Ok(2)
}
