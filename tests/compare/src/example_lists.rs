//! Part 1, lists: both edges of every rule, with names and reports written by hand, over table T.

use crate::both::Table;
use crate::examples::{expect, table_t};
use crate::recording::record;
use crate::sharing::{list_of, Lists, Rooms, Shared};

type Names = &'static [&'static [u8]];

/// What it is, the collation, the two lists; names, names, equal pairs, names with a partner; store, partners, positions.
type Found = (&'static str, u32, Names, Names, [u64; 4], &'static [u8], &'static [u32], &'static [u32]);

const EQUAL: [Found; 20] = [
    ("two empty lists under 1", 1, &[], &[], [0, 0, 0, 0], b"", &[], &[]),
    ("two empty lists under 3", 3, &[], &[], [0, 0, 0, 0], b"", &[], &[]),
    ("an empty first list", 3, &[], &[b"a", b"b"], [0, 2, 0, 0], b"Ab", &[], &[]),
    ("an empty second list", 3, &[b"a", b"b"], &[], [2, 0, 0, 0], b"Ab", &[0, 0], &[1, 2]),
    ("a and A under 1", 1, &[b"a"], &[b"A"], [1, 1, 0, 0], b"aA", &[0], &[1]),
    ("a and A under 2", 2, &[b"a"], &[b"A"], [1, 1, 1, 1], b"AA", &[1], &[1]),
    ("a and A under 3", 3, &[b"a"], &[b"A"], [1, 1, 1, 1], b"AA", &[1], &[1]),
    ("b and B, which T doesn't name", 3, &[b"b"], &[b"B"], [1, 1, 0, 0], b"bB", &[0], &[1]),
    ("e acute in two forms", 3, &[b"\xC3\xA9"], &[b"E\xCC\x81"], [1, 1, 1, 1], b"E\xCC\x81E\xCC\x81", &[1], &[1]),
    ("e acute in two forms under 2", 2, &[b"\xC3\xA9"], &[b"E\xCC\x81"], [1, 1, 0, 0], b"\xC3\xA9E\xCC\x81", &[0], &[1]),
    ("the same octets under 1", 1, &[b"\xC3\xA9"], &[b"\xC3\xA9"], [1, 1, 1, 1], b"\xC3\xA9\xC3\xA9", &[1], &[1]),
    ("empty names", 3, &[b"", b""], &[b"", b"a"], [2, 2, 2, 2], b"A", &[1, 1], &[1, 2]),
    ("a proper prefix", 1, &[b"a"], &[b"aa", b""], [1, 2, 0, 0], b"aaa", &[0], &[1]),
    // the octets of all keys are the same, and no two keys are
    ("keys that join alike", 1, &[b"ab", b"c"], &[b"a", b"bc"], [2, 2, 0, 0], b"abcabc", &[0, 0], &[1, 2]),
    ("an invalid name", 3, &[b"\xC3"], &[b"\xC3\xA9", b"\xC3"], [1, 2, 1, 1], b"\xC3E\xCC\x81\xC3", &[2], &[1]),
    ("invalid names keep their letters", 3, &[b"\xFFa"], &[b"\xFFA"], [1, 1, 0, 0], b"\xFFa\xFFA", &[0], &[1]),
    ("invalid names under 2", 2, &[b"\xFFa"], &[b"\xFFA"], [1, 1, 1, 1], b"\xFFA\xFFA", &[1], &[1]),
    ("the key of an invalid name is no valid one's", 3, &[b"\xC0\x80"], &[b"\0"], [1, 1, 0, 0], b"\xC0\x80\0", &[0], &[1]),
    ("a name that is a record", 1, &[b"\x02\0\0\0\x01\0"], &[b""], [1, 1, 0, 0], b"\x02\0\0\0\x01\0", &[0], &[1]),
    ("fi and its ligature", 3, &[b"\xEF\xAC\x81"], &[b"fi", b"\xEF\xAC\x81"], [1, 2, 1, 1], b"fiFIfi", &[2], &[1]),
];

const COUNTED: [Found; 12] = [
    ("some with a partner", 2, &[b"x", b"a", b"y", b"b"], &[b"a", b"b"], [4, 2, 2, 2], b"XAYBAB", &[0, 1, 0, 2], &[2, 4, 1, 3]),
    ("the lowest partner", 1, &[b"b"], &[b"a", b"b", b"c", b"b"], [1, 4, 2, 1], b"babcb", &[2], &[1]),
    ("the lowest partner, another text", 2, &[b"b"], &[b"B", b"b"], [1, 2, 2, 1], b"BBB", &[1], &[1]),
    ("the last name as partner", 1, &[b"d", b"c"], &[b"a", b"b", b"c"], [2, 3, 1, 1], b"dcabc", &[0, 3], &[2, 1]),
    ("equal names in the first list", 1, &[b"a", b"a", b"a"], &[b"a"], [3, 1, 3, 3], b"aaaa", &[1, 1, 1], &[1, 2, 3]),
    ("equal names in the second list", 1, &[b"a"], &[b"a", b"a", b"a"], [1, 3, 3, 1], b"aaaa", &[1], &[1]),
    ("equal names in both", 2, &[b"a", b"A", b"a"], &[b"A", b"a"], [3, 2, 6, 3], b"AAAAA", &[1, 1, 1], &[1, 2, 3]),
    ("equal names and others", 1, &[b"a", b"b", b"a"], &[b"a", b"b", b"a"], [3, 3, 5, 3], b"abaaba", &[1, 2, 1], &[1, 3, 2]),
    ("the lists exchanged", 1, &[b"b", b"a", b"b"], &[b"a", b"c"], [3, 2, 1, 1], b"babac", &[0, 1, 0], &[2, 1, 3]),
    ("the lists exchanged again", 1, &[b"a", b"c"], &[b"b", b"a", b"b"], [2, 3, 1, 1], b"acbab", &[2, 0], &[1, 2]),
    ("all empty", 2, &[b"", b"", b""], &[b"", b""], [3, 2, 6, 3], b"", &[1, 1, 1], &[1, 2, 3]),
    ("nothing shared", 1, &[b"a", b"b"], &[b"c", b"d"], [2, 2, 0, 0], b"abcd", &[0, 0], &[1, 2]),
];

const ORDERED: [Found; 13] = [
    ("in order", 1, &[b"a", b"b", b"c"], &[], [3, 0, 0, 0], b"abc", &[0; 3], &[1, 2, 3]),
    ("in falling order", 1, &[b"c", b"b", b"a"], &[], [3, 0, 0, 0], b"cba", &[0; 3], &[3, 2, 1]),
    ("a turn", 1, &[b"c", b"a", b"b"], &[], [3, 0, 0, 0], b"cab", &[0; 3], &[2, 3, 1]),
    ("a proper prefix is less", 1, &[b"aa", b"a", b"", b"b"], &[], [4, 0, 0, 0], b"aaab", &[0; 4], &[3, 2, 1, 4]),
    ("octets are unsigned", 1, &[b"\xFF", b"\x7F", b"\x80"], &[], [3, 0, 0, 0], b"\xFF\x7F\x80", &[0; 3], &[2, 3, 1]),
    ("keys and not texts under 2", 2, &[b"a", b"B", b"_"], &[], [3, 0, 0, 0], b"AB_", &[0; 3], &[1, 2, 3]),
    ("texts under 1", 1, &[b"a", b"B", b"_"], &[], [3, 0, 0, 0], b"aB_", &[0; 3], &[2, 3, 1]),
    ("keys and not texts under 3", 3, &[b"f", b"\xC3\xA9"], &[], [2, 0, 0, 0], b"FE\xCC\x81", &[0; 2], &[2, 1]),
    ("an invalid name after a valid one", 3, &[b"\xC3", b"\xC3\xA9"], &[], [2, 0, 0, 0], b"\xC3E\xCC\x81", &[0; 2], &[2, 1]),
    ("ties by position", 1, &[b"b", b"a", b"b", b"a"], &[], [4, 0, 0, 0], b"baba", &[0; 4], &[2, 4, 1, 3]),
    ("ties by position and not by text", 2, &[b"b", b"B", b"a", b"A"], &[], [4, 0, 0, 0], b"BBAA", &[0; 4], &[3, 4, 1, 2]),
    ("ties of empty names", 1, &[b"a", b"", b"a", b""], &[], [4, 0, 0, 0], b"aa", &[0; 4], &[2, 4, 1, 3]),
    ("not the second list's", 1, &[b"b", b"a"], &[b"a", b"c", b"b"], [2, 3, 2, 2], b"baacb", &[3, 1], &[2, 1]),
];

/// Room for the report on every small list here.
const ENOUGH: Rooms = Rooms { store: 30, partners: 5, positions: 5 };

/// What it is, the collation, the two lists, and the refusal: number, place, detail.
type Refused = (&'static str, u32, Vec<u8>, Vec<u8>, [u64; 3]);

pub fn run() -> Result<u64, String> {
    let table = table_t()?;
    let mut cases = 0;
    for example in EQUAL.into_iter().chain(COUNTED).chain(ORDERED) {
        cases += finds(&table, example)?;
    }
    for refused in [record_faults(), kinds(), record_orders(), counts()] {
        cases += refused.len() as u64;
        refused.into_iter().try_for_each(|example| refuses(&table, example))?;
    }
    Ok(cases + longest(&table)? + most(&table)? + tables()? + rooms(&table)?)
}

/// A report, in just the room that it needs and in more, of which all that is beyond stays.
fn finds(table: &Table, (what, collation, first, second, totals, store, partners, positions): Found) -> Result<u64, String> {
    let lists = Lists::new(collation, first, second);
    for more in [0, 3] {
        let rooms = Rooms { store: store.len() + more, partners: partners.len() + 2 * more, positions: positions.len() + more };
        let shared = table.find_shared(&lists, rooms).map_err(|difference| format!("{what}\n{difference}"))?;
        let mut papers = Shared::untouched(rooms);
        papers.row[3..].copy_from_slice(&totals);
        papers.store[..store.len()].copy_from_slice(store);
        papers.partners[..partners.len()].copy_from_slice(partners);
        papers.positions[..positions.len()].copy_from_slice(positions);
        expect_shared(what, shared, papers)?;
    }
    Ok(2)
}

fn expect_shared(what: &str, shared: Shared, papers: Shared) -> Result<(), String> {
    expect(what, shared.row, papers.row)?;
    expect(what, shared.store, papers.store)?;
    expect(what, shared.partners, papers.partners)?;
    expect(what, shared.positions, papers.positions)
}

/// A refusal: all that is lent stays.
fn refuses(table: &Table, (what, collation, first, second, refusal): Refused) -> Result<(), String> {
    let lists = Lists { collation, first, second };
    refuses_with(table, what, &lists, ENOUGH, refusal)
}

fn refuses_with(table: &Table, what: &str, lists: &Lists, rooms: Rooms, refusal: [u64; 3]) -> Result<(), String> {
    let shared = table.find_shared(lists, rooms).map_err(|difference| format!("{what}\n{difference}"))?;
    let mut papers = Shared::untouched(rooms);
    papers.row[..3].copy_from_slice(&refusal);
    expect_shared(what, shared, papers)
}

/// A list of one good name.
fn good() -> Vec<u8> {
    list_of(&["a"])
}

/// Good names and what stands after them.
fn good_and(rest: &[u8]) -> Vec<u8> {
    [&list_of(&["a", "", "b"]), rest].concat()
}

fn long_text(length: usize) -> Vec<u8> {
    record(1, &vec![b'a'; length])
}

/// 11 and 13, first in the list and later, in each list, under each collation. The detail is 0.
fn record_faults() -> Vec<Refused> {
    let faults: [(&str, u64, Vec<u8>); 9] = [
        ("one octet", 11, vec![2]),
        ("three octets", 11, vec![2, 0, 0]),
        ("length 0", 11, vec![0, 0, 0, 0, 1, 0]),
        ("length 1", 11, vec![1, 0, 0, 0, 1, 0]),
        ("length 2, one octet left", 11, vec![2, 0, 0, 0, 1]),
        ("length 3, one octet missing", 11, vec![3, 0, 0, 0, 1, 0]),
        ("a length's fourth octet", 11, vec![2, 0, 0, 1, 1, 0]),
        ("length FFFFFFFF", 11, vec![0xFF, 0xFF, 0xFF, 0xFF, 1, 0]),
        ("4,097 octets", 13, long_text(4_097)),
    ];
    let mut refused: Vec<Refused> = Vec::new();
    for (what, number, octets) in faults {
        for collation in 1..=3 {
            refused.push((what, collation, octets.clone(), good(), [number, 1, 0]));
            refused.push((what, collation, good(), octets.clone(), [number, 2, 0]));
        }
        refused.push((what, 3, good_and(&octets), good(), [number, 1, 0]));
        refused.push((what, 3, vec![], good_and(&octets), [number, 2, 0]));
    }
    refused
}

/// 12 for every kind but 1, "a kind 2 record is 12" too, and before the body is looked at.
fn kinds() -> Vec<Refused> {
    let bodies: [(u16, &[u8]); 11] = [
        (0, b"a"),
        (2, &[1, 1, 1, 0, b'a']),
        (2, &[3, 1, 0, 0]),
        (2, &[1, 1, 0]),
        (2, &[]),
        (2, &[4, 1, 0, 0]),
        (2, &[0; 4_097]),
        (3, b"a"),
        (3, &[0; 4_097]),
        (0x0100, b"a"),
        (0x0101, b"a"),
    ];
    let mut refused: Vec<Refused> = Vec::new();
    for (kind, body) in bodies {
        let octets = record(kind, body);
        refused.push(("another kind", 3, octets.clone(), good(), [12, 1, 0]));
        refused.push(("another kind, second list", 3, good(), octets.clone(), [12, 2, 0]));
        refused.push(("another kind after names", 1, good_and(&octets), good(), [12, 1, 0]));
        refused.push(("another kind after names, second list", 2, good(), good_and(&octets), [12, 2, 0]));
    }
    refused
}

/// "Order 1, then 11 to 13 on the first list, record by record, and on the second."
fn record_orders() -> Vec<Refused> {
    let (cut, key, long) = (vec![9, 0], record(2, &[1, 1, 0, 0]), long_text(4_097));
    let in_turn = |one: &[u8], other: &[u8]| [one, other].concat();
    vec![
        ("1 before 11", 0, cut.clone(), cut.clone(), [1, 0, 0]),
        ("1 before 12", 4, key.clone(), good(), [1, 0, 0]),
        ("1 before 13", u32::MAX, good(), long.clone(), [1, 0, 0]),
        ("1 of good lists", 5, good(), good(), [1, 0, 0]),
        ("1 of empty lists", 4, vec![], vec![], [1, 0, 0]),
        ("12 and then 11", 1, in_turn(&key, &cut), good(), [12, 1, 0]),
        ("13 and then 11", 2, in_turn(&long, &cut), good(), [13, 1, 0]),
        ("13 and then 12", 3, in_turn(&long, &key), good(), [13, 1, 0]),
        ("12 and then 13", 3, in_turn(&key, &long), good(), [12, 1, 0]),
        ("12 and then 11, second list", 1, good(), in_turn(&key, &cut), [12, 2, 0]),
        ("13 and then 12, second list", 1, good(), in_turn(&long, &key), [13, 2, 0]),
        ("11 in both", 1, cut.clone(), cut.clone(), [11, 1, 0]),
        ("12 and 11", 2, key.clone(), cut.clone(), [12, 1, 0]),
        ("13 and 11", 3, long.clone(), cut.clone(), [13, 1, 0]),
        ("13 and 12", 3, long.clone(), key.clone(), [13, 1, 0]),
        ("11 and 13", 3, cut.clone(), long.clone(), [11, 1, 0]),
        ("a long text of another kind", 1, record(2, &[1; 5_000]), good(), [12, 1, 0]),
        ("a long text, cut", 1, long[..long.len() - 1].to_vec(), good(), [11, 1, 0]),
        ("another kind, cut", 1, key[..key.len() - 1].to_vec(), good(), [11, 1, 0]),
    ]
}

/// So many names.
fn many(count: usize, name: &[u8]) -> Vec<u8> {
    list_of(&vec![name; count])
}

/// 14, after 11 to 13 of both lists.
fn counts() -> Vec<Refused> {
    let (over, cut) = (many(1_025, b""), [9, 0]);
    let and = |rest: &[u8]| [&over, rest].concat();
    vec![
        ("1,025 names", 1, over.clone(), good(), [14, 1, 0]),
        ("1,025 names in the second list", 2, good(), over.clone(), [14, 2, 0]),
        ("1,025 names in both", 3, over.clone(), over.clone(), [14, 1, 0]),
        ("1,026 names and 1,025", 3, many(1_026, b"a"), over.clone(), [14, 1, 0]),
        ("1,024 names and 1,025", 1, many(1_024, b""), over.clone(), [14, 2, 0]),
        ("1,025 names beside an empty list", 3, over.clone(), vec![], [14, 1, 0]),
        ("1 before 14", 4, over.clone(), over.clone(), [1, 0, 0]),
        ("11 after 1,025 names", 1, and(&cut), good(), [11, 1, 0]),
        ("11 after 1,025 names of the second list", 1, good(), and(&cut), [11, 2, 0]),
        ("12 after 1,025 names", 2, and(&record(2, &[1, 1, 0, 0])), good(), [12, 1, 0]),
        ("13 after 1,025 names of the second list", 3, good(), and(&long_text(4_097)), [13, 2, 0]),
        ("1,025 names and 11 in the second list", 1, over.clone(), good_and(&cut), [11, 2, 0]),
        ("1,025 names and 12 in the second list", 2, over.clone(), record(3, b""), [12, 2, 0]),
        ("1,025 names and 13 in the second list", 3, over.clone(), long_text(4_097), [13, 2, 0]),
        ("1,025 names in the second list and 11 in the first", 1, good_and(&cut), over.clone(), [11, 1, 0]),
    ]
}

/// Names of 4,096 octets.
fn longest(table: &Table) -> Result<u64, String> {
    let (first, second) = (vec![b'a'; 4_096], vec![b'A'; 4_096]);
    for (collation, pairs) in [(1, 0), (2, 1), (3, 1)] {
        let lists = Lists::new(collation, &[&first], &[&second]);
        let shared = table.find_shared(&lists, Rooms { store: 8_192, partners: 1, positions: 1 })?;
        expect("names of 4,096 octets", shared.row, [0, 0, 0, 1, 1, pairs, pairs])?;
        expect("their store", shared.store, [if collation == 1 { &first } else { &second }, &second[..]].concat())?;
    }
    Ok(3)
}

/// "At most 1,024 names a list."
fn most(table: &Table) -> Result<u64, String> {
    for collation in 1..=3 {
        let (most, one) = (many(1_024, b"a"), many(1, b"a"));
        let rooms = Rooms { store: 1_025, partners: 1_024, positions: 1_024 };
        let lists = Lists { collation, first: most.clone(), second: one.clone() };
        let shared = table.find_shared(&lists, rooms)?;
        expect("1,024 names", shared.row, [0, 0, 0, 1_024, 1, 1_024, 1_024])?;
        expect("their partners", shared.partners, vec![1; 1_024])?;
        expect("their positions", shared.positions, (1..=1_024).collect())?;
        let lists = Lists { collation, first: one, second: most };
        let shared = table.find_shared(&lists, rooms)?;
        expect("1,024 names in the second list", shared.row, [0, 0, 0, 1, 1_024, 1_024, 1])?;
    }
    Ok(6)
}

/// "Under 3 the table is checked", also for empty lists; after 11 to 14 and before any 8.
fn tables() -> Result<u64, String> {
    let none = Rooms { store: 0, partners: 0, positions: 0 };
    let list = |collation, first: &[u8]| Lists { collation, first: first.to_vec(), second: good() };
    let empty = |collation| Lists { collation, first: vec![], second: vec![] };
    let mut cases = 0;
    for (entries, pool, refusal) in faulty_tables() {
        let table = Table::new(entries, pool)?;
        refuses_with(&table, "a faulty table", &list(3, &good()), ENOUGH, refusal)?;
        refuses_with(&table, "a faulty table and empty lists", &empty(3), none, refusal)?;
        refuses_with(&table, "a faulty table and an invalid name", &list(3, &record(1, b"\xFF")), ENOUGH, refusal)?;
        refuses_with(&table, "a faulty table and no room", &list(3, &good()), none, refusal)?;
        refuses_with(&table, "a faulty table and 11", &list(3, &[1]), ENOUGH, [11, 1, 0])?;
        refuses_with(&table, "a faulty table and 12", &list(3, &record(2, b"")), ENOUGH, [12, 1, 0])?;
        refuses_with(&table, "a faulty table and 13", &list(3, &long_text(4_097)), ENOUGH, [13, 1, 0])?;
        refuses_with(&table, "a faulty table and 14", &list(3, &many(1_025, b"")), ENOUGH, [14, 1, 0])?;
        refuses_with(&table, "a faulty table and 1", &list(4, &good()), ENOUGH, [1, 0, 0])?;
        for collation in [1, 2] {
            let row = table.find_shared(&empty(collation), none)?.row;
            expect("a faulty table that isn't read, and empty lists", row, [0; 7])?;
            let row = table.find_shared(&list(collation, &good()), ENOUGH)?.row;
            expect("a faulty table that isn't read", row, [0, 0, 0, 1, 1, 1, 1])?;
        }
        cases += 13;
    }
    Ok(cases)
}

/// One table for each of 3 to 7, and its refusal.
pub fn faulty_tables() -> [(Vec<u32>, Vec<u32>, [u64; 3]); 5] {
    [
        (vec![0x41, 0x42, 0], vec![], [3, 0, 0]),
        (vec![0x41, 0x42, 0, 0, 0x41, 0x42, 0, 0], vec![], [4, 0, 1]),
        (vec![0x41, 0x42, 0, 0], vec![0x43], [5, 0, 1]),
        (vec![0x41, 0x41, 0, 2], vec![0x42, 0xD800], [6, 0, 1]),
        (vec![0x41, 0x41, 0, 1, 0x61, 0x42, 1, 0], vec![0x41], [7, 0, 0]),
    ]
}

/// What it is, the lengths of store, partners and positions, and the refusal or zeros.
type Room = (&'static str, [usize; 3], [u64; 3]);

/// Keys of 12 octets, 4 of them the first list's, of two names and three.
const ROOMS: [Room; 15] = [
    ("just enough", [12, 2, 2], [0, 0, 0]),
    ("more than enough", [1_000, 9, 9], [0, 0, 0]),
    ("a store of one less", [11, 2, 2], [8, 0, 12]),
    ("no store", [0, 2, 2], [8, 0, 12]),
    ("a store for the first list's keys", [4, 2, 2], [8, 0, 12]),
    ("partners of one less", [12, 1, 2], [8, 0, 2]),
    ("positions of one less", [12, 2, 1], [8, 0, 2]),
    ("both arrays of one less", [12, 1, 1], [8, 0, 2]),
    ("no partners", [12, 0, 9], [8, 0, 2]),
    ("no positions", [12, 9, 0], [8, 0, 2]),
    ("no arrays", [12, 0, 0], [8, 0, 2]),
    ("nothing", [0, 0, 0], [8, 0, 12]),
    ("the store and partners", [11, 1, 2], [8, 0, 12]),
    ("the store and positions", [11, 2, 1], [8, 0, 12]),
    ("the store and both arrays", [11, 0, 0], [8, 0, 12]),
];

/// Empty keys of two names.
const ROOMS_OF_EMPTY_KEYS: [Room; 3] = [
    ("empty keys need no store", [0, 2, 2], [0, 0, 0]),
    ("empty keys need arrays", [0, 2, 1], [8, 0, 2]),
    ("empty keys and no arrays", [0, 0, 0], [8, 0, 2]),
];

/// No name in the first list, and a key of one octet in the second.
const ROOMS_OF_NO_NAMES: [Room; 2] =
    [("no names need no arrays", [1, 0, 0], [0, 0, 0]), ("no names and no store", [0, 0, 0], [8, 0, 1])];

/// "8 for the store (detail all keys together), then 8 for either array (detail the first list's names)."
fn rooms(table: &Table) -> Result<u64, String> {
    let lists = Lists::new(3, &["é", "x"], &["É", "a", "\u{10000}"]);
    let cases = in_rooms(table, &lists, &ROOMS)?
        + in_rooms(table, &Lists::new(1, &["", ""], &[""]), &ROOMS_OF_EMPTY_KEYS)?
        + in_rooms(table, &Lists::new(2, &[], &["a"]), &ROOMS_OF_NO_NAMES)?;
    Ok(cases + copied(table)?)
}

fn in_rooms(table: &Table, lists: &Lists, examples: &[Room]) -> Result<u64, String> {
    for &(what, [store, partners, positions], refusal) in examples {
        let rooms = Rooms { store, partners, positions };
        match refusal[0] {
            0 => expect(what, &table.find_shared(lists, rooms)?.row[..3], &refusal)?,
            _ => refuses_with(table, what, lists, rooms, refusal)?,
        }
    }
    Ok(examples.len() as u64)
}

/// "Those that are the text copied too": such keys need room in the store, under 1 and of an invalid name.
fn copied(table: &Table) -> Result<u64, String> {
    let examples: [(u32, &[u8]); 3] = [(1, b"ab"), (3, b"a\xFF"), (2, b"a\xFF")];
    for (collation, name) in examples {
        let lists = Lists::new(collation, &[name], &[name]);
        refuses_with(table, "a key to be copied", &lists, Rooms { store: 3, partners: 1, positions: 1 }, [8, 0, 4])?;
        let shared = table.find_shared(&lists, Rooms { store: 4, partners: 1, positions: 1 })?;
        expect("a key copied", shared.row, [0, 0, 0, 1, 1, 1, 1])?;
    }
    Ok(2 * examples.len() as u64)
}
