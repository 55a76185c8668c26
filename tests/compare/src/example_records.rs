//! Part 1, records: both edges of every rule, with octets and answers written by hand.

use crate::both::pattern;
use crate::examples::expect;
use crate::recording::{Item, Recording};

/// What stands after the head of an example's record.
const OCTET: u8 = 0x61;

/// The rows that refuse a reading.
const LENGTH: [u64; 9] = [11, 0, 0, 0, 0, 0, 0, 0, 0];
const KIND: [u64; 9] = [12, 0, 0, 0, 0, 0, 0, 0, 0];
const BODY: [u64; 9] = [13, 0, 0, 0, 0, 0, 0, 0, 0];
const END: [u64; 9] = [0; 9];

/// The row that refuses to write an item that no record may hold.
const ITEM: [u64; 4] = [13, 0, 0, 0];

/// A text of one octet, a key of 45 CC 81 (U+00E9 under i;unicode-casemap over table T), and an empty text.
const LIST: [u8; 26] = [
    0x03, 0, 0, 0, 1, 0, 0x61, // 0 to 7
    0x09, 0, 0, 0, 2, 0, 3, 1, 2, 0, 0x45, 0xCC, 0x81, // 7 to 20
    0x02, 0, 0, 0, 1, 0, // 20 to 26
];

/// Positions in `LIST`, and what is read there.
const POSITIONS: [(u64, [u64; 9]); 22] = [
    (0, [0, 0, 0, 1, 0, 0, 0, 6, 7]),
    (7, [0, 0, 0, 2, 3, 1, 2, 17, 20]),
    (20, [0, 0, 0, 1, 0, 0, 0, 26, 26]),
    (26, END),
    // inside a record: lengths of 01000000, 00010000, 61000100, 00096100 and so on
    (1, LENGTH),
    (2, LENGTH),
    (3, LENGTH),
    (4, LENGTH),
    (6, LENGTH),
    (19, LENGTH),
    (21, LENGTH),
    (22, LENGTH),
    // three octets left, and one
    (23, LENGTH),
    (25, LENGTH),
    // past the end
    (27, LENGTH),
    (32, LENGTH),
    (1 << 32, LENGTH),
    ((1 << 32) + 7, LENGTH),
    (1 << 63, LENGTH),
    (u64::MAX - 5, LENGTH),
    (u64::MAX - 3, LENGTH),
    (u64::MAX, LENGTH),
];

/// What it is, the first octets of a slice, how many more there are, and what is read at position 0.
type Read = (&'static str, &'static [u8], usize, [u64; 9]);

const READ: [Read; 85] = [
    ("an empty slice", &[], 0, END),
    // 11
    ("one octet", &[2], 0, LENGTH),
    ("three octets", &[2, 0, 0], 0, LENGTH),
    ("four octets, length 0", &[0, 0, 0, 0], 0, LENGTH),
    ("four octets, length 2", &[2, 0, 0, 0], 0, LENGTH),
    ("length 0 and a kind", &[0, 0, 0, 0, 1, 0], 0, LENGTH),
    ("length 1", &[1, 0, 0, 0, 1], 0, LENGTH),
    ("length 1 and a kind", &[1, 0, 0, 0, 1, 0], 0, LENGTH),
    ("length 1 and a longer slice", &[1, 0, 0, 0, 1, 0], 9, LENGTH),
    ("length 2", &[2, 0, 0, 0, 1, 0], 0, [0, 0, 0, 1, 0, 0, 0, 6, 6]),
    ("length 2 and a longer slice", &[2, 0, 0, 0, 1, 0], 9, [0, 0, 0, 1, 0, 0, 0, 6, 6]),
    ("length 2, one octet left", &[2, 0, 0, 0, 1], 0, LENGTH),
    ("length 3, all left", &[3, 0, 0, 0, 1, 0], 1, [0, 0, 0, 1, 0, 0, 0, 6, 7]),
    ("length 3, one octet missing", &[3, 0, 0, 0, 1, 0], 0, LENGTH),
    ("length 4, one octet missing", &[4, 0, 0, 0, 1, 0], 1, LENGTH),
    ("length 7, which the whole slice has", &[7, 0, 0, 0, 1, 0], 1, LENGTH),
    ("a length's second octet", &[2, 1, 0, 0, 1, 0], 0, LENGTH),
    ("a length's second octet, all left", &[2, 1, 0, 0, 1, 0], 256, [0, 0, 0, 1, 0, 0, 0, 6, 262]),
    ("a length's third octet", &[2, 0, 1, 0, 1, 0], 0, LENGTH),
    ("a length's fourth octet", &[2, 0, 0, 1, 1, 0], 0, LENGTH),
    ("a length with the high octet first", &[0, 0, 0, 3, 1, 0], 1, LENGTH),
    ("length 80000000", &[0, 0, 0, 0x80, 1, 0], 9, LENGTH),
    ("length FFFFFFFC", &[0xFC, 0xFF, 0xFF, 0xFF, 1, 0], 9, LENGTH),
    ("length FFFFFFFF", &[0xFF, 0xFF, 0xFF, 0xFF, 1, 0], 9, LENGTH),
    // 12
    ("kind 0", &[2, 0, 0, 0, 0, 0], 0, KIND),
    ("kind 3", &[3, 0, 0, 0, 3, 0], 1, KIND),
    ("kind 3, a body such as a key has", &[6, 0, 0, 0, 3, 0, 1, 1, 0, 0], 0, KIND),
    ("kind 0101", &[3, 0, 0, 0, 1, 1], 1, KIND),
    ("kind 0201", &[3, 0, 0, 0, 1, 2], 1, KIND),
    ("kind 0102", &[6, 0, 0, 0, 2, 1, 1, 1, 0, 0], 0, KIND),
    ("kind 0100", &[3, 0, 0, 0, 0, 1], 1, KIND),
    ("kind 0200", &[6, 0, 0, 0, 0, 2, 1, 1, 0, 0], 0, KIND),
    ("kind FFFF", &[3, 0, 0, 0, 0xFF, 0xFF], 1, KIND),
    // 11 before 12, 12 before 13, 11 before 13
    ("kind 3, one octet missing", &[3, 0, 0, 0, 3, 0], 0, LENGTH),
    ("kind 0, length 1", &[1, 0, 0, 0, 0, 0], 0, LENGTH),
    ("kind 3, a body such as no key has", &[5, 0, 0, 0, 3, 0, 1, 1, 0], 0, KIND),
    ("kind 3, a body of 4,097 octets", &[0x03, 0x10, 0, 0, 3, 0], 4_097, KIND),
    ("kind 0, a body over each limit", &[0x07, 0, 8, 0, 0, 0], 524_293, KIND),
    ("a text of 4,097 octets, one of them missing", &[0x03, 0x10, 0, 0, 1, 0], 4_096, LENGTH),
    ("a key body of three octets, one of them missing", &[5, 0, 0, 0, 2, 0, 1, 1], 0, LENGTH),
    ("a key under collation 0, one octet missing", &[7, 0, 0, 0, 2, 0, 0, 1, 1, 0], 0, LENGTH),
    // 13: texts
    ("a text of 4,096 octets", &[0x02, 0x10, 0, 0, 1, 0], 4_096, [0, 0, 0, 1, 0, 0, 0, 6, 4_102]),
    ("a text of 4,097 octets", &[0x03, 0x10, 0, 0, 1, 0], 4_097, BODY),
    ("a text of 65,536 octets", &[0x02, 0, 1, 0, 1, 0], 65_536, BODY),
    // 13: the body of a key
    ("an empty key body", &[2, 0, 0, 0, 2, 0], 9, BODY),
    ("a key body of one octet", &[3, 0, 0, 0, 2, 0, 1, 1, 0, 0], 9, BODY),
    ("a key body of three octets", &[5, 0, 0, 0, 2, 0, 1, 1, 0], 0, BODY),
    ("a key body of three octets and a longer slice", &[5, 0, 0, 0, 2, 0, 1, 1, 0, 0], 9, BODY),
    ("a key body of four octets", &[6, 0, 0, 0, 2, 0, 1, 1, 0, 0], 0, [0, 0, 0, 2, 1, 1, 0, 10, 10]),
    // 13: collations
    ("a key under 1", &[8, 0, 0, 0, 2, 0, 1, 1, 2, 0], 2, [0, 0, 0, 2, 1, 1, 2, 10, 12]),
    ("a key under 2", &[8, 0, 0, 0, 2, 0, 2, 1, 2, 0], 2, [0, 0, 0, 2, 2, 1, 2, 10, 12]),
    ("a key under 3", &[8, 0, 0, 0, 2, 0, 3, 1, 2, 0], 2, [0, 0, 0, 2, 3, 1, 2, 10, 12]),
    ("a key under 0", &[8, 0, 0, 0, 2, 0, 0, 1, 2, 0], 2, BODY),
    ("a key under 4", &[8, 0, 0, 0, 2, 0, 4, 1, 2, 0], 2, BODY),
    ("a key under 255", &[8, 0, 0, 0, 2, 0, 255, 1, 2, 0], 2, BODY),
    // 13: flags
    ("flag 0 under 1", &[8, 0, 0, 0, 2, 0, 1, 0, 2, 0], 2, BODY),
    ("flag 0 under 2", &[8, 0, 0, 0, 2, 0, 2, 0, 2, 0], 2, BODY),
    ("flag 0 under 3", &[8, 0, 0, 0, 2, 0, 3, 0, 2, 0], 2, [0, 0, 0, 2, 3, 0, 2, 10, 12]),
    ("flag 2 under 1", &[8, 0, 0, 0, 2, 0, 1, 2, 2, 0], 2, BODY),
    ("flag 2 under 2", &[8, 0, 0, 0, 2, 0, 2, 2, 2, 0], 2, BODY),
    ("flag 2 under 3", &[8, 0, 0, 0, 2, 0, 3, 2, 2, 0], 2, BODY),
    ("flag 3 under 3", &[8, 0, 0, 0, 2, 0, 3, 3, 2, 0], 2, BODY),
    ("flag 255 under 3", &[8, 0, 0, 0, 2, 0, 3, 255, 2, 0], 2, BODY),
    // 13: lengths that must agree
    ("a key under 1, one octet less than its text", &[7, 0, 0, 0, 2, 0, 1, 1, 2, 0], 1, BODY),
    ("a key under 1, one octet more", &[9, 0, 0, 0, 2, 0, 1, 1, 2, 0], 3, BODY),
    ("a key under 2, one octet less than its text", &[7, 0, 0, 0, 2, 0, 2, 1, 2, 0], 1, BODY),
    ("a key under 2, one octet more", &[9, 0, 0, 0, 2, 0, 2, 1, 2, 0], 3, BODY),
    ("flag 0 under 3, one octet less", &[7, 0, 0, 0, 2, 0, 3, 0, 2, 0], 1, BODY),
    ("flag 0 under 3, one octet more", &[9, 0, 0, 0, 2, 0, 3, 0, 2, 0], 3, BODY),
    ("flag 0 under 3, both lengths 0", &[6, 0, 0, 0, 2, 0, 3, 0, 0, 0], 0, [0, 0, 0, 2, 3, 0, 0, 10, 10]),
    // 13: 128 times
    ("flag 1 under 3, an empty key", &[6, 0, 0, 0, 2, 0, 3, 1, 2, 0], 0, [0, 0, 0, 2, 3, 1, 2, 10, 10]),
    ("flag 1 under 3, no text and no key", &[6, 0, 0, 0, 2, 0, 3, 1, 0, 0], 0, [0, 0, 0, 2, 3, 1, 0, 10, 10]),
    ("flag 1 under 3, no text and one octet", &[7, 0, 0, 0, 2, 0, 3, 1, 0, 0], 1, BODY),
    ("128 octets for one", &[0x86, 0, 0, 0, 2, 0, 3, 1, 1, 0], 128, [0, 0, 0, 2, 3, 1, 1, 10, 138]),
    ("129 octets for one", &[0x87, 0, 0, 0, 2, 0, 3, 1, 1, 0], 129, BODY),
    ("256 octets for two", &[0x06, 1, 0, 0, 2, 0, 3, 1, 2, 0], 256, [0, 0, 0, 2, 3, 1, 2, 10, 266]),
    ("257 octets for two", &[0x07, 1, 0, 0, 2, 0, 3, 1, 2, 0], 257, BODY),
    ("128 times 4,096", &[0x06, 0, 8, 0, 2, 0, 3, 1, 0, 0x10], 524_288, [0, 0, 0, 2, 3, 1, 4_096, 10, 524_298]),
    ("128 times 4,096 and one more", &[0x07, 0, 8, 0, 2, 0, 3, 1, 0, 0x10], 524_289, BODY),
    // 13: the limit
    ("a text length of 4,096", &[0x06, 0x10, 0, 0, 2, 0, 1, 1, 0, 0x10], 4_096, [0, 0, 0, 2, 1, 1, 4_096, 10, 4_106]),
    ("a text length of 4,097 under 1", &[0x07, 0x10, 0, 0, 2, 0, 1, 1, 1, 0x10], 4_097, BODY),
    ("a text length of 4,097, flag 0", &[0x07, 0x10, 0, 0, 2, 0, 3, 0, 1, 0x10], 4_097, BODY),
    ("a text length of 4,097, an empty key", &[6, 0, 0, 0, 2, 0, 3, 1, 1, 0x10], 0, BODY),
    ("a text length of 65,535", &[6, 0, 0, 0, 2, 0, 3, 1, 0xFF, 0xFF], 0, BODY),
    // numbers with the low octet first
    ("a text length of 0100", &[8, 0, 0, 0, 2, 0, 3, 1, 0, 1], 2, [0, 0, 0, 2, 3, 1, 256, 10, 12]),
];

/// What it is, the item, the slice's length, a position, the row, and the record that stands there then (none on a refusal).
type Written = (&'static str, Item, usize, u64, [u64; 4], &'static [u8]);

pub fn run() -> Result<u64, String> {
    for (position, row) in POSITIONS {
        expect(&format!("position {position}"), Recording::new(LIST.to_vec()).read(position)?, row)?;
    }
    for (what, head, more, row) in READ {
        let slice = [head, &vec![OCTET; more]].concat();
        let answer = Recording::new(slice).read(0).map_err(|difference| format!("{what}\n{difference}"))?;
        expect(what, answer, row)?;
    }
    let mut cases = POSITIONS.len() + READ.len();
    for written in [rooms(), texts(), keys(), key_numbers(), item_before_room()] {
        cases += written.len();
        written.into_iter().try_for_each(writes)?;
    }
    expect("a list", written_list()?, LIST.to_vec())?;
    Ok(cases as u64 + 1)
}

/// An item written into octets that no record brings: all but the record stay.
fn writes((what, item, length, position, row, record): Written) -> Result<(), String> {
    let mut recording = Recording::new(pattern(length));
    let answer = recording.write(&item, position).map_err(|difference| format!("{what}\n{difference}"))?;
    expect(what, answer, row)?;
    let mut after = pattern(length);
    if !record.is_empty() {
        after[position as usize..position as usize + record.len()].copy_from_slice(record);
    }
    expect(what, recording.octets, after)
}

fn text(length: usize) -> Item {
    Item::Text(vec![OCTET; length])
}

fn key(collation: u32, valid: u64, text_length: u64, length: usize) -> Item {
    Item::key(collation, valid, text_length, &vec![OCTET; length])
}

/// "8 no room (detail the whole record)".
fn rooms() -> Vec<Written> {
    const RECORD: &[u8] = &[3, 0, 0, 0, 1, 0, 0x61];
    const KEY: &[u8] = &[8, 0, 0, 0, 2, 0, 3, 0, 2, 0, 0x61, 0x61];
    vec![
        ("just enough room", text(1), 7, 0, [0, 0, 0, 7], RECORD),
        ("one octet of room less", text(1), 6, 0, [8, 0, 7, 0], &[]),
        ("no room at all", text(1), 0, 0, [8, 0, 7, 0], &[]),
        ("just enough room after an octet", text(1), 8, 1, [0, 0, 0, 8], RECORD),
        ("one octet less after an octet", text(1), 7, 1, [8, 0, 7, 0], &[]),
        ("room before and after", text(1), 20, 5, [0, 0, 0, 12], RECORD),
        ("an empty text at the end", text(0), 6, 6, [8, 0, 6, 0], &[]),
        ("an empty text past the end", text(0), 6, 7, [8, 0, 6, 0], &[]),
        ("the end", text(1), 20, 20, [8, 0, 7, 0], &[]),
        ("past the end", text(1), 20, 21, [8, 0, 7, 0], &[]),
        ("position 2^32", text(1), 20, 1 << 32, [8, 0, 7, 0], &[]),
        ("position 2^63", text(1), 20, 1 << 63, [8, 0, 7, 0], &[]),
        ("a position 6 below 2^64", text(0), 20, u64::MAX - 5, [8, 0, 6, 0], &[]),
        ("a position 7 below 2^64", text(1), 20, u64::MAX - 6, [8, 0, 7, 0], &[]),
        ("the last position", text(1), 20, u64::MAX, [8, 0, 7, 0], &[]),
        ("a key, just enough room", key(3, 0, 2, 2), 12, 0, [0, 0, 0, 12], KEY),
        ("a key, one octet of room less", key(3, 0, 2, 2), 11, 0, [8, 0, 12, 0], &[]),
        ("a key, room before and after", key(3, 0, 2, 2), 20, 3, [0, 0, 0, 15], KEY),
        ("a key at the end", key(3, 0, 2, 2), 20, 20, [8, 0, 12, 0], &[]),
        ("a key past the end", key(3, 0, 2, 2), 20, u64::MAX, [8, 0, 12, 0], &[]),
        ("a key 12 below 2^64", key(3, 0, 2, 2), 20, u64::MAX - 11, [8, 0, 12, 0], &[]),
    ]
}

/// "13 a text .. over the limit".
fn texts() -> Vec<Written> {
    vec![
        ("an empty text", text(0), 6, 0, [0, 0, 0, 6], &[2, 0, 0, 0, 1, 0]),
        ("a text of 4,096 octets, one octet of room less", text(4_096), 4_101, 0, [8, 0, 4_102, 0], &[]),
        ("a text of 4,097 octets to write", text(4_097), 5_000, 0, ITEM, &[]),
        ("a text of 65,537 octets to write", text(65_537), 70_000, 0, ITEM, &[]),
    ]
}

/// Keys as they may be.
fn keys() -> Vec<Written> {
    vec![
        ("an empty key under 1", key(1, 1, 0, 0), 10, 0, [0, 0, 0, 10], &[6, 0, 0, 0, 2, 0, 1, 1, 0, 0]),
        ("an empty key under 2", key(2, 1, 0, 0), 10, 0, [0, 0, 0, 10], &[6, 0, 0, 0, 2, 0, 2, 1, 0, 0]),
        ("no text and no key under 3", key(3, 1, 0, 0), 10, 0, [0, 0, 0, 10], &[6, 0, 0, 0, 2, 0, 3, 1, 0, 0]),
        ("no text, flag 0", key(3, 0, 0, 0), 10, 0, [0, 0, 0, 10], &[6, 0, 0, 0, 2, 0, 3, 0, 0, 0]),
        ("an empty key of 4,096", key(3, 1, 4_096, 0), 10, 0, [0, 0, 0, 10], &[6, 0, 0, 0, 2, 0, 3, 1, 0, 0x10]),
        ("one octet under 1", key(1, 1, 1, 1), 11, 0, [0, 0, 0, 11], &[7, 0, 0, 0, 2, 0, 1, 1, 1, 0, 0x61]),
        ("one octet of 258", key(3, 1, 258, 1), 11, 0, [0, 0, 0, 11], &[7, 0, 0, 0, 2, 0, 3, 1, 2, 1, 0x61]),
        ("128 octets for one, one of room less", key(3, 1, 1, 128), 137, 0, [8, 0, 138, 0], &[]),
        ("129 octets for one to write", key(3, 1, 1, 129), 200, 0, ITEM, &[]),
        ("one octet for none to write", key(3, 1, 0, 1), 20, 0, ITEM, &[]),
        ("128 times 4,096, no room", key(3, 1, 4_096, 524_288), 9, 0, [8, 0, 524_298, 0], &[]),
        ("128 times 4,096 and one more, no room", key(3, 1, 4_096, 524_289), 9, 0, ITEM, &[]),
        ("a key under 1, shorter than its text", key(1, 1, 3, 2), 20, 0, ITEM, &[]),
        ("a key under 1, longer", key(1, 1, 3, 4), 20, 0, ITEM, &[]),
        ("a key under 2, shorter than its text", key(2, 1, 3, 2), 20, 0, ITEM, &[]),
        ("a key under 2, longer", key(2, 1, 3, 4), 20, 0, ITEM, &[]),
        ("flag 0, a key shorter than its text", key(3, 0, 3, 2), 20, 0, ITEM, &[]),
        ("flag 0, a key longer", key(3, 0, 3, 4), 20, 0, ITEM, &[]),
    ]
}

/// Numbers that no record can hold, among them such as would be right if only their low octets were looked at.
fn key_numbers() -> Vec<Written> {
    let mut written: Vec<Written> = Vec::new();
    for collation in [0, 4, 0x101, 0x102, 0x103, 0x0300_0000, 0x8000_0003, u32::MAX] {
        written.push(("a collation that is none", key(collation, 1, 2, 2), 20, 0, ITEM, &[]));
    }
    for valid in [2, 3, 0xFF, 0x100, 0x101, 1 << 32, (1 << 32) + 1, 1 << 63, u64::MAX] {
        for collation in [1, 2, 3] {
            written.push(("a flag that is none", key(collation, valid, 2, 2), 20, 0, ITEM, &[]));
        }
    }
    for collation in [1, 2] {
        written.push(("flag 0 where it is always 1", key(collation, 0, 2, 2), 20, 0, ITEM, &[]));
    }
    // Times 128, 2^57 is 0 and 2^57 + 1 is 128 in 64 bits.
    for text_length in [4_097, 65_535, 65_536, 65_538, 1 << 25, 1 << 32, (1 << 32) + 2, 1 << 57, (1 << 57) + 1, u64::MAX] {
        for (collation, valid) in [(1, 1), (2, 1), (3, 0), (3, 1)] {
            written.push(("a text length over the limit", key(collation, valid, text_length, 2), 20, 0, ITEM, &[]));
        }
        written.push(("a text length over the limit, no key", key(3, 1, text_length, 0), 20, 0, ITEM, &[]));
    }
    written.push(("a text length of 4,097 and a key of as many", key(1, 1, 4_097, 4_097), 5_000, 0, ITEM, &[]));
    written
}

/// "Writing 13, 8."
fn item_before_room() -> Vec<Written> {
    let items = [text(4_097), key(0, 1, 0, 0), key(3, 2, 0, 0), key(1, 0, 0, 0), key(3, 1, 4_097, 0), key(3, 1, 0, 1)];
    let mut written: Vec<Written> = Vec::new();
    for item in items {
        for position in [0, 3, 4, u64::MAX] {
            written.push(("an item that no record holds, and no room", item.clone(), 3, position, ITEM, &[]));
        }
    }
    written
}

/// `LIST`, written item by item.
fn written_list() -> Result<Vec<u8>, String> {
    let mut recording = Recording::new(pattern(LIST.len()));
    let items = [text(1), Item::key(3, 1, 2, &[0x45, 0xCC, 0x81]), text(0)];
    let mut position = 0;
    for (item, after) in items.iter().zip([7, 20, 26]) {
        expect("an item of a list", recording.write(item, position)?, [0, 0, 0, after])?;
        position = after;
    }
    Ok(recording.octets)
}
