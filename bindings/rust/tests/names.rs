//! What a user of the crate may count on, over table T of document 01.
use mundeziwa::{Collation, Hit, Refusal, Table, KEY_PER_OCTET_MOST};
use std::cmp::Ordering;

/// Table T: code point, titlecase, decomposition.
const T: [(u32, u32, &[u32]); 12] = [
    (0x61, 0x41, &[]),
    (0x66, 0x46, &[]),
    (0x69, 0x49, &[]),
    (0x7A, 0x5A, &[]),
    (0xC9, 0xC9, &[0x45, 0x301]),
    (0xE9, 0xC9, &[0x65, 0x301]),
    (0x17D, 0x17D, &[0x5A, 0x30C]),
    (0x17E, 0x17D, &[0x7A, 0x30C]),
    (0x1C4, 0x1C5, &[0x44, 0x17D]),
    (0x1C5, 0x1C5, &[0x44, 0x17E]),
    (0x1C6, 0x1C5, &[0x64, 0x17E]),
    (0xFB01, 0xFB01, &[0x66, 0x69]),
];

fn table_t() -> Table {
    let mut entries = Vec::new();
    let mut pool = Vec::new();
    for (code, title, parts) in T {
        entries.extend([code, title, pool.len() as u32, parts.len() as u32]);
        pool.extend(parts);
    }
    Table::new(entries, pool).unwrap()
}

const UNICODE: Collation = Collation::UnicodeCasemap;

#[test]
fn keys_and_counts_are_the_papers() {
    let table = table_t();
    for (text, key, lookups) in [
        (b"\xC3\xA9".as_slice(), b"\x45\xCC\x81".as_slice(), 4),
        (b"\xC7\x84", b"\x44\x7A\xCC\x8C", 6),
        (b"\xEF\xAC\x81", b"\x66\x69", 4),
        (b"", b"", 0),
    ] {
        let mut buffer = [0xAA; 16];
        let prepared = table.prepare(UNICODE, text, &mut buffer).unwrap();
        assert_eq!((prepared.key, prepared.lookups, prepared.valid), (key, lookups, true));
    }
}

#[test]
fn a_broken_name_is_its_own_key_and_leaves_the_buffer() {
    let table = table_t();
    let mut buffer = [0xAA; 4];
    let prepared = table.prepare(UNICODE, b"\xC3", &mut buffer).unwrap();
    assert_eq!((prepared.key, prepared.lookups, prepared.valid), (b"\xC3".as_slice(), 0, false));
    assert_eq!(buffer, [0xAA; 4]);
}

#[test]
fn a_short_buffer_is_told_the_length_that_is_needed() {
    let table = table_t();
    let mut buffer = [0xAA; 2];
    let refusal = table.prepare(UNICODE, b"\xC3\xA9", &mut buffer).unwrap_err();
    assert_eq!((refusal.number(), refusal.place(), refusal.detail()), (8, 1, 3));
    assert_eq!(refusal.to_string(), "refused 8 (buffer too short): the key of the text needs a buffer of 3 octets");
    assert_eq!(buffer, [0xAA; 2]);
}

#[test]
fn order_and_hits_are_the_papers() {
    let table = table_t();
    assert_eq!(table.order(UNICODE, "E", "é"), Ok(Ordering::Less));
    assert_eq!(table.order(UNICODE, b"\xC3", "é"), Ok(Ordering::Greater));
    assert_eq!(table.order(UNICODE, "é", "É"), Ok(Ordering::Equal));
    assert_eq!(table.find(UNICODE, b"\xCC\x81", "aé"), Ok(Some(Hit { key: 2..4, text: 1..3 })));
    assert_eq!(table.find(UNICODE, b"\x81", "aé"), Ok(Some(Hit { key: 3..4, text: 1..3 })));
    assert_eq!(table.find(UNICODE, "", "aé"), Ok(Some(Hit { key: 0..0, text: 0..0 })));
    assert_eq!(table.find(UNICODE, "z", "aé"), Ok(None));
}

#[test]
fn a_long_text_is_refused_by_its_place() {
    let table = Table::empty();
    let long = [0x61; 4097];
    let refused = |result: Result<bool, Refusal>| result.map_err(|r| (r.number(), r.place(), r.detail()));
    assert_eq!(refused(table.equal(UNICODE, long, "a")), Err((2, 1, 4097)));
    assert_eq!(refused(table.equal(UNICODE, "a", long)), Err((2, 2, 4097)));
    assert_eq!(refused(table.equal(UNICODE, &long[..4096], &long[..4096])), Ok(true));
}

#[test]
fn the_longest_key_of_the_longest_text_has_room() {
    // One code point of 32 parts of four octets each.
    let table = Table::new(vec![0x61, 0x61, 0, 32], vec![0x10FFFF; 32]).unwrap();
    let text = [0x61; 4096];
    assert_eq!(table.equal(UNICODE, text, text), Ok(true));
    let mut key = vec![0; text.len() * KEY_PER_OCTET_MOST];
    assert_eq!(table.prepare(UNICODE, &text, &mut key).unwrap().key.len(), 524_288);
    assert_eq!(table.key(UNICODE, text).unwrap(), key);
}

#[test]
fn texts_may_be_anything_that_is_octets() {
    let table = table_t();
    let (name, octets) = (String::from("é"), vec![0xC3, 0x89]);
    assert_eq!(table.equal(UNICODE, &name, &octets), Ok(true));
    assert_eq!(table.equal(UNICODE, name.as_bytes(), octets.clone()), Ok(true));
    let mut buffer = [0; 4];
    assert_eq!(table.prepare(UNICODE, &name, &mut buffer).unwrap().key, b"E\xCC\x81");
    assert_eq!(table.prepare(UNICODE, &octets, &mut buffer).unwrap().key, b"E\xCC\x81");
    assert_eq!(table.prepare(UNICODE, "é", &mut buffer).unwrap().key, b"E\xCC\x81");
}

#[test]
fn a_table_is_printed_by_its_counts() {
    assert_eq!(format!("{:?}", table_t()), "Table { entries: 12, pool: 16 }");
}
