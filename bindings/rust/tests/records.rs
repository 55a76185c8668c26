//! What a user of the records may count on: the octets of a record, and a sentence for each way in which one is refused.
use mundeziwa::records::{write_key, write_text, KeyRecord, Record, RecordError, Records};
use mundeziwa::{Collation, Table};
use std::error::Error;

/// A key of the letter é.
const KEY: KeyRecord = KeyRecord { collation: Collation::UnicodeCasemap, valid: true, text_length: 2, key: b"\x45\xCC\x81" };

/// A text, a key and an empty text, with the positions of all three and of the end.
const THREE: &[u8] = b"\x04\0\0\0\x01\0\xC3\xA9\x09\0\0\0\x02\0\x03\x01\x02\0\x45\xCC\x81\x02\0\0\0\x01\0";
const POSITIONS: [usize; 4] = [0, 8, 21, 27];

/// What the first record of a slice is refused for.
fn refused(octets: &[u8]) -> String {
    Records::new(octets).next().unwrap().unwrap_err().to_string()
}

/// A record with these octets after its length.
fn with_length(octets: &[&[u8]]) -> Vec<u8> {
    let after = octets.concat();
    [&(after.len() as u32).to_le_bytes(), after.as_slice()].concat()
}

#[test]
fn records_are_written_and_read() {
    let records = [Record::Text("é".as_bytes()), Record::Key(KEY), Record::Text(b"")];
    let mut octets = Vec::new();
    records.iter().for_each(|record| record.write_to(&mut octets).unwrap());
    assert_eq!(octets, THREE);
    assert_eq!(Records::new(THREE).collect::<Result<Vec<_>, _>>().unwrap(), records);
}

#[test]
fn each_position_is_told_and_may_be_begun_at() {
    let mut records = Records::new(THREE);
    for position in POSITIONS {
        assert_eq!(records.position(), position);
        assert!(Records::from_position(THREE, position).eq(records.clone()));
        records.next();
    }
    assert_eq!(format!("{records:?}"), "Records { position: 27, length: 27 }");
    let told: Vec<_> = Records::from_position(THREE, 8).with_positions().map(Result::unwrap).collect();
    assert_eq!(told, [(8, Record::Key(KEY)), (21, Record::Text(b""))]);
}

#[test]
fn past_the_end_is_refused() {
    for position in [28, 1000, usize::MAX - 3, usize::MAX] {
        let error = Records::from_position(THREE, position).next().unwrap().unwrap_err();
        assert_eq!(error.to_string(), format!("record at octet {position}: the slice ends at octet 27 (refused 11)"));
    }
}

#[test]
fn lengths_that_are_refused() {
    for (octets, sentence) in [
        (b"\x02\0\0".as_slice(), "record at octet 0: its length takes 4 octets and 3 are left (refused 11)"),
        (b"\0\x02\0\0\x01\0", "record at octet 0: its length says 512 octets and 2 are left (refused 11)"),
        (b"\xFF\xFF\xFF\xFF\x01\0", "record at octet 0: its length says 4294967295 octets and 2 are left (refused 11)"),
        (b"\x01\0\0\0\x01\0", "record at octet 0: its length says 1, and its kind alone takes 2 octets (refused 11)"),
        (b"\0\0\0\0", "record at octet 0: its length says 0, and its kind alone takes 2 octets (refused 11)"),
    ] {
        assert_eq!(refused(octets), sentence);
    }
}

#[test]
fn kinds_and_bodies_that_are_refused() {
    let key = |numbers: [u8; 4], key: &[u8]| with_length(&[&[2, 0], &numbers, key]);
    for (octets, sentence) in [
        (with_length(&[&[0, 0]]), "its kind is 0, and 1 (a text) and 2 (a key) are known (refused 12)"),
        (with_length(&[&[1, 1]]), "its kind is 257, and 1 (a text) and 2 (a key) are known (refused 12)"),
        (with_length(&[&[1, 0], &[b'a'; 4097]]), "its text has 4097 octets, and at most 4096 are taken (refused 13)"),
        (with_length(&[&[2, 0], b"\x01\x01\0"]), "its body has 3 octets, and that of a key at least 4 (refused 13)"),
        (key([0, 1, 0, 0], b""), "its collation is 0, not 1, 2 or 3 (refused 13)"),
        (key([4, 1, 0, 0], b""), "its collation is 4, not 1, 2 or 3 (refused 13)"),
        (key([3, 2, 0, 0], b""), "its flag is 2, not 0 or 1 (refused 13)"),
        (key([1, 0, 0, 0], b""), "its flag is 0, and under collation 1 every text is valid (refused 13)"),
        (key([2, 0, 0, 0], b""), "its flag is 0, and under collation 2 every text is valid (refused 13)"),
        (key([3, 1, 1, 16], b""), "its text length is 4097, and at most 4096 is taken (refused 13)"),
        (key([1, 1, 2, 0], b"abc"), "its key has 3 octets and its text 2, and under collation 1 they agree (refused 13)"),
        (key([2, 1, 2, 0], b"A"), "its key has 1 octets and its text 2, and under collation 2 they agree (refused 13)"),
        (key([3, 0, 2, 0], b"abc"), "its key has 3 octets and its text 2, and where the flag is 0 they agree (refused 13)"),
        (key([3, 1, 1, 0], &[0; 129]), "its key has 129 octets, over 128 times the 1 of its text (refused 13)"),
        (key([3, 1, 0, 0], b"a"), "its key has 1 octets, over 128 times the 0 of its text (refused 13)"),
    ] {
        assert_eq!(refused(&octets), format!("record at octet 0: {sentence}"));
    }
    for octets in [
        with_length(&[&[1, 0], &[b'a'; 4096]]),
        key([1, 1, 0, 0], b""),
        key([2, 1, 2, 0], b"AB"),
        key([3, 0, 2, 0], b"\xC3\xC3"),
        key([3, 1, 2, 0], b""),
        key([3, 1, 1, 0], &[0; 128]),
        key([3, 1, 0, 16], &[0; 4096 * 128]),
    ] {
        assert_eq!(Records::new(&octets).filter(Result::is_ok).count(), 1);
    }
}

#[test]
fn what_no_record_holds_is_not_written() {
    let told = |written: Result<(), RecordError>| written.unwrap_err().to_string();
    let mut octets = THREE.to_vec();
    let capacity = octets.capacity();
    for (written, sentence) in [
        (write_text(&mut octets, [0; 4097]), "its text has 4097 octets, and at most 4096 are taken"),
        (
            write_key(&mut octets, &KeyRecord { collation: Collation::Octet, valid: false, ..KEY }),
            "its flag is 0, and under collation 1 every text is valid",
        ),
        (
            write_key(&mut octets, &KeyRecord { text_length: 65536 + 2, ..KEY }),
            "its text length is 65538, and at most 4096 is taken",
        ),
        (
            write_key(&mut octets, &KeyRecord { valid: false, ..KEY }),
            "its key has 3 octets and its text 2, and where the flag is 0 they agree",
        ),
        (
            write_key(&mut octets, &KeyRecord { key: &[0; 257], ..KEY }),
            "its key has 257 octets, over 128 times the 2 of its text",
        ),
    ] {
        assert_eq!(told(written), format!("record at octet 27: {sentence} (refused 13)"));
    }
    assert_eq!((octets.as_slice(), octets.capacity()), (THREE, capacity));
}

#[test]
fn an_error_has_its_refusal_and_its_cause() {
    let error = Records::new(b"\x02\0\0").next().unwrap().unwrap_err();
    assert_eq!((error.position(), error.refusal().number(), error.refusal().place(), error.refusal().detail()), (0, 11, 0, 0));
    assert_eq!(
        error.source().unwrap().to_string(),
        "refused 11 (record length): fewer octets are left than the record's length takes or says, or that length is below 2"
    );
}

#[test]
fn the_key_of_a_broken_text_is_the_text() {
    let mut buffer = [];
    let key = Table::empty().key_record(Collation::UnicodeCasemap, b"Jos\xC3", &mut buffer).unwrap();
    let whole = KeyRecord { collation: Collation::UnicodeCasemap, valid: false, text_length: 4, key: b"Jos\xC3" };
    assert_eq!(key, whole);
    let mut octets = Vec::new();
    write_key(&mut octets, &key).unwrap();
    assert_eq!(octets, b"\x0A\0\0\0\x02\0\x03\0\x04\0Jos\xC3");
}

#[test]
fn the_sentence_of_the_readme_is_that_of_its_file_cut_by_two_octets() {
    let octets = b"\x0C\0\0\0\x02\0\x03\x01\x05\0JOSE\xCC\x81\x07\0\0\0\x01\0Jos";
    let sentence = "record at octet 16: its length says 7 octets and 5 are left (refused 11)";
    assert_eq!(Records::new(octets).last().unwrap().unwrap_err().to_string(), sentence);
    assert!(include_str!("../../../README.md").contains(&format!("`{sentence}`")));
}
