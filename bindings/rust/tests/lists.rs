//! What a user of the lists may count on: which names are shared, in what order, and a sentence for each way to be refused.
use mundeziwa::records::write_text;
use mundeziwa::{Collation, ListError, RefusalKind, Shared, Table, TableBuilder, NAMES_MOST, TEXT_MOST};
use std::error::Error;

const UNICODE: Collation = Collation::UnicodeCasemap;
const NONE: [&str; 0] = [];

/// The table of README's programs: the lines for U+0000 to U+017F.
fn latin() -> Table {
    TableBuilder::read(include_bytes!("../../../sample/ucd.txt").as_slice()).unwrap().table().unwrap()
}

/// Names as a list of records.
fn records<T: AsRef<[u8]>>(names: &[T]) -> Vec<u8> {
    let mut octets = Vec::new();
    names.iter().for_each(|name| write_text(&mut octets, name).unwrap());
    octets
}

/// Names that differ from each other.
fn numbered(count: usize) -> Vec<String> {
    (0..count).map(|number| format!("storm {number}")).collect()
}

/// What a refusal tells: its number and place, the name's index, and the sentence.
fn told(result: Result<Shared, ListError>) -> (u64, u64, Option<usize>, String) {
    let error = result.unwrap_err();
    (error.refusal().number(), error.refusal().place(), error.index(), error.to_string())
}

#[test]
fn three_spellings_of_one_name_are_shared_and_a_broken_one_is_not() {
    let held_back: [&[u8]; 5] = ["José".as_bytes(), "JOSE\u{301}".as_bytes(), b"Jos\xC3", b"Irene", b"Jos\xC3\xC3"];
    let fitted: [&[u8]; 4] = [b"Otto", "JOSÉ".as_bytes(), b"Jos\xC3", "Jose\u{301}".as_bytes()];
    let shared = latin().shared(UNICODE, held_back, fitted).unwrap();
    assert_eq!((shared.first_count(), shared.second_count()), (5, 4));
    assert!(shared.partners().eq([Some(1), Some(1), Some(2), None, None]));
    assert!(shared.matches().eq([(0, 1), (1, 1), (2, 2)]));
    assert_eq!((shared.names_with_partner(), shared.equal_pairs()), (3, 5));
    // IRENE; JOSE and the accent, twice; the two broken names, in small letters.
    assert!(shared.in_key_order().eq([3, 0, 1, 2, 4]));
    // Under i;octet the same octets alone are one name.
    assert!(latin().shared(Collation::Octet, held_back, fitted).unwrap().matches().eq([(2, 2)]));
}

#[test]
fn equal_names_stand_in_the_order_of_their_list_and_have_the_first_partner() {
    let first = ["otto", "Irene", "OTTO", "IRENE", "Otto"];
    let second = ["Beryl", "oTTo", "Otto", "irene"];
    let shared = Table::empty().shared(Collation::AsciiCasemap, first, second).unwrap();
    assert!(shared.in_key_order().eq([1, 3, 0, 2, 4]));
    assert!(shared.in_key_order().rev().eq([4, 2, 0, 3, 1]));
    assert!(shared.partners().eq([1, 3, 1, 3, 1].map(Some)));
    assert_eq!((shared.names_with_partner(), shared.equal_pairs()), (5, 3 * 2 + 2));
}

#[test]
fn a_proper_prefix_stands_first_and_is_another_name() {
    let shared = Table::empty().shared(Collation::Octet, ["Otto", "Ott", "", "O"], ["Otto", "Ottos"]).unwrap();
    assert!(shared.in_key_order().eq([2, 3, 1, 0]));
    assert!(shared.matches().eq([(0, 0)]));
}

#[test]
fn lists_may_be_empty_and_names_too() {
    for collation in [Collation::Octet, Collation::AsciiCasemap, UNICODE] {
        for (first, second, counts) in [(&NONE[..], &NONE[..], (0, 0)), (&["a"], &[], (1, 0)), (&[], &["a", "b"], (0, 2))] {
            let shared = latin().shared(collation, first, second).unwrap();
            assert_eq!((shared.first_count(), shared.second_count()), counts);
            assert_eq!((shared.names_with_partner(), shared.equal_pairs(), shared.matches().count()), (0, 0, 0));
            assert!(shared.in_key_order().eq(0..first.len()));
        }
        let shared = latin().shared(collation, ["", ""], ["a", ""]).unwrap();
        assert!(shared.partners().eq([Some(1), Some(1)]));
        assert_eq!(shared.equal_pairs(), 2);
    }
}

#[test]
fn a_name_past_the_list_has_no_partner() {
    let shared = Table::empty().shared(Collation::Octet, ["a"], ["a"]).unwrap();
    assert_eq!([0, 1, usize::MAX].map(|index| shared.partner(index)), [Some(0), None, None]);
}

#[test]
fn lists_may_be_anything_that_gives_octets() {
    let table = Table::empty();
    let names = vec![String::from("Otto"), String::from("Irene")];
    let octets: Vec<Vec<u8>> = names.iter().map(|name| name.clone().into_bytes()).collect();
    let slice: &[&str] = &["Irene"];
    let expected = table.shared(Collation::Octet, ["Otto", "Irene"], ["Irene"]).unwrap();
    assert!(expected.matches().eq([(1, 0)]));
    assert_eq!(table.shared(Collation::Octet, &names, slice), Ok(expected.clone()));
    assert_eq!(table.shared(Collation::Octet, &octets, [b"Irene"]), Ok(expected.clone()));
    assert_eq!(table.shared(Collation::Octet, names.iter().map(|name| name.as_str()), vec!["Irene"]), Ok(expected.clone()));
    assert_eq!(table.shared_records(Collation::Octet, &records(&names), &records(slice)), Ok(expected));
}

#[test]
fn a_list_of_the_most_names_is_taken_and_one_more_is_refused() {
    let (most, over, table) = (numbered(NAMES_MOST), numbered(NAMES_MOST + 1), Table::empty());
    let shared = table.shared(Collation::Octet, &most, most.iter().rev()).unwrap();
    assert!(shared.partners().eq((0..NAMES_MOST).rev().map(Some)));
    let same = vec!["Otto"; NAMES_MOST];
    let shared = table.shared(Collation::Octet, &same, &same).unwrap();
    assert_eq!((shared.equal_pairs(), shared.names_with_partner()), (NAMES_MOST * NAMES_MOST, NAMES_MOST));
    assert!(shared.in_key_order().eq(0..NAMES_MOST));

    let sentence = |list| format!("the {list} list has 1025 names, and at most 1024 are taken (refused 14)");
    assert!(include_str!("../../../README.md").contains(&format!("`{}`", sentence("second"))));
    assert_eq!(told(table.shared(UNICODE, &over, &most)), (14, 1, None, sentence("first")));
    assert_eq!(told(table.shared(UNICODE, &most, &over)), (14, 2, None, sentence("second")));
    assert_eq!(told(table.shared(UNICODE, &over, &over)), (14, 1, None, sentence("first")));
    assert_eq!(told(table.shared_records(UNICODE, b"", &records(&over))), (14, 2, None, sentence("second")));
}

#[test]
fn a_name_over_the_limit_is_refused_by_its_list_and_index() {
    let (most, over, table) = ("a".repeat(TEXT_MOST), "a".repeat(TEXT_MOST + 1), Table::empty());
    assert!(table.shared(UNICODE, ["b", &most], [&most]).unwrap().matches().eq([(1, 0)]));

    let sentence =
        |list, index| format!("{list} list, name at index {index}: it has 4097 octets, and at most 4096 are taken (refused 13)");
    assert_eq!(told(table.shared(UNICODE, ["b", "c", &over], [&over])), (13, 1, Some(2), sentence("first", 2)));
    assert_eq!(told(table.shared(UNICODE, ["b"], [&over])), (13, 2, Some(0), sentence("second", 0)));
    // It comes before too many names, even of the first list.
    let names = numbered(NAMES_MOST + 1);
    assert_eq!(told(table.shared(UNICODE, &names, [&over])), (13, 2, Some(0), sentence("second", 0)));
    let late = [names.as_slice(), std::slice::from_ref(&over)].concat();
    assert_eq!(told(table.shared(UNICODE, &late, NONE)), (13, 1, Some(1025), sentence("first", 1025)));
}

/// A record with these octets after its length.
fn with_length(after: &[u8]) -> Vec<u8> {
    [&(after.len() as u32).to_le_bytes(), after].concat()
}

#[test]
fn records_that_a_list_may_not_have() {
    let long = with_length(&[&[1, 0], [b'a'; TEXT_MOST + 1].as_slice()].concat());
    let (good, table) = (records(&["Otto", "é"]), latin());
    for (record, number, reason) in [
        (b"\x02\0\0".to_vec(), 11, "its length takes 4 octets and 3 are left"),
        (b"\x07\0\0\0\x01\0Jos".to_vec(), 11, "its length says 7 octets and 5 are left"),
        (b"\x01\0\0\0\x01\0".to_vec(), 11, "its length says 1, and its kind alone takes 2 octets"),
        (with_length(&[0, 0]), 12, "its kind is 0, and a list has texts (kind 1) alone"),
        (with_length(&[1, 1]), 12, "its kind is 257, and a list has texts (kind 1) alone"),
        // A key, whether a good one or one with a body that no record has.
        (with_length(b"\x02\0\x01\x01\x04\0Otto"), 12, "its kind is 2, and a list has texts (kind 1) alone"),
        (with_length(b"\x02\0\x09"), 12, "its kind is 2, and a list has texts (kind 1) alone"),
        (long, 13, "its text has 4097 octets, and at most 4096 are taken"),
    ] {
        let list = [good.as_slice(), &record].concat();
        let sentence = |list| format!("{list} list, record at octet 18: {reason} (refused {number})");
        assert_eq!(told(table.shared_records(UNICODE, &list, &good)), (number, 1, Some(2), sentence("first")));
        assert_eq!(told(table.shared_records(UNICODE, &good, &list)), (number, 2, Some(2), sentence("second")));
        assert_eq!(told(table.shared_records(UNICODE, &list, b"?")), (number, 1, Some(2), sentence("first")));
    }
}

#[test]
fn an_error_has_its_refusal_and_its_cause() {
    let refused = |first: &[u8], second: &[u8]| Table::empty().shared_records(UNICODE, first, second).unwrap_err();
    let over = records(&vec!["a"; NAMES_MOST + 1]);
    for (error, kind, cause) in [
        (
            refused(b"?", b""),
            RefusalKind::RecordLength,
            "refused 11 (record length): the first list ends within a record, or has a record whose length is below 2",
        ),
        (
            refused(b"", &with_length(&[2, 0])),
            RefusalKind::RecordKind,
            "refused 12 (record kind): the second list has a record that is no text",
        ),
        (
            refused(&with_length(&[&[1, 0], [0; TEXT_MOST + 1].as_slice()].concat()), b""),
            RefusalKind::RecordBody,
            "refused 13 (record body): the first list has a name of over 4096 octets",
        ),
        (refused(b"", &over), RefusalKind::NameCount, "refused 14 (name count): the second list has more than 1024 names"),
    ] {
        assert_eq!((error.refusal().kind(), error.refusal().detail()), (kind, 0));
        assert_eq!(error.source().unwrap().to_string(), cause);
    }
    let over = "a".repeat(TEXT_MOST + 1);
    let error = Table::empty().shared(UNICODE, NONE, [over]).unwrap_err();
    assert_eq!(error.source().unwrap().to_string(), "refused 13 (record body): the second list has a name of over 4096 octets");
}

#[test]
fn keys_that_are_longer_than_the_first_store_have_room() {
    // One code point of 32 parts of four octets each, in names of 4,096 octets: half a mebioctet of key each.
    let table = Table::new(vec![0x61, 0x61, 0, 32], vec![0x10FFFF; 32]).unwrap();
    let long = "a".repeat(TEXT_MOST);
    let names: Vec<String> = (0..40).map(|cut| long[cut..].to_owned()).collect();
    let shared = table.shared(UNICODE, &names, names.iter().rev()).unwrap();
    assert!(shared.partners().eq((0..40).rev().map(Some)));
    assert!(shared.in_key_order().eq((0..40).rev()));
    // Long names whose keys are no longer than they are.
    let names: Vec<String> = (0..40).map(|number| format!("{number:02}{}", &long[2..])).collect();
    let shared = Table::empty().shared(UNICODE, &names, &names).unwrap();
    assert!(shared.matches().eq((0..40).map(|index| (index, index))));
}
