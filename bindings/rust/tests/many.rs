//! What a user of many names may count on: their keys, which of them are equal at any number, and a sentence for each refusal.
use mundeziwa::{Collation, ListError, Matches, RefusalKind, Table, TableBuilder, NAMES_MOST, TEXT_MOST};
use std::error::Error;

const UNICODE: Collation = Collation::UnicodeCasemap;
const NONE: [&str; 0] = [];

/// The table of README's programs: the lines for U+0000 to U+017F.
fn latin() -> Table {
    TableBuilder::read(include_bytes!("../../../sample/ucd.txt").as_slice()).unwrap().table().unwrap()
}

/// The groups of equal names, each as the indices in both lists.
fn groups(matches: &Matches) -> Vec<(Vec<usize>, Vec<usize>)> {
    matches.groups().map(|group| (group.first().collect(), group.second().collect())).collect()
}

/// What a refusal tells: its number, place and detail, the name's index, and the sentence.
fn told<T: std::fmt::Debug>(result: Result<T, ListError>) -> (u64, u64, u64, Option<usize>, String) {
    let error = result.unwrap_err();
    let refusal = error.refusal();
    (refusal.number(), refusal.place(), refusal.detail(), error.index(), error.to_string())
}

#[test]
fn three_spellings_of_one_name_are_one_group_and_a_broken_one_is_another() {
    let held_back: [&[u8]; 5] = ["José".as_bytes(), "JOSE\u{301}".as_bytes(), b"Jos\xC3", b"Irene", b"Jos\xC3\xC3"];
    let fitted: [&[u8]; 4] = [b"Otto", "JOSÉ".as_bytes(), b"Jos\xC3", "Jose\u{301}".as_bytes()];
    let matches = latin().match_lists(UNICODE, held_back, fitted).unwrap();
    assert!(matches.partners().eq([Some(1), Some(1), Some(2), None, None]));
    assert_eq!((matches.names_with_partner(), matches.equal_pairs()), (3, 5));
    // IRENE; JOSE and the accent; the two broken names, in small letters; OTTO.
    let expected = [(vec![3], vec![]), (vec![0, 1], vec![1, 3]), (vec![2], vec![2]), (vec![4], vec![]), (vec![], vec![0])];
    assert_eq!(groups(&matches), expected);
    assert!(matches.groups().map(|group| group.is_shared()).eq([false, true, true, false, false]));
    let keys = latin().keys(UNICODE, held_back).unwrap();
    assert!((0..5).map(|index| keys.is_valid(index)).eq([true, true, false, true, false].map(Some)));
    // Under i;octet the same octets alone are one name, and every text is valid.
    assert!(latin().match_lists(Collation::Octet, held_back, fitted).unwrap().partners().eq([None, None, Some(2), None, None]));
    assert_eq!(latin().keys(Collation::Octet, held_back).unwrap().is_valid(2), Some(true));
}

#[test]
fn equal_names_stand_in_the_order_of_their_lists() {
    let matches = Table::empty().match_lists(Collation::AsciiCasemap, ["otto", "b", "OTTO"], ["B", "oTTo", "Otto"]).unwrap();
    assert_eq!(groups(&matches), [(vec![1], vec![0]), (vec![0, 2], vec![1, 2])]);
    let group = matches.groups().last().unwrap();
    assert!(group.first().rev().eq([2, 0]) && group.second().rev().eq([2, 1]));
    assert_eq!((group.first().len(), group.second().len()), (2, 2));
}

#[test]
fn lists_may_be_empty_and_names_too() {
    for collation in [Collation::Octet, Collation::AsciiCasemap, UNICODE] {
        let matches = latin().match_lists(collation, NONE, NONE).unwrap();
        assert_eq!((matches.first_count(), matches.second_count(), matches.equal_pairs()), (0, 0, 0));
        assert_eq!(groups(&matches), []);
        let keys = latin().keys(collation, NONE).unwrap();
        assert_eq!((keys.len(), keys.iter().len(), keys.get(0)), (0, 0, None));
        let matches = latin().match_lists(collation, ["", "a", ""], [""]).unwrap();
        assert_eq!(groups(&matches), [(vec![0, 2], vec![0]), (vec![1], vec![])]);
        let keys = latin().keys(collation, ["", "A", ""]).unwrap();
        assert!(keys.iter().eq([b"".as_slice(), b"A", b""]));
        assert!(keys.iter().rev().eq([b"".as_slice(), b"A", b""]));
    }
}

#[test]
fn lists_may_have_more_names_than_the_call_on_lists_takes() {
    let names: Vec<String> = (0..5 * NAMES_MOST).map(|number| format!("storm {number}")).collect();
    let matches = Table::empty().match_lists(Collation::AsciiCasemap, &names, names.iter().rev()).unwrap();
    assert!(matches.partners().eq((0..names.len()).rev().map(Some)));
    assert!(matches.groups().all(|group| group.first().len() == 1 && group.is_shared()));
    assert_eq!(matches.groups().count(), names.len());
    let same = vec!["Otto"; 3 * NAMES_MOST];
    let matches = Table::empty().match_lists(UNICODE, &same, &same).unwrap();
    assert_eq!(matches.equal_pairs(), (same.len() * same.len()) as u64);
    assert_eq!(groups(&matches), [((0..same.len()).collect(), (0..same.len()).collect())]);
}

#[test]
fn one_list_by_itself_shows_the_names_that_it_holds_twice() {
    let keys = latin().keys(UNICODE, ["José", "Otto", "JOSÉ", "Irene"]).unwrap();
    let alone = keys.matches(keys.len()).unwrap();
    assert_eq!(groups(&alone), [(vec![3], vec![]), (vec![0, 2], vec![]), (vec![1], vec![])]);
    assert_eq!((alone.equal_pairs(), alone.names_with_partner()), (0, 0));
    assert!(keys.matches(2).unwrap().partners().eq([Some(0), None]));
    assert_eq!(keys.matches(0).unwrap().second_count(), 4);
    for first_count in [5, usize::MAX] {
        let refusal = keys.matches(first_count).unwrap_err();
        assert_eq!((refusal.kind(), refusal.place(), refusal.detail()), (RefusalKind::FirstCount, 0, 4));
    }
}

#[test]
fn lists_may_be_anything_that_gives_octets() {
    let table = Table::empty();
    let names = vec![String::from("Otto"), String::from("Irene")];
    let octets: Vec<Vec<u8>> = names.iter().map(|name| name.clone().into_bytes()).collect();
    let expected = table.match_lists(Collation::Octet, ["Otto", "Irene"], ["Irene"]).unwrap();
    assert!(expected.partners().eq([None, Some(0)]));
    assert_eq!(table.match_lists(Collation::Octet, &names, [b"Irene"]), Ok(expected.clone()));
    assert_eq!(table.match_lists(Collation::Octet, names.iter().map(|name| name.as_str()), vec!["Irene"]), Ok(expected));
    assert_eq!(table.keys(Collation::Octet, &names), table.keys(Collation::Octet, octets));
}

#[test]
fn a_name_over_the_limit_is_refused_by_its_list_and_index() {
    let (most, over, table) = ("a".repeat(TEXT_MOST), "a".repeat(TEXT_MOST + 1), Table::empty());
    assert!(table.match_lists(UNICODE, ["b", &most], [&most]).unwrap().partners().eq([None, Some(0)]));

    let has = "it has 4097 octets, and at most 4096 are taken (refused 2)";
    let sentence = |list, index| format!("{list} list, name at index {index}: {has}");
    assert_eq!(told(table.match_lists(UNICODE, ["b", &over], [&over])), (2, 1, 1, Some(1), sentence("first", 1)));
    assert_eq!(told(table.match_lists(UNICODE, ["b"], ["c", &over])), (2, 2, 1, Some(1), sentence("second", 1)));
    assert_eq!(told(table.match_lists(UNICODE, NONE, [&over])), (2, 2, 0, Some(0), sentence("second", 0)));
    assert_eq!(told(table.keys(UNICODE, ["b", "c", &over, &over])), (2, 1, 2, Some(2), format!("text at index 2: {has}")));

    let error = table.match_lists(UNICODE, ["b"], ["c", &over]).unwrap_err();
    assert_eq!(error.source().unwrap().to_string(), "refused 2 (text too long): the text at index 1 has over 4096 octets");
}

#[test]
fn keys_that_are_longer_than_the_first_store_have_room() {
    // One code point of 32 parts of four octets each, in names of 4,096 octets: half a mebioctet of key each.
    let table = Table::new(vec![0x61, 0x61, 0, 32], vec![0x10FFFF; 32]).unwrap();
    let long = "a".repeat(TEXT_MOST);
    let keys = table.keys(UNICODE, (0..40).map(|cut| &long[cut..])).unwrap();
    assert!(keys.iter().map(<[u8]>::len).eq((0..40).map(|cut| 128 * (TEXT_MOST - cut))));
    assert!(keys.iter().flat_map(|key| key.chunks(4)).all(|part| part == "\u{10FFFF}".as_bytes()));
    assert_eq!(keys.matches(20).unwrap().groups().count(), 40);
}
