//! What holds of many texts: each has its own key, and two lists are matched as the call on lists has them, in groups of equal
//! keys.
use crate::lists::lists;
use crate::random::Random;
use crate::{for_cases, key, tables, COLLATIONS, UNICODE};
use mundeziwa::{Collation, Table};

/// A table, a collation and two lists over it.
fn case(random: &mut Random) -> (Table, Collation, Vec<Vec<u8>>, Vec<Vec<u8>>) {
    let table = tables::some(random);
    let [first, second] = lists(random, &table);
    (table, random.pick(&COLLATIONS), first, second)
}

#[test]
fn each_text_has_its_own_key() {
    for_cases(|random| {
        let (table, collation, texts, _) = case(random);
        let keys = table.keys(collation, &texts).unwrap();
        assert!(keys.iter().eq(texts.iter().map(|text| key(&table, collation, text))), "{collation:?} {texts:02X?}");
        assert_eq!((keys.len(), keys.get(texts.len()), keys.is_valid(texts.len())), (texts.len(), None, None));
        for (index, text) in texts.iter().enumerate() {
            assert_eq!(keys.get(index), Some(key(&table, collation, text).as_slice()));
            assert_eq!(keys.is_valid(index), Some(collation != UNICODE || std::str::from_utf8(text).is_ok()));
        }
    });
}

#[test]
fn lists_are_matched_as_the_call_on_lists_has_them() {
    for_cases(|random| {
        let (table, collation, first, second) = case(random);
        let shared = table.shared(collation, &first, &second).unwrap();
        let matches = table.match_lists(collation, &first, &second).unwrap();
        assert!(matches.partners().eq(shared.partners()), "{collation:?} {first:02X?} {second:02X?}");
        assert_eq!((matches.first_count(), matches.second_count()), (first.len(), second.len()));
        assert_eq!(matches.equal_pairs(), shared.equal_pairs() as u64);
        assert_eq!(matches.names_with_partner(), shared.names_with_partner());
        assert!(matches.groups().flat_map(|group| group.first()).eq(shared.in_key_order()));
        let keys = table.keys(collation, first.iter().chain(&second)).unwrap();
        assert_eq!(keys.matches(first.len()), Ok(matches));
    });
}

#[test]
fn groups_have_every_name_once_and_one_key_each() {
    for_cases(|random| {
        let (table, collation, first, second) = case(random);
        let matches = table.match_lists(collation, &first, &second).unwrap();
        let mut expected: std::collections::BTreeMap<_, [Vec<usize>; 2]> = Default::default();
        for (list, names) in [&first, &second].into_iter().enumerate() {
            for (index, name) in names.iter().enumerate() {
                expected.entry(key(&table, collation, name)).or_default()[list].push(index);
            }
        }
        let groups = matches.groups().map(|group| [group.first().collect::<Vec<_>>(), group.second().collect()]);
        assert!(groups.eq(expected.into_values()), "{collation:?} {first:02X?} {second:02X?}");
    });
}
