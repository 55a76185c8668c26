//! What holds of any two lists: the totals are those of all pairs, and the order is that of the keys.
use crate::random::Random;
use crate::{for_cases, key, tables, texts, COLLATIONS};
use mundeziwa::records::write_text;
use mundeziwa::Table;

/// Two lists, mostly with names in common.
pub fn lists(random: &mut Random, table: &Table) -> [Vec<Vec<u8>>; 2] {
    let mut lists = [Vec::new(), Vec::new()];
    for _ in 0..random.below(12) {
        let [first, second] = texts::related(random, table);
        let at = random.below(2);
        lists[at].push(first);
        lists[if random.one_in(3) { at } else { 1 - at }].push(second);
    }
    lists
}

/// A list as records.
fn written(list: &[Vec<u8>]) -> Vec<u8> {
    let mut octets = Vec::new();
    list.iter().for_each(|name| write_text(&mut octets, name).unwrap());
    octets
}

#[test]
fn totals_and_partners_are_those_of_all_pairs() {
    for_cases(|random| {
        let table = tables::some(random);
        let [first, second] = lists(random, &table);
        let collation = random.pick(&COLLATIONS);
        let shared = table.shared(collation, &first, &second).unwrap();
        assert_eq!((shared.first_count(), shared.second_count()), (first.len(), second.len()));
        let (mut pairs, mut with_partner) = (0, 0);
        for (index, name) in first.iter().enumerate() {
            let equal = |other: &Vec<u8>| table.equal(collation, name, other).unwrap();
            let partners: Vec<_> = (0..second.len()).filter(|&at| equal(&second[at])).collect();
            assert_eq!(shared.partner(index), partners.first().copied(), "{collation:?} {first:02X?} {second:02X?}");
            pairs += partners.len();
            with_partner += usize::from(!partners.is_empty());
        }
        assert_eq!((shared.equal_pairs(), shared.names_with_partner()), (pairs, with_partner));
        assert_eq!(shared.matches().count(), with_partner);
    });
}

#[test]
fn the_order_is_that_of_the_keys() {
    for_cases(|random| {
        let table = tables::some(random);
        let [first, second] = lists(random, &table);
        let collation = random.pick(&COLLATIONS);
        let shared = table.shared(collation, &first, &second).unwrap();
        let mut order: Vec<_> = (0..first.len()).collect();
        order.sort_by_cached_key(|&index| (key(&table, collation, &first[index]), index));
        assert!(shared.in_key_order().eq(order), "{collation:?} {first:02X?}");
    });
}

#[test]
fn lists_in_records_are_answered_as_lists_of_names() {
    for_cases(|random| {
        let table = tables::some(random);
        let [first, second] = lists(random, &table);
        let collation = random.pick(&COLLATIONS);
        let (first_records, mut second_records) = (written(&first), written(&second));
        let shared = table.shared(collation, &first, &second).unwrap();
        assert_eq!(table.shared_records(collation, &first_records, &second_records), Ok(shared));
        // Cut anywhere but between two records, the list is refused with 11.
        second_records.truncate(random.between(0, second_records.len()));
        let whole = second.iter().scan(0, |end, name| {
            *end += 6 + name.len();
            Some(*end)
        });
        let expected = if second_records.is_empty() || whole.into_iter().any(|end| end == second_records.len()) { 0 } else { 11 };
        let refused = table.shared_records(collation, &first_records, &second_records).err();
        assert_eq!(refused.map_or(0, |error| error.refusal().number()), expected);
    });
}
