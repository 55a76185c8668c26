//! What holds of every text and every table, tried on random ones through the safe crate.
//!
//! MZ_SEED and MZ_CASES set the run; a failure names the seed of its case, and MZ_SEED=that MZ_CASES=1 makes that case again.
mod lists;
mod many;
mod records;
mod tables;
mod texts;

#[path = "../../../../tests/compare/src/random.rs"]
#[allow(dead_code)]
mod random;

use mundeziwa::{Collation, Hit, Table, KEY_PER_OCTET_MOST, TEXT_MOST};
use random::Random;
use std::cmp::Ordering;
use std::panic::{catch_unwind, resume_unwind, AssertUnwindSafe};

const UNICODE: Collation = Collation::UnicodeCasemap;
const COLLATIONS: [Collation; 3] = [Collation::Octet, Collation::AsciiCasemap, UNICODE];
const LOOKUPS_PER_CHARACTER_MOST: u64 = 258;

/// A number of the environment, or another if it has none.
fn setting(name: &str, or: u64) -> u64 {
    std::env::var(name).map_or(or, |value| value.parse().expect("a number"))
}

/// Tries a property on many cases, each with a seed of its own.
fn for_cases(property: impl Fn(&mut Random)) {
    let (first, cases) = (setting("MZ_SEED", 20_261_116), setting("MZ_CASES", 4_000));
    assert!(cases > 0, "MZ_CASES is 0: nothing would be tried");
    for seed in first..first + cases {
        if let Err(failure) = catch_unwind(AssertUnwindSafe(|| property(&mut Random::new(seed)))) {
            eprintln!("the case fails with MZ_SEED={seed} MZ_CASES=1");
            resume_unwind(failure);
        }
    }
}

/// The key of a text that is not refused.
fn key(table: &Table, collation: Collation, text: &[u8]) -> Vec<u8> {
    table.key(collation, text).unwrap()
}

/// Whether a text is compared octet by octet.
fn by_octets(collation: Collation, text: &[u8]) -> bool {
    collation != UNICODE || std::str::from_utf8(text).is_err()
}

#[test]
fn equality_order_and_keys_say_the_same() {
    for_cases(|random| {
        let table = tables::some(random);
        let [first, second] = texts::related(random, &table);
        let collation = random.pick(&COLLATIONS);
        let (first_key, second_key) = (key(&table, collation, &first), key(&table, collation, &second));
        let order = table.order(collation, &first, &second).unwrap();
        assert_eq!(order, first_key.cmp(&second_key), "{first:02X?} {second:02X?}");
        assert_eq!(table.equal(collation, &first, &second), Ok(order == Ordering::Equal));
        assert_eq!(table.order(collation, &second, &first), Ok(order.reverse()));
    });
}

#[test]
fn order_is_transitive() {
    for_cases(|random| {
        let table = tables::some(random);
        let [first, second] = texts::related(random, &table);
        let third = texts::variant(random, &table, &second);
        let collation = random.pick(&COLLATIONS);
        let mut three = [first, second, third];
        let not_above = |a: &[u8], b: &[u8]| table.order(collation, a, b).unwrap() != Ordering::Greater;
        for _ in 0..6 {
            let at = random.below(2);
            three.swap(at, at + 1);
            let [a, b, c] = &three;
            if not_above(a, b) && not_above(b, c) {
                assert!(not_above(a, c), "{three:02X?}");
            }
        }
    });
}

#[test]
fn spellings_of_one_name_are_equal() {
    let table = tables::latin();
    for_cases(|random| {
        let name = texts::name(random);
        let (one, other) = (name.spelled(random), name.spelled(random));
        assert_eq!(table.equal(UNICODE, &one, &other), Ok(true), "{one:?} {other:?}");
        let broken = texts::broken(random, one.as_bytes());
        assert_eq!(table.equal(UNICODE, &broken, &other), Ok(false), "{broken:02X?} {other:?}");
        assert_eq!(table.equal(UNICODE, &broken, &broken), Ok(true));
    });
}

#[test]
fn a_broken_text_never_equals_a_valid_one() {
    for_cases(|random| {
        let table = tables::some(random);
        let [first, second] = texts::related(random, &table);
        if std::str::from_utf8(&first).is_ok() != std::str::from_utf8(&second).is_ok() {
            assert_eq!(table.equal(UNICODE, &first, &second), Ok(false), "{first:02X?} {second:02X?}");
        }
        let broken = texts::broken(random, &first);
        assert_eq!(key(&table, UNICODE, &broken), broken);
        if std::str::from_utf8(&second).is_ok() {
            assert_eq!(table.equal(UNICODE, &broken, &second), Ok(false), "{broken:02X?} {second:02X?}");
        }
    });
}

#[test]
fn no_syllable_is_left_in_the_key_of_a_valid_text() {
    for_cases(|random| {
        let table = tables::some(random);
        let [text, _] = texts::related(random, &table);
        if std::str::from_utf8(&text).is_ok() {
            let key = String::from_utf8(key(&table, UNICODE, &text)).expect("a valid text has a valid key");
            assert!(!key.chars().any(|c| ('\u{AC00}'..='\u{D7A3}').contains(&c)), "{text:02X?} {key:?}");
        }
    });
}

/// The lowest occurrence of one list of octets in another.
fn lowest(needle: &[u8], hay: &[u8]) -> Option<usize> {
    (0..=hay.len().checked_sub(needle.len())?).find(|&at| hay[at..].starts_with(needle))
}

/// The smallest run of whole characters of a valid text whose keys cover a part of its key.
fn covering(table: &Table, text: &str, part: &std::ops::Range<usize>) -> std::ops::Range<usize> {
    let (mut start, mut end, mut keyed) = (0, 0, 0);
    for (at, character) in text.char_indices() {
        let after = keyed + key(table, UNICODE, character.encode_utf8(&mut [0; 4]).as_bytes()).len();
        if (keyed..after).contains(&part.start) {
            start = at;
        }
        if (keyed..after).contains(&(part.end - 1)) {
            end = at + character.len_utf8();
        }
        keyed = after;
    }
    assert_eq!(keyed, key(table, UNICODE, text.as_bytes()).len(), "a key is that of the characters, one after another");
    start..end
}

#[test]
fn a_hit_is_the_lowest_and_covered_by_whole_characters() {
    for_cases(|random| {
        let table = tables::some(random);
        let collation = random.pick(&[Collation::Octet, Collation::AsciiCasemap, UNICODE, UNICODE, UNICODE]);
        let [_, second] = texts::related(random, &table);
        let second_key = key(&table, collation, &second);
        let first = texts::sought(random, &second, &second_key);
        let first_key = key(&table, collation, &first);
        let expected = lowest(&first_key, &second_key).map(|start| {
            let place = start..start + first_key.len();
            let text = match std::str::from_utf8(&second) {
                _ if first.is_empty() => 0..0,
                Ok(valid) if !by_octets(collation, &second) => covering(&table, valid, &place),
                _ => place.clone(),
            };
            Hit { key: place, text }
        });
        assert_eq!(table.find(collation, &first, &second).unwrap(), expected, "{collation:?} {first:02X?} {second:02X?}");
    });
}

#[test]
fn an_empty_text_is_found_at_the_start() {
    for_cases(|random| {
        let table = tables::some(random);
        let [text, _] = texts::related(random, &table);
        for collation in COLLATIONS {
            assert_eq!(table.find(collation, "", &text), Ok(Some(Hit { key: 0..0, text: 0..0 })));
            let found = table.find(collation, &text, "").unwrap();
            assert_eq!(found.is_some(), text.is_empty());
        }
    });
}

#[test]
fn a_preparation_keeps_its_bounds_and_its_buffer() {
    for_cases(|random| {
        let table = tables::some(random);
        let [text, _] = texts::related(random, &table);
        let collation = random.pick(&COLLATIONS);
        let whole = key(&table, collation, &text);
        let mut buffer = vec![0xAA; whole.len() + 3];
        let prepared = table.prepare(collation, &text, &mut buffer).unwrap();
        assert_eq!(
            (prepared.key, prepared.valid),
            (whole.as_slice(), collation != UNICODE || std::str::from_utf8(&text).is_ok())
        );
        let characters = std::str::from_utf8(&text).map_or(0, |valid| valid.chars().count());
        assert!(prepared.lookups <= LOOKUPS_PER_CHARACTER_MOST * characters as u64);
        assert_eq!(prepared.lookups == 0, by_octets(collation, &text) || text.is_empty());
        if !by_octets(collation, &text) {
            assert!(whole.len() <= KEY_PER_OCTET_MOST * characters);
        }
        assert_eq!(buffer[whole.len()..], [0xAA; 3], "octets after the key stay");
        if whole != text && !whole.is_empty() {
            let mut short = vec![0xAA; random.below(whole.len())];
            let refusal = table.prepare(collation, &text, &mut short).unwrap_err();
            assert_eq!((refusal.number(), refusal.place(), refusal.detail()), (8, 1, whole.len() as u64));
            assert!(short.iter().all(|&octet| octet == 0xAA), "on a refusal the buffer stays");
        }
    });
}

#[test]
fn a_text_over_the_limit_is_refused_and_one_at_it_is_not() {
    let table = tables::latin();
    for_cases(|random| {
        let long = texts::long(random);
        let other = texts::name(random).spelled(random);
        let collation = random.pick(&COLLATIONS);
        let told = |refusal: mundeziwa::Refusal| (refusal.number(), refusal.place(), refusal.detail());
        let (fits, length) = (long.len() <= TEXT_MOST, long.len() as u64);
        let answers = [table.equal(collation, &long, &other), table.equal(collation, &other, &long)];
        let expected = [1, 2].map(|place| if fits { Ok(false) } else { Err((2, place, length)) });
        assert_eq!(answers.map(|answer| answer.map_err(told)), expected);
        assert_eq!(table.key(collation, &long).is_ok(), fits);
    });
}

#[test]
fn lines_make_the_table_that_they_say() {
    for_cases(|random| {
        let mappings = tables::mappings(random);
        let builder = tables::built(random, &mappings);
        let (entries, pool) = tables::slices(&mappings);
        assert_eq!((builder.entries(), builder.pool()), (entries.as_slice(), pool.as_slice()));
        assert_eq!(builder.entry_count(), mappings.len());
        match (builder.table(), Table::new(entries, pool)) {
            (Ok(built), Ok(given)) => {
                assert_eq!((built.entries(), built.pool()), (given.entries(), given.pool()));
            }
            (built, given) => assert_eq!(built.unwrap_err(), given.unwrap_err()),
        }
    });
}

#[test]
fn owned_and_borrowed_tables_agree() {
    let owned = tables::latin();
    let borrowed = Table::new(&*owned.entries().to_vec().leak(), &*owned.pool().to_vec().leak()).unwrap();
    let copied = owned.clone();
    for_cases(|random| {
        let [first, second] = texts::related(random, &owned);
        let collation = random.pick(&COLLATIONS);
        let answers = [&owned, &borrowed, &copied].map(|table| {
            let order = table.order(collation, &first, &second).unwrap();
            (key(table, collation, &first), order, table.find(collation, &first, &second).unwrap())
        });
        assert_eq!(answers[0], answers[1]);
        assert_eq!(answers[0], answers[2]);
    });
}
