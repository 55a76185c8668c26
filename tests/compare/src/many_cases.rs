//! Part 8, random: many texts that have something in common, over tables of all kinds, and their keys; some with ends that are at
//! fault, in rooms of every interesting length.

use crate::cases::{for_cases, list, ENOUGH};
use crate::list_cases::{array, names, stock, store, table_and_collation};
use crate::many::told_as_lists;
use crate::matching::{KeyRooms, Keys};
use crate::preparing::{TextRooms, Texts};
use crate::random::Random;
use crate::settings::Settings;
use crate::stop::Stop;
use crate::texts;
use second::lists::NAMES_MOST;
use std::collections::BTreeMap;

/// One case here for so many of the setting: each makes calls on many names.
const SHARE: u64 = 4;

/// How often each answer came to texts and to keys, and how often lists were told as by the call on lists.
#[derive(Default)]
struct Tally {
    texts: BTreeMap<u64, u64>,
    keys: BTreeMap<u64, u64>,
    with_partner: u64,
    as_lists: u64,
}

pub fn run(settings: &Settings) -> Result<u64, Stop> {
    let cases = settings.cases.div_ceil(SHARE);
    let mut tally = Tally::default();
    for_cases(settings, cases, |_, random| one_case(random, &mut tally))?;
    tally.report(settings.cases)?;
    Ok(cases)
}

impl Tally {
    /// Prints how often each answer came. It is an error if one that could come never did.
    fn report(&self, cases: u64) -> Result<(), Stop> {
        println!("  answers to many texts: {}; to many keys: {}", list(&self.texts), list(&self.keys));
        println!("  with shared names: {}, told as by the call on lists: {}", self.with_partner, self.as_lists);
        let texts = [0, 1, 36, 2, 3, 4, 5, 6, 7, 15, 8].into_iter().filter(|number| !self.texts.contains_key(number));
        let keys = [0, 36, 37, 8].into_iter().filter(|number| !self.keys.contains_key(number));
        let missing: Vec<u64> = texts.chain(keys).collect();
        if cases >= ENOUGH && (!missing.is_empty() || self.with_partner == 0 || self.as_lists == 0) {
            return Err(Stop::Error(format!("answers to many that never came: {missing:?}")));
        }
        Ok(())
    }
}

fn one_case(random: &mut Random, tally: &mut Tally) -> Result<(), String> {
    let (table, collation) = table_and_collation(random)?;
    let stock = stock(random, collation, &table);
    let (first, second) = (names(random, &stock), names(random, &stock));
    let is_list = |names: &[Vec<u8>]| names.len() <= NAMES_MOST && names.iter().all(|name| name.len() <= 4_096);
    if random.one_in(4) && is_list(&first) && is_list(&second) {
        told_as_lists(&table, collation, &first, &second)?;
        tally.as_lists += 1;
    }

    let all = [&first[..], &second].concat();
    let needed = all.iter().map(|text| texts::key(collation, text, &table).len()).sum();
    let mut texts = Texts::new(collation, &all);
    spoil(random, &mut texts.octets, &mut texts.ends);
    let count = texts.ends.len();
    let store = store(random, needed, texts.octets.len());
    let rooms = TextRooms { store, key_ends: array(random, count), valid: array(random, count) };
    let prepared = table.prepare_many(&texts, rooms)?;
    *tally.texts.entry(prepared.row[0]).or_default() += 1;

    // The keys as they were left, with all that stands after them, or the texts as keys of any octets.
    let (mut octets, mut ends) = match prepared.row[0] {
        0 => (prepared.store, prepared.key_ends[..count].to_vec()),
        _ => (texts.octets, texts.ends),
    };
    spoil(random, &mut octets, &mut ends);
    let keys = Keys { first_names: first_names(random, first.len(), ends.len()), octets, ends };
    let partners = array(random, keys.first_names.min(count + 1));
    let answer = keys.matched_in(KeyRooms { row: array(random, count), repeats: array(random, count), partners })?.answer;
    *tally.keys.entry(answer[0]).or_default() += 1;
    tally.with_partner += (answer[4] > 0) as u64;
    Ok(())
}

/// How many names the first list is said to have: mostly those that it has.
fn first_names(random: &mut Random, names: usize, keys: usize) -> usize {
    match random.below(12) {
        0..=7 => names,
        8..=9 => random.between(0, keys),
        10 => keys + random.below(2),
        _ => random.pick(&[keys + 1, keys + (1 << 32), usize::MAX]),
    }
}

/// Puts octets after the last end, or gives one end another place, one that is mostly at fault; in most cases neither.
fn spoil(random: &mut Random, octets: &mut Vec<u8>, ends: &mut [usize]) {
    if random.one_in(8) {
        octets.extend((0..random.between(1, 9)).map(|at| b'a' + at as u8));
    }
    if random.one_in(8) && !ends.is_empty() {
        let at = random.below(ends.len());
        let before = if at == 0 { 0 } else { ends[at - 1] };
        let length = octets.len();
        ends[at] = random.pick(&[before, before.wrapping_sub(1), 0, length, length + 1, 1 << 32, usize::MAX]);
    }
}
