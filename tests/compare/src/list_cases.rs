//! Part 7, random: lists of names that have something in common, over tables of all kinds, some of them with faults, in rooms of
//! every interesting length.

use crate::both::Table;
use crate::cases::{for_cases, list, ENOUGH};
use crate::random::Random;
use crate::record_lists::{damage, raw};
use crate::settings::Settings;
use crate::sharing::{list_of, Lists, Rooms};
use crate::stop::Stop;
use crate::{faults, tables, texts};
use std::collections::BTreeMap;

/// One case here for so many of the setting: each makes calls on many names.
const SHARE: u64 = 4;

/// Octets of names that make lists long.
const LONG: usize = 2_000;

/// How often each answer came, by place, and 8 for the store and for an array; lists with anything shared, and with equal names.
#[derive(Default)]
struct Tally {
    answers: [BTreeMap<u64, u64>; 3],
    stores: u64,
    arrays: u64,
    shared: u64,
    several: u64,
}

pub fn run(settings: &Settings) -> Result<u64, Stop> {
    let cases = settings.cases.div_ceil(SHARE);
    let mut tally = Tally::default();
    for_cases(settings, cases, |_, random| one_case(random, &mut tally))?;
    tally.report(settings.cases)?;
    Ok(cases)
}

impl Tally {
    fn add(&mut self, row: &[u64; 7], is_store_short: bool) {
        *self.answers[row[1] as usize].entry(row[0]).or_default() += 1;
        if row[0] == 8 {
            *(if is_store_short { &mut self.stores } else { &mut self.arrays }) += 1;
        }
        self.shared += (row[6] > 0) as u64;
        self.several += (row[5] > row[6]) as u64;
    }

    /// Prints how often each answer came. It is an error if one that could come never did.
    fn report(&self, cases: u64) -> Result<(), Stop> {
        let [neither, first, second] = self.answers.each_ref().map(list);
        println!("  answers to two lists: {neither}; of the first: {first}; of the second: {second}");
        println!("  short stores: {}, short arrays: {}", self.stores, self.arrays);
        println!("  with shared names: {}, of them with more pairs than names: {}", self.shared, self.several);
        let expected = [vec![0, 1, 3, 4, 5, 6, 7, 8, 15], vec![11, 12, 13, 14], vec![11, 12, 13, 14]];
        let mut missing: Vec<u64> = Vec::new();
        for (numbers, answers) in expected.iter().zip(&self.answers) {
            missing.extend(numbers.iter().filter(|number| !answers.contains_key(number)));
        }
        let counts = [self.stores, self.arrays, self.several];
        if cases >= ENOUGH && (!missing.is_empty() || counts.contains(&0)) {
            return Err(Stop::Error(format!("answers to lists that never came: {missing:?}, {counts:?}")));
        }
        Ok(())
    }
}

/// A table, some of them with faults or with page slices that are too short, and a collation, some of them none.
pub fn table_and_collation(random: &mut Random) -> Result<(Table, u32), String> {
    let mut slices = tables::any(random);
    if random.one_in(6) {
        faults::spoil(random, &mut slices);
    }
    let none = random.pick(&[0, 4, 5, u32::MAX]);
    let collation = random.pick(&[3, 3, 3, 3, 3, 3, 3, 3, 2, 2, 2, 2, 1, 1, 1, none]);
    let [presence, ranks] = tables::page_lengths(random);
    Ok((Table::new(slices.0, slices.1)?.lending(presence, ranks).sparing(), collation))
}

fn one_case(random: &mut Random, tally: &mut Tally) -> Result<(), String> {
    let (table, collation) = table_and_collation(random)?;
    let stock = stock(random, collation, &table);
    let (first, second) = (names(random, &stock), names(random, &stock));
    let needed = first.iter().chain(&second).map(|name| texts::key(collation, name, &table).len()).sum();
    let rooms = rooms(random, needed, &first, &second);
    let mut lists = Lists::new(collation, &first, &second);
    if random.one_in(8) {
        spoil(random, &mut lists.first);
    }
    if random.one_in(8) {
        spoil(random, &mut lists.second);
    }
    let row = table.find_shared(&lists, rooms)?.row;
    tally.add(&row, rooms.store < needed);
    Ok(())
}

/// Few texts that have something in common, or begin alike.
pub fn stock(random: &mut Random, collation: u32, table: &Table) -> Vec<Vec<u8>> {
    let letters = texts::letters_of(random, table);
    let mut stock = vec![texts::text(random, &letters)];
    for _ in 0..random.between(0, 6) {
        let other = stock[random.below(stock.len())].clone();
        stock.push(texts::related(random, &other, collation, table, &letters));
    }
    if random.one_in(8) {
        let prefix = stock[0].repeat(random.between(1, 9));
        stock.iter_mut().for_each(|text| drop(text.splice(..0, prefix.iter().copied())));
    }
    stock
}

/// A list of texts of the stock: mostly short, seldom about as long as one may be.
pub fn names(random: &mut Random, stock: &[Vec<u8>]) -> Vec<Vec<u8>> {
    let is_most = random.one_in(300);
    let size = if is_most { random.between(1_022, 1_027) } else { random.pick(&[0, 1, 2, 3, 4, 5, 8, 20]) };
    let short: Vec<&Vec<u8>> = stock.iter().filter(|text| !is_most || text.len() < 20).collect();
    if short.is_empty() {
        return vec![vec![]; size];
    }
    (0..size).map(|_| random.pick(&short).clone()).collect()
}

/// Puts a record of any kind into a list, or a name that is too long, or damages an octet.
fn spoil(random: &mut Random, list: &mut Vec<u8>) {
    let octets = match random.below(4) {
        0 | 1 => return damage(random, list),
        2 => raw(random),
        _ => list_of(&[vec![b'x'; random.pick(&[4_095, 4_096, 4_097])]]),
    };
    let at = random.pick(&[0, list.len()]);
    list.splice(at..at, octets);
}

/// The lengths of the store and of the arrays.
fn rooms(random: &mut Random, needed: usize, first: &[Vec<u8>], second: &[Vec<u8>]) -> Rooms {
    let octets = first.iter().chain(second).map(Vec::len).sum();
    Rooms { store: store(random, needed, octets), partners: array(random, first.len()), positions: array(random, first.len()) }
}

/// A store's length. The 128 octets for each octet of the names, which always suffice, are lent for lists that aren't long.
pub fn store(random: &mut Random, needed: usize, octets: usize) -> usize {
    match random.below(12) {
        0..=4 => needed,
        5 => needed.saturating_sub(1),
        6 => random.pick(&[0, needed / 2]),
        7..=8 if octets < LONG => 128 * octets + random.below(3),
        9 if octets < LONG => (128 * octets).saturating_sub(1),
        _ => needed + random.between(1, 9),
    }
}

/// An array's length: just enough, one short, none, or more than enough.
pub fn array(random: &mut Random, needed: usize) -> usize {
    match random.below(12) {
        0..=6 => needed,
        7 => needed.saturating_sub(1),
        8 => random.pick(&[0, needed, needed]),
        _ => needed + random.between(1, 4),
    }
}
