//! Part 8: many texts and many keys. All small cases of a kind, every room and order of refusals, thousands of names, then random
//! ones. What the two calls tell of short lists is what the call on lists tells.

use crate::both::Table;
use crate::example_many::{refuses, refuses_keys};
use crate::examples::{expect, table_t};
use crate::lists::refused_tables;
use crate::many_cases;
use crate::matching::{KeyRooms, Keys};
use crate::preparing::{TextRooms, Texts};
use crate::settings::Settings;
use crate::sharing::{Lists, Rooms};
use crate::stop::Stop;
use crate::texts::key;

pub fn run(settings: &Settings) -> Result<u64, Stop> {
    let table = table_t()?.sparing();
    let small = small(&table, settings.short)?;
    let ends = ends(&table, settings.short)?;
    let rooms = rooms(&table)? + key_rooms()?;
    let orders = orders(settings.short)? + key_orders()?;
    let sizes = sizes(settings.short)?;
    let long = long(&table, settings.short)?;
    println!("  {small} small lists, {ends} rows of ends, {rooms} rooms, {orders} orders of refusals");
    println!("  {sizes} sizes, {long} lists of long keys");
    Ok(small + ends + rooms + orders + sizes + long + many_cases::run(settings)?)
}

/// What mz_prepare_many and then mz_match_keys tell of two lists is what mz_find_shared tells of them.
pub fn told_as_lists<N: AsRef<[u8]> + Clone>(table: &Table, collation: u32, first: &[N], second: &[N]) -> Result<(), String> {
    let all = [first, second].concat();
    let needed = all.iter().map(|name| key(collation, name.as_ref(), table).len()).sum();
    let rooms = Rooms { store: needed, partners: first.len(), positions: first.len() };
    let shared = table.find_shared(&Lists::new(collation, first, second), rooms)?;
    let prepared = table.prepare_many(&Texts::new(collation, &all), TextRooms::of(needed, all.len()))?;
    expect("a refusal of lists and of many", &prepared.row[..3], &shared.row[..3])?;
    if prepared.row[0] > 0 {
        return Ok(());
    }
    let keys = Keys { octets: prepared.store, ends: prepared.key_ends, first_names: first.len() };
    let matched = keys.matched()?;
    let of_first = matched.row.into_iter().filter(|&number| number as usize <= first.len());
    expect("totals of lists and of many", &matched.answer[3..], &shared.row[5..])?;
    expect("the store of lists and of many", keys.octets, shared.store)?;
    expect("partners of lists and of many", matched.partners, shared.partners)?;
    expect("the order of lists and of many", of_first.collect(), shared.positions)
}

/// Every list of few names out of few, cut in two anywhere: every tie, every partner, every order.
fn small(table: &Table, short: bool) -> Result<u64, String> {
    const NAMES: [&[u8]; 4] = [b"a", b"A", b"", b"\xC3"];
    let mut cases = 0;
    let mut lists: Vec<Vec<&[u8]>> = vec![vec![]];
    for _ in 0..if short { 4 } else { 5 } {
        for list in &lists {
            for first_names in 0..=list.len() {
                let (first, second) = list.split_at(first_names);
                for collation in 1..=3 {
                    told_as_lists(table, collation, first, second)?;
                    cases += 1;
                }
            }
        }
        lists = lists.iter().flat_map(|list| NAMES.map(|name| [&list[..], &[name]].concat())).collect();
    }
    Ok(cases)
}

/// Every row of three ends, or of four, out of few over three octets: those that rise, stay, fall and pass the octets.
fn ends(table: &Table, short: bool) -> Result<u64, String> {
    const ENDS: [usize; 6] = [0, 1, 2, 3, 4, usize::MAX];
    let mut cases = 0;
    let mut rows: Vec<Vec<usize>> = vec![vec![]];
    for _ in 0..if short { 3 } else { 4 } {
        rows = rows.iter().flat_map(|row| ENDS.map(|end| [&row[..], &[end]].concat())).collect();
        for ends in &rows {
            let octets = b"aAa".to_vec();
            let texts = Texts { collation: 2, octets: octets.clone(), ends: ends.clone() };
            let fault = (0..ends.len()).find(|&at| ends[at] > 3 || at > 0 && ends[at] < ends[at - 1]);
            let refusal = fault.map_or([0; 3], |number| [36, 1, number as u64]);
            let row = table.prepare_many(&texts, TextRooms::of(3, ends.len()))?.row;
            expect(&format!("ends {ends:?}"), &row[..3], &refusal)?;
            for first_names in [0, ends.len() / 2, ends.len()] {
                let keys = Keys { octets: octets.clone(), ends: ends.clone(), first_names };
                expect(&format!("ends {ends:?} of keys"), &keys.matched()?.answer[..3], &refusal)?;
            }
            cases += 4;
        }
    }
    Ok(cases)
}

/// Every length around what the three slices for texts need, each beside each.
fn rooms(table: &Table) -> Result<u64, String> {
    const TEXTS: [&[&str]; 5] = [&[], &[""], &["é"], &["", "a", ""], &["b", "é", "a"]];
    let mut cases = 0;
    for texts in TEXTS {
        for collation in 1..=3 {
            let needed: usize = texts.iter().map(|text| key(collation, text.as_bytes(), table).len()).sum();
            let texts = Texts::new(collation, texts);
            let count = texts.ends.len();
            for store in 0..needed + 3 {
                for (key_ends, valid) in around(count) {
                    let row = table.prepare_many(&texts, TextRooms { store, key_ends, valid })?.row;
                    let is_short = store < needed || key_ends < count || valid < count;
                    expect("rooms for texts", row[0], if is_short { 8 } else { 0 })?;
                    cases += 1;
                }
            }
        }
    }
    Ok(cases)
}

/// Two lengths, each from 0 to one more than what is needed.
fn around(needed: usize) -> impl Iterator<Item = (usize, usize)> {
    (0..needed + 2).flat_map(move |one| (0..needed + 2).map(move |other| (one, other)))
}

/// Every length around what the three slices for keys need, each beside each.
fn key_rooms() -> Result<u64, String> {
    const KEYS: [&str; 4] = ["b", "a", "", "b"];
    let mut cases = 0;
    for count in 0..=KEYS.len() {
        for first_names in 0..=count {
            let keys = Keys::new(&KEYS[..count], first_names);
            for (row, repeats) in around(count) {
                for partners in 0..first_names + 2 {
                    let number = keys.matched_in(KeyRooms { row, repeats, partners })?.answer[0];
                    let is_short = row < count || repeats < count || partners < first_names;
                    expect("rooms for keys", number, if is_short { 8 } else { 0 })?;
                    cases += 1;
                }
            }
        }
    }
    Ok(cases)
}

/// Each refusal of texts beside each other: the first of the order is given. "1; 14, 36; 2; 3 to 7", 15, "8 for the store, 8 for
/// the other two slices."
fn orders(short: bool) -> Result<u64, String> {
    let mut cases = 0;
    for (table, of_table) in &refused_tables(short)? {
        for collation in [1, 3, 4] {
            for (falls, is_long) in [(false, false), (false, true), (true, false), (true, true)] {
                let of_table = if collation == 3 { *of_table } else { [0; 3] };
                cases += one_order(table, of_table, collation, falls, is_long)?;
            }
        }
    }
    Ok(cases)
}

/// Texts with an end that falls and one that is too long, or without, in rooms that are enough or too short.
fn one_order(table: &Table, of_table: [u64; 3], collation: u32, falls: bool, is_long: bool) -> Result<u64, String> {
    let long = "a".repeat(if is_long { 4_097 } else { 4_096 });
    let mut texts = Texts::new(collation, &["", "é", &long, "a"]);
    if falls {
        texts.ends[3] = 1;
    }
    let needed = if collation == 3 { 4_100 } else { 4_099 };
    let mut cases = 0;
    for store in [needed, needed - 1] {
        for (key_ends, valid) in [(4, 4), (3, 4), (4, 3), (0, 0)] {
            let refusal = match () {
                _ if collation == 4 => [1, 0, 0],
                _ if falls => [36, 1, 3],
                _ if is_long => [2, 1, 2],
                _ if of_table[0] > 0 => of_table,
                _ if store < needed => [8, 0, needed as u64],
                _ if key_ends < 4 || valid < 4 => [8, 0, 4],
                _ => [0, 0, 0],
            };
            let rooms = TextRooms { store, key_ends, valid };
            match refusal[0] {
                0 => expect("no refusal", table.prepare_many(&texts, rooms)?.row, [0, 0, 0, needed as u64])?,
                _ => refuses(table, "two refusals of texts", &texts, rooms, refusal)?,
            }
            cases += 1;
        }
    }
    Ok(cases)
}

/// Each refusal of keys beside each other: "14, 36; 37; 8 for row and repeats, 8 for partners".
fn key_orders() -> Result<u64, String> {
    let mut cases = 0;
    for last in [3, 1, 4] {
        for first_names in [2, 4] {
            for (row, repeats, partners) in [(3, 3, 2), (2, 3, 2), (3, 2, 2), (3, 3, 1), (2, 3, 1), (3, 2, 1), (0, 0, 0)] {
                let keys = Keys { octets: b"aaa".to_vec(), ends: vec![1, 2, last], first_names };
                let refusal = match () {
                    _ if last != 3 => [36, 1, 2],
                    _ if first_names > 3 => [37, 0, 3],
                    _ if row < 3 || repeats < 3 => [8, 0, 3],
                    _ if partners < 2 => [8, 0, 2],
                    _ => [0, 0, 0],
                };
                let rooms = KeyRooms { row, repeats, partners };
                match refusal[0] {
                    0 => expect("no refusal of keys", keys.matched_in(rooms)?.answer, [0, 0, 0, 2, 2])?,
                    _ => refuses_keys("two refusals of keys", &keys, rooms, refusal)?,
                }
                cases += 1;
            }
        }
    }
    Ok(cases)
}

/// Keys ascending, falling, to and fro, few of them and one alone, of every small number and of thousands, which no list has.
fn sizes(short: bool) -> Result<u64, String> {
    let orders: [fn(usize, usize) -> usize; 5] =
        [|at, _| at, |at, size| size - at, |at, size| at * 7_919 % size, |at, _| at % 5, |_, _| 0];
    let many: &[usize] = if short { &[300] } else { &[1_023, 1_024, 1_025, 2_047, 2_048, 2_049, 5_000] };
    let most = if short { 20 } else { 70 };
    let mut cases = 0;
    for size in (0..most).chain(many.iter().copied()) {
        for order in orders {
            let keys: Vec<String> = (0..size).map(|at| order(at, size).to_string()).collect();
            for first_names in [0, size / 3, size] {
                Keys::new(&keys, first_names).matched()?;
                cases += 1;
            }
        }
    }
    Ok(cases)
}

/// Many texts that begin alike, which make an order slow, and their keys.
fn long(table: &Table, short: bool) -> Result<u64, String> {
    let shapes: &[(usize, usize)] = if short { &[(6, 4_090), (30, 9)] } else { &[(60, 4_090), (3_000, 20)] };
    let mut cases = 0;
    for &(size, prefix) in shapes {
        for collation in 1..=3 {
            let name = |at: usize| format!("{}{:04}", "a".repeat(prefix), at * 7_919 % size / 2);
            let names: Vec<String> = (0..size).map(name).collect();
            let needed = size * (prefix + 4);
            let prepared = table.prepare_many(&Texts::new(collation, &names), TextRooms::of(needed, size))?;
            expect("long keys", prepared.row, [0, 0, 0, needed as u64])?;
            Keys { octets: prepared.store, ends: prepared.key_ends, first_names: size / 2 }.matched()?;
            cases += 2;
        }
    }
    Ok(cases)
}
