//! Part 7: which names two lists share. All small cases of a kind and the largest lists, then random ones.

use crate::both::Table;
use crate::example_lists::faulty_tables;
use crate::examples::{expect, table_t};
use crate::list_cases;
use crate::recording::record;
use crate::records::with_damage;
use crate::settings::Settings;
use crate::sharing::{list_of, Lists, Rooms};
use crate::stop::Stop;
use second::pages::PAGES;

/// Room for the report on every small list of this part.
const ENOUGH: Rooms = Rooms { store: 64, partners: 9, positions: 9 };

pub fn run(settings: &Settings) -> Result<u64, Stop> {
    let table = table_t()?.sparing();
    let small = small(&table, settings.short)?;
    let damaged = damaged(&table, settings.short)?;
    let cuts = cuts(&table)?;
    let kinds = kinds(&table, settings.short)?;
    let rooms = rooms(&table)?;
    let orders = orders(settings.short)?;
    let sizes = sizes(&table, settings.short)?;
    let long = long(&table, settings.short)?;
    println!("  {small} small lists, {rooms} rooms, {orders} orders of refusals, {sizes} sizes, {long} lists of long keys");
    println!("  {damaged} damaged lists, {cuts} cut lists, {kinds} kinds");
    let cases = small + damaged + cuts + kinds + rooms + orders + sizes + long;
    Ok(cases + list_cases::run(settings)?)
}

/// Every two lists of few names out of few: every tie, every partner, every order.
fn small(table: &Table, short: bool) -> Result<u64, String> {
    const NAMES: [&[u8]; 4] = [b"a", b"A", b"", b"\xC3"];
    let mut lists: Vec<Vec<&[u8]>> = vec![vec![]];
    let mut last = lists.clone();
    for _ in 0..if short { 2 } else { 3 } {
        last = last.iter().flat_map(|list| NAMES.map(|name| [&list[..], &[name]].concat())).collect();
        lists.extend(last.clone());
    }
    let mut cases = 0;
    for first in &lists {
        for second in &lists {
            for collation in 1..=3 {
                table.find_shared(&Lists::new(collation, first, second), ENOUGH)?;
                cases += 1;
            }
        }
    }
    Ok(cases)
}

/// A small list of good records.
fn good() -> Vec<u8> {
    list_of(&["", "a", "é"])
}

/// Fails where the answer to two lists isn't the papers'.
fn expect_of(lists: &Lists, rooms: Rooms, answer: &[u64], papers: &[u64]) -> Result<(), String> {
    expect("two lists", answer, papers).map_err(|difference| format!("{difference}\n{}", lists.describe(rooms)))
}

/// A list in the place of the first, beside a good one and a cut one, and in that of the second.
fn in_both_places(table: &Table, collation: u32, list: &[u8]) -> Result<u64, String> {
    let (good, cut) = (good(), good()[..20].to_vec());
    for (first, second) in [(list, &good[..]), (&good, list), (list, &cut), (&cut, list)] {
        let lists = Lists { collation, first: first.to_vec(), second: second.to_vec() };
        table.find_shared(&lists, ENOUGH)?;
    }
    Ok(4)
}

/// The good list with every octet, or some, at every place.
fn damaged(table: &Table, short: bool) -> Result<u64, String> {
    with_damage(&good(), short).iter().map(|list| in_both_places(table, 3, list)).sum()
}

/// The good list cut at every length, under collations that are and that aren't.
fn cuts(table: &Table) -> Result<u64, String> {
    let good = good();
    let mut cases = 0;
    for end in 0..=good.len() {
        for collation in 0..=5 {
            cases += in_both_places(table, collation, &good[..end])?;
        }
    }
    Ok(cases)
}

/// Every kind, or those out of few octets, over bodies that a text and a key may have and some that a key can't have; before,
/// between and after good records.
fn kinds(table: &Table, short: bool) -> Result<u64, String> {
    const BODIES: [&[u8]; 5] = [b"a", &[1, 1, 0], &[1, 1, 0, 0], &[3, 1, 1, 0, 0x61], &[0; 4_097]];
    let is_tried = |octet: u8| octet <= 4 || octet >= 0xFE || !short && octet.is_power_of_two();
    let good = good();
    let mut cases = 0;
    for kind in 0..=u16::MAX {
        if !kind.to_le_bytes().into_iter().all(is_tried) {
            continue;
        }
        for body in BODIES {
            let octets = record(kind, body);
            for at in if kind == 2 { vec![0, 6, 13, good.len()] } else { vec![6] } {
                let list = [&good[..at], &octets, &good[at..]].concat();
                cases += in_both_places(table, 3, &list)?;
            }
        }
    }
    Ok(cases)
}

/// Every length around what the store and the arrays need, each beside each.
fn rooms(table: &Table) -> Result<u64, String> {
    const LISTS: [(&[&str], &[&str]); 5] =
        [(&[], &[]), (&[], &["a"]), (&["é"], &[]), (&["", ""], &["a", "", "b"]), (&["b", "é", "a"], &["É", "x"])];
    let mut cases = 0;
    for (first, second) in LISTS {
        for collation in 1..=3 {
            let lists = Lists::new(collation, first, second);
            let most = Rooms { store: 40, partners: 9, positions: 9 };
            let shared = table.find_shared(&lists, most)?;
            // what stands in a store before a call begins no key here
            let used = shared.store.iter().position(|&octet| octet >= 0xF8).unwrap_or(most.store);
            for store in 0..used + 3 {
                for partners in 0..first.len() + 2 {
                    for positions in 0..first.len() + 2 {
                        let rooms = Rooms { store, partners, positions };
                        let number = table.find_shared(&lists, rooms)?.row[0];
                        let is_short = store < used || partners < first.len() || positions < first.len();
                        expect_of(&lists, rooms, &[number], &[if is_short { 8 } else { 0 }])?;
                        cases += 1;
                    }
                }
            }
        }
    }
    Ok(cases)
}

/// A list with one fault: its refusal (0 if none), and its octets.
type Fault = (u64, Vec<u8>);

/// Each refusal beside each other: the first of the order is given. "Order 1, then 11 to 13 on the first list .., and on the
/// second .., 14 .., the table's 3 to 7", 15, "8 for the store .., then 8 for either array."
fn orders(short: bool) -> Result<u64, String> {
    let after_good = |rest: &[u8]| [&good(), rest].concat();
    let faults: [Fault; 5] = [
        (0, good()),
        (11, after_good(&[1])),
        (12, after_good(&record(2, &[1, 1, 0, 0]))),
        (13, after_good(&record(1, &[0; 4_097]))),
        (14, list_of(&vec!["x"; 1_025])),
    ];
    let tables = refused_tables(short)?;
    let mut cases = 0;
    for (table, refusal) in &tables {
        for first in &faults {
            for second in &faults {
                for collation in [1, 3, 4] {
                    let refusal = if collation == 3 { *refusal } else { [0; 3] };
                    cases += one_order(table, collation, first, second, refusal)?;
                }
            }
        }
    }
    Ok(cases)
}

/// Tables and what is refused of them or of the page slices lent with them, which comes straight after: table T with enough of
/// both and with too little of each, then one table for each of 3 to 7, or for 7 alone, and 7 with too little of both.
pub fn refused_tables(short: bool) -> Result<Vec<(Table, [u64; 3])>, String> {
    let mut tables = vec![(table_t()?, [0; 3])];
    for (presence, ranks) in [(PAGES - 1, PAGES), (PAGES, PAGES - 1)] {
        tables.push((table_t()?.lending(presence, ranks), [15, 0, 0]));
    }
    for (entries, pool, refusal) in faulty_tables().into_iter().skip(if short { 4 } else { 0 }) {
        tables.push((Table::new(entries.clone(), pool.clone())?, refusal));
        if refusal[0] == 7 {
            tables.push((Table::new(entries, pool)?.lending(PAGES - 1, PAGES - 1), refusal));
        }
    }
    Ok(tables.into_iter().map(|(table, refusal)| (table.sparing(), refusal)).collect())
}

/// Two lists, each with its fault or none, in rooms that are enough or too short.
fn one_order(table: &Table, collation: u32, first: &Fault, second: &Fault, of_table: [u64; 3]) -> Result<u64, String> {
    // "", a, é twice
    let keys = if collation == 3 { 8 } else { 6 };
    let in_record = |fault: &Fault| (11..14).contains(&fault.0);
    let mut cases = 0;
    for store in [keys, keys - 1] {
        for (partners, positions) in [(3, 3), (2, 3), (3, 2), (0, 0)] {
            let expected = match () {
                _ if collation == 4 => [1, 0, 0],
                _ if in_record(first) => [first.0, 1, 0],
                _ if in_record(second) => [second.0, 2, 0],
                _ if first.0 == 14 => [14, 1, 0],
                _ if second.0 == 14 => [14, 2, 0],
                _ if of_table[0] > 0 => of_table,
                _ if store < keys => [8, 0, keys as u64],
                _ if partners < 3 || positions < 3 => [8, 0, 3],
                _ => [0, 0, 0],
            };
            let lists = Lists { collation, first: first.1.clone(), second: second.1.clone() };
            let rooms = Rooms { store, partners, positions };
            let row = table.find_shared(&lists, rooms)?.row;
            expect_of(&lists, rooms, &row[..3], &expected)?;
            cases += 1;
        }
    }
    Ok(cases)
}

/// Lists of equal names, of all sizes near none and near the most.
fn sizes(table: &Table, short: bool) -> Result<u64, String> {
    const SIZES: [usize; 8] = [0, 1, 2, 3, 1_023, 1_024, 1_025, 1_026];
    let list = |size| (0..size).map(|index| if index % 3 == 0 { "a" } else { "A" }).collect::<Vec<_>>();
    let mut cases = 0;
    for first in SIZES {
        for second in SIZES.into_iter().filter(|second| !short || first * second < 2_000) {
            let rooms = Rooms { store: first + second, partners: first, positions: first };
            let shared = table.find_shared(&Lists::new(2, &list(first), &list(second)), rooms)?;
            let [names, others] = [first, second].map(|size| size as u64);
            let expected = match () {
                _ if first > 1_024 => [14, 1, 0, 0, 0, 0, 0],
                _ if second > 1_024 => [14, 2, 0, 0, 0, 0, 0],
                _ => [0, 0, 0, names, others, names * others, if others > 0 { names } else { 0 }],
            };
            expect(&format!("{first} and {second} equal names"), shared.row, expected)?;
            cases += 1;
        }
    }
    Ok(cases)
}

/// Lists of names that begin alike, which make an order slow: ascending, falling, to and fro, each many times.
fn long(table: &Table, short: bool) -> Result<u64, String> {
    let shapes: [(usize, usize); 3] =
        if short { [(20, 4_090), (40, 9), (3, 60)] } else { [(1_024, 50), (90, 4_090), (1_000, 2)] };
    let orders: [fn(usize, usize) -> usize; 4] = [|at, _| at, |at, size| size - at, |at, size| at * 7_919 % size, |at, _| at % 8];
    let mut cases = 0;
    for (size, prefix) in shapes {
        for order in orders {
            let name = |at| format!("{}{:04}", "a".repeat(prefix), order(at, size));
            let names: Vec<String> = (0..size).map(name).collect();
            let turned: Vec<String> = names.iter().rev().cloned().collect();
            let rooms = Rooms { store: 2 * size * (prefix + 4), partners: size, positions: size };
            for collation in if short { 3..=3 } else { 1..=3 } {
                table.find_shared(&Lists::new(collation, &names, &turned), rooms)?;
                cases += 1;
            }
        }
    }
    Ok(cases)
}
