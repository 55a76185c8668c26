//! "Which names two lists share." A list is a slice of kind 1 records. "The totals are defined over all pairs, without sorting",
//! and so they are counted here.

use crate::collate::{check_collation, order_of, table_under, Pair};
use crate::key::key_of;
use crate::pages;
use crate::records::{is_text, open, whole_length, TEXT};
use crate::refusal::Refusal;
use crate::table::Table;

pub const NAMES_MOST: usize = 1_024;

/// The keys of a list's names, in the order of the list.
type Keys = Vec<Vec<u8>>;

/// Where the report is left.
pub struct Report<'a> {
    pub store: &'a mut [u8],
    pub partners: &'a mut [u32],
    pub positions: &'a mut [u32],
}

/// The report on two lists: "names in each list, equal pairs across them, names of the first list with any partner".
pub fn find_shared(lists: &Pair, report: &mut Report) -> [u64; 7] {
    match check(lists, report) {
        Err(refusal) => refusal.row(),
        Ok([first, second]) => {
            let partners = partners(&first, &second);
            let with_partner = partners.iter().filter(|&&partner| partner > 0).count();
            leave(&first, &second, &partners, report);
            [0, 0, 0, first.len() as u64, second.len() as u64, equal_pairs(&first, &second), with_partner as u64]
        }
    }
}

/// The checks: "order 1, then 11 to 13 on the first list, record by record, and on the second .., 14 .., the table's 3 to 7", 15,
/// "8 for the store .., then 8 for either array". Then the keys of both lists.
fn check(lists: &Pair, report: &Report) -> Result<[Keys; 2], Refusal> {
    check_collation(lists.collation)?;
    let first = read_list(0, lists.first)?;
    let second = read_list(1, lists.second)?;
    check_count(0, &first)?;
    check_count(1, &second)?;
    let empty = Table::default();
    let table = table_under(lists.collation, lists.verdict, &empty)?;
    pages::check(lists.collation, lists.pages)?;
    let keys = [first, second].map(|names| keys_of(lists.collation, &names, table));
    check_store(&keys, report)?;
    check_arrays(&keys[0], report)?;
    Ok(keys)
}

/// "Place 1 or 2 for the list in 11 to 14."
fn refuse(number: u64, index: usize) -> Refusal {
    Refusal::of_text(number, index, 0)
}

/// The names of a list. Every record must be of kind 1, before its body is looked at: "a kind 2 record is 12".
fn read_list(index: usize, records: &[u8]) -> Result<Vec<&[u8]>, Refusal> {
    let mut names = Vec::new();
    let mut left = records;
    while !left.is_empty() {
        let (kind, body) = open(left).ok_or(refuse(11, index))?;
        if kind != TEXT {
            return Err(refuse(12, index));
        }
        if !is_text(body) {
            return Err(refuse(13, index));
        }
        names.push(body);
        left = &left[whole_length(body)..];
    }
    Ok(names)
}

/// 14: "over 1,024 names".
fn check_count(index: usize, names: &[&[u8]]) -> Result<(), Refusal> {
    if names.len() > NAMES_MOST {
        return Err(refuse(14, index));
    }
    Ok(())
}

fn keys_of(collation: u32, names: &[&[u8]], table: &Table) -> Keys {
    names.iter().map(|name| key_of(collation, name, table).octets).collect()
}

/// 8: "the store (detail all keys together)".
fn check_store(keys: &[Keys; 2], report: &Report) -> Result<(), Refusal> {
    let needed = keys.iter().flatten().map(Vec::len).sum();
    if report.store.len() < needed {
        return Err(Refusal::of_no_text(8, needed));
    }
    Ok(())
}

/// 8: "either array (detail the first list's names)".
fn check_arrays(first: &Keys, report: &Report) -> Result<(), Refusal> {
    let needed = first.len();
    if report.partners.len() < needed || report.positions.len() < needed {
        return Err(Refusal::of_no_text(8, needed));
    }
    Ok(())
}

/// "Equal pairs across them": each name of the first list beside each of the second.
pub(crate) fn equal_pairs<K: PartialEq>(first: &[K], second: &[K]) -> u64 {
    let mut pairs = 0;
    for one in first {
        pairs += second.iter().filter(|&other| other == one).count() as u64;
    }
    pairs
}

/// "The lowest-numbered partner of each (counted from 1; 0 if none)."
pub(crate) fn partners<K: PartialEq>(first: &[K], second: &[K]) -> Vec<u32> {
    let partner = |one| second.iter().position(|other| other == one).map_or(0, |index| index as u32 + 1);
    first.iter().map(partner).collect()
}

/// "The first list's positions, from 1 too, in key order, ties by position."
pub(crate) fn positions<K: AsRef<[u8]>>(first: &[K]) -> Vec<u32> {
    let mut indices: Vec<usize> = (0..first.len()).collect();
    indices.sort_by(|&one, &other| order_of(first[one].as_ref(), first[other].as_ref()).then(one.cmp(&other)));
    indices.iter().map(|&index| index as u32 + 1).collect()
}

/// "Keys stand in a lent store one after another, first list first, those that are the text copied too." The arrays "stay beyond"
/// what is written, and so does the store.
fn leave(first: &Keys, second: &Keys, partners: &[u32], report: &mut Report) {
    let keys = [first.concat(), second.concat()].concat();
    report.store[..keys.len()].copy_from_slice(&keys);
    report.partners[..first.len()].copy_from_slice(partners);
    report.positions[..first.len()].copy_from_slice(&positions(first));
}
