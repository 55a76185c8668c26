//! "Many texts, or many keys, stand one after another in one slice of octets with nothing between them, and a second slice says
//! where each of them ends." Equal keys are counted as those of two lists are: each beside each, without sorting.

use crate::collate::{check_collation, table_under, TEXT_MOST};
use crate::key::{key_of, Key};
use crate::lists::{equal_pairs, partners, positions};
use crate::pages::{self, Lengths};
use crate::refusal::Refusal;
use crate::table::{Table, Verdict};

/// "Both calls take as many as there are, up to" so many.
pub const ENDS_MOST: usize = 4_294_967_295;

/// Many texts or keys.
#[derive(Clone, Copy)]
pub struct Many<'a> {
    pub octets: &'a [u8],
    pub ends: &'a [usize],
}

/// Where the keys of many texts are left.
pub struct Prepared<'a> {
    pub store: &'a mut [u8],
    pub key_ends: &'a mut [usize],
    pub valid: &'a mut [u8],
}

/// Where it is left which keys are equal.
pub struct Matched<'a> {
    pub row: &'a mut [u32],
    pub repeats: &'a mut [u32],
    pub partners: &'a mut [u32],
}

/// "Prepares many texts, each by itself": the answer has "the octets of all keys together".
pub fn prepare_many(collation: u32, texts: Many, verdict: &Verdict, pages: Lengths, prepared: &mut Prepared) -> [u64; 4] {
    match check_texts(collation, texts, verdict, pages, prepared) {
        Err(refusal) => refusal.row(),
        Ok(keys) => {
            leave_keys(&keys, prepared);
            [0, 0, 0, total(&keys) as u64]
        }
    }
}

/// "Says which keys of two lists are equal": the answer has "equal pairs across the lists; names of the first list that have any
/// partner".
pub fn match_keys(keys: Many, first_names: usize, matched: &mut Matched) -> [u64; 5] {
    match check_keys(keys, first_names, matched) {
        Err(refusal) => refusal.row(),
        Ok(keys) => {
            let (first, second) = keys.split_at(first_names);
            let partners = partners(first, second);
            let with_partner = partners.iter().filter(|&&partner| partner > 0).count();
            leave_matches(&keys, &partners, matched);
            [0, 0, 0, equal_pairs(first, second), with_partner as u64]
        }
    }
}

/// The checks on texts: "1; 14, 36; 2; 3 to 7", 15, "8 for the store, 8 for the other two slices". Then the keys.
fn check_texts(collation: u32, texts: Many, verdict: &Verdict, pages: Lengths, prepared: &Prepared) -> Result<Vec<Key>, Refusal> {
    check_collation(collation)?;
    let texts = cut(texts)?;
    check_lengths(&texts)?;
    let empty = Table::default();
    let table = table_under(collation, verdict, &empty)?;
    pages::check(collation, pages)?;
    let keys: Vec<Key> = texts.iter().map(|text| key_of(collation, text, table)).collect();
    check_room(prepared.store.len(), total(&keys))?;
    check_room(prepared.key_ends.len(), keys.len())?;
    check_room(prepared.valid.len(), keys.len())?;
    Ok(keys)
}

/// The checks on keys: "14, 36; 37; 8 for row and repeats, 8 for partners".
fn check_keys<'a>(keys: Many<'a>, first_names: usize, matched: &Matched) -> Result<Vec<&'a [u8]>, Refusal> {
    let keys = cut(keys)?;
    if first_names > keys.len() {
        return Err(Refusal::of_no_text(37, keys.len()));
    }
    check_room(matched.row.len(), keys.len())?;
    check_room(matched.repeats.len(), keys.len())?;
    check_room(matched.partners.len(), first_names)?;
    Ok(keys)
}

/// "The place is 1 for 14, 36 and 2."
fn refuse(number: u64, detail: usize) -> Refusal {
    Refusal::of_text(number, 0, detail)
}

/// The texts or keys: "number i, from 0, begins where the one before it ends, the first at 0, and ends before octet ends[i]". 14:
/// too many; 36: "an end is below the one before it, or past the octets".
fn cut(many: Many<'_>) -> Result<Vec<&[u8]>, Refusal> {
    if many.ends.len() > ENDS_MOST {
        return Err(refuse(14, 0));
    }
    let mut start = 0;
    let mut parts = Vec::new();
    for (number, &end) in many.ends.iter().enumerate() {
        if end < start || end > many.octets.len() {
            return Err(refuse(36, number));
        }
        parts.push(&many.octets[start..end]);
        start = end;
    }
    Ok(parts)
}

/// 2: a text is too long; the detail is "the lowest number, from 0, of a text .. that is at fault".
fn check_lengths(texts: &[&[u8]]) -> Result<(), Refusal> {
    match texts.iter().position(|text| text.len() > TEXT_MOST) {
        Some(number) => Err(refuse(2, number)),
        None => Ok(()),
    }
}

/// 8: "a slice to be written is too short"; the detail is what it needs.
fn check_room(room: usize, needed: usize) -> Result<(), Refusal> {
    if room < needed {
        return Err(Refusal::of_no_text(8, needed));
    }
    Ok(())
}

/// "The octets of all keys together."
fn total(keys: &[Key]) -> usize {
    keys.iter().map(|key| key.octets.len()).sum()
}

/// "At the start of store the keys of all texts, one after another .., also those that are the text itself; in key_ends where
/// each of them ends; in valid 1 for each text that is valid else 0 .. All three stay as they were after that."
fn leave_keys(keys: &[Key], prepared: &mut Prepared) {
    let mut end = 0;
    for (number, key) in keys.iter().enumerate() {
        let start = end;
        end += key.octets.len();
        prepared.store[start..end].copy_from_slice(&key.octets);
        prepared.key_ends[number] = end;
        prepared.valid[number] = key.valid as u8;
    }
}

/// "In row the numbers of all keys, from 1, in the order of the keys, equal ones in the order of their numbers", and what is
/// said of repeats and partners. "All three stay as they were after that."
fn leave_matches(keys: &[&[u8]], partners: &[u32], matched: &mut Matched) {
    let row = positions(keys);
    matched.row[..row.len()].copy_from_slice(&row);
    matched.repeats[..row.len()].copy_from_slice(&repeats(keys, &row));
    matched.partners[..partners.len()].copy_from_slice(partners);
}

/// "For each place of the row, 1 if the key at the next place is equal to the one there, else 0."
fn repeats(keys: &[&[u8]], row: &[u32]) -> Vec<u32> {
    let key_at = |place: usize| row.get(place).map(|&number| keys[number as usize - 1]);
    (0..row.len()).map(|place| u32::from(key_at(place) == key_at(place + 1))).collect()
}
