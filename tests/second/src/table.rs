//! The mapping table: two slices of 32-bit numbers, checked and then read into a map.

use crate::refusal::Refusal;
use crate::{hangul, unfold};
use std::borrow::Cow;
use std::collections::BTreeMap;

pub const ENTRIES_MOST: usize = 16_384;
pub const POOL_MOST: usize = 65_536;
pub const COUNT_MOST: u32 = 32;

/// What the table says of one code point.
#[derive(Clone, Debug, PartialEq, Eq)]
pub struct Mapping {
    /// `None` where the entry gives the code point itself.
    pub titlecase: Option<u32>,
    /// The decomposition; empty means none.
    pub parts: Vec<u32>,
}

/// A table that has the form. "A code point without an entry maps to itself", but for Hangul syllables, whose parts are never an
/// entry's.
#[derive(Clone, Debug, Default)]
pub struct Table {
    pub mappings: BTreeMap<u32, Mapping>,
}

impl Table {
    pub fn titlecase(&self, code_point: u32) -> Option<u32> {
        self.mappings.get(&code_point).and_then(|mapping| mapping.titlecase)
    }

    /// What a code point decomposes into; empty if it doesn't.
    pub fn parts(&self, code_point: u32) -> Cow<'_, [u32]> {
        if hangul::is_syllable(code_point) {
            return hangul::parts(code_point).into();
        }
        self.mappings.get(&code_point).map_or(Cow::default(), |mapping| (&mapping.parts).into())
    }
}

/// An accepted table, or one of 3 to 7.
pub type Verdict = Result<Table, Refusal>;

/// Checks two slices, in the order of the refusal numbers.
pub fn examine(entries: &[u32], pool: &[u32]) -> Verdict {
    check_sizes(entries, pool)?;
    let rows: Vec<&[u32]> = entries.chunks_exact(4).collect();
    check_code_points(&rows)?;
    check_places(&rows, pool.len())?;
    check_pool(pool)?;
    let table = read(&rows, pool);
    unfold::check_levels(&table)?;
    Ok(table)
}

/// "Scalar" means at most 10FFFF hex and not D800 to DFFF.
pub fn is_scalar(number: u32) -> bool {
    number <= 0x10FFFF && !(0xD800..=0xDFFF).contains(&number)
}

/// A refusal whose detail is an entry, counted from 0.
pub fn refuse_entry(number: u64, index: usize) -> Refusal {
    Refusal::of_no_text(number, index)
}

/// 3: "entry slice not a multiple of 4 long, over 16,384 entries, or pool over 65,536".
fn check_sizes(entries: &[u32], pool: &[u32]) -> Result<(), Refusal> {
    let odd = entries.len() % 4 != 0;
    if odd || entries.len() / 4 > ENTRIES_MOST || pool.len() > POOL_MOST {
        return Err(Refusal::of_no_text(3, 0));
    }
    Ok(())
}

/// 4: "an entry's code point or titlecase not scalar, or its code point not above the entry before", and "an entry for a code
/// point in that range", AC00 to D7A3.
fn check_code_points(rows: &[&[u32]]) -> Result<(), Refusal> {
    for (index, row) in rows.iter().enumerate() {
        let falls = index > 0 && row[0] <= rows[index - 1][0];
        if !is_scalar(row[0]) || !is_scalar(row[1]) || falls || hangul::is_syllable(row[0]) {
            return Err(refuse_entry(4, index));
        }
    }
    Ok(())
}

/// 5: a faulty entry, "or pool longer than all counts". "A start is always the sum of all earlier counts"; the sum is meant
/// without bound.
fn check_places(rows: &[&[u32]], pool_length: usize) -> Result<(), Refusal> {
    let mut sum: u128 = 0;
    for (index, row) in rows.iter().enumerate() {
        check_place(index, row, sum, pool_length)?;
        sum += u128::from(row[3]);
    }
    if pool_length as u128 > sum {
        return Err(refuse_entry(5, rows.len()));
    }
    Ok(())
}

/// 5 of one entry: "count over 32, wrong start, parts past the pool's end, or saying nothing".
fn check_place(index: usize, row: &[u32], sum: u128, pool_length: usize) -> Result<(), Refusal> {
    let (code_point, titlecase, start, count) = (row[0], row[1], row[2], row[3]);
    let wrong_start = u128::from(start) != sum;
    let past_end = u128::from(start) + u128::from(count) > pool_length as u128;
    let says_nothing = titlecase == code_point && count == 0;
    if count > COUNT_MOST || wrong_start || past_end || says_nothing {
        return Err(refuse_entry(5, index));
    }
    Ok(())
}

/// 6: "a pool number not scalar".
fn check_pool(pool: &[u32]) -> Result<(), Refusal> {
    match pool.iter().position(|&number| !is_scalar(number)) {
        Some(index) => Err(Refusal::of_no_text(6, index)),
        None => Ok(()),
    }
}

/// Reads a table that none of 3 to 6 applies to.
fn read(rows: &[&[u32]], pool: &[u32]) -> Table {
    let mut table = Table::default();
    for row in rows {
        let titlecase = if row[1] == row[0] { None } else { Some(row[1]) };
        let start = row[2] as usize;
        let parts = pool[start..start + row[3] as usize].to_vec();
        table.mappings.insert(row[0], Mapping { titlecase, parts });
    }
    table
}
