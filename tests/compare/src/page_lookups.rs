//! "Show that it answers as the old lookup for every accepted table and code point": what the page slices, as the library left
//! them, say of each scalar code point is where its entry stands, or that it has none.

use crate::both::Table;
use crate::example_page_slices::titlecases;
use crate::published::scalars;
use second::hangul::is_syllable;
use second::pages::{position, PAGE_SIZE};
use second::table::ENTRIES_MOST;

/// Every scalar code point by its page and by the entries themselves.
pub fn compare_scalars(table: &Table) -> Result<(), String> {
    let left = table.pages_left()?;
    let entries: Vec<u32> = table.entries.chunks_exact(4).map(|row| row[0]).collect();
    for code_point in scalars().map(u32::from) {
        let by_page = position(code_point, &left.presence, &left.ranks);
        let by_entries = entries.binary_search(&code_point).ok().map(|index| index as u64);
        if by_page != by_entries {
            let found = format!("by its page {by_page:?}, by the entries {by_entries:?}");
            return Err(format!("the entry of {code_point:04X}: {found}\n{}", table.describe()));
        }
    }
    Ok(())
}

/// Tables that are as large as can be: some whose pages are full, here and there up to the last code point; and two in which
/// every page has one entry, the lowest or the highest that it can have. Answers how many they are.
pub fn largest(short: bool) -> Result<u64, String> {
    let all: Vec<u32> = scalars().map(u32::from).filter(|&code_point| code_point != 0x41 && !is_syllable(code_point)).collect();
    let mut tables = 0;
    for run in all.rchunks(ENTRIES_MOST).step_by(if short { 99 } else { 11 }) {
        compare_scalars(&titlecases(run)?)?;
        tables += 1;
    }
    for place in if short { 0..0 } else { 0..2 } {
        let of_page = all.iter().copied().filter(|code_point| code_point % PAGE_SIZE == place * (PAGE_SIZE - 1));
        let entries: Vec<u32> = of_page.take(ENTRIES_MOST).collect();
        compare_scalars(&titlecases(&entries)?)?;
        tables += 1;
    }
    Ok(tables)
}
