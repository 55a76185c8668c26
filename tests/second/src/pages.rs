//! Paged presence bits: "Beside the entries, fill two lent slices of 64-bit numbers, one with a bit for each code point of a page
//! of 64, the lowest code point in the lowest bit, the other with the number of entries before each page."

use crate::collate::reads_table;
use crate::refusal::Refusal;
use crate::table::Table;

/// "17,408 pages."
pub const PAGES: usize = 17_408;
/// "A page of 64."
pub const PAGE_SIZE: u32 = 64;

/// How long the two slices are that a call is lent.
#[derive(Clone, Copy, Debug, PartialEq, Eq)]
pub struct Lengths {
    pub presence: usize,
    pub ranks: usize,
}

/// The two slices.
pub struct Pages<'a> {
    pub presence: &'a mut [u64],
    pub ranks: &'a mut [u64],
}

/// 15: "a page slice under 17,408 long". Where no table is checked, the call doesn't test them.
pub fn check(collation: u32, lengths: Lengths) -> Result<(), Refusal> {
    if reads_table(collation) && (lengths.presence < PAGES || lengths.ranks < PAGES) {
        return Err(Refusal::of_no_text(15, 0));
    }
    Ok(())
}

/// Whether a call fills both slices, or leaves both as they were, told by the number that it answers. "Every call that checks a
/// table under collation 3 .. fills them afresh"; "on 8 and later ones the pages stay filled", and 8 is the last one now.
pub fn are_filled(collation: u32, number: u64) -> bool {
    reads_table(collation) && matches!(number, 0 | 8)
}

/// Fills the slices for a table, "17,408 pages, and leaves what lies beyond".
pub fn fill(table: &Table, pages: &mut Pages) {
    let entries: Vec<u32> = table.mappings.keys().copied().collect();
    let before: Vec<usize> = (0..=PAGES).map(|page| entries_before(page, &entries)).collect();
    for (page, number) in pages.presence.iter_mut().enumerate().take(PAGES) {
        *number = presence_of(&entries[before[page]..before[page + 1]]);
    }
    for (page, number) in pages.ranks.iter_mut().enumerate().take(PAGES) {
        *number = before[page] as u64;
    }
}

/// "The number of entries before each page": those of code points below the page's first. Entries ascend.
fn entries_before(page: usize, entries: &[u32]) -> usize {
    let first = page as u32 * PAGE_SIZE;
    entries.partition_point(|&code_point| code_point < first)
}

/// "A bit for each code point of a page of 64, the lowest code point in the lowest bit": 1 for those that have entries.
fn presence_of(code_points: &[u32]) -> u64 {
    code_points.iter().map(|code_point| 1 << (code_point % PAGE_SIZE)).sum()
}

/// "An entry's position is found from its bit: the rank is the count of ones below it, added to the page's number." Where the bit
/// is 0 there is no entry.
pub fn position(code_point: u32, presence: &[u64], ranks: &[u64]) -> Option<u64> {
    let (page, place) = ((code_point / PAGE_SIZE) as usize, code_point % PAGE_SIZE);
    let is_one = |bit: &u32| presence[page] >> bit & 1 == 1;
    let rank = || (0..place).filter(is_one).count() as u64 + ranks[page];
    is_one(&place).then(rank)
}
