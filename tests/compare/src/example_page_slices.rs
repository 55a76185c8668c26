//! Part 1, page slices: what stands in them after a call, written by hand.

use crate::both::Table;
use crate::examples::{expect, table_t};
use crate::page_slices::{Content, ENOUGH};
use crate::{page_calls, page_lookups};
use second::pages::{Lengths, PAGES};

/// A page that has entries, its bits, and the entries before it.
type Page = (usize, u64, u64);

/// Table T: 0061, 0066, 0069 and 007A; 00C9 and 00E9; 017D and 017E; 01C4, 01C5 and 01C6; FB01.
pub const T_BY_HAND: [Page; 5] = [
    (0x01, 1 << 0x21 | 1 << 0x26 | 1 << 0x29 | 1 << 0x3A, 0),
    (0x03, 1 << 0x09 | 1 << 0x29, 4),
    (0x05, 1 << 0x3D | 1 << 0x3E, 6),
    (0x07, 0x70, 8),
    (0x3EC, 2, 11),
];

/// What it is, code points that have entries, their pages, and how many they are.
type Left = (&'static str, &'static [u32], &'static [Page], u64);

const LEFT: [Left; 7] = [
    ("no entry", &[], &[], 0),
    ("the first code point", &[0], &[(0, 1, 0)], 1),
    ("the last code point", &[0x10FFFF], &[(0x43FF, 1 << 63, 0)], 1),
    ("both ends of a page", &[0x40, 0x7F], &[(1, 1 | 1 << 63, 0)], 2),
    ("both sides of an edge", &[0x3F, 0x40], &[(0, 1 << 63, 0), (1, 1, 1)], 2),
    (
        "beside syllables and surrogates",
        &[0xABFF, 0xD7A4, 0xD7FF, 0xE000],
        &[(0x2AF, 1 << 63, 0), (0x35E, 1 << 0x24, 1), (0x35F, 1 << 63, 2), (0x380, 1, 3)],
        4,
    ),
    (
        "the ends of the planes",
        &[0xFFFF, 0x10000, 0x1FFFF, 0x20000, 0x10FFC0, 0x10FFFE, 0x10FFFF],
        &[(0x3FF, 1 << 63, 0), (0x400, 1, 1), (0x7FF, 1 << 63, 2), (0x800, 1, 3), (0x43FF, 1 | 3 << 62, 4)],
        7,
    ),
];

pub fn run() -> Result<u64, String> {
    for (what, code_points, pages, entries) in LEFT {
        leaves(what, &titlecases(code_points)?, pages, entries)?;
    }
    leaves("table T", &table_t()?, &T_BY_HAND, 12)?;
    // A page of 64 entries, between two that have one each.
    let full: Vec<u32> = (0x1FFF..=0x2040).collect();
    leaves("a full page", &titlecases(&full)?, &[(0x7F, 1 << 63, 0), (0x80, u64::MAX, 1), (0x81, 1, 65)], 66)?;
    page_lookups::compare_scalars(&table_t()?)?;
    Ok(LEFT.len() as u64 + 3 + page_calls::run()?)
}

/// A table that gives each of these code points U+0041 as its titlecase.
pub fn titlecases(code_points: &[u32]) -> Result<Table, String> {
    Table::new(code_points.iter().flat_map(|&code_point| [code_point, 0x41, 0, 0]).collect(), vec![])
}

/// What slices of these lengths hold: the pages that are listed, none else with an entry, and beyond them what stood there.
pub fn by_hand(lengths: Lengths, listed: &[Page], entries: u64) -> Content {
    let mut content = Content::untouched(lengths);
    content.presence.iter_mut().take(PAGES).for_each(|number| *number = 0);
    content.ranks.iter_mut().take(PAGES).for_each(|number| *number = entries);
    let mut from = 0;
    for &(page, bits, before) in listed.iter().filter(|page| page.0 < lengths.presence.min(lengths.ranks)) {
        content.presence[page] = bits;
        content.ranks[from..=page].fill(before);
        from = page + 1;
    }
    content
}

/// A call over a table leaves these pages.
fn leaves(what: &str, table: &Table, listed: &[Page], entries: u64) -> Result<(), String> {
    expect(what, table.prepare(false, 3, b"", 0)?.row, [0, 0, 0, 1, 0, 0, 1])?;
    let (left, papers) = (table.pages_after().ok_or("no page slices were lent")?, by_hand(ENOUGH, listed, entries));
    let page = (0..PAGES).find(|&page| left.presence[page] != papers.presence[page] || left.ranks[page] != papers.ranks[page]);
    expect(&format!("{what}, the page that differs"), page, None)?;
    expect(&format!("{what}, beyond the pages"), left == papers, true)
}
