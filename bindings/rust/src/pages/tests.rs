//! What no call shows: the pages that a table keeps, and the room that calls on many texts fill.
use super::{with_page_room, Pages, PAGES};
use crate::{Collation, Refusal, Table};
use std::collections::BTreeSet;

const HEADER: &str = include_str!("../../../../include/mundeziwa.h");

/// Code points on both sides of the edges of pages, the first and the last of all among them, and of syllables and surrogates.
const EDGES: [&[u32]; 6] = [
    &[],
    &[0],
    &[0x3F, 0x40, 0x7F, 0x80],
    &[0x10FFBF, 0x10FFC0, 0x10FFFF],
    &[0xABFF, 0xD7A4, 0xD7FF, 0xE000],
    &[0, 0x3F, 0x7F, 0x1F600, 0x1F63F, 0x1F640, 0x10FFFF],
];

/// The entries of a table in which each of these code points has a titlecase.
fn entries(code_points: &BTreeSet<u32>) -> Vec<u32> {
    code_points.iter().flat_map(|&code_point| [code_point, if code_point == 0x41 { 0x42 } else { 0x41 }, 0, 0]).collect()
}

/// The pages of such a table, by the header's definition of them.
fn defined(code_points: &BTreeSet<u32>) -> [Vec<u64>; 2] {
    let starts = (0..PAGES as u32).map(|page| 64 * page);
    let bits = |start: u32| (0..64).filter(move |bit| code_points.contains(&(start + bit))).map(|bit| 1 << bit).sum();
    let before = |start: u32| code_points.range(..start).count() as u64;
    [starts.clone().map(bits).collect(), starts.map(before).collect()]
}

/// Pages that hold nothing of any table, of these lengths.
fn unfilled(presence: usize, ranks: usize) -> Pages {
    Pages { presence: vec![!7; presence], ranks: vec![!9; ranks] }
}

#[test]
fn the_pages_of_a_table_are_those_of_its_entries() {
    let full: Vec<u32> = (0x80..0xC0).collect();
    for edge in EDGES.into_iter().chain([full.as_slice()]) {
        let code_points = edge.iter().copied().collect();
        let table = Table::new(entries(&code_points), vec![]).unwrap();
        let [presence, ranks] = defined(&code_points);
        assert!(table.pages().presence == presence && table.pages().ranks == ranks, "{edge:X?}");
        let clone = table.clone();
        drop(table);
        assert!(clone.pages().presence == presence && clone.pages().ranks == ranks, "{edge:X?}");
    }
    assert!(Table::empty().pages().presence == vec![0; PAGES] && Table::empty().pages().ranks == vec![0; PAGES]);
}

#[test]
fn a_call_on_many_texts_fills_the_threads_room_and_leaves_the_table() {
    for edge in EDGES {
        let code_points = edge.iter().copied().collect();
        let [presence, ranks] = defined(&code_points);
        let table = Table::new(entries(&code_points), vec![]).unwrap();
        with_page_room(|room| *room = unfilled(PAGES, PAGES));
        for collation in [Collation::Octet, Collation::AsciiCasemap] {
            table.keys(collation, ["a", "\u{10FFFF}"]).unwrap();
            with_page_room(|room| assert!(*room.presence == vec![!7; PAGES] && *room.ranks == vec![!9; PAGES], "{collation:?}"));
        }
        table.keys(Collation::UnicodeCasemap, ["a", "\u{10FFFF}"]).unwrap();
        with_page_room(|room| assert!(room.presence == presence && room.ranks == ranks, "{edge:X?}"));
        assert!(table.pages().presence == presence && table.pages().ranks == ranks, "{edge:X?}");
    }
}

#[test]
fn pages_that_are_too_short_are_refused_and_longer_ones_stay_beyond() {
    let code_points = EDGES[2].iter().copied().collect();
    for (presence, ranks) in [(PAGES - 1, PAGES), (PAGES, PAGES - 1), (0, 0)] {
        let mut pages = unfilled(presence, ranks);
        let answer = pages.fill(&entries(&code_points), &[]);
        assert_eq!(answer, [15, 0, 0, 0, 0, 0, 0]);
        let sentence = "refused 15 (pages too short): a page slice has under 17408 numbers";
        assert_eq!(Refusal::of_lone_text(&answer).unwrap_err().to_string(), sentence);
        assert!(pages.presence == vec![!7; presence] && pages.ranks == vec![!9; ranks], "{presence} {ranks}");
    }
    let mut pages = unfilled(PAGES + 1, PAGES + 2);
    assert_eq!(pages.fill(&entries(&code_points), &[])[0], 0);
    let [presence, ranks] = defined(&code_points);
    assert!(pages.presence[..PAGES] == presence && pages.presence[PAGES..] == [!7]);
    assert!(pages.ranks[..PAGES] == ranks && pages.ranks[PAGES..] == [!9, !9]);
}

#[test]
fn the_number_of_pages_is_the_headers() {
    assert!(HEADER.contains(&format!("\n#define MZ_PAGES {PAGES} ")));
}
