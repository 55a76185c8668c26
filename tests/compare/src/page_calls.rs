//! Part 1, page slices: every call that is lent them, on something small. Whatever is at fault, the first refusal of the order is
//! answered, and the slices are filled, or as they were, as that has it.

use crate::both::{Case, Table};
use crate::example_lists::faulty_tables;
use crate::example_page_slices::{by_hand, T_BY_HAND};
use crate::examples::{expect, table_t};
use crate::page_slices::{Content, ENOUGH};
use crate::preparing::{TextRooms, Texts};
use crate::sharing::{Lists, Rooms};
use second::pages::{Lengths, PAGES};

/// How a call is made: under which collation, with a text that is too long, and in too little room.
#[derive(Clone, Copy)]
struct Try {
    collation: u32,
    is_long: bool,
    is_short: bool,
}

/// Makes a call in both programs, and answers number, place and detail.
type Make = fn(&Table, Try) -> Result<[u64; 3], String>;

/// A call, and its refusals of a text that is too long and of too little room.
type PageCall = (&'static str, Make, [u64; 3], [u64; 3]);

const CALLS: [PageCall; 8] = [
    ("Prepare", prepare, [2, 1, 4_097], [8, 1, 2]),
    ("Equal", |table, tried| start(table.equal(false, &first_at_fault(tried))?.row), [2, 1, 4_097], [8, 1, 2]),
    ("Order", |table, tried| start(table.order(false, &second_at_fault(tried))?.row), [2, 2, 4_097], [8, 2, 2]),
    ("Substring", |table, tried| start(table.substring(false, &second_at_fault(tried))?.row), [2, 2, 4_097], [8, 2, 2]),
    ("Find shared, a store", |table, tried| find_shared(table, tried, 3, 1), [13, 1, 0], [8, 0, 4]),
    ("Find shared, an array", |table, tried| find_shared(table, tried, 4, 0), [13, 1, 0], [8, 0, 1]),
    ("Prepare many, a store", |table, tried| prepare_many(table, tried, 3, 2), [2, 1, 0], [8, 0, 4]),
    ("Prepare many, key ends", |table, tried| prepare_many(table, tried, 4, 1), [2, 1, 0], [8, 0, 2]),
];

/// A text that isn't at fault; its key has two octets, as that of the other has.
const GOOD: &[u8] = b"az";

impl Try {
    fn text(self) -> Vec<u8> {
        vec![b'a'; if self.is_long { 4_097 } else { 2 }]
    }

    fn room(self) -> usize {
        if self.is_short {
            1
        } else {
            2
        }
    }
}

fn start<const N: usize>(row: [u64; N]) -> Result<[u64; 3], String> {
    Ok([row[0], row[1], row[2]])
}

fn prepare(table: &Table, tried: Try) -> Result<[u64; 3], String> {
    start(table.prepare(false, tried.collation, &tried.text(), tried.room())?.row)
}

fn first_at_fault(tried: Try) -> Case {
    let (first, second) = (tried.text(), GOOD.to_vec());
    Case { collation: tried.collation, first, second, first_room: tried.room(), second_room: 2 }
}

fn second_at_fault(tried: Try) -> Case {
    let (first, second) = (GOOD.to_vec(), tried.text());
    Case { collation: tried.collation, first, second, first_room: 2, second_room: tried.room() }
}

/// Two lists of a name each, with this much store and array where room is to be short.
fn find_shared(table: &Table, tried: Try, store: usize, array: usize) -> Result<[u64; 3], String> {
    let lists = Lists::new(tried.collation, &[&tried.text()[..]], &[GOOD]);
    let (store, array) = if tried.is_short { (store, array) } else { (4, 1) };
    start(table.find_shared(&lists, Rooms { store, partners: 1, positions: array })?.row)
}

/// Two texts, with this much store and so many key ends where room is to be short.
fn prepare_many(table: &Table, tried: Try, store: usize, key_ends: usize) -> Result<[u64; 3], String> {
    let texts = Texts::new(tried.collation, &[&tried.text()[..], GOOD]);
    let (store, key_ends) = if tried.is_short { (store, key_ends) } else { (4, 2) };
    start(table.prepare_many(&texts, TextRooms { store, key_ends, valid: 2 })?.row)
}

pub fn run() -> Result<u64, String> {
    Ok(lengths()? + orders()? + nothing_to_prepare()?)
}

/// What must stand in the slices after a call over table T, by the papers: filled for 0 and 8 under collation 3, else as it was.
struct Papers {
    untouched: Content,
    filled: Content,
}

impl Papers {
    fn new(lengths: Lengths) -> Papers {
        Papers { untouched: Content::untouched(lengths), filled: by_hand(lengths, &T_BY_HAND, 12) }
    }

    fn expect(&self, what: &str, table: &Table, collation: u32, number: u64) -> Result<(), String> {
        let papers = if collation == 3 && (number == 0 || number == 8) { &self.filled } else { &self.untouched };
        let is_left = table.pages_after().is_some_and(|left| left == *papers);
        expect(&format!("{what}, collation {collation}, answer {number}: pages as the papers say"), is_left, true)
    }
}

/// Slices of every length about 17,408, and none, each beside each. Collations 1 and 2 don't look at them, nor does 4, which is
/// no collation.
fn lengths() -> Result<u64, String> {
    const LENGTHS: [usize; 6] = [0, 1, PAGES - 1, PAGES, PAGES + 1, PAGES + 1_000];
    let mut cases = 0;
    for presence in LENGTHS {
        for ranks in LENGTHS {
            let table = table_t()?.lending(presence, ranks);
            let papers = Papers::new(Lengths { presence, ranks });
            for (name, make, _, _) in CALLS {
                for collation in 1..=4 {
                    let what = format!("{name}, page slices of {presence} and {ranks}, collation {collation}");
                    let answer = make(&table, Try { collation, is_long: false, is_short: false })?;
                    let number = match collation {
                        3 if presence < PAGES || ranks < PAGES => 15,
                        4 => 1,
                        _ => 0,
                    };
                    expect(&what, answer, [number, 0, 0])?;
                    papers.expect(&what, &table, collation, number)?;
                    cases += 1;
                }
            }
        }
    }
    Ok(cases)
}

/// Each refusal beside each other, of each call. "15 .. after 7 and before 8."
fn orders() -> Result<u64, String> {
    const SHORT: usize = PAGES - 1;
    let Table { entries, pool, .. } = table_t()?;
    let mut tables = vec![(entries, pool, [0; 3])];
    tables.extend(faulty_tables());
    let mut cases = 0;
    for (entries, pool, of_table) in tables {
        for (presence, ranks) in [(ENOUGH.presence, ENOUGH.ranks), (SHORT, PAGES), (PAGES, SHORT)] {
            let table = Table::new(entries.clone(), pool.clone())?.lending(presence, ranks);
            let of_pages = if presence < PAGES || ranks < PAGES { [15, 0, 0] } else { [0; 3] };
            let refusal = if of_table[0] > 0 { of_table } else { of_pages };
            for call in &CALLS {
                cases += one_call(&table, call, refusal)?;
            }
        }
    }
    Ok(cases)
}

/// A call over a table that is so refused, or not (0), with everything else that can be at fault.
fn one_call(table: &Table, (name, make, long, short): &PageCall, of_table: [u64; 3]) -> Result<u64, String> {
    let papers = Papers::new(table.paging.lengths);
    let mut cases = 0;
    for collation in [2, 3, 4] {
        for (is_long, is_short) in [(false, false), (false, true), (true, false), (true, true)] {
            let papers_say = match () {
                _ if collation == 4 => [1, 0, 0],
                _ if is_long => *long,
                _ if collation == 3 && of_table[0] > 0 => of_table,
                _ if is_short => *short,
                _ => [0; 3],
            };
            let what = format!("{name}, {of_table:?} of the table");
            expect(&what, make(table, Try { collation, is_long, is_short })?, papers_say)?;
            papers.expect(&what, table, collation, papers_say[0])?;
            cases += 1;
        }
    }
    Ok(cases)
}

/// Texts that need no lookup, or none at all: "every call that checks a table under collation 3" fills the slices.
fn nothing_to_prepare() -> Result<u64, String> {
    let table = table_t()?;
    let papers = Papers::new(ENOUGH);
    for text in [&b""[..], b"\xFF"] {
        expect("nothing to prepare", table.prepare(false, 3, text, 0)?.row[0], 0)?;
        papers.expect("a text", &table, 3, 0)?;
        let case = Case { collation: 3, first: text.to_vec(), second: text.to_vec(), first_room: 0, second_room: 0 };
        expect("nothing to compare", table.order(false, &case)?.row, [0, 0, 0, 2])?;
        papers.expect("two texts", &table, 3, 0)?;
    }
    table.find_shared(&Lists::new(3, &[""; 0], &[]), Rooms { store: 0, partners: 0, positions: 0 })?;
    papers.expect("empty lists", &table, 3, 0)?;
    table.prepare_many(&Texts::new(3, &[""; 0]), TextRooms::of(0, 0))?;
    papers.expect("no texts", &table, 3, 0)?;
    Ok(6)
}
