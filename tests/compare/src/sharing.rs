//! Two lists given to both programs: their answers, and all that they leave in the store and the arrays, must be the same.

use crate::abi::FIND_SHARED;
use crate::both::{number_pattern, pattern, Describe, Table};
use crate::hex::{hex, hex_numbers};
use crate::library;
use crate::recording::record;
use second::lists::{self, Report};

/// Two lists under a collation.
#[derive(Clone)]
pub struct Lists {
    pub collation: u32,
    pub first: Vec<u8>,
    pub second: Vec<u8>,
}

/// The lengths of what is lent to a call.
#[derive(Clone, Copy, Debug)]
pub struct Rooms {
    pub store: usize,
    pub partners: usize,
    pub positions: usize,
}

/// What both programs answered, and the store and the arrays after the call.
#[derive(PartialEq, Eq, Clone)]
pub struct Shared {
    pub row: [u64; 7],
    pub store: Vec<u8>,
    pub partners: Vec<u32>,
    pub positions: Vec<u32>,
}

/// A list of these names.
pub fn list_of<N: AsRef<[u8]>>(names: &[N]) -> Vec<u8> {
    names.iter().flat_map(|name| record(1, name.as_ref())).collect()
}

impl Shared {
    /// What stands in the store and the arrays before a call: nothing that a call could leave there.
    pub fn untouched(rooms: Rooms) -> Shared {
        Shared {
            row: [0; 7],
            store: pattern(rooms.store),
            partners: number_pattern(0xDD00_0000, rooms.partners),
            positions: number_pattern(0xCC00_0000, rooms.positions),
        }
    }

    fn report(&mut self) -> Report<'_> {
        Report { store: &mut self.store, partners: &mut self.partners, positions: &mut self.positions }
    }
}

impl Describe for Shared {
    fn describe(&self) -> String {
        let (partners, positions) = (hex_numbers(&self.partners), hex_numbers(&self.positions));
        format!("{:?}\n  store {}\n  partners {partners}\n  positions {positions}", self.row, hex(&self.store))
    }
}

impl Lists {
    pub fn new<N: AsRef<[u8]>>(collation: u32, first: &[N], second: &[N]) -> Lists {
        Lists { collation, first: list_of(first), second: list_of(second) }
    }

    pub fn describe(&self, rooms: Rooms) -> String {
        let (first, second) = (hex(&self.first), hex(&self.second));
        format!("collation {}, {rooms:?}\nfirst list: {first}\nsecond list: {second}\n", self.collation)
    }
}

impl Table {
    /// Finds what two lists share in both programs, in all forms of the call that the header allows.
    pub fn find_shared(&self, lists: &Lists, rooms: Rooms) -> Result<Shared, String> {
        let untouched = Shared::untouched(rooms);
        let mut expected = untouched.clone();
        let octets = (&lists.first[..], &lists.second[..]);
        let pair = self.pair(lists.collation, octets);
        expected.row = lists::find_shared(&pair, &mut expected.report());
        for &accepted in self.forms(lists.collation) {
            let mut shared = untouched.clone();
            let mut pages = self.lend_pages(accepted, lists.collation)?;
            let row = if accepted {
                library::find_shared(FIND_SHARED.accepted, lists.collation, octets, &self.lent, &mut pages, shared.report())
            } else {
                library::find_shared(FIND_SHARED.checked, lists.collation, octets, &self.lent, &mut pages, shared.report())
            };
            drop(pages);
            let answer = row.map(|row| Shared { row, ..shared });
            expected = self.agree(FIND_SHARED.name, accepted, || lists.describe(rooms), answer, expected)?;
            self.compare_after(FIND_SHARED.name, accepted, lists.collation, expected.row[0], || lists.describe(rooms))?;
        }
        self.check_unchanged()?;
        Ok(expected)
    }
}
