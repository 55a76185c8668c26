//! Many keys given to both programs: their answers, and all that they leave in the lent slices, must be the same.

use crate::both::{agree, number_pattern, Describe};
use crate::hex::{hex, hex_numbers, sizes};
use crate::library;
use crate::preparing::laid_out;
use second::many::{self, Many};

/// Many keys as they are lent, the first so many of them the first list's.
#[derive(Clone)]
pub struct Keys {
    pub octets: Vec<u8>,
    pub ends: Vec<usize>,
    pub first_names: usize,
}

/// The lengths of what is lent to a call.
#[derive(Clone, Copy, Debug)]
pub struct KeyRooms {
    pub row: usize,
    pub repeats: usize,
    pub partners: usize,
}

/// What both programs answered, and the three slices after the call.
#[derive(PartialEq, Eq, Clone)]
pub struct Matched {
    pub answer: [u64; 5],
    pub row: Vec<u32>,
    pub repeats: Vec<u32>,
    pub partners: Vec<u32>,
}

impl KeyRooms {
    /// Room for so many keys, so many of them the first list's.
    pub fn of(keys: usize, first_names: usize) -> KeyRooms {
        KeyRooms { row: keys, repeats: keys, partners: first_names }
    }
}

impl Matched {
    /// What stands in the slices before a call: nothing that a call could leave there.
    pub fn untouched(rooms: KeyRooms) -> Matched {
        Matched {
            answer: [0; 5],
            row: number_pattern(0xDD00_0000, rooms.row),
            repeats: number_pattern(0xCC00_0000, rooms.repeats),
            partners: number_pattern(0xBB00_0000, rooms.partners),
        }
    }

    fn slices(&mut self) -> many::Matched<'_> {
        many::Matched { row: &mut self.row, repeats: &mut self.repeats, partners: &mut self.partners }
    }
}

impl Describe for Matched {
    fn describe(&self) -> String {
        let (row, repeats, partners) = (hex_numbers(&self.row), hex_numbers(&self.repeats), hex_numbers(&self.partners));
        format!("{:?}\n  row {row}\n  repeats {repeats}\n  partners {partners}", self.answer)
    }
}

impl Keys {
    pub fn new<K: AsRef<[u8]>>(keys: &[K], first_names: usize) -> Keys {
        let (octets, ends) = laid_out(keys);
        Keys { octets, ends, first_names }
    }

    /// Matches the keys in both programs, in just the room that they need.
    pub fn matched(&self) -> Result<Matched, String> {
        self.matched_in(KeyRooms::of(self.ends.len(), self.first_names))
    }

    /// Matches the keys in both programs.
    pub fn matched_in(&self, rooms: KeyRooms) -> Result<Matched, String> {
        match_slices(Many { octets: &self.octets, ends: &self.ends }, self.first_names, rooms)
    }
}

/// Matches keys that are lent by somebody else in both programs.
pub fn match_slices(keys: Many, first_names: usize, rooms: KeyRooms) -> Result<Matched, String> {
    let mut matched = Matched::untouched(rooms);
    let mut expected = matched.clone();
    expected.answer = many::match_keys(keys, first_names, &mut expected.slices());
    let answer = library::match_keys(keys, first_names, matched.slices());
    let answer = answer.map(|answer| Matched { answer, ..matched });
    agree(|| describe(keys, first_names, rooms), answer, expected)
}

fn describe(keys: Many, first_names: usize, rooms: KeyRooms) -> String {
    let (octets, ends) = (hex(keys.octets), sizes(keys.ends));
    format!("Match keys, first names {first_names}, {rooms:?}\noctets: {octets}\nends: {ends}\n")
}
