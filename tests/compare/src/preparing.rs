//! Many texts given to both programs: their answers, and all that they leave in the lent slices, must be the same.

use crate::both::{number_pattern, pattern, Describe, Table};
use crate::hex::{hex, sizes};
use crate::library;
use second::many::{self, Many};

/// Many texts under a collation, as they are lent.
#[derive(Clone)]
pub struct Texts {
    pub collation: u32,
    pub octets: Vec<u8>,
    pub ends: Vec<usize>,
}

/// The lengths of what is lent to a call.
#[derive(Clone, Copy, Debug)]
pub struct TextRooms {
    pub store: usize,
    pub key_ends: usize,
    pub valid: usize,
}

/// What both programs answered, and the three slices after the call.
#[derive(PartialEq, Eq, Clone)]
pub struct Prepared {
    pub row: [u64; 4],
    pub store: Vec<u8>,
    pub key_ends: Vec<usize>,
    pub valid: Vec<u8>,
}

/// Parts one after another, and where each of them ends.
pub fn laid_out<P: AsRef<[u8]>>(parts: &[P]) -> (Vec<u8>, Vec<usize>) {
    let (mut octets, mut ends) = (Vec::new(), Vec::new());
    for part in parts {
        octets.extend(part.as_ref());
        ends.push(octets.len());
    }
    (octets, ends)
}

impl Texts {
    pub fn new<T: AsRef<[u8]>>(collation: u32, texts: &[T]) -> Texts {
        let (octets, ends) = laid_out(texts);
        Texts { collation, octets, ends }
    }

    fn many(&self) -> Many<'_> {
        Many { octets: &self.octets, ends: &self.ends }
    }
}

impl TextRooms {
    /// Room for so many texts whose keys have so many octets together.
    pub fn of(store: usize, texts: usize) -> TextRooms {
        TextRooms { store, key_ends: texts, valid: texts }
    }
}

impl Prepared {
    /// What stands in the slices before a call: nothing that a call could leave there.
    pub fn untouched(rooms: TextRooms) -> Prepared {
        let key_ends = number_pattern(0xEE00_0000, rooms.key_ends).into_iter().map(|number| (number as usize) << 32);
        Prepared { row: [0; 4], store: pattern(rooms.store), key_ends: key_ends.collect(), valid: pattern(rooms.valid) }
    }

    fn slices(&mut self) -> many::Prepared<'_> {
        many::Prepared { store: &mut self.store, key_ends: &mut self.key_ends, valid: &mut self.valid }
    }
}

impl Describe for Prepared {
    fn describe(&self) -> String {
        let (store, key_ends, valid) = (hex(&self.store), sizes(&self.key_ends), hex(&self.valid));
        format!("{:?}\n  store {store}\n  key ends {key_ends}\n  valid {valid}", self.row)
    }
}

fn describe(collation: u32, texts: Many, rooms: TextRooms) -> String {
    let (octets, ends) = (hex(texts.octets), sizes(texts.ends));
    format!("collation {collation}, {rooms:?}\noctets: {octets}\nends: {ends}\n")
}

impl Table {
    /// Prepares many texts in both programs.
    pub fn prepare_many(&self, texts: &Texts, rooms: TextRooms) -> Result<Prepared, String> {
        self.prepare_slices(texts.collation, texts.many(), rooms)
    }

    /// The same of texts that are lent by somebody else.
    pub fn prepare_slices(&self, collation: u32, texts: Many, rooms: TextRooms) -> Result<Prepared, String> {
        let mut prepared = Prepared::untouched(rooms);
        let mut expected = prepared.clone();
        expected.row = many::prepare_many(collation, texts, &self.verdict, self.paging.lengths, &mut expected.slices());
        let mut pages = self.lend_pages(false, collation)?;
        let row = library::prepare_many(collation, texts, &self.lent, &mut pages, prepared.slices());
        drop(pages);
        let answer = row.map(|row| Prepared { row, ..prepared });
        let case = || describe(collation, texts, rooms);
        let agreed = self.agree("Prepare many", false, case, answer, expected)?;
        self.compare_after("Prepare many", false, collation, agreed.row[0], case)?;
        self.check_unchanged()?;
        Ok(agreed)
    }
}
