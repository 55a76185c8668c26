//! A slice of records given to both programs: their answers, and the whole slice after each call, must be the same. "Writer and
//! reader, each undoing the other."

use crate::hex::hex;
use crate::lent::Lent;
use crate::library;
use second::records::{self, Origin, KEY, TEXT};

/// What a record holds, or is to hold.
#[derive(Clone, PartialEq, Eq)]
pub enum Item {
    Text(Vec<u8>),
    Key(Origin, Vec<u8>),
}

impl Item {
    pub fn key(collation: u32, valid: u64, text_length: u64, key: &[u8]) -> Item {
        Item::Key(Origin { collation, valid, text_length }, key.to_vec())
    }

    /// The item that a reader's row names, if it names one.
    pub fn named(row: &[u64; 9], records: &[u8]) -> Option<Item> {
        let octets = records.get(row[7] as usize..row[8] as usize)?;
        match row[3] {
            TEXT => Some(Item::Text(octets.to_vec())),
            KEY => Some(Item::key(row[4] as u32, row[5], row[6], octets)),
            _ => None,
        }
    }

    /// How many octets a record of it has: four of the length, two of the kind, and of a key four more.
    pub fn whole_length(&self) -> usize {
        match self {
            Item::Text(text) => 6 + text.len(),
            Item::Key(_, key) => 10 + key.len(),
        }
    }

    pub fn write_by_library(&self, records: &mut Lent<u8>, position: u64) -> Result<[u64; 4], String> {
        match self {
            Item::Text(text) => library::write_text(text, records, position),
            Item::Key(origin, key) => library::write_key(*origin, key, records, position),
        }
    }

    pub fn write_by_second(&self, records: &mut [u8], position: u64) -> [u64; 4] {
        match self {
            Item::Text(text) => records::write_text(text, records, position),
            Item::Key(origin, key) => records::write_key(*origin, key, records, position),
        }
    }

    pub fn describe(&self) -> String {
        match self {
            Item::Text(text) => format!("text {}", hex(text)),
            Item::Key(origin, key) => format!("key {}\n  of {origin:x?}", hex(key)),
        }
    }
}

/// The octets of a record, composed here and by neither program.
pub fn record(kind: u16, body: &[u8]) -> Vec<u8> {
    let length = 2 + body.len() as u32;
    [&length.to_le_bytes()[..], &kind.to_le_bytes(), body].concat()
}

/// A slice of records as both programs hold it.
pub struct Recording {
    pub octets: Vec<u8>,
    lent: Lent<u8>,
}

impl Recording {
    pub fn new(octets: Vec<u8>) -> Recording {
        Recording { lent: library::lend_records(&octets), octets }
    }

    /// Reads the record at a position in both programs.
    pub fn read(&self, position: u64) -> Result<[u64; 9], String> {
        let answer = library::read_record(&self.lent, position);
        let expected = records::read_record(&self.octets, position);
        self.agree(|| format!("mz_read_record, position {position}"), &self.octets, answer, expected)
    }

    /// Writes an item at a position in both programs. What was written must be read there.
    pub fn write(&mut self, item: &Item, position: u64) -> Result<[u64; 4], String> {
        let before = self.octets.clone();
        let answer = item.write_by_library(&mut self.lent, position);
        let expected = item.write_by_second(&mut self.octets, position);
        let call = || format!("mz_write_.., position {position}\n{}", item.describe());
        let row = self.agree(call, &before, answer, expected)?;
        if row[0] == 0 {
            let read = self.read(position)?;
            if Item::named(&read, &self.octets).as_ref() != Some(item) || read[8] != row[3] {
                return Err(format!("{}\nwritten with {row:?} and then read as {read:?}", call()));
            }
        }
        Ok(row)
    }

    /// Reads from a position up to the end or a refusal, and answers all rows. Each record that was read, written back, leaves
    /// the slice as it is.
    pub fn read_on(&mut self, mut position: u64) -> Result<Vec<[u64; 9]>, String> {
        let mut rows = Vec::new();
        loop {
            let row = self.read(position)?;
            rows.push(row);
            let Some(item) = Item::named(&row, &self.octets).filter(|_| row[0] == 0) else { return Ok(rows) };
            let before = self.octets.clone();
            let written = self.write(&item, position)?;
            let length = item.whole_length() as u64;
            if written != [0, 0, 0, row[8]] || self.octets != before || row[8] != position + length {
                return Err(format!("{}\nread with {row:?} and written back with {written:?}", self.describe(position, &before)));
            }
            position = row[8];
        }
    }

    /// Both rows must be the same, and so must the slices that both programs left.
    fn agree<const N: usize>(
        &self,
        call: impl Fn() -> String,
        before: &[u8],
        answer: Result<[u64; N], String>,
        expected: [u64; N],
    ) -> Result<[u64; N], String> {
        if answer == Ok(expected) && self.lent.still_holds(&self.octets) {
            return Ok(expected);
        }
        let stays = if self.lent.guards_stay() { "" } else { "\n  WRITTEN OUTSIDE THE SLICE" };
        let library = format!("{answer:?}\n  {}{stays}", hex(self.lent.content()));
        let second = format!("{expected:?}\n  {}", hex(&self.octets));
        Err(format!("{}\nrecords: {}\nlibrary: {library}\nsecond:  {second}", call(), hex(before)))
    }

    fn describe(&self, position: u64, before: &[u8]) -> String {
        format!("position {position}\nrecords: {}\nafterwards: {}", hex(before), hex(&self.octets))
    }
}
