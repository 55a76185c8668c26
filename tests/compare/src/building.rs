//! A line given to both builders: their answers and the slices must be the same.

use crate::both::number_pattern;
use crate::hex::{hex, hex_numbers};
use crate::library::{self, LentTable};
use second::unicode_data::{self, State};

/// A table that is being built, in both programs.
pub struct Building {
    pub entries: Vec<u32>,
    pub pool: Vec<u32>,
    lent: LentTable,
}

impl Building {
    /// Slices of the given lengths, filled with a pattern that no line brings.
    pub fn new(entries_length: usize, pool_length: usize) -> Building {
        let entries = number_pattern(0xEE00_0000, entries_length);
        let pool = number_pattern(0xBB00_0000, pool_length);
        Building { lent: LentTable::new(&entries, &pool), entries, pool }
    }

    /// Adds a line in both programs and compares the answers; `compare_slices` does the rest.
    pub fn add_line(&mut self, state: State, line: &[u8]) -> Result<[u64; 6], String> {
        let answer = library::add_line(state, line, &mut self.lent);
        let expected = unicode_data::add_line(state, line, &mut self.entries, &mut self.pool);
        if answer == Ok(expected) {
            return Ok(expected);
        }
        let lengths = format!("slices of {} and {} numbers", self.entries.len(), self.pool.len());
        let text = String::from_utf8_lossy(line);
        Err(format!(
            "mz_add_line, {state:x?}, {lengths}\nline: {text:?}\nin hex: {}\nlibrary: {answer:?}\nsecond:  {expected:?}",
            hex(line)
        ))
    }

    /// Both slices, whole, must be the same in both programs.
    pub fn compare_slices(&self) -> Result<(), String> {
        if self.lent.still_holds(&self.entries, &self.pool) {
            return Ok(());
        }
        let library = Building::describe(self.lent.entries.content(), self.lent.pool.content());
        let second = Building::describe(&self.entries, &self.pool);
        Err(format!("mz_add_line left other slices\nlibrary: {library}\nsecond:  {second}"))
    }

    fn describe(entries: &[u32], pool: &[u32]) -> String {
        format!("entries {}\n  pool {}", hex_numbers(entries), hex_numbers(pool))
    }
}
