//! Levels, full decompositions and their lookups: "Unfolding a code point .. is one ask for its decomposition and then, if it
//! decomposes, the unfolding of each part in turn."

use crate::hangul::{LEADING, TRAILING, VOWELS};
use crate::refusal::Refusal;
use crate::table::{refuse_entry, Table};
use std::collections::HashMap;
use std::ops::Range;

pub const LEVEL_MOST: u128 = 8;
pub const FULL_MOST: u128 = 32;

/// A code point that has a level: the level, and how many code points its full decomposition has. Both are meant without bound;
/// a number that would pass 128 bits stays at their end, which is over every limit too.
#[derive(Clone, Copy, Debug, PartialEq, Eq)]
pub struct Height {
    pub level: u128,
    pub full: u128,
}

/// What is known of a code point while heights are sought. `Open`: its parts are being looked at just now.
#[derive(Clone, Copy)]
enum Known {
    Open,
    Done(Option<Height>),
}

/// Heights already found, by code point: a part that many entries share is looked at once.
#[derive(Default)]
pub struct Heights {
    known: HashMap<u32, Known>,
}

impl Heights {
    /// The height of a code point, if it has a level. "A code point in a cycle, or leading into one, has no level": a part that
    /// is still open leads back to itself, so whatever has it as a part leads into that cycle.
    pub fn of(&mut self, code_point: u32, table: &Table) -> Option<Height> {
        match self.known.get(&code_point) {
            Some(Known::Open) => return None,
            Some(Known::Done(height)) => return *height,
            None => {}
        }
        self.known.insert(code_point, Known::Open);
        let height = self.from_parts(&table.parts(code_point), table);
        self.known.insert(code_point, Known::Done(height));
        height
    }

    /// "0 if it doesn't decompose, else one more than the highest level among its parts."
    fn from_parts(&mut self, parts: &[u32], table: &Table) -> Option<Height> {
        if parts.is_empty() {
            return Some(Height { level: 0, full: 1 });
        }
        let mut sum = Height { level: 0, full: 0 };
        for &part in parts {
            let height = self.of(part, table)?;
            sum.level = sum.level.max(height.level.saturating_add(1));
            sum.full = sum.full.saturating_add(height.full);
        }
        Some(sum)
    }

    /// Of these code points the first of each height that they have.
    fn one_of_each(&mut self, code_points: Range<u32>, table: &Table) -> Vec<u32> {
        let (mut chosen, mut seen) = (Vec::new(), Vec::new());
        for code_point in code_points {
            let height = self.of(code_point, table);
            if !seen.contains(&height) {
                seen.push(height);
                chosen.push(code_point);
            }
        }
        chosen
    }
}

/// 7: "an entry whose code point has no level, a level over 8, or a full decomposition over 32 code points". "If no entry is at
/// fault but a syllable is, the detail is the number of entries."
pub fn check_levels(table: &Table) -> Result<(), Refusal> {
    let mut heights = Heights::default();
    for (index, &code_point) in table.mappings.keys().enumerate() {
        if !is_within(heights.of(code_point, table)) {
            return Err(refuse_entry(7, index));
        }
    }
    if !are_syllables_within(&mut heights, table) {
        return Err(refuse_entry(7, table.mappings.len()));
    }
    Ok(())
}

/// Whether no syllable is at fault, of all 11,172. A syllable's height is made of its parts' heights alone, and every leading
/// consonant stands with every vowel and with every trailing consonant or none. So it is enough to look at one part of each
/// height in each of the three rows: any other syllable is as high as one of those.
fn are_syllables_within(heights: &mut Heights, table: &Table) -> bool {
    let [leading, vowels, trailing] = [LEADING, VOWELS, TRAILING].map(|row| heights.one_of_each(row, table));
    for &first in &leading {
        for &vowel in &vowels {
            let mut syllables = vec![vec![first, vowel]];
            syllables.extend(trailing.iter().map(|&last| vec![first, vowel, last]));
            if !syllables.iter().all(|parts| is_within(heights.from_parts(parts, table))) {
                return false;
            }
        }
    }
    true
}

fn is_within(height: Option<Height>) -> bool {
    height.is_some_and(|height| height.level <= LEVEL_MOST && height.full <= FULL_MOST)
}

/// Unfolds a code point of an accepted table: appends its full decomposition and answers how many asks that took.
pub fn unfold(code_point: u32, table: &Table, full: &mut Vec<u32>) -> u64 {
    let parts = table.parts(code_point);
    if parts.is_empty() {
        full.push(code_point);
        return 1;
    }
    let mut asks = 1;
    for &part in parts.iter() {
        asks += unfold(part, table, full);
    }
    asks
}
