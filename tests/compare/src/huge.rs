//! Part 1, slices that are too long for any memory: over 4,294,967,295 ends, which is 14, and texts and keys whose lengths take
//! more than 32 bits. They are mapped, and hold zeros that are hardly read.

use crate::both::Table;
use crate::examples::expect;
use crate::matching::{match_slices, KeyRooms};
use crate::pages::mostly_zeros;
use crate::preparing::TextRooms;
use second::many::Many;

/// One more than 32 bits can count.
const OVER: usize = 1 << 32;

pub fn run(table: &Table) -> Result<u64, String> {
    Ok(counts(table)? + texts(table)? + keys()?)
}

/// 14: over 4,294,967,295 ends, before 36, of which the first end is a case; one less is not too many.
fn counts(table: &Table) -> Result<u64, String> {
    let ends = mostly_zeros::<usize>(&[1], OVER);
    for (count, refusal) in [(OVER, [14, 1, 0]), (OVER - 1, [36, 1, 0])] {
        let many = Many { octets: &[], ends: &ends[..count] };
        for (collation, refusal) in [(1, refusal), (2, refusal), (3, refusal), (4, [1, 0, 0])] {
            let row = table.prepare_slices(collation, many, TextRooms::of(0, 0))?.row;
            expect(&format!("{count} ends of texts"), &row[..3], &refusal)?;
        }
        for first_names in [0, count, usize::MAX] {
            let answer = match_slices(many, first_names, KeyRooms::of(0, 0))?.answer;
            expect(&format!("{count} ends of keys"), &answer[..3], &refusal)?;
        }
    }
    Ok(14)
}

/// A text of 3 octets, and one whose length is 3 in 32 bits.
fn texts(table: &Table) -> Result<u64, String> {
    let many = Many { octets: mostly_zeros(&[], OVER + 6), ends: &[3, OVER + 6] };
    for collation in 1..=3 {
        let row = table.prepare_slices(collation, many, TextRooms::of(6, 2))?.row;
        expect("a text of over 32 bits", row, [2, 1, 1, 0])?;
    }
    Ok(3)
}

/// Three octets, very many, and three again; the length of the long key is 0 or 3 in 32 bits.
fn keys() -> Result<u64, String> {
    let octets = mostly_zeros(&[], OVER + 9);
    for long in [OVER, OVER + 3] {
        let many = Many { octets, ends: &[3, 3 + long, 6 + long] };
        let matched = match_slices(many, 1, KeyRooms::of(3, 1))?;
        expect("a key of over 32 bits", matched.answer, [0, 0, 0, 1, 1])?;
        expect("a key of over 32 bits", matched.row, vec![1, 3, 2])?;
        expect("a key of over 32 bits", matched.repeats, vec![1, 0, 0])?;
        expect("a key of over 32 bits", matched.partners, vec![2])?;
    }
    Ok(2)
}
