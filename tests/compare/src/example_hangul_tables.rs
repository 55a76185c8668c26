//! Part 1, Hangul: tables that make syllables deep, long or endless, and tables with entries for them.

use crate::both::Table;
use crate::examples::{expect, table_of};
use crate::made::{lay_out, Mappings};

/// The first and the last part of each of the three rows: leading consonants, vowels, trailing consonants.
const ROWS: [[u32; 2]; 3] = [[0x1100, 0x1112], [0x1161, 0x1175], [0x11A8, 0x11C2]];

/// Code points next to the rows, which are no part of a syllable.
const BESIDE: [u32; 6] = [0x10FF, 0x1113, 0x1160, 0x1176, 0x11A7, 0x11C3];

/// What a table is, its mappings, and the answer to its check.
pub type Hostile = (String, Mappings, [u64; 3]);

pub fn run() -> Result<u64, String> {
    let tables = tables();
    for (what, mappings, row) in &tables {
        let (entries, pool) = lay_out(mappings);
        expect(what, Table::new(entries, pool)?.row(), *row)?;
    }
    Ok(tables.len() as u64 + entries_for_syllables()? + at_the_limits()?)
}

/// The tables whose fault, if they have one, is 7.
pub fn tables() -> Vec<Hostile> {
    [sizes(), sums(), levels(), in_entries(), cycles()].concat()
}

fn parts_of(code_point: u32, parts: &[u32]) -> (u32, (Option<u32>, Vec<u32>)) {
    (code_point, (None, parts.to_vec()))
}

/// So many plain letters.
fn plain(code_point: u32, count: usize) -> (u32, (Option<u32>, Vec<u32>)) {
    parts_of(code_point, &vec![0x62; count])
}

/// A part of 29 to 32 code points: there are syllables that have two more. Beside the rows no syllable grows.
fn sizes() -> Vec<Hostile> {
    let mut tables = Vec::new();
    for part in ROWS.concat() {
        for (size, row) in [(29, [0, 0, 0]), (30, [0, 0, 0]), (31, [7, 0, 1]), (32, [7, 0, 1])] {
            tables.push((format!("{part:04X} into {size}"), Mappings::from([plain(part, size)]), row));
        }
        // Through two levels: 32 in full are too many for a syllable, 33 for the entry itself.
        let through = Mappings::from([parts_of(0x61, &[0x62, 0x62]), parts_of(part, &[0x61; 16]), plain(0xFB01, 2)]);
        tables.push((format!("{part:04X} into 16 times 2"), through.clone(), [7, 0, 3]));
        let mut over = through;
        over.insert(part, (None, [&[0x61; 16][..], &[0x62]].concat()));
        tables.push((format!("{part:04X} into 33"), over, [7, 0, 1]));
    }
    for code_point in BESIDE {
        tables.push((format!("{code_point:04X} into 32"), Mappings::from([plain(code_point, 32)]), [0, 0, 0]));
    }
    tables
}

/// The sizes of three parts add up to 32 and to 33, at both ends of the rows and across them.
fn sums() -> Vec<Hostile> {
    let [leading, vowels, trailing] = ROWS;
    let mut tables = Vec::new();
    for first in leading {
        for vowel in vowels {
            for last in trailing {
                for (sizes, row) in [([10, 11, 11], [0, 0, 0]), ([10, 11, 12], [7, 0, 3]), ([12, 10, 11], [7, 0, 3])] {
                    let mappings = Mappings::from([plain(first, sizes[0]), plain(vowel, sizes[1]), plain(last, sizes[2])]);
                    tables.push((format!("{first:04X}, {vowel:04X}, {last:04X} into {sizes:?}"), mappings, row));
                }
            }
        }
    }
    // Two rows alone: syllables without a third part have these sizes, and those with one have one more.
    let pairs = [
        ([0x1105, 0x1166], [15, 16], [0, 0, 0]),
        ([0x1105, 0x1166], [16, 16], [7, 0, 2]),
        ([0x1105, 0x1166], [16, 17], [7, 0, 2]),
        ([0x1166, 0x11B0], [16, 15], [0, 0, 0]),
        ([0x1166, 0x11B0], [16, 16], [7, 0, 2]),
    ];
    for ([one, other], sizes, row) in pairs {
        let mappings = Mappings::from([plain(one, sizes[0]), plain(other, sizes[1])]);
        tables.push((format!("{one:04X}, {other:04X} into {sizes:?}"), mappings, row));
    }
    // Two of one row never stand in one syllable.
    tables.push(("1100 and 1112 into 20".to_string(), Mappings::from([plain(0x1100, 20), plain(0x1112, 20)]), [0, 0, 0]));
    tables
}

/// A chain that ends at a code point, which then has this level; one entry comes after all that matter here.
fn chain(top: u32, levels: u32) -> Mappings {
    let mut mappings = Mappings::from([plain(0xFB01, 2)]);
    for level in 1..levels {
        mappings.extend([parts_of(0x100 + level, &[0x100 + level - 1])]);
    }
    mappings.extend([parts_of(top, &[0x100 + levels - 1])]);
    mappings
}

/// A part of level 6, 7, 8 and 9; and levels that pass through a syllable. "Level 1 unless a part decomposes."
fn levels() -> Vec<Hostile> {
    let mut tables = Vec::new();
    for part in ROWS.concat() {
        for (levels, row) in [(6, [0, 0, 0]), (7, [0, 0, 0]), (8, [7, 0, 9]), (9, [7, 0, 8])] {
            tables.push((format!("{part:04X} of level {levels}"), chain(part, levels), row));
        }
    }
    for code_point in BESIDE {
        tables.push((format!("{code_point:04X} of level 8"), chain(code_point, 8), [0, 0, 0]));
    }
    // 11A8 into AC00, whose 1100 has a level: AC01 has three more.
    for (levels, row) in [(5, [0, 0, 0]), (6, [7, 0, 8]), (7, [7, 0, 7])] {
        let mut mappings = chain(0x1100, levels);
        mappings.extend([parts_of(0x11A8, &[0xAC00])]);
        tables.push((format!("11A8 into AC00, 1100 of level {levels}"), mappings, row));
    }
    tables
}

/// An entry that is at fault because of a syllable is the entry's fault; one whose titlecase is such a syllable is in no fault.
fn in_entries() -> Vec<Hostile> {
    let mut tables = Vec::new();
    for (levels, row) in [(6, [0, 0, 0]), (7, [7, 0, 0]), (8, [7, 0, 0])] {
        let mut mappings = chain(0x1100, levels);
        mappings.extend([parts_of(0x41, &[0xAC00])]);
        tables.push((format!("0041 into AC00, 1100 of level {levels}"), mappings, row));
    }
    let mut titled = chain(0x1100, 8);
    titled.insert(0x41, (Some(0xAC00), vec![]));
    tables.push(("a titlecase AC00, 1100 of level 8".to_string(), titled, [7, 0, 10]));
    let full = [&[0xAC01; 10][..], &[0xAC00]].concat();
    tables.push(("syllables of 32".to_string(), Mappings::from([plain(0x40, 1), parts_of(0x41, &full)]), [0, 0, 0]));
    tables.push(("syllables of 33".to_string(), Mappings::from([plain(0x40, 1), parts_of(0x41, &[0xAC01; 11])]), [7, 0, 1]));
    // A part into syllables of other parts: 1112 into two of three is 6, and 1161 into 8 of two is 16.
    let grown = Mappings::from([parts_of(0x1112, &[0xAC1D, 0xAC1D]), parts_of(0x1161, &[0xAC1C; 8]), plain(0x11C2, 10)]);
    tables.push(("1112 into 6, 1161 into 16, 11C2 into 10".to_string(), grown.clone(), [0, 0, 0]));
    let mut over = grown;
    over.extend([plain(0x11C2, 11)]);
    tables.push(("1112 into 6, 1161 into 16, 11C2 into 11".to_string(), over, [7, 0, 3]));
    tables
}

/// Cycles through a syllable, which are an entry's: that of the jamo, or of one that leads into the cycle before it.
fn cycles() -> Vec<Hostile> {
    let rows = [
        (vec![(0x1100, 0xAC00)], [7, 0, 0]),
        (vec![(0x1112, 0xD7A3)], [7, 0, 0]),
        (vec![(0x1161, 0xAC00)], [7, 0, 0]),
        (vec![(0x1175, 0xD7A3)], [7, 0, 0]),
        (vec![(0x11A8, 0xAC01)], [7, 0, 0]),
        (vec![(0x11C2, 0xD7A3)], [7, 0, 0]),
        // AC00 has no trailing consonant, AE4C another leading one, AC1C another vowel.
        (vec![(0x11A8, 0xAC00)], [0, 0, 0]),
        (vec![(0x1100, 0xAE4C)], [0, 0, 0]),
        (vec![(0x1161, 0xAC1C)], [0, 0, 0]),
        (vec![(0x11A7, 0xAC00)], [0, 0, 0]),
        // Through two syllables: 1100 into 1101 1161, 1101 into 1100 1161.
        (vec![(0x1100, 0xAE4C), (0x1101, 0xAC00)], [7, 0, 0]),
        (vec![(0x1161, 0xAC1C), (0x11A8, 0xAC01)], [7, 0, 1]),
        (vec![(0x41, 0xAC01), (0x11A8, 0xAC01)], [7, 0, 0]),
        (vec![(0x41, 0xAC00), (0x11A8, 0xAC01)], [7, 0, 1]),
        (vec![(0x41, 0x1100), (0x1100, 0xAC00)], [7, 0, 0]),
    ];
    let table = |(into, row): (Vec<(u32, u32)>, [u64; 3])| {
        let mappings = into.iter().map(|&(code_point, part)| parts_of(code_point, &[part])).collect();
        (format!("{into:04X?}"), mappings, row)
    };
    rows.into_iter().map(table).collect()
}

/// "An entry for a code point in that range is now a fault under 4", whatever it says, in the one search for the lowest; ABFF and
/// D7A4 are outside.
fn entries_for_syllables() -> Result<u64, String> {
    let tables: [(&str, Vec<u32>, Vec<u32>, [u64; 3]); 16] = [
        ("AC00 with a titlecase", vec![0xAC00, 0x41, 0, 0], vec![], [4, 0, 0]),
        ("AC00 with parts", vec![0xAC00, 0xAC00, 0, 1], vec![0x41], [4, 0, 0]),
        ("AC00 with its own parts", vec![0xAC00, 0xAC00, 0, 2], vec![0x1100, 0x1161], [4, 0, 0]),
        ("D7A3", vec![0xD7A3, 0x41, 0, 0], vec![], [4, 0, 0]),
        ("a syllable between", vec![0x41, 0x42, 0, 0, 0xC000, 0x41, 0, 0, 0xFB01, 0x41, 0, 0], vec![], [4, 0, 1]),
        ("ABFF", vec![0xABFF, 0x41, 0, 0], vec![], [0, 0, 0]),
        ("D7A4", vec![0xD7A4, 0xD7A4, 0, 1], vec![0x41], [0, 0, 0]),
        ("ABFF, AC00", vec![0xABFF, 0x41, 0, 0, 0xAC00, 0x41, 0, 0], vec![], [4, 0, 1]),
        ("D7A3, D7A4", vec![0xD7A3, 0x41, 0, 0, 0xD7A4, 0x41, 0, 0], vec![], [4, 0, 0]),
        ("AC00 behind a surrogate", vec![0x41, 0xD800, 0, 0, 0xAC00, 0x41, 0, 0], vec![], [4, 0, 0]),
        ("AC00 before a surrogate", vec![0xAC00, 0x41, 0, 0, 0xD800, 0x41, 0, 0], vec![], [4, 0, 0]),
        ("AC00 that says nothing", vec![0xAC00, 0xAC00, 0, 0], vec![], [4, 0, 0]),
        ("AC00 behind 5", vec![0x41, 0x41, 0, 0, 0xAC00, 0x41, 0, 0], vec![], [4, 0, 1]),
        ("AC00 and 3", vec![0xAC00, 0x41, 0, 0, 0xAC01], vec![], [3, 0, 0]),
        ("1100 into 33 parts", vec![0x1100, 0x1100, 0, 33], vec![0x62; 33], [5, 0, 0]),
        ("AC00 and 6", vec![0xAC00, 0x41, 0, 1], vec![0xD800], [4, 0, 0]),
    ];
    let cases = tables.len() as u64;
    for (what, entries, pool, row) in tables {
        expect(what, Table::new(entries, pool)?.row(), row)?;
    }
    Ok(cases)
}

/// The most lookups and octets that a syllable can take: a part of level 7 has 30 code points of four octets.
fn at_the_limits() -> Result<u64, String> {
    let mut mappings: Mappings = (1..=6).map(|level| parts_of(0x10000 + level, &[0x10000 + level - 1])).collect();
    mappings.extend([parts_of(0x1112, &[0x10006; 30])]);
    let (entries, pool) = lay_out(&mappings);
    let table = Table::new(entries, pool)?;
    // The titlecase, the syllable, 1112, 30 chains of 7 asks, 1175 and 11C2.
    let answer = table.prepare(false, 3, "\u{D7A3}".as_bytes(), 128)?;
    expect("a syllable of 8 levels and 32 code points", answer.row, [0, 0, 0, 1, 215, 126, 1])?;
    let one_less = table.prepare(false, 3, "\u{D7A3}".as_bytes(), 125)?;
    expect("a buffer of one less", one_less.row, [8, 1, 126, 0, 0, 0, 0])?;
    // A refused table is so for every text under 3 alone, also where no syllable comes up.
    let refused = table_of(&[(0x1100, None, &[0x62; 31])])?;
    expect("a text over a faulty syllable", refused.prepare(false, 3, b"x", 4)?.row, [7, 0, 1, 0, 0, 0, 0])?;
    expect("the same under 2", refused.prepare(false, 2, b"x", 4)?.row, [0, 0, 0, 1, 0, 1, 1])?;
    Ok(4)
}
