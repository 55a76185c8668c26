//! Part 1, the table check: levels, full decompositions, each refusal from 3 to 7, and the limits.

use crate::both::Table;
use crate::examples::{expect, table_of};
use crate::made::{lay_out, Mappings};

pub fn run() -> Result<u64, String> {
    Ok(levels()? + full_decompositions()? + table_refusals()? + table_limits()?)
}

/// A chain: U+0101 is U+0100, U+0102 is U+0101 and so on, so that U+0100 + n has level n.
fn chain(levels: u32) -> Result<Table, String> {
    let mappings = (1..=levels).map(|level| (0x100 + level, (None, vec![0x100 + level - 1])));
    let (entries, pool) = lay_out(&mappings.collect());
    Table::new(entries, pool)
}

/// Chains of 8 and 9 levels, and a code point that is a part of itself.
fn levels() -> Result<u64, String> {
    let eight = chain(8)?;
    expect("a chain of 8 levels", eight.row(), [0, 0, 0])?;
    let answer = eight.prepare(false, 3, "\u{108}".as_bytes(), 4)?;
    expect("U+0108 through 8 levels", answer.row, [0, 0, 0, 1, 10, 2, 1])?;
    expect("a chain of 9 levels", chain(9)?.row(), [7, 0, 8])?;
    let itself = Table::new(vec![0x41, 0x41, 0, 1], vec![0x41])?;
    expect("0041/0041/0041", itself.row(), [7, 0, 0])?;
    let refused = itself.prepare(false, 3, b"x", 4)?;
    expect("a text over 0041/0041/0041", refused.row, [7, 0, 0, 0, 0, 0, 0])?;
    let unread = itself.prepare(false, 2, b"x", 4)?;
    expect("the same under collation 2", unread.row, [0, 0, 0, 1, 0, 1, 1])?;
    Ok(6)
}

/// 32 and 33 code points in full, and the most lookups and octets that one character can take.
fn full_decompositions() -> Result<u64, String> {
    let wide = table_of(&[(0x100, None, &[0x62; 32])])?;
    expect("32 parts", wide.row(), [0, 0, 0])?;
    let answer = wide.prepare(false, 3, "\u{100}".as_bytes(), 32)?;
    expect("32 parts", answer.row, [0, 0, 0, 1, 34, 32, 1])?;
    for (plain, row) in [(30, [0, 0, 0]), (31, [7, 0, 0])] {
        let mut parts = vec![0x101];
        parts.resize(1 + plain, 0x62);
        let table = table_of(&[(0x100, None, &parts), (0x101, None, &[0x62, 0x63])])?;
        expect("two parts and more in full", table.row(), row)?;
    }
    let mut mappings: Mappings = (1..=7).map(|level| (0x10000 + level, (None, vec![0x10000 + level - 1]))).collect();
    mappings.insert(0x61, (None, vec![0x10007; 32]));
    let (entries, pool) = lay_out(&mappings);
    let most = Table::new(entries, pool)?;
    let answer = most.prepare(false, 3, b"a", 128)?;
    expect("8 levels and 32 code points", answer.row, [0, 0, 0, 1, 258, 128, 1])?;
    // 16 parts on each of 8 levels, the highest level first: 2^32 code points in full aren't 0.
    let mappings = (0..8).map(|index| (0x100 + index, (None, vec![0x101 + index; 16])));
    let (entries, pool) = lay_out(&mappings.collect());
    expect("2^32 code points", Table::new(entries, pool)?.row(), [7, 0, 0])?;
    Ok(6)
}

/// What a table is, its entries, its pool, and the answer to its check.
type CheckedTable = (&'static str, Vec<u32>, Vec<u32>, [u64; 3]);

/// One table for each refusal from 3 to 7.
fn table_refusals() -> Result<u64, String> {
    let refusals: [CheckedTable; 13] = [
        ("an empty table", vec![], vec![], [0, 0, 0]),
        ("three numbers", vec![0x41, 0x42, 0], vec![], [3, 0, 0]),
        ("a titlecase that is a surrogate", vec![0x41, 0xD800, 0, 0], vec![], [4, 0, 0]),
        ("a code point twice", vec![0x41, 0x42, 0, 0, 0x41, 0x42, 0, 0], vec![], [4, 0, 1]),
        ("4 behind 5", vec![0x41, 0x41, 0, 0, 0x40, 0x42, 0, 0], vec![], [4, 0, 1]),
        ("a count of 33", vec![0x41, 0x41, 0, 33], vec![0x42; 33], [5, 0, 0]),
        ("a wrong start, count 0", vec![0x41, 0x42, 1, 0], vec![], [5, 0, 0]),
        ("a start that would wrap", vec![0x41, 0x41, u32::MAX, 1], vec![0x42], [5, 0, 0]),
        ("parts past the end", vec![0x41, 0x41, 0, 2], vec![0x42], [5, 0, 0]),
        ("an entry that says nothing", vec![0x40, 0x42, 0, 0, 0x41, 0x41, 0, 0], vec![], [5, 0, 1]),
        ("a longer pool", vec![0x41, 0x42, 0, 0], vec![0x43], [5, 0, 1]),
        ("a pool number that isn't scalar", vec![0x41, 0x42, 0, 2], vec![0x43, 0x110000], [6, 0, 1]),
        ("a titlecase at fault", vec![0x41, 0x42, 0, 0, 0x42, 0x42, 0, 1], vec![0x42], [7, 0, 1]),
    ];
    let cases = refusals.len() as u64;
    for (what, entries, pool, row) in refusals {
        expect(what, Table::new(entries, pool)?.row(), row)?;
    }
    Ok(cases)
}

/// The limits of 3: 16,384 entries and 65,536 pool numbers, and one more of each.
fn table_limits() -> Result<u64, String> {
    let limits: [(u32, usize, [u64; 3]); 4] =
        [(16_384, 65_536, [0, 0, 0]), (16_385, 65_536, [3, 0, 0]), (16_384, 65_537, [3, 0, 0]), (16_384, 65_535, [0, 0, 0])];
    for (entries, pool, row) in limits {
        let mut left = pool;
        let mut mappings = Mappings::new();
        for code_point in 0x100..0x100 + entries {
            let count = left.min(if code_point == 0x100 { 5 } else { 4 });
            left -= count;
            mappings.insert(code_point, (Some(0x41), vec![0x61; count]));
        }
        let (entries, pool) = lay_out(&mappings);
        expect("a table at the limits", Table::new(entries, pool)?.row(), row)?;
    }
    Ok(limits.len() as u64)
}
