//! Faults put into tables: at the first entry, at the last, or anywhere; one for each thing that 3 to 7 look for.

use crate::korean::EDGES;
use crate::random::Random;
use crate::tables::Slices;

const NOT_SCALAR: [u32; 6] = [0xD800, 0xDBFF, 0xDFFF, 0x110000, 0x7FFF_FFFF, u32::MAX];

/// Puts up to three faults into a table.
pub fn spoil(random: &mut Random, slices: &mut Slices) {
    for _ in 0..random.between(1, 3) {
        match random.below(8) {
            0 => spoil_lengths(random, slices),
            1..=2 => spoil_code_point(random, slices),
            3..=5 => spoil_place(random, slices),
            6 => spoil_pool(random, slices),
            _ => point_at_entry(random, slices),
        }
    }
}

/// An index below a length: the first, the last, or any.
fn place(random: &mut Random, length: usize) -> usize {
    match random.below(4) {
        0 => 0,
        1 => length - 1,
        _ => random.below(length),
    }
}

/// 3, and 5 for a pool that is too long or too short.
fn spoil_lengths(random: &mut Random, (entries, pool): &mut Slices) {
    match random.below(4) {
        0 => entries.extend(vec![0x41; random.between(1, 3)]),
        1 => entries.truncate(entries.len().saturating_sub(random.between(1, 5))),
        2 => pool.push(random.pick(&[0x41, 0xD800])),
        _ => pool.truncate(pool.len().saturating_sub(1)),
    }
}

/// 4: a code point or titlecase that isn't scalar, an entry for a syllable, or code points that don't ascend.
fn spoil_code_point(random: &mut Random, (entries, _): &mut Slices) {
    if entries.len() < 4 {
        return;
    }
    let row = 4 * place(random, entries.len() / 4);
    match random.below(5) {
        0 => entries[row] = random.pick(&NOT_SCALAR),
        1 => entries[row + 1] = random.pick(&NOT_SCALAR),
        2 => entries[row] = random.pick(&EDGES),
        3 if row >= 4 => entries[row] = entries[row - 4],
        4 if row >= 4 => entries.swap(row, row - 4),
        _ => entries[row] = entries[row].wrapping_sub(1),
    }
}

/// 5: counts, starts, and entries that say nothing.
fn spoil_place(random: &mut Random, (entries, pool): &mut Slices) {
    if entries.len() < 4 {
        return;
    }
    let row = 4 * place(random, entries.len() / 4);
    match random.below(9) {
        0 => entries[row + 3] = random.pick(&[31, 32, 33, 64, u32::MAX]),
        1 => entries[row + 3] = entries[row + 3].wrapping_add(1),
        2 => entries[row + 3] = entries[row + 3].wrapping_sub(1),
        3 => entries[row + 2] = entries[row + 2].wrapping_add(1),
        4 => entries[row + 2] = random.pick(&[0, 1, pool.len() as u32, 1 << 31, u32::MAX]),
        5 => entries[row + 2] = u32::MAX.wrapping_sub(entries[row + 3]).wrapping_add(1),
        6 => entries[row + 1] = entries[row],
        7 => widen(random, entries, pool, row),
        _ => say_nothing(entries, pool, row),
    }
}

/// Gives an entry 33 parts (or just 32) and moves all later starts, so that nothing but the count can be at fault.
fn widen(random: &mut Random, entries: &mut [u32], pool: &mut Vec<u32>, row: usize) {
    let (start, count) = (entries[row + 2] as usize, entries[row + 3] as usize);
    if start + count > pool.len() || count > 32 {
        return;
    }
    let more = random.pick(&[32, 33]) - count;
    for _ in 0..more {
        pool.insert(start, 0x61);
    }
    entries[row + 3] += more as u32;
    for later in entries[row + 4..].chunks_exact_mut(4) {
        later[2] = later[2].wrapping_add(more as u32);
    }
}

/// Takes an entry's parts and titlecase and moves all later starts, so that nothing but its silence can be at fault.
fn say_nothing(entries: &mut [u32], pool: &mut Vec<u32>, row: usize) {
    let (start, count) = (entries[row + 2] as usize, entries[row + 3] as usize);
    if start + count > pool.len() {
        return;
    }
    pool.drain(start..start + count);
    entries[row + 1] = entries[row];
    entries[row + 3] = 0;
    for later in entries[row + 4..].chunks_exact_mut(4) {
        later[2] = later[2].wrapping_sub(count as u32);
    }
}

/// 6: a pool number that isn't scalar.
fn spoil_pool(random: &mut Random, (_, pool): &mut Slices) {
    if !pool.is_empty() {
        let index = place(random, pool.len());
        pool[index] = random.pick(&NOT_SCALAR);
    }
}

/// 7, perhaps: some part becomes some entry's code point, its own included.
fn point_at_entry(random: &mut Random, (entries, pool): &mut Slices) {
    if !pool.is_empty() && entries.len() >= 4 {
        let index = place(random, pool.len());
        pool[index] = entries[4 * place(random, entries.len() / 4)];
    }
}
