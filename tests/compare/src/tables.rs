//! Random and hostile tables for part 5, before any fault is put in (see `faults`).

use crate::examples::T;
use crate::korean::make_korean;
use crate::made::{lay_out, Mappings};
use crate::random::Random;
use second::pages::PAGES;

pub type Slices = (Vec<u32>, Vec<u32>);

/// The lengths of the two page slices: mostly enough, and now and then too short.
pub fn page_lengths(random: &mut Random) -> [usize; 2] {
    [(); 2].map(|()| match random.below(24) {
        0 => random.pick(&[0, PAGES - 1]),
        1..=8 => PAGES,
        _ => PAGES + 5,
    })
}

/// A code point of one to four octets, near an edge or anywhere.
pub fn code_point(random: &mut Random) -> u32 {
    const EDGES: [u32; 12] = [0, 0x7F, 0x80, 0x7FF, 0x800, 0xD7FF, 0xE000, 0xFFFF, 0x10000, 0x10FFFF, 0x5F, 0xFFFD];
    match random.below(10) {
        0..=3 => random.between(0x41, 0x7A) as u32,
        4 => random.between(0xC0, 0x24F) as u32,
        5..=6 => random.between(0x300, 0x36F) as u32,
        7 => random.between(0xE000, 0xFFFF) as u32,
        8 => random.between(0x10000, 0x10FFFF) as u32,
        _ => random.pick(&EDGES),
    }
}

/// Different code points, in no order.
fn alphabet(random: &mut Random, size: usize) -> Vec<u32> {
    let mut letters = Vec::new();
    while letters.len() < size {
        let letter = code_point(random);
        if !letters.contains(&letter) {
            letters.push(letter);
        }
    }
    letters
}

/// A table of one of the kinds below, one in four with Hangul in it.
pub fn any(random: &mut Random) -> Slices {
    let mut mappings = match random.below(12) {
        0 => Mappings::new(),
        1 => T.iter().map(|&(letter, titlecase, parts)| (letter, (titlecase, parts.to_vec()))).collect(),
        2..=5 => layered(random),
        6 => tangled(random),
        7..=8 => chain(random),
        9..=10 => sized(random),
        _ => wide(random),
    };
    if random.one_in(4) {
        mappings = make_korean(random, mappings);
    }
    mappings.retain(|&letter, (titlecase, parts)| !parts.is_empty() || titlecase.is_some_and(|other| other != letter));
    lay_out(&mappings)
}

fn titlecase(random: &mut Random, letters: &[u32]) -> Option<u32> {
    if random.one_in(2) {
        Some(random.pick(letters))
    } else {
        None
    }
}

/// Each letter decomposes into letters before it, so that all have levels.
fn layered(random: &mut Random) -> Mappings {
    let size = random.between(2, 24);
    let letters = alphabet(random, size);
    let mut mappings = Mappings::new();
    for index in 1..letters.len() {
        let count = random.below(4);
        let parts = (0..count).map(|_| letters[random.below(index)]).collect();
        mappings.insert(letters[index], (titlecase(random, &letters), parts));
    }
    mappings
}

/// A letter decomposes into any letters, itself included.
fn tangled(random: &mut Random) -> Mappings {
    let size = random.between(1, 16);
    let letters = alphabet(random, size);
    let mut mappings = Mappings::new();
    for &letter in &letters {
        let count = if random.one_in(3) { random.between(1, 3) } else { 0 };
        let parts = (0..count).map(|_| random.pick(&letters)).collect();
        mappings.insert(letter, (titlecase(random, &letters), parts));
    }
    mappings
}

/// A chain of about 8 levels, in no order of code points, with a plain part beside the chain here and there.
fn chain(random: &mut Random) -> Mappings {
    let levels = random.pick(&[1, 7, 8, 8, 8, 9, 9, 10, 16]);
    let letters = alphabet(random, levels + 1);
    let mut mappings = Mappings::new();
    for level in 1..=levels {
        let mut parts = vec![letters[level - 1]];
        if random.one_in(3) {
            parts.insert(random.below(2), letters[0]);
        }
        mappings.insert(letters[level], (titlecase(random, &letters), parts));
    }
    mappings
}

/// A letter whose full decomposition has about 32 code points, through parts of random sizes.
fn sized(random: &mut Random) -> Mappings {
    let size = random.pick(&[16, 31, 32, 32, 32, 33, 33, 34, 63, 64]);
    let mut letters = alphabet(random, 80);
    let mut mappings = Mappings::new();
    let root = grow(random, size, &mut letters, &mut mappings);
    mappings.insert(letters[0], (Some(root), vec![]));
    mappings
}

/// A letter whose full decomposition has this size.
fn grow(random: &mut Random, size: usize, letters: &mut Vec<u32>, mappings: &mut Mappings) -> u32 {
    let letter = letters.pop().expect("more letters than parts");
    if size == 1 {
        return letter;
    }
    let split = random.between(2, 4).min(size);
    let parts = if size <= 32 && random.one_in(3) {
        vec![letters[0]; size]
    } else {
        // Equal shares, and the rest to the first.
        let share = size / split;
        let sizes = (0..split).map(|index| if index == 0 { size - share * (split - 1) } else { share });
        sizes.map(|part| if part == 1 { letters[1] } else { grow(random, part, letters, mappings) }).collect()
    };
    mappings.insert(letter, (None, parts));
    letter
}

/// The same number of parts on each of many levels: 16 on each of 8 levels are 2^32 code points in full.
fn wide(random: &mut Random) -> Mappings {
    const SHAPES: [(usize, usize); 10] =
        [(8, 16), (8, 16), (5, 2), (6, 2), (1, 32), (2, 32), (7, 32), (8, 32), (16, 16), (30, 32)];
    let (levels, width) = random.pick(&SHAPES);
    let letters = alphabet(random, levels + 1);
    (1..=levels).map(|level| (letters[level], (None, vec![letters[level - 1]; width]))).collect()
}

/// A table about as large as one may be: 16,384 entries, 65,536 pool numbers. All jamo have entries in it.
pub fn at_the_limits(random: &mut Random) -> Slices {
    const FIRST: u32 = 0x100;
    let size = random.pick(&[16_383, 16_384, 16_384, 16_385]);
    let pool_size = random.pick(&[size, 65_535, 65_536, 65_536, 65_537]);
    let shape = random.below(5);
    let levels = random.pick(&[7, 8]);
    let mut mappings = Mappings::new();
    let mut left: usize = pool_size;
    for index in 0..size {
        let letter = FIRST + index as u32;
        let entries_left = size - index;
        let count = if entries_left == 1 { left.min(32) } else { left.div_ceil(entries_left) };
        left -= count;
        let part = match shape {
            0 => 0x61,
            1 => letter - 1,
            2 => letter + 1,
            3 => FIRST + random.below(size) as u32,
            _ if index % levels == 0 => 0x61,
            _ => letter - 1,
        };
        mappings.insert(letter, (Some(0x41), vec![part; count]));
    }
    lay_out(&mappings)
}
