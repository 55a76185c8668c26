//! Hangul in random tables and texts.

use crate::made::Mappings;
use crate::random::Random;

/// Parts at the ends of the three rows and next to them, and code points beside the rows, which are no parts.
const JAMO: [u32; 15] =
    [0x1100, 0x1101, 0x1112, 0x1161, 0x1162, 0x1175, 0x11A8, 0x11A9, 0x11C2, 0x1100, 0x1161, 0x11A8, 0x1113, 0x11A7, 0x11C3];

/// Syllables at the ends of the range, and code points beside it.
pub const EDGES: [u32; 6] = [0xABFF, 0xAC00, 0xAC01, 0xD7A2, 0xD7A3, 0xD7A4];

/// A syllable; mostly one of the parts that `JAMO` has, so that a table with entries for those says something of it.
pub fn syllable(random: &mut Random) -> u32 {
    let (l, v, t) = match random.below(4) {
        0 => (random.below(19), random.below(21), random.below(28)),
        _ => (random.pick(&[0, 0, 1, 18]), random.pick(&[0, 0, 1, 20]), random.pick(&[0, 0, 1, 1, 2, 27])),
    };
    0xAC00 + ((l * 21 + v) * 28 + t) as u32
}

/// A syllable, a part of one, or a code point beside them.
pub fn letter(random: &mut Random) -> u32 {
    match random.below(5) {
        0..=2 => syllable(random),
        3 => random.pick(&JAMO),
        _ => random.pick(&EDGES),
    }
}

/// Whether a code point is a jamo, of any kind.
pub fn is_jamo(code_point: u32) -> bool {
    (0x1100..=0x11FF).contains(&code_point)
}

/// The same table with up to four of its letters made jamo, so that those have its levels and sizes; and then perhaps with
/// syllables in places where they may stand, or where they may not.
pub fn make_korean(random: &mut Random, mappings: Mappings) -> Mappings {
    let mut mappings = mappings;
    for _ in 0..random.between(1, 4) {
        let letters: Vec<u32> = mappings.keys().copied().collect();
        if !letters.is_empty() {
            mappings = renamed(mappings, random.pick(&letters), random.pick(&JAMO));
        }
    }
    for _ in 0..random.pick(&[0, 0, 1, 1, 2]) {
        put_syllable(random, &mut mappings);
    }
    mappings
}

/// The same table with one letter written as another, if that isn't there yet.
fn renamed(mappings: Mappings, from: u32, to: u32) -> Mappings {
    if mappings.contains_key(&to) {
        return mappings;
    }
    let name = |letter: u32| if letter == from { to } else { letter };
    let row = |(letter, (titlecase, parts)): (u32, (Option<u32>, Vec<u32>))| {
        (name(letter), (titlecase.map(name), parts.into_iter().map(name).collect()))
    };
    mappings.into_iter().map(row).collect()
}

/// Some part or titlecase becomes a syllable; now and then there is an entry for one.
fn put_syllable(random: &mut Random, mappings: &mut Mappings) {
    let letters: Vec<u32> = mappings.keys().copied().collect();
    if letters.is_empty() || random.one_in(10) {
        mappings.insert(random.pick(&EDGES), (Some(0x41), vec![]));
        return;
    }
    let Some((titlecase, parts)) = mappings.get_mut(&random.pick(&letters)) else { return };
    if parts.is_empty() || random.one_in(3) {
        *titlecase = Some(syllable(random));
    } else {
        let at = random.below(parts.len());
        parts[at] = syllable(random);
    }
}
