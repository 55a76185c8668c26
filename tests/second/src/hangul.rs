//! Hangul syllables, which decompose by rule: "for AC00 to D7A3, with s the distance from AC00, the parts are 1100 + s/588,
//! 1161 + (s mod 588)/28 and, if s mod 28 isn't 0, 11A7 + s mod 28". The names are those of the Unicode Standard, section 3.12.

use std::ops::Range;

pub const S_BASE: u32 = 0xAC00;
pub const L_BASE: u32 = 0x1100;
pub const V_BASE: u32 = 0x1161;
/// One below the first trailing consonant: a syllable without one has index 0.
pub const T_BASE: u32 = 0x11A7;

pub const L_COUNT: u32 = 19;
pub const V_COUNT: u32 = 21;
pub const T_COUNT: u32 = 28;
pub const N_COUNT: u32 = V_COUNT * T_COUNT;
pub const S_COUNT: u32 = L_COUNT * N_COUNT;

pub const SYLLABLES: Range<u32> = S_BASE..S_BASE + S_COUNT;
pub const LEADING: Range<u32> = L_BASE..L_BASE + L_COUNT;
pub const VOWELS: Range<u32> = V_BASE..V_BASE + V_COUNT;
pub const TRAILING: Range<u32> = T_BASE + 1..T_BASE + T_COUNT;

pub fn is_syllable(code_point: u32) -> bool {
    SYLLABLES.contains(&code_point)
}

/// The two or three parts of a syllable.
pub fn parts(syllable: u32) -> Vec<u32> {
    let s = syllable - S_BASE;
    let mut parts = vec![L_BASE + s / N_COUNT, V_BASE + s % N_COUNT / T_COUNT];
    if s % T_COUNT != 0 {
        parts.push(T_BASE + s % T_COUNT);
    }
    parts
}
