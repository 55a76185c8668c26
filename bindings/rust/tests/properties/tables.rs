//! The table for Latin, and small random ones, each built from lines.
use crate::random::Random;
use mundeziwa::{Table, TableBuilder};

/// What a line says of a code point: its titlecase and its decomposition.
pub struct Mapping {
    code: u32,
    title: u32,
    parts: Vec<u32>,
}

/// The table of the sample's lines.
pub fn latin() -> Table {
    TableBuilder::read(include_bytes!("../../../../sample/ucd.txt").as_slice()).unwrap().table().unwrap()
}

/// The table for Latin, or a random one.
pub fn some(random: &mut Random) -> Table {
    thread_local!(static LATIN: Table = latin());
    if random.one_in(2) {
        return LATIN.with(Table::clone);
    }
    loop {
        let (entries, pool) = slices(&mappings(random));
        if let Ok(table) = Table::new(entries, pool) {
            return table;
        }
    }
}

/// A code point of one of the widths, never a surrogate; now and then a Hangul syllable, or a jamo that many of them have.
pub fn code_point(random: &mut Random) -> u32 {
    match random.below(6) {
        0 => random.between(0x41, 0x5A) as u32,
        1 => random.between(0xC0, 0x17F) as u32,
        2 => random.between(0x1E00, 0x1E20) as u32,
        3 => random.pick(&[0x1100, 0x1101, 0x1161, 0x1162, 0x11A7, 0x11A8, 0x11A9]),
        4 => random.between(0xAC00, 0xAC1D) as u32,
        _ => random.between(0x1F600, 0x1F610) as u32,
    }
}

/// Whether a code point is a Hangul syllable, which no entry is for.
fn is_syllable(code: u32) -> bool {
    (0xAC00..=0xD7A3).contains(&code)
}

/// Some mappings in the order of their code points. They may decompose in a circle, too deep or too wide.
pub fn mappings(random: &mut Random) -> Vec<Mapping> {
    let mut codes: Vec<u32> = (0..random.below(12)).map(|_| code_point(random)).collect();
    codes.retain(|&code| !is_syllable(code));
    codes.sort_unstable();
    codes.dedup();
    let mut mappings = Vec::new();
    for &code in &codes {
        let title = if random.one_in(2) { code_point(random) } else { code };
        let width = random.pick(&[0, 1, 2, 2, 3, 32]);
        let parts: Vec<u32> =
            (0..width).map(|_| if random.one_in(12) { random.pick(&codes) } else { code_point(random) }).collect();
        if title != code || !parts.is_empty() {
            mappings.push(Mapping { code, title, parts });
        }
    }
    mappings
}

/// The two slices of a table that has these mappings.
pub fn slices(mappings: &[Mapping]) -> (Vec<u32>, Vec<u32>) {
    let (mut entries, mut pool) = (Vec::new(), Vec::new());
    for Mapping { code, title, parts } in mappings {
        entries.extend([*code, *title, pool.len() as u32, parts.len() as u32]);
        pool.extend(parts);
    }
    (entries, pool)
}

/// A builder that took a line for each mapping, and lines that say nothing between them.
pub fn built(random: &mut Random, mappings: &[Mapping]) -> TableBuilder {
    let mut builder = TableBuilder::new();
    for mapping in mappings {
        if random.one_in(3) && builder.last_code_point() < mapping.code.checked_sub(1) {
            builder.line(format!("{:04X};SAYS NOTHING;Lo;0;L;;;;;N;;;;;", mapping.code - 1)).unwrap();
        }
        builder.line(line(random, mapping)).unwrap();
    }
    builder
}

/// The line of a mapping.
fn line(random: &mut Random, mapping: &Mapping) -> String {
    let Mapping { code, title, parts } = mapping;
    let parts = parts.iter().map(|part| format!("{part:04X}")).collect::<Vec<_>>().join(" ");
    let tag = if parts.is_empty() { "" } else { random.pick(&["", "<compat> ", "<noBreak> "]) };
    let title = if title == code && random.one_in(2) { String::new() } else { format!("{title:04X}") };
    format!("{code:04X};A NAME;Ll;0;L;{tag}{parts};;;;N;;;;;{title}")
}
