//! Random lines of UnicodeData.txt, published ones and made ones, changed in every field; and states of the builder.

use crate::random::Random;
use second::unicode_data::State;

/// What may stand in field 0, 12 or 14, well formed or not.
const CODE_POINTS: [&str; 34] = [
    "0041", "041", "41", "00041", "000041", "010000", "10000", "10FFFF", "110000", "0FFFF", "FFFFF", "D7FF", "D800", "DBFF",
    "DFFF", "E000", "00e9", "00G1", "0041 ", " 0041", "1000000", "FFFFFF", "FFFFFFFF", "+041", "0x41", "004:", "00@1", "0000",
    "FFFF", "ABFF", "AC00", "D7A3", "D7A4", "",
];

/// What may stand in field 5.
const DECOMPOSITIONS: [&str; 33] = [
    "<compat> 0041",
    "<compat>0041",
    "<compat>  0041",
    "<> 0041",
    "<compat>",
    "<compat> ",
    "<c1> 0041",
    "< compat> 0041",
    "<compat> 0041 ",
    "0041  0042",
    " 0041",
    "0041 ",
    "0041 0042",
    "0041\t0042",
    "<noBreak> D800",
    "<compat> <font> 0041",
    "compat> 0041",
    "<compat 0041",
    "D7FF E000",
    "0041 110000",
    "00041",
    "<AZaz> 10FFFF",
    "<[> 0041",
    "<`> 0041",
    "<@> 0041",
    "<{> 0041",
    "0041 DFFF",
    "0041 00e9",
    "AC00 11A8",
    " ",
    "<",
    "<a>",
    "",
];

/// The published lines, and which of them have a mapping.
pub struct Published<'a> {
    pub lines: Vec<&'a [u8]>,
    pub mapped: Vec<usize>,
}

impl<'a> Published<'a> {
    pub fn new(lines: Vec<&'a [u8]>) -> Published<'a> {
        let has_mapping = |line: &[u8]| {
            let fields = fields_of(line);
            fields.len() == 15 && (!fields[5].is_empty() || !fields[14].is_empty())
        };
        let mapped = (0..lines.len()).filter(|&index| has_mapping(lines[index])).collect();
        Published { lines, mapped }
    }

    /// A published line, more often than not one with a mapping.
    fn pick(&self, random: &mut Random) -> Vec<u8> {
        let index = if random.one_in(4) { random.below(self.lines.len()) } else { random.pick(&self.mapped) };
        self.line(random, index)
    }

    /// The line of that index, one time in two as a partner writes it.
    pub fn line(&self, random: &mut Random, index: usize) -> Vec<u8> {
        let line = self.lines[index];
        let partner = if random.one_in(2) { emptied(line) } else { None };
        partner.unwrap_or(line.to_vec())
    }
}

fn fields_of(line: &[u8]) -> Vec<&[u8]> {
    line.split(|&octet| octet == b';').collect()
}

/// The line as a partner writes it, with field 14 empty, if that equals field 12, the uppercase.
pub fn emptied(line: &[u8]) -> Option<Vec<u8>> {
    let mut fields = fields_of(line);
    if fields.len() != 15 || fields[14].is_empty() || fields[14] != fields[12] {
        return None;
    }
    fields[14] = b"";
    Some(fields.join(&b';'))
}

/// The line without a titlecase: with fields 12 and 14 empty.
pub fn untitled(line: &[u8]) -> Vec<u8> {
    let mut fields = fields_of(line);
    for number in [12, 14] {
        if let Some(field) = fields.get_mut(number) {
            *field = b"";
        }
    }
    fields.join(&b';')
}

/// A line: published or made, and changed in up to three places.
pub fn line(random: &mut Random, published: &Published) -> Vec<u8> {
    let mut line = if random.one_in(3) { made(random) } else { published.pick(random) };
    for _ in 0..random.pick(&[0, 0, 0, 1, 1, 2, 3]) {
        change(random, &mut line);
    }
    line
}

/// A well-formed line of our own.
fn made(random: &mut Random) -> Vec<u8> {
    let code_point = random.pick(&[0x41, 0xE9, 0x1C4, 0xAC00, 0xD7A3, 0xD800, 0xDFFF, 0xE000, 0xFFFF, 0x10000, 0x10FFFF]);
    let itself = format!("{code_point:04X}");
    let parts = match random.below(4) {
        0 => String::new(),
        1 => parts(random.between(1, 4)),
        2 => parts(random.between(30, 32)),
        _ => format!("<compat> {}", parts(random.between(1, 32))),
    };
    let uppercase = random.pick(&["", "0042", "DFFF", "10FFFE", itself.as_str()]);
    let titlecase = random.pick(&["", "0041", "D800", "10FFFF", itself.as_str()]);
    format!("{itself};MADE;Lu;0;L;{parts};;;;N;;;{uppercase};;{titlecase}").into_bytes()
}

fn parts(count: usize) -> String {
    let parts: Vec<String> = (0..count).map(|index| format!("{:04X}", 0x61 + index)).collect();
    parts.join(" ")
}

/// Changes a line in one place.
pub fn change(random: &mut Random, line: &mut Vec<u8>) {
    match random.below(11) {
        0 => set_field(line, 0, random.pick(&CODE_POINTS)),
        1 => set_field(line, 14, random.pick(&CODE_POINTS)),
        2 => set_field(line, 12, random.pick(&CODE_POINTS)),
        3 => set_field(line, 14, ""),
        4 => set_field(line, 5, random.pick(&DECOMPOSITIONS)),
        5 => set_field(line, 5, &parts(random.pick(&[31, 32, 33, 34]))),
        6 => set_field(line, 5, &format!("<font> {}", parts(random.pick(&[31, 32, 33])))),
        7 => change_octet(random, line),
        8 => change_semicolons(random, line),
        9 => line.extend(random.pick(&[&b"\r"[..], b" ", b";", b"0"])),
        _ => pad(line, random.pick(&[511, 512, 513, 600])),
    }
}

/// Puts something in place of a field, if the line has it.
fn set_field(line: &mut Vec<u8>, field: usize, content: &str) {
    let mut fields = fields_of(line);
    if field < fields.len() {
        fields[field] = content.as_bytes();
        *line = fields.join(&b';');
    }
}

fn change_octet(random: &mut Random, line: &mut Vec<u8>) {
    if line.is_empty() {
        return;
    }
    let at = random.below(line.len());
    match random.below(4) {
        0 => drop(line.remove(at)),
        1 => line.insert(at, random.pick(b"0 ;AFafGZ<>\t\xFF")),
        2 => line[at] = random.pick(b"0 ;AFafGZ<>\t\xFF"),
        _ => line[at] = line[at].to_ascii_lowercase(),
    }
}

fn change_semicolons(random: &mut Random, line: &mut Vec<u8>) {
    let places: Vec<usize> = (0..line.len()).filter(|&at| line[at] == b';').collect();
    if places.is_empty() {
        return;
    }
    let at = random.pick(&places);
    match random.below(3) {
        0 => line.insert(at, b';'),
        1 => drop(line.remove(at)),
        _ => line.truncate(at),
    }
}

/// Makes field 1 so long that the line has this length.
fn pad(line: &mut Vec<u8>, length: usize) {
    if let Some(semicolon) = line.iter().position(|&octet| octet == b';') {
        let more = length.saturating_sub(line.len());
        line.splice(semicolon + 1..semicolon + 1, vec![b'X'; more]);
    }
}

/// The lengths of the two slices, and a state: fresh, likely, at an edge, or impossible.
pub fn state(random: &mut Random, line: &[u8]) -> (usize, usize, State) {
    let large = random.one_in(40);
    let entries_length = if large { random.pick(&[65_535, 65_536, 65_540, 65_543]) } else { random.below(21) };
    let pool_length = if large { random.pick(&[65_535, 65_536, 65_537, 65_600]) } else { random.below(70) };
    let entries_used = used(random, entries_length / 4);
    let pool_used = used(random, pool_length);
    (entries_length, pool_length, State { entries_used, pool_used, next: next(random, line) })
}

fn used(random: &mut Random, held: usize) -> u64 {
    let held = held as u64;
    match random.below(16) {
        0..=3 => 0,
        4..=6 => random.next() % (held + 1),
        7..=8 => held.saturating_sub(1),
        9 => held.saturating_sub(random.between(2, 33) as u64),
        10..=11 => held,
        12 => held + 1,
        13 => random.pick(&[16_384, 16_385, 65_536, 65_537]),
        14 => random.pick(&[u64::MAX, 1 << 32, 1 << 63, u64::MAX / 4 + 1]),
        _ => held.min(16_383),
    }
}

/// The third number of a state: around the line's own code point, or around 110000 hex.
fn next(random: &mut Random, line: &[u8]) -> u64 {
    let digits: Vec<u8> = line.iter().copied().take_while(u8::is_ascii_hexdigit).take(7).collect();
    let own = String::from_utf8(digits).ok().and_then(|digits| u64::from_str_radix(&digits, 16).ok()).unwrap_or(0);
    match random.below(10) {
        0..=3 => 0,
        4 => own,
        5 => own + 1,
        6 => own.saturating_sub(1),
        7 => random.pick(&[0x10FFFF, 0x110000]),
        8 => random.pick(&[0x110000, 0x110001, 1 << 32, u64::MAX]),
        _ => random.next() % 0x110001,
    }
}
