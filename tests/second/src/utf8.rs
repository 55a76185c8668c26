//! UTF-8 by RFC 3629: "no overlong form, no surrogate, nothing above U+10FFFF, nothing cut off".

/// One character of a text: its code point, and where it starts and ends there.
#[derive(Clone, Copy, Debug, PartialEq, Eq)]
pub struct Character {
    pub code_point: u32,
    pub start: usize,
    pub end: usize,
}

/// The characters of a text, or `None` if it isn't valid.
pub fn decode(text: &[u8]) -> Option<Vec<Character>> {
    let mut characters = Vec::new();
    let mut at = 0;
    while at < text.len() {
        let character = decode_one(text, at)?;
        characters.push(character);
        at = character.end;
    }
    Some(characters)
}

/// The character that starts at an octet, if one does.
fn decode_one(text: &[u8], start: usize) -> Option<Character> {
    let lead = text[start];
    let (octets, lead_bits) = shape(lead)?;
    let end = start + octets;
    let mut code_point = lead_bits;
    for &tail in text.get(start + 1..end)? {
        if tail & 0xC0 != 0x80 {
            return None;
        }
        code_point = code_point << 6 | u32::from(tail & 0x3F);
    }
    let overlong = octets != length(code_point);
    if overlong || !is_encodable(code_point) {
        return None;
    }
    Some(Character { code_point, start, end })
}

/// How many octets a lead octet announces, and the bits it brings (RFC 3629, section 3, the table of four rows).
fn shape(lead: u8) -> Option<(usize, u32)> {
    match lead {
        0x00..=0x7F => Some((1, u32::from(lead))),
        0xC0..=0xDF => Some((2, u32::from(lead & 0x1F))),
        0xE0..=0xEF => Some((3, u32::from(lead & 0x0F))),
        0xF0..=0xF7 => Some((4, u32::from(lead & 0x07))),
        _ => None,
    }
}

fn is_encodable(code_point: u32) -> bool {
    let surrogate = (0xD800..=0xDFFF).contains(&code_point);
    let above = code_point > 0x10FFFF;
    !surrogate && !above
}

/// How many octets the shortest form of a code point has.
pub fn length(code_point: u32) -> usize {
    match code_point {
        0..=0x7F => 1,
        0x80..=0x7FF => 2,
        0x800..=0xFFFF => 3,
        _ => 4,
    }
}

/// Appends a code point's octets.
pub fn encode(code_point: u32, octets: &mut Vec<u8>) {
    let tail = |shift: u32| 0x80 | (code_point >> shift & 0x3F) as u8;
    match length(code_point) {
        1 => octets.push(code_point as u8),
        2 => octets.extend([0xC0 | (code_point >> 6) as u8, tail(0)]),
        3 => octets.extend([0xE0 | (code_point >> 12) as u8, tail(6), tail(0)]),
        _ => octets.extend([0xF0 | (code_point >> 18) as u8, tail(12), tail(6), tail(0)]),
    }
}
