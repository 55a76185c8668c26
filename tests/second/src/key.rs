//! The key of a text under each collation, and where each of its octets comes from.

use crate::table::Table;
use crate::{unfold, utf8};

pub const OCTET: u32 = 1;
pub const ASCII_CASEMAP: u32 = 2;
pub const UNICODE_CASEMAP: u32 = 3;

/// A text's key and what preparation reports with it.
#[derive(Clone, Debug, PartialEq, Eq)]
pub struct Key {
    pub octets: Vec<u8>,
    /// For each octet of the key, start and end of the character of the text that it comes from. Where the text is compared octet
    /// by octet, every octet is a character of its own.
    pub sources: Vec<(usize, usize)>,
    /// Whether the key belongs in the lent buffer; otherwise it is the text itself.
    pub in_buffer: bool,
    pub valid: bool,
    pub lookups: u64,
}

/// "Each text has its own key, whatever the other text is"; that of an invalid text is the "text's own octets". The table is read
/// under collation 3 alone.
pub fn key_of(collation: u32, text: &[u8], table: &Table) -> Key {
    match collation {
        OCTET => octet_key(text.to_vec(), false, true),
        ASCII_CASEMAP => octet_key(text.iter().map(|&octet| ascii_capital(octet)).collect(), true, true),
        _ => match utf8::decode(text) {
            Some(characters) => unicode_key(&characters, table),
            None => octet_key(text.to_vec(), false, false),
        },
    }
}

/// A key that has one octet for each octet of its text. No lookup is made for it.
fn octet_key(octets: Vec<u8>, in_buffer: bool, valid: bool) -> Key {
    let sources = (0..octets.len()).map(|at| (at, at + 1)).collect();
    Key { octets, sources, in_buffer, valid, lookups: 0 }
}

/// "octets 61 to 7A hex lowered by 20 hex, the rest kept".
fn ascii_capital(octet: u8) -> u8 {
    match octet {
        0x61..=0x7A => octet - 0x20,
        _ => octet,
    }
}

/// "The published steps take a valid text's code points in order: one ask for the titlecase, then the unfolding of the titlecase
/// code point, or of the code point itself if it has none."
fn unicode_key(characters: &[utf8::Character], table: &Table) -> Key {
    let mut key = Key { octets: Vec::new(), sources: Vec::new(), in_buffer: true, valid: true, lookups: 0 };
    for character in characters {
        let start = table.titlecase(character.code_point).unwrap_or(character.code_point);
        let mut full = Vec::new();
        key.lookups += 1 + unfold::unfold(start, table, &mut full);
        for code_point in full {
            utf8::encode(code_point, &mut key.octets);
        }
        key.sources.resize(key.octets.len(), (character.start, character.end));
    }
    key
}
