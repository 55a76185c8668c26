//! "A record is a four-octet length (of what follows it), a two-octet kind, a body; numbers little-endian."

use crate::collate::TEXT_MOST;
use crate::key::{ASCII_CASEMAP, OCTET, UNICODE_CASEMAP};
use crate::refusal::Refusal;

/// "Kind 1 is a text."
pub const TEXT: u64 = 1;
/// "Kind 2 is a key."
pub const KEY: u64 = 2;

/// How many octets each number has.
pub const LENGTH_WIDTH: usize = 4;
pub const KIND_WIDTH: usize = 2;
pub const COLLATION_WIDTH: usize = 1;
pub const FLAG_WIDTH: usize = 1;
pub const TEXT_LENGTH_WIDTH: usize = 2;

pub const KEY_PER_OCTET_MOST: u128 = 128;

/// What the record of a key says of the text that it was made from.
#[derive(Clone, Copy, Debug, Default, PartialEq, Eq)]
pub struct Origin {
    pub collation: u32,
    /// "1 if the text was valid under it else 0".
    pub valid: u64,
    pub text_length: u64,
}

/// A record that was read: its kind, the origin of a key, and where the octets of the text or the key start and end.
struct Found {
    kind: u64,
    origin: Origin,
    start: u64,
    end: u64,
}

/// Reads the record at a position: what is there, the origin of a key, start and end. "At its end the reader says so."
pub fn read_record(records: &[u8], position: u64) -> [u64; 9] {
    match find(records, position) {
        Err(refusal) => refusal.row(),
        Ok(None) => [0; 9],
        Ok(Some(Found { kind, origin, start, end })) => {
            [0, 0, 0, kind, origin.collation.into(), origin.valid, origin.text_length, start, end]
        }
    }
}

/// Writes a text as a record, and answers the position after it. "Writing 13, 8."
pub fn write_text(text: &[u8], records: &mut [u8], position: u64) -> [u64; 4] {
    if !is_text(text) {
        return refuse(13).row();
    }
    write(TEXT, text, records, position)
}

/// Writes a key as a record, as `write_text` does.
pub fn write_key(origin: Origin, key: &[u8], records: &mut [u8], position: u64) -> [u64; 4] {
    if !is_key(&origin, key) {
        return refuse(13).row();
    }
    let collation = number_of(COLLATION_WIDTH, origin.collation.into());
    let flag = number_of(FLAG_WIDTH, origin.valid);
    let text_length = number_of(TEXT_LENGTH_WIDTH, origin.text_length);
    let body = [&collation[..], &flag, &text_length, key].concat();
    write(KEY, &body, records, position)
}

/// The record at a position, or `None` at the end of the slice. "Reading checks 11, 12, 13."
fn find(records: &[u8], position: u64) -> Result<Option<Found>, Refusal> {
    let left = octets_from(records, position).ok_or(refuse(11))?;
    if left.is_empty() {
        return Ok(None);
    }
    let (kind, body) = open(left).ok_or(refuse(11))?;
    let (origin, octets) = match kind {
        TEXT => open_text(body).ok_or(refuse(13))?,
        KEY => open_key(body).ok_or(refuse(13))?,
        _ => return Err(refuse(12)),
    };
    let end = position + whole_length(body) as u64;
    let start = end - octets.len() as u64;
    Ok(Some(Found { kind, origin, start, end }))
}

/// "All with place 0"; only 8 has a detail.
fn refuse(number: u64) -> Refusal {
    Refusal::of_no_text(number, 0)
}

/// What stands from a position on; nothing does past the end of the slice.
fn octets_from(records: &[u8], position: u64) -> Option<&[u8]> {
    records.get(usize::try_from(position).ok()?..)
}

/// Kind and body of the record that stands first. `None` is 11: "fewer octets left than four or than the length says, or a length
/// below 2", which doesn't hold the kind.
pub(crate) fn open(left: &[u8]) -> Option<(u64, &[u8])> {
    let (length, after) = take_number(LENGTH_WIDTH, left)?;
    let followed = after.get(..usize::try_from(length).ok()?)?;
    take_number(KIND_WIDTH, followed)
}

/// `None` is 13: "a text .. over the limit".
fn open_text(body: &[u8]) -> Option<(Origin, &[u8])> {
    is_text(body).then_some((Origin::default(), body))
}

/// "Collation (1 octet), 1 if the text was valid under it else 0 .., text length (2 octets), the key." `None` is 13: "a key body
/// below four octets", or what `is_key` says.
fn open_key(body: &[u8]) -> Option<(Origin, &[u8])> {
    let (collation, after) = take_number(COLLATION_WIDTH, body)?;
    let (valid, after) = take_number(FLAG_WIDTH, after)?;
    let (text_length, key) = take_number(TEXT_LENGTH_WIDTH, after)?;
    let origin = Origin { collation: u32::try_from(collation).ok()?, valid, text_length };
    is_key(&origin, key).then_some((origin, key))
}

/// Whether a record may hold a text.
pub(crate) fn is_text(text: &[u8]) -> bool {
    text.len() <= TEXT_MOST
}

/// Whether a record may hold a key. 13: "a .. text length over the limit .. or collation, flag or lengths not as above".
fn is_key(origin: &Origin, key: &[u8]) -> bool {
    let within_limit = origin.text_length <= TEXT_MOST as u64;
    within_limit && is_collation(origin.collation) && is_flag(origin) && are_lengths(origin, key.len() as u64)
}

fn is_collation(number: u32) -> bool {
    matches!(number, OCTET | ASCII_CASEMAP | UNICODE_CASEMAP)
}

/// Under these every text is valid: "always 1 for collations 1 and 2".
fn takes_any_text(collation: u32) -> bool {
    matches!(collation, OCTET | ASCII_CASEMAP)
}

fn is_flag(origin: &Origin) -> bool {
    match origin.valid {
        0 => !takes_any_text(origin.collation),
        1 => true,
        _ => false,
    }
}

/// "If the flag is 0, or under collations 1 and 2, key and text length agree; otherwise the key has at most 128 times the text
/// length."
fn are_lengths(origin: &Origin, key_length: u64) -> bool {
    if origin.valid == 0 || takes_any_text(origin.collation) {
        return key_length == origin.text_length;
    }
    u128::from(key_length) <= KEY_PER_OCTET_MOST * u128::from(origin.text_length)
}

/// Writes a record, or refuses with 8: "no room (detail the whole record)".
fn write(kind: u64, body: &[u8], records: &mut [u8], position: u64) -> [u64; 4] {
    let length = number_of(LENGTH_WIDTH, (KIND_WIDTH + body.len()) as u64);
    let record = [&length[..], &number_of(KIND_WIDTH, kind), body].concat();
    match room_at(records, position, record.len()) {
        None => Refusal::of_no_text(8, whole_length(body)).row(),
        Some(room) => {
            room.copy_from_slice(&record);
            [0, 0, 0, position + record.len() as u64]
        }
    }
}

/// How many octets a record has, its length and kind included.
pub(crate) fn whole_length(body: &[u8]) -> usize {
    LENGTH_WIDTH + KIND_WIDTH + body.len()
}

/// So many octets of the slice from a position on, if it has them.
fn room_at(records: &mut [u8], position: u64, length: usize) -> Option<&mut [u8]> {
    let start = usize::try_from(position).ok()?;
    records.get_mut(start..start.checked_add(length)?)
}

/// The number in the first octets, and what stands after it: "little-endian".
fn take_number(width: usize, octets: &[u8]) -> Option<(u64, &[u8])> {
    let (digits, after) = octets.split_at_checked(width)?;
    let number = digits.iter().rev().fold(0, |number, &octet| number << 8 | u64::from(octet));
    Some((number, after))
}

/// The octets of a number, the low one first.
fn number_of(width: usize, number: u64) -> Vec<u8> {
    (0..width).map(|place| (number >> (8 * place)) as u8).collect()
}
