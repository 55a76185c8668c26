//! Why a record was refused, and where it stands.
use super::{KeyRecord, KIND_KEY, KIND_TEXT};
use crate::{Collation, Refusal, KEY_PER_OCTET_MOST, TEXT_MOST};
use std::fmt;

/// Why a record could not be read or written: the refusal, the record's position, and which of the refusal's reasons it is. Both
/// `{}` and `{:?}` print the sentence.
///
/// ```
/// use mundeziwa::records::Records;
///
/// let octets = *b"\x06\0\0\0\x01\0Otto\x06\0\0\0\x07\0Otto";
/// let error = Records::new(&octets).find_map(Result::err).unwrap();
/// let sentence = "record at octet 10: its kind is 7, and 1 (a text) and 2 (a key) are known (refused 12)";
/// assert_eq!(error.to_string(), sentence);
/// assert_eq!(format!("{error:?}"), sentence);
/// ```
#[derive(Clone, PartialEq, Eq, Hash)]
pub struct RecordError {
    refusal: Refusal,
    position: usize,
    reason: String,
}

impl RecordError {
    /// The refusal of a record that was read.
    pub(crate) fn read(refusal: Refusal, octets: &[u8], position: usize) -> RecordError {
        RecordError { refusal, position, reason: reading_reason(octets, position) }
    }

    /// The refusal of a text that was to be written.
    pub(crate) fn write_text(refusal: Refusal, position: usize, text: &[u8]) -> RecordError {
        RecordError { refusal, position, reason: text_reason(text.len()) }
    }

    /// The refusal of a key that was to be written.
    pub(crate) fn write_key(refusal: Refusal, position: usize, record: &KeyRecord<'_>) -> RecordError {
        let KeyRecord { collation, valid, text_length, key } = *record;
        RecordError { refusal, position, reason: key_reason(collation as u8, valid.into(), text_length, key.len()) }
    }

    /// What was wrong, by its number; without the position and the reason.
    ///
    /// ```
    /// use mundeziwa::{records::Records, RefusalKind};
    ///
    /// let error = Records::new(&[6, 0, 0]).next().unwrap().unwrap_err();
    /// assert_eq!(error.refusal().kind(), RefusalKind::RecordLength);
    /// assert_eq!(error.refusal().number(), 11);
    /// ```
    pub fn refusal(&self) -> Refusal {
        self.refusal
    }

    /// Where the record begins: how many octets stand before it. Of one that was to be written, where it would begin.
    ///
    /// ```
    /// use mundeziwa::records::Records;
    ///
    /// let octets = *b"\x06\0\0\0\x01\0Otto\x06\0\0\0";
    /// let error = Records::new(&octets).find_map(Result::err).unwrap();
    /// assert_eq!(error.position(), 10);
    /// ```
    pub fn position(&self) -> usize {
        self.position
    }
}

/// Why a record can't be read. The library has decided that it can't; the octets are looked at again for the words alone.
pub(crate) fn reading_reason(octets: &[u8], position: usize) -> String {
    let Some(left) = octets.get(position..) else {
        return format!("the slice ends at octet {}", octets.len());
    };
    let Some((length, left)) = left.split_first_chunk() else {
        return format!("its length takes 4 octets and {} are left", left.len());
    };
    let length = u32::from_le_bytes(*length) as usize;
    let Some(record) = left.get(..length) else {
        return format!("its length says {length} octets and {} are left", left.len());
    };
    let Some((kind, body)) = record.split_first_chunk() else {
        return format!("its length says {length}, and its kind alone takes 2 octets");
    };
    match (u16::from_le_bytes(*kind), body) {
        (KIND_TEXT, text) => text_reason(text.len()),
        (KIND_KEY, &[collation, flag, low, high, ref key @ ..]) => {
            key_reason(collation, flag, u16::from_le_bytes([low, high]).into(), key.len())
        }
        (KIND_KEY, _) => format!("its body has {} octets, and that of a key at least 4", body.len()),
        (kind, _) => format!("its kind is {kind}, and {KIND_TEXT} (a text) and {KIND_KEY} (a key) are known"),
    }
}

/// Why a text is no body of a record.
fn text_reason(length: usize) -> String {
    format!("its text has {length} octets, and at most {TEXT_MOST} are taken")
}

/// Why these numbers are no key's.
fn key_reason(collation: u8, flag: u8, text_length: usize, key_length: usize) -> String {
    const UNICODE: u8 = Collation::UnicodeCasemap as u8;
    match (collation, flag) {
        (0 | 4.., _) => format!("its collation is {collation}, not 1, 2 or 3"),
        (_, 2..) => format!("its flag is {flag}, not 0 or 1"),
        (1 | 2, 0) => format!("its flag is 0, and under collation {collation} every text is valid"),
        _ if text_length > TEXT_MOST => format!("its text length is {text_length}, and at most {TEXT_MOST} is taken"),
        (UNICODE, 1) => format!("its key has {key_length} octets, over {KEY_PER_OCTET_MOST} times the {text_length} of its text"),
        (UNICODE, 0) => format!("its key has {key_length} octets and its text {text_length}, and where the flag is 0 they agree"),
        _ => format!("its key has {key_length} octets and its text {text_length}, and under collation {collation} they agree"),
    }
}

impl fmt::Display for RecordError {
    fn fmt(&self, f: &mut fmt::Formatter<'_>) -> fmt::Result {
        write!(f, "record at octet {}: {} (refused {})", self.position, self.reason, self.refusal.number())
    }
}

impl fmt::Debug for RecordError {
    fn fmt(&self, f: &mut fmt::Formatter<'_>) -> fmt::Result {
        fmt::Display::fmt(self, f)
    }
}

impl std::error::Error for RecordError {
    fn source(&self) -> Option<&(dyn std::error::Error + 'static)> {
        Some(&self.refusal)
    }
}
