//! Texts and keys in files: records, one after another in a slice of octets.
//!
//! A record is a length of four octets (of what follows it), a kind of two octets, and a body; numbers have their low octet
//! first. The body of a text ([`KIND_TEXT`]) is the text. The body of a key ([`KIND_KEY`]) is the collation (one octet), 1 if
//! the text was valid under it else 0 (one octet), the text's length (two octets), and the key. A text has at most
//! [`TEXT_MOST`](crate::TEXT_MOST) octets, and [`KeyRecord`] says how long a key may be.
//!
//! [`Records`] reads them, [`write_text`] and [`write_key`] append them to a vector, and each undoes the other: what was written
//! is read as it was, and what was read gives the same octets when it is written again.
//!
//! ```
//! use mundeziwa::records::{self, Record, Records};
//! use mundeziwa::{Collation, Table};
//!
//! let mut buffer = [0; 1024];
//! let key = Table::empty().key_record(Collation::AsciiCasemap, "Beryl", &mut buffer)?;
//! let mut octets = Vec::new();
//! records::write_key(&mut octets, &key)?;
//! records::write_text(&mut octets, "Beryl")?;
//! assert_eq!(octets, b"\x0B\0\0\0\x02\0\x02\x01\x05\0BERYL\x07\0\0\0\x01\0Beryl");
//!
//! let read = Records::new(&octets).collect::<Result<Vec<_>, _>>()?;
//! assert_eq!(read, [Record::Key(key), Record::Text(b"Beryl")]);
//! # Ok::<(), Box<dyn std::error::Error>>(())
//! ```
use crate::{Collation, Prepared, Refusal, Table};

mod error;
mod reading;
mod writing;

pub(crate) use error::reading_reason;
pub use error::RecordError;
pub use reading::Records;
pub use writing::{write_key, write_text};

/// The kind of a text, as it stands in a record.
///
/// ```
/// use mundeziwa::records::{write_text, KIND_TEXT};
///
/// let mut octets = Vec::new();
/// write_text(&mut octets, "Irene")?;
/// assert_eq!(octets[4..6], KIND_TEXT.to_le_bytes());
/// # Ok::<(), mundeziwa::records::RecordError>(())
/// ```
pub const KIND_TEXT: u16 = 1;

/// The kind of a key, as it stands in a record.
///
/// ```
/// use mundeziwa::records::{write_key, KeyRecord, KIND_KEY};
/// use mundeziwa::Collation;
///
/// let mut octets = Vec::new();
/// write_key(&mut octets, &KeyRecord { collation: Collation::Octet, valid: true, text_length: 5, key: b"Irene" })?;
/// assert_eq!(octets[4..6], KIND_KEY.to_le_bytes());
/// # Ok::<(), mundeziwa::records::RecordError>(())
/// ```
pub const KIND_KEY: u16 = 2;

/// A record. Its octets are those of the slice that it was read from.
///
/// ```
/// use mundeziwa::records::{Record, Records};
///
/// let octets = *b"\x07\0\0\0\x01\0Irene";
/// match Records::new(&octets).next() {
///     Some(Ok(Record::Text(text))) => assert_eq!(text, b"Irene"),
///     other => panic!("{other:?}"),
/// }
/// ```
#[derive(Clone, Copy, Debug, PartialEq, Eq, Hash)]
pub enum Record<'a> {
    /// A text, which needn't be valid UTF-8.
    Text(&'a [u8]),
    /// A key, with what it says of its text.
    Key(KeyRecord<'a>),
}

impl Record<'_> {
    /// Appends the record, as [`write_text`] or [`write_key`] does.
    ///
    /// ```
    /// use mundeziwa::records::{Record, Records};
    ///
    /// let octets = *b"\x07\0\0\0\x01\0Irene\x0B\0\0\0\x02\0\x01\x01\x05\0Irene";
    /// let mut keys = Vec::new();
    /// for record in Records::new(&octets) {
    ///     let record = record?;
    ///     if matches!(record, Record::Key(_)) {
    ///         record.write_to(&mut keys)?;
    ///     }
    /// }
    /// assert_eq!(keys, octets[11..]);
    /// # Ok::<(), mundeziwa::records::RecordError>(())
    /// ```
    pub fn write_to(&self, octets: &mut Vec<u8>) -> Result<(), RecordError> {
        match self {
            Record::Text(text) => write_text(octets, text),
            Record::Key(key) => write_key(octets, key),
        }
    }
}

/// A key as a record keeps it. Where the text was not valid, and under `i;octet` and `i;ascii-casemap`, the key is as long as the
/// text; otherwise it has at most [`KEY_PER_OCTET_MOST`](crate::KEY_PER_OCTET_MOST) times as many octets. Nothing else is
/// checked: a record has no text to compare the key with.
///
/// ```
/// use mundeziwa::records::{KeyRecord, Record, Records};
/// use mundeziwa::Collation;
///
/// let octets = *b"\x09\0\0\0\x02\0\x03\x01\x02\0\x45\xCC\x81";
/// let key = KeyRecord { collation: Collation::UnicodeCasemap, valid: true, text_length: 2, key: b"\x45\xCC\x81" };
/// assert_eq!(Records::new(&octets).next(), Some(Ok(Record::Key(key))));
/// ```
#[derive(Clone, Copy, Debug, PartialEq, Eq, Hash)]
pub struct KeyRecord<'a> {
    /// The collation that the key was made under.
    pub collation: Collation,
    /// Whether the text was valid under the collation: always, but for text that is no UTF-8 under `i;unicode-casemap`.
    pub valid: bool,
    /// The length of the text, in octets.
    pub text_length: usize,
    /// The key.
    pub key: &'a [u8],
}

impl Table {
    /// Prepares a text as [`Table::prepare`] does, and answers its key as a record keeps it.
    ///
    /// Refusals 2, and 8 with the length that the key needs.
    ///
    /// ```
    /// use mundeziwa::{records::write_key, Collation, Table};
    ///
    /// let table = Table::new(&[0xE9, 0xE9, 0, 2], &[0x65, 0x301])?;
    /// let mut buffer = [0; 1024];
    /// let key = table.key_record(Collation::UnicodeCasemap, "José", &mut buffer)?;
    /// assert_eq!((key.key, key.valid, key.text_length), ("Jose\u{301}".as_bytes(), true, 5));
    ///
    /// let mut octets = Vec::new();
    /// write_key(&mut octets, &key)?;
    /// # Ok::<(), Box<dyn std::error::Error>>(())
    /// ```
    pub fn key_record<'k, T>(&self, collation: Collation, text: &'k T, buffer: &'k mut [u8]) -> Result<KeyRecord<'k>, Refusal>
    where
        T: AsRef<[u8]> + ?Sized,
    {
        let text = text.as_ref();
        let Prepared { key, valid, .. } = self.prepare(collation, text, buffer)?;
        Ok(KeyRecord { collation, valid, text_length: text.len(), key })
    }
}
