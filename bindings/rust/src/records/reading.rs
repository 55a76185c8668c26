//! The records of a slice, one after another.
use super::{KeyRecord, Record, RecordError, KIND_TEXT};
use crate::{ffi, Collation, Refusal};
use std::fmt;
use std::iter::{from_fn, FusedIterator};

/// The records of a slice, in their order: an iterator that ends at the slice's end, or after the first record that is refused.
///
/// Refusals 11, 12, 13.
///
/// ```
/// use mundeziwa::records::{Record, Records};
///
/// // A text, and one that was cut off.
/// let octets = *b"\x07\0\0\0\x01\0Irene\x07\0\0\0\x01\0Ire";
/// let mut records = Records::new(&octets);
/// assert_eq!(records.next(), Some(Ok(Record::Text(b"Irene"))));
/// let error = records.next().unwrap().unwrap_err();
/// assert_eq!(error.to_string(), "record at octet 11: its length says 7 octets and 5 are left (refused 11)");
/// assert_eq!(records.next(), None);
/// ```
#[derive(Clone)]
pub struct Records<'a> {
    octets: &'a [u8],
    position: usize,
    refused: bool,
}

impl<'a> Records<'a> {
    /// The records of a slice, from its start on.
    ///
    /// ```
    /// use mundeziwa::records::Records;
    ///
    /// assert_eq!(Records::new(b"\x06\0\0\0\x01\0Otto\x02\0\0\0\x01\0").count(), 2);
    /// assert_eq!(Records::new(b"").count(), 0);
    /// ```
    pub fn new(octets: &'a [u8]) -> Records<'a> {
        Records::from_position(octets, 0)
    }

    /// The records of a slice, from a position on: the number of octets before a record, as [`Records::position`] tells it. Any
    /// number may be given. At the slice's end there is no record; past it the first one is refused with 11.
    ///
    /// ```
    /// use mundeziwa::records::{Record, Records};
    ///
    /// let octets = *b"\x06\0\0\0\x01\0Otto\x07\0\0\0\x01\0Beryl";
    /// assert_eq!(Records::from_position(&octets, 10).next(), Some(Ok(Record::Text(b"Beryl"))));
    /// assert_eq!(Records::from_position(&octets, 21).next(), None);
    /// assert!(Records::from_position(&octets, 22).next().unwrap().is_err());
    /// ```
    pub fn from_position(octets: &'a [u8], position: usize) -> Records<'a> {
        ffi::check_interface();
        Records { octets, position, refused: false }
    }

    /// Where the next record begins: the slice's length, if there is none any more; where the refused one begins, once one was
    /// refused.
    ///
    /// ```
    /// use mundeziwa::records::Records;
    ///
    /// let octets = *b"\x06\0\0\0\x01\0Otto\x07\0\0\0\x01\0Beryl";
    /// let mut records = Records::new(&octets);
    /// assert_eq!(records.position(), 0);
    /// records.next();
    /// assert_eq!(records.position(), 10);
    /// ```
    pub fn position(&self) -> usize {
        self.position
    }

    /// The records that are left, each with the position at which it begins.
    ///
    /// ```
    /// use mundeziwa::records::Records;
    ///
    /// let octets = *b"\x06\0\0\0\x01\0Otto\x07\0\0\0\x01\0Beryl";
    /// let mut index = Vec::new();
    /// for item in Records::new(&octets).with_positions() {
    ///     let (position, _) = item?;
    ///     index.push(position);
    /// }
    /// assert_eq!(index, [0, 10]);
    /// # Ok::<(), mundeziwa::records::RecordError>(())
    /// ```
    pub fn with_positions(mut self) -> impl FusedIterator<Item = Result<(usize, Record<'a>), RecordError>> {
        let next = move || {
            let position = self.position;
            Some(self.next()?.map(|record| (position, record)))
        };
        from_fn(next).fuse()
    }
}

impl<'a> Iterator for Records<'a> {
    type Item = Result<Record<'a>, RecordError>;

    // Without this a caller in another crate has every record copied through memory, a quarter more of the time.
    #[inline]
    fn next(&mut self) -> Option<Result<Record<'a>, RecordError>> {
        if self.refused {
            return None;
        }
        let mut answer = [0; 9];
        // SAFETY: the pointer and length are those of a live slice, and the answer row has nine numbers.
        unsafe { ffi::mz_read_record(self.octets.as_ptr(), self.octets.len(), self.position as u64, &mut answer) };
        if let Err(refusal) = Refusal::of(&answer) {
            self.refused = true;
            return Some(Err(RecordError::read(refusal, self.octets, self.position)));
        }
        let [_, _, _, kind, collation, valid, text_length, start, end] = answer.map(|n| n as usize);
        if kind == 0 {
            return None;
        }
        let octets = &self.octets[start..end];
        self.position = end;
        Some(Ok(if kind == usize::from(KIND_TEXT) {
            Record::Text(octets)
        } else {
            Record::Key(KeyRecord { collation: collation_of(collation), valid: valid == 1, text_length, key: octets })
        }))
    }
}

impl FusedIterator for Records<'_> {}

/// The position and the slice's length, not the octets themselves.
impl fmt::Debug for Records<'_> {
    fn fmt(&self, f: &mut fmt::Formatter<'_>) -> fmt::Result {
        f.debug_struct("Records").field("position", &self.position).field("length", &self.octets.len()).finish()
    }
}

/// The collation of a record that was taken: no other numbers are.
fn collation_of(number: usize) -> Collation {
    match number {
        1 => Collation::Octet,
        2 => Collation::AsciiCasemap,
        _ => Collation::UnicodeCasemap,
    }
}
