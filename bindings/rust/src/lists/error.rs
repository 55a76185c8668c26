//! Why lists were refused, and where.
use crate::records::{reading_reason, Record, Records, KIND_TEXT};
use crate::{Refusal, RefusalKind, NAMES_MOST, TEXT_MOST};
use std::fmt;

/// Why a list or two were refused: the refusal, which list it is, which of its names, and the reason. Both `{}` and `{:?}` print
/// the sentence.
///
/// ```
/// use mundeziwa::{Collation, Table};
///
/// let long = "a".repeat(4097);
/// let error = Table::empty().shared(Collation::Octet, ["Irene"], ["Otto", &long]).unwrap_err();
/// let sentence = "second list, name at index 1: it has 4097 octets, and at most 4096 are taken (refused 13)";
/// assert_eq!(error.to_string(), sentence);
/// assert_eq!(format!("{error:?}"), sentence);
/// ```
#[derive(Clone, PartialEq, Eq, Hash)]
pub struct ListError {
    refusal: Refusal,
    index: Option<usize>,
    reason: String,
}

impl ListError {
    /// The refusal of a name that is too long, in one of two lists.
    pub(crate) fn of_name(refusal: Refusal, index: usize, length: usize) -> ListError {
        ListError::too_long(refusal, &format!("{}, name", refusal.list()), index, length)
    }

    /// The refusal of a text that is too long, in the only list.
    pub(crate) fn of_text(refusal: Refusal, index: usize, length: usize) -> ListError {
        ListError::too_long(refusal, "text", index, length)
    }

    fn too_long(refusal: Refusal, what: &str, index: usize, length: usize) -> ListError {
        let reason = format!("{what} at index {index}: it has {length} octets, and at most {TEXT_MOST} are taken");
        ListError { refusal, index: Some(index), reason }
    }

    /// The refusal of all that was given.
    pub(crate) fn of_all(refusal: Refusal) -> ListError {
        ListError { refusal, index: None, reason: refusal.to_string() }
    }

    /// The refusal of two lists. The library has decided that they are refused; they are looked at again for the words alone.
    pub(crate) fn of_lists(refusal: Refusal, first: &[u8], second: &[u8]) -> ListError {
        let list = if refusal.place() == 2 { second } else { first };
        match refusal.kind() {
            RefusalKind::RecordLength | RefusalKind::RecordKind | RefusalKind::RecordBody => ListError::of_record(refusal, list),
            RefusalKind::NameCount => {
                let count = Records::new(list).count();
                let reason = format!("the {} has {count} names, and at most {NAMES_MOST} are taken", refusal.list());
                ListError { refusal, index: None, reason }
            }
            _ => ListError::of_all(refusal),
        }
    }

    /// The refusal of the first record of a list that is no text or can't be read.
    fn of_record(refusal: Refusal, list: &[u8]) -> ListError {
        let mut records = Records::new(list);
        let (mut index, mut position) = (0, 0);
        while let Some(Ok(Record::Text(_))) = records.next() {
            index += 1;
            position = records.position();
        }
        let reason = match list.get(position + 4..position + 6) {
            Some(&[low, high]) if refusal.kind() == RefusalKind::RecordKind => {
                format!("its kind is {}, and a list has texts (kind {KIND_TEXT}) alone", u16::from_le_bytes([low, high]))
            }
            _ => reading_reason(list, position),
        };
        ListError { refusal, index: Some(index), reason: format!("{}, record at octet {position}: {reason}", refusal.list()) }
    }

    /// What was wrong, by its number, and as its place which list it is: 1 or 2.
    ///
    /// ```
    /// use mundeziwa::{Collation, RefusalKind, Table};
    ///
    /// let error = Table::empty().shared(Collation::Octet, ["Irene"], vec!["Otto"; 1025]).unwrap_err();
    /// assert_eq!(error.to_string(), "the second list has 1025 names, and at most 1024 are taken (refused 14)");
    /// assert_eq!((error.refusal().kind(), error.refusal().place()), (RefusalKind::NameCount, 2));
    /// ```
    pub fn refusal(&self) -> Refusal {
        self.refusal
    }

    /// Which name of its list was refused, counted from 0; nothing where the whole list was.
    ///
    /// ```
    /// use mundeziwa::{Collation, Table};
    ///
    /// // A text, and a record of another kind.
    /// let list = *b"\x06\0\0\0\x01\0Otto\x06\0\0\0\x07\0Otto";
    /// let error = Table::empty().shared_records(Collation::Octet, &list, b"").unwrap_err();
    /// assert_eq!(error.to_string(), "first list, record at octet 10: its kind is 7, and a list has texts (kind 1) alone (refused 12)");
    /// assert_eq!(error.index(), Some(1));
    /// ```
    pub fn index(&self) -> Option<usize> {
        self.index
    }
}

impl fmt::Display for ListError {
    fn fmt(&self, f: &mut fmt::Formatter<'_>) -> fmt::Result {
        write!(f, "{} (refused {})", self.reason, self.refusal.number())
    }
}

impl fmt::Debug for ListError {
    fn fmt(&self, f: &mut fmt::Formatter<'_>) -> fmt::Result {
        fmt::Display::fmt(self, f)
    }
}

impl std::error::Error for ListError {
    fn source(&self) -> Option<&(dyn std::error::Error + 'static)> {
        Some(&self.refusal)
    }
}
