//! Why a call was refused.
use crate::RefusalKind;
use std::fmt;

/// Why a call was refused: what was wrong, which text or list it speaks of, and a detail. Both `{}` and `{:?}` print the sentence.
///
/// ```
/// use mundeziwa::Table;
///
/// // A letter that decomposes into itself.
/// let refusal = Table::new(&[0x41, 0x41, 0, 1], &[0x41]).unwrap_err();
/// assert_eq!(refusal.number(), 7);
/// assert_eq!(refusal.name(), "no level");
/// let sentence = "refused 7 (no level): entry 0 does not unfold within 8 levels into at most 32 code points";
/// assert_eq!(refusal.to_string(), sentence);
/// assert_eq!(format!("{refusal:?}"), sentence);
/// ```
#[derive(Clone, Copy, PartialEq, Eq, Hash)]
pub struct Refusal {
    kind: RefusalKind,
    place: u64,
    detail: u64,
    given: Given,
}

/// What a call was given, where the words of a refusal depend on it.
#[derive(Clone, Copy, PartialEq, Eq, Hash)]
enum Given {
    OneText,
    Two,
    Many,
    /// A table with so many entries.
    Table(u64),
}

impl Refusal {
    /// The refusal that an answer row begins with, if it begins with one.
    pub(crate) fn of(row: &[u64]) -> Result<(), Refusal> {
        match row[0] {
            0 => Ok(()),
            number => Err(Refusal { kind: number.into(), place: row[1], detail: row[2], given: Given::Two }),
        }
    }

    /// The same of a call on one text, of which a sentence doesn't say that it is the first.
    pub(crate) fn of_lone_text(row: &[u64]) -> Result<(), Refusal> {
        Refusal::of(row).map_err(|refusal| Refusal { given: Given::OneText, ..refusal })
    }

    /// The same of the check of a table with so many entries.
    pub(crate) fn of_table(row: &[u64], entry_count: usize) -> Result<(), Refusal> {
        Refusal::of(row).map_err(|refusal| Refusal { given: Given::Table(entry_count as u64), ..refusal })
    }

    /// The same of a call on many texts or keys, where the detail says which.
    pub(crate) fn of_many(row: &[u64]) -> Result<(), Refusal> {
        Refusal::of(row).map_err(|refusal| Refusal { given: Given::Many, ..refusal })
    }

    /// The same refusal, of a list: 1 or 2.
    pub(crate) fn of_list(self, place: u64) -> Refusal {
        Refusal { place, ..self }
    }

    /// The same refusal, of the name with this index.
    pub(crate) fn of_index(self, index: usize) -> Refusal {
        Refusal { detail: index as u64, ..self }
    }

    /// What was wrong.
    ///
    /// ```
    /// use mundeziwa::{RefusalKind, TableBuilder};
    ///
    /// let refusal = TableBuilder::new().line("no line of the file").unwrap_err();
    /// assert_eq!(refusal.kind(), RefusalKind::FieldCount);
    /// ```
    pub fn kind(&self) -> RefusalKind {
        self.kind
    }

    /// The number in document 01 of what was wrong.
    ///
    /// ```
    /// let refusal = mundeziwa::TableBuilder::new().line("no line of the file").unwrap_err();
    /// assert_eq!(refusal.number(), 21);
    /// ```
    pub fn number(&self) -> u64 {
        self.kind.number()
    }

    /// A short name of what was wrong.
    ///
    /// ```
    /// let refusal = mundeziwa::TableBuilder::new().line("no line of the file").unwrap_err();
    /// assert_eq!(refusal.name(), "field count");
    /// ```
    pub fn name(&self) -> &'static str {
        self.kind.name()
    }

    /// Which text or list the refusal speaks of: 1 or 2 (a lone text is 1), 0 if of neither.
    ///
    /// ```
    /// use mundeziwa::{Collation, Table};
    ///
    /// let refusal = Table::empty().order(Collation::Octet, "Irene", [0; 4097]).unwrap_err();
    /// assert_eq!(refusal.place(), 2);
    /// ```
    pub fn place(&self) -> u64 {
        self.place
    }

    /// A length, an entry or an index, as the sentence says; 0 if there is none. (For 5 and 7 the number of entries, where none
    /// of them is at fault.)
    ///
    /// ```
    /// use mundeziwa::{Collation, Table};
    ///
    /// let refusal = Table::empty().order(Collation::Octet, "Irene", [0; 4097]).unwrap_err();
    /// assert_eq!(refusal.detail(), 4097);
    /// ```
    pub fn detail(&self) -> u64 {
        self.detail
    }

    /// Whether a table is refused and none of its entries is at fault: the detail of 5 and 7 is then the number of entries.
    fn is_past_entries(&self) -> bool {
        self.given == Given::Table(self.detail)
    }

    fn text(&self) -> &'static str {
        match self.place {
            _ if self.given == Given::OneText => "the text",
            2 => "the second text",
            _ => "the first text",
        }
    }

    /// Which list the refusal speaks of, in words.
    pub(crate) fn list(&self) -> &'static str {
        if self.place == 2 {
            "second list"
        } else {
            "first list"
        }
    }

    /// What is wrong with that list.
    fn list_fault(&self) -> &'static str {
        match self.kind {
            RefusalKind::RecordLength => "ends within a record, or has a record whose length is below 2",
            RefusalKind::RecordKind => "has a record that is no text",
            RefusalKind::RecordBody => "has a name of over 4096 octets",
            _ => "has more than 1024 names",
        }
    }
}

/// What a field that should write a code point does not.
const CODE_POINT: &str =
    "is no code point of 4 to 6 digits 0-9 and A-F, at most 10FFFF, with no zero in front beyond four digits";

impl fmt::Display for Refusal {
    fn fmt(&self, f: &mut fmt::Formatter<'_>) -> fmt::Result {
        use RefusalKind::*;
        write!(f, "refused {} ({}): ", self.number(), self.name())?;
        let detail = self.detail;
        match self.kind {
            UnknownCollation => write!(f, "the collation is not 1, 2 or 3"),
            TextTooLong if self.given == Given::Many => write!(f, "the text at index {detail} has over 4096 octets"),
            TextTooLong => write!(f, "{} has {detail} octets, and at most 4096 are taken", self.text()),
            TableSize => write!(f, "the entries are not four numbers each, or over 16384, or the pool has over 65536 numbers"),
            CodePoint => {
                write!(f, "entry {detail} has a code point or titlecase that is no Unicode scalar value, is for a Hangul syllable (these map by rule), or is not above the one before")
            }
            Entry if self.is_past_entries() => write!(f, "the pool is longer than the counts of all entries together"),
            Entry => write!(f, "entry {detail} has a count over 32, a wrong start or parts past the pool, or says nothing"),
            PoolNumber => write!(f, "pool number {detail} is no Unicode scalar value: a surrogate, or above 10FFFF"),
            NoLevel if self.is_past_entries() => {
                write!(f, "a Hangul syllable whose jamo decompose does not unfold within 8 levels into at most 32 code points")
            }
            NoLevel => write!(f, "entry {detail} does not unfold within 8 levels into at most 32 code points"),
            KeyRoom => write!(f, "the key of {} needs a buffer of {detail} octets", self.text()),
            NoTab => write!(f, "the line has no tab"),
            NameCount if self.given == Given::Many => write!(f, "there are over 4294967295 texts"),
            NameCount => write!(f, "the {} {}", self.list(), self.list_fault()),
            Pages => write!(f, "a page slice has under 17408 numbers"),
            RecordLength | RecordKind | RecordBody if self.place > 0 => write!(f, "the {} {}", self.list(), self.list_fault()),
            RecordLength => write!(f, "fewer octets are left than the record's length takes or says, or that length is below 2"),
            RecordKind => write!(f, "the record's kind is not 1 or 2"),
            RecordBody => {
                write!(f, "a text or a text's length is over 4096, a key's body is too short, or its collation, flag or lengths are none that a record has")
            }
            LineTooLong => write!(f, "the line has over 512 octets"),
            FieldCount => write!(f, "the line has not exactly 14 semicolons"),
            Field0 => write!(f, "field 0 {CODE_POINT} (a byte order mark at the file's start is part of it)"),
            Field5 => write!(f, "field 5 is neither empty nor a decomposition of 1 to 32 code points"),
            Field12 => write!(f, "field 12 is not empty and {CODE_POINT}"),
            Field14 => write!(f, "field 14 is not empty and {CODE_POINT} (a carriage return before the line feed is part of it)"),
            Surrogate => {
                write!(f, "a line with a mapping is for a Hangul syllable (these map by rule), or has a surrogate in field 0, 5 or 14, or in 12 where 14 is empty")
            }
            LineOrder => write!(f, "the code point is not above that of the line before"),
            NoRoom => write!(f, "the table has no room for the entry or its parts"),
            State => write!(f, "no line can have left this state"),
            End => write!(f, "the end at index {detail} is below the one before it, or past the octets"),
            FirstCount => write!(f, "there are {detail} keys, and the first list is said to have more names"),
            Unknown(_) => write!(f, "place {}, detail {detail}", self.place),
        }
    }
}

impl fmt::Debug for Refusal {
    fn fmt(&self, f: &mut fmt::Formatter<'_>) -> fmt::Result {
        fmt::Display::fmt(self, f)
    }
}

impl std::error::Error for Refusal {}
