//! The refusals by their numbers.

/// Writes the enum of refusals with its numbers and names, a row each, so that the three can't part.
macro_rules! refusal_kinds {
    ($($(#[$meaning:meta])* $kind:ident = $number:literal, $name:literal;)*) => {
        /// What was wrong, by the numbers of document 01 (docs/SCOPE.md). Later versions of the library may add to them.
        ///
        /// ```
        /// use mundeziwa::{Collation, RefusalKind, Table};
        ///
        /// let refusal = Table::empty().equal(Collation::Octet, [0; 4097], "Irene").unwrap_err();
        /// assert_eq!(refusal.kind(), RefusalKind::TextTooLong);
        /// assert_eq!(refusal.kind().number(), 2);
        /// ```
        #[derive(Clone, Copy, Debug, PartialEq, Eq, Hash)]
        #[non_exhaustive]
        pub enum RefusalKind {
            $(
                $(#[$meaning])*
                #[doc = concat!("\n\nRefusal ", $number, ".")]
                $kind,
            )*
            /// A number that this crate has no name for.
            Unknown(u64),
        }

        impl RefusalKind {
            /// The number in document 01.
            ///
            /// ```
            /// assert_eq!(mundeziwa::RefusalKind::NoLevel.number(), 7);
            /// ```
            pub fn number(self) -> u64 {
                match self {
                    $(RefusalKind::$kind => $number,)*
                    RefusalKind::Unknown(number) => number,
                }
            }

            /// A short name.
            ///
            /// ```
            /// assert_eq!(mundeziwa::RefusalKind::NoLevel.name(), "no level");
            /// ```
            pub fn name(self) -> &'static str {
                match self {
                    $(RefusalKind::$kind => $name,)*
                    RefusalKind::Unknown(_) => "unknown refusal",
                }
            }
        }

        /// The refusal with a number, as the C interface answers it.
        ///
        /// ```
        /// assert_eq!(mundeziwa::RefusalKind::from(7), mundeziwa::RefusalKind::NoLevel);
        /// ```
        impl From<u64> for RefusalKind {
            fn from(number: u64) -> RefusalKind {
                match number {
                    $($number => RefusalKind::$kind,)*
                    _ => RefusalKind::Unknown(number),
                }
            }
        }
    };
}

refusal_kinds! {
    /// The number is no collation's. [`Collation`](crate::Collation) has no such number, so no call of this crate answers it.
    UnknownCollation = 1, "unknown collation";
    /// A text is over 4,096 octets.
    TextTooLong = 2, "text too long";
    /// The entries are not whole or too many, or the pool is too long.
    TableSize = 3, "table size";
    /// An entry's code point or titlecase is no Unicode scalar value, the entry is for a Hangul syllable, which maps by rule, or
    /// the entries do not ascend.
    CodePoint = 4, "code point";
    /// An entry has a count over 32, a wrong start, parts past the pool's end, or says nothing; or the pool is too long.
    Entry = 5, "entry";
    /// A number of the pool is no Unicode scalar value.
    PoolNumber = 6, "pool number";
    /// The code point of an entry, or a Hangul syllable, does not unfold within 8 levels into at most 32 code points.
    NoLevel = 7, "no level";
    /// A key is longer than the buffer lent for it. The C interface also answers it where a record has no room, and where the
    /// store or an array of a call on lists is too short; the writers of [`records`](crate::records) and
    /// [`Table::shared`](crate::Table::shared) make room.
    KeyRoom = 8, "buffer too short";
    /// A line without a tab: the program `pairs` alone answers it.
    NoTab = 9, "no tab";
    /// Fewer octets are left than a record's length takes or says, or that length is below 2.
    RecordLength = 11, "record length";
    /// The kind of a record is unknown or, in a list, not that of a text.
    RecordKind = 12, "record kind";
    /// A text or a text's length over 4,096 octets, or a key whose collation, flag or lengths no record has.
    RecordBody = 13, "record body";
    /// A list has over 1,024 names, or a call on many texts has over 4,294,967,295.
    NameCount = 14, "name count";
    /// A page slice is under 17,408 numbers long. This crate makes the pages itself, so no call of it answers this.
    Pages = 15, "pages too short";
    /// A data line is over 512 octets.
    LineTooLong = 20, "line too long";
    /// A data line has not exactly 14 semicolons.
    FieldCount = 21, "field count";
    /// Field 0, the code point, is malformed.
    Field0 = 22, "field 0";
    /// Field 5, the decomposition, is malformed.
    Field5 = 23, "field 5";
    /// Field 12, the uppercase, is malformed, whatever field 14 has.
    Field12 = 29, "field 12";
    /// Field 14, the titlecase, is malformed.
    Field14 = 24, "field 14";
    /// A data line with a mapping is for a Hangul syllable, which maps by rule, or has a surrogate in field 0 or 5, or as the
    /// titlecase that is taken.
    Surrogate = 25, "surrogate or syllable";
    /// A data line's code point is not above that of the line before.
    LineOrder = 26, "order of lines";
    /// The table has no room for the line's entry or its parts.
    NoRoom = 27, "no room";
    /// A builder's state that no line can have left. [`TableBuilder`](crate::TableBuilder) never has one.
    State = 28, "impossible state";
    /// An end of many texts or keys is below the one before it, or past their octets. This crate makes the ends itself, so no
    /// call of it answers this.
    End = 36, "end";
    /// The first list is said to have more names than there are keys.
    FirstCount = 37, "first count";
}
