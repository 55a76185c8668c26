//! Names compared under the collations of RFC 4790 and RFC 5051: `i;octet`, `i;ascii-casemap` and `i;unicode-casemap`.
//!
//! The work is done by a library whose every function is proved to meet its contract; this crate checks a mapping table once,
//! keeps it where nobody can change it, and calls that library. Nothing here panics on any input, and nothing is `unsafe` to
//! call. (A library of another interface than this crate was written for, linked by mistake, stops the program at the first
//! table, builder or record, with both numbers.) What is linked is build/lib/libmundeziwa.a, which `make lib` leaves in the
//! repository; MUNDEZIWA_LIB_DIR names another folder.
//!
//! Each text has a **key**, a string of octets, and texts are compared by their keys alone: records that are filed under the
//! keys of their names are joined by name. Texts and lines are anything that is octets: `&str`, `String`, `&[u8]`, `Vec<u8>`.
//!
//! Under `i;unicode-casemap` a character is replaced by its titlecase and then unfolded: replaced by its decomposition, and
//! each part again by its own, until nothing decomposes. Both stand in a [`Table`], built from lines of UnicodeData.txt: an
//! *entry* for each code point with a titlecase or a decomposition, and the decompositions one after another in its *pool*.
//! Each time it is asked for one is a *lookup*. A letter without an entry stays as it is, and nothing warns of it: for names of
//! any origin take the whole published file. Hangul syllables alone have no entries: they decompose by rule into their jamo,
//! whatever the table, so that a Korean name meets itself in either spelling. A text that is not valid UTF-8 is its own key.
//! [`RefusalKind`] has what is refused; docs/SCOPE.md of the repository, "document 01", has every rule.
//!
//! Which names two lists share, of at most 1,024 names each:
//!
//! ```
//! use mundeziwa::{Collation, TableBuilder};
//!
//! let lines = "0065;LATIN SMALL LETTER E;Ll;0;L;;;;;N;;;0045;;0045\n\
//!     00C9;LATIN CAPITAL LETTER E WITH ACUTE;Lu;0;L;0045 0301;;;;N;;;;00E9;\n\
//!     00E9;LATIN SMALL LETTER E WITH ACUTE;Ll;0;L;0065 0301;;;;N;;;00C9;;00C9\n";
//! let table = TableBuilder::read(lines.as_bytes())?.table()?;
//!
//! let (held_back, fitted) = (["F", "e\u{301}"], ["\u{c9}", "E"]);
//! let shared = table.shared(Collation::UnicodeCasemap, held_back, fitted)?;
//! assert!(shared.matches().eq([(1, 0)]));
//! # Ok::<(), Box<dyn std::error::Error>>(())
//! ```
//!
//! Lists of any length, and which of all their names are one:
//!
//! ```
//! use mundeziwa::{Collation, TableBuilder};
//!
//! # let lines = "0065;LATIN SMALL LETTER E;Ll;0;L;;;;;N;;;0045;;0045\n\
//! #     00C9;LATIN CAPITAL LETTER E WITH ACUTE;Lu;0;L;0045 0301;;;;N;;;;00E9;\n\
//! #     00E9;LATIN SMALL LETTER E WITH ACUTE;Ll;0;L;0065 0301;;;;N;;;00C9;;00C9\n";
//! # let table = TableBuilder::read(lines.as_bytes())?.table()?;
//! let (held_back, fitted) = (["F", "e\u{301}"], ["\u{c9}", "E", "\u{e9}"]);
//! let matches = table.match_lists(Collation::UnicodeCasemap, held_back, fitted)?;
//! assert_eq!((matches.names_with_partner(), matches.equal_pairs()), (1, 2));
//! for group in matches.groups().filter(|group| group.is_shared()) {
//!     assert!(group.first().eq([1]) && group.second().eq([0, 2]));
//! }
//! # Ok::<(), Box<dyn std::error::Error>>(())
//! ```
//!
//! A join by the keys, which may be kept, in a map or a file:
//!
//! ```
//! use mundeziwa::{Collation, Refusal, TableBuilder};
//! use std::collections::HashMap;
//!
//! # let lines = "0065;LATIN SMALL LETTER E;Ll;0;L;;;;;N;;;0045;;0045\n\
//! #     00C9;LATIN CAPITAL LETTER E WITH ACUTE;Lu;0;L;0045 0301;;;;N;;;;00E9;\n\
//! #     00E9;LATIN SMALL LETTER E WITH ACUTE;Ll;0;L;0065 0301;;;;N;;;00C9;;00C9\n";
//! # let table = TableBuilder::read(lines.as_bytes())?.table()?;
//! let key = |name: &&str| table.key(Collation::UnicodeCasemap, name);
//!
//! let mut fitted = HashMap::new();
//! for name in ["\u{c9}", "E"] {
//!     fitted.insert(key(&name)?, name);
//! }
//! let held_back = ["e\u{301}", "F"];
//! let shared: Vec<_> = held_back.iter().filter(|name| key(name).is_ok_and(|key| fitted.contains_key(&key))).collect();
//! assert_eq!(shared, [&"e\u{301}"]);
//! # Ok::<(), mundeziwa::ReadError>(())
//! ```
//!
//! Comparing:
//!
//! ```
//! use mundeziwa::{Collation, TableBuilder};
//! use std::cmp::Ordering;
//!
//! // Lines of UnicodeData.txt; a program reads the whole file with `TableBuilder::read_whole`.
//! let mut builder = TableBuilder::new();
//! builder.line("0065;LATIN SMALL LETTER E;Ll;0;L;;;;;N;;;0045;;0045")?;
//! builder.line("00C9;LATIN CAPITAL LETTER E WITH ACUTE;Lu;0;L;0045 0301;;;;N;;;;00E9;")?;
//! builder.line("00E9;LATIN SMALL LETTER E WITH ACUTE;Ll;0;L;0065 0301;;;;N;;;00C9;;00C9")?;
//! let table = builder.table()?;
//!
//! let unicode = Collation::UnicodeCasemap;
//! assert!(table.equal(unicode, "é", "É")?);
//! assert!(table.equal(unicode, "é", "e\u{301}")?);
//! assert_eq!(table.order(unicode, "E", "é")?, Ordering::Less);
//!
//! // A name with a broken octet stays broken, and compares as octets.
//! assert!(!table.equal(unicode, b"\xC3", "é")?);
//!
//! // A hit never cuts a letter in half.
//! let hit = table.find(unicode, "\u{301}", "Eé")?.expect("the accent is there");
//! assert_eq!(hit.text, 1..3);
//! # Ok::<(), mundeziwa::Refusal>(())
//! ```
//!
//! Texts and keys are kept in files as [`records`].
#![warn(missing_docs)]

mod builder;
mod ffi;
mod kept;
mod keys;
mod lists;
mod many;
mod pages;
mod reading;
pub mod records;
mod refusal;
mod refusal_kind;
mod table;

pub use builder::TableBuilder;
pub use lists::{ListError, Shared};
pub use many::{Group, Keys, Matches};
pub use reading::ReadError;
pub use refusal::Refusal;
pub use refusal_kind::RefusalKind;
pub use table::{Hit, Prepared, Table};

/// A collation, by its number in document 01.
///
/// ```
/// use mundeziwa::{Collation, Table};
///
/// let table = Table::empty();
/// assert!(!table.equal(Collation::Octet, "Beryl", "BERYL")?);
/// assert!(table.equal(Collation::AsciiCasemap, "Beryl", "BERYL")?);
/// assert_eq!(Collation::UnicodeCasemap as u32, 3);
/// # Ok::<(), mundeziwa::Refusal>(())
/// ```
#[derive(Clone, Copy, Debug, PartialEq, Eq, Hash)]
pub enum Collation {
    /// `i;octet`: a text is its own key.
    Octet = 1,
    /// `i;ascii-casemap`: the letters a to z are raised.
    AsciiCasemap = 2,
    /// `i;unicode-casemap`: titlecase and full decomposition over the table, that of Hangul syllables by rule; a text that is not
    /// valid UTF-8 is its own key.
    UnicodeCasemap = 3,
}

/// The longest text that is taken, in octets.
pub const TEXT_MOST: usize = 4096;

/// The most names that a list is taken with.
pub const NAMES_MOST: usize = 1024;

/// The most texts or keys that one call takes.
pub const ENDS_MOST: usize = 4_294_967_295;

/// The most octets of a key for each octet of its text.
pub const KEY_PER_OCTET_MOST: usize = 128;
