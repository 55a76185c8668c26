//! A checked table, and the calls that compare texts over it.
use crate::ffi;
use crate::keys::with_keys;
use crate::pages::Pages;
use crate::{Collation, Refusal};
use std::borrow::Cow;
use std::cmp::Ordering;
use std::fmt;
use std::ops::Range;
use std::sync::{Arc, OnceLock};

/// The numbers of an entry.
const ENTRY_WIDTH: usize = 4;

/// A mapping table that was checked and accepted. It owns its two slices, or borrows them for ever, and it has the pages by which
/// entries are found (272 KiB, which its clones share), so that nobody can change any of these: this is what the calls of
/// include/mundeziwa_accepted.h ask for, and the crate makes them over such a table alone.
///
/// A struct may hold it, and any number of threads may use it at once. The comparing calls keep two key buffers for each
/// thread, which grow to 128 times the longest text seen (1 MiB at most for both); the calls on many texts, which check the table
/// each time, keep room for pages of their own. Both are freed with the thread.
///
/// ```
/// use mundeziwa::{Collation, Refusal, Table};
///
/// struct Roster {
///     table: Table,
///     names: Vec<String>,
/// }
///
/// impl Roster {
///     fn holds(&self, name: &str) -> Result<bool, Refusal> {
///         for known in &self.names {
///             if self.table.equal(Collation::UnicodeCasemap, known, name)? {
///                 return Ok(true);
///             }
///         }
///         Ok(false)
///     }
/// }
///
/// // One entry: é, titlecase itself, two code points from the pool's start on.
/// let table = Table::new(vec![0xE9, 0xE9, 0, 2], vec![0x65, 0x301])?;
/// let roster = Roster { table, names: vec!["José".into()] };
/// assert!(roster.holds("Jose\u{301}")?);
/// # Ok::<(), Refusal>(())
/// ```
#[derive(Clone)]
pub struct Table {
    entries: Cow<'static, [u32]>,
    pool: Cow<'static, [u32]>,
    /// Those of the entries, as the check left them; only read since.
    pages: Arc<Pages>,
}

/// A prepared text.
#[derive(Clone, Copy, Debug, PartialEq, Eq)]
pub struct Prepared<'k> {
    /// The key: a part of the key buffer, or the text itself where that is its key.
    pub key: &'k [u8],
    /// Whether the text is valid UTF-8 (always so under the other collations).
    pub valid: bool,
    /// How often the published steps ask the table.
    pub lookups: u64,
}

/// Where a text was found.
#[derive(Clone, Debug, PartialEq, Eq)]
pub struct Hit {
    /// The lowest occurrence of the first text's key in the second's.
    pub key: Range<usize>,
    /// The smallest run of whole characters of the second text that covers it; of octets, where that text is compared octet by
    /// octet (under `i;octet` and `i;ascii-casemap`, and where it is not valid UTF-8).
    pub text: Range<usize>,
}

impl Table {
    /// Checks a table, and keeps it if it is accepted: four numbers an entry (code point, titlecase, start in the pool, count).
    ///
    /// It takes vectors, which it then owns, and slices that live as long as the program, which it borrows; other slices are
    /// first copied with `to_vec`, which costs little beside the check. The pages are made here, and are always the table's own.
    ///
    /// Refusals 3 to 7.
    ///
    /// ```
    /// use mundeziwa::Table;
    ///
    /// static ENTRIES: [u32; 4] = [0xE9, 0xE9, 0, 2];
    /// static POOL: [u32; 2] = [0x65, 0x301];
    /// let borrowed = Table::new(&ENTRIES, &POOL)?;
    /// let owned = Table::new(ENTRIES.to_vec(), POOL.to_vec())?;
    /// assert_eq!(borrowed.entries(), owned.entries());
    ///
    /// // The same parts, but from a wrong start.
    /// assert_eq!(Table::new(&[0xE9, 0xE9, 1, 2], &POOL).unwrap_err().number(), 5);
    ///
    /// // A Hangul syllable maps by rule, and has no entry.
    /// assert_eq!(Table::new(&[0xAC00, 0xAC00, 0, 2], &[0x1100, 0x1161]).unwrap_err().number(), 4);
    /// # Ok::<(), mundeziwa::Refusal>(())
    /// ```
    pub fn new(entries: impl Into<Cow<'static, [u32]>>, pool: impl Into<Cow<'static, [u32]>>) -> Result<Table, Refusal> {
        ffi::check_interface();
        let (entries, pool) = (entries.into(), pool.into());
        let (answer, pages) = Pages::check(&entries, &pool);
        Refusal::of_table(&answer, entries.len() / ENTRY_WIDTH)?;
        Ok(Table { entries, pool, pages: Arc::new(pages) })
    }

    /// The table without an entry, in which every code point but the Hangul syllables maps to itself. It serves
    /// [`Collation::Octet`] and [`Collation::AsciiCasemap`], which read no table.
    ///
    /// ```
    /// use mundeziwa::{Collation, Table};
    ///
    /// assert!(Table::empty().equal(Collation::AsciiCasemap, "Beryl", "BERYL")?);
    /// // The syllable 한 and its three jamo.
    /// assert!(Table::empty().equal(Collation::UnicodeCasemap, "\u{D55C}", "\u{1112}\u{1161}\u{11AB}")?);
    /// # Ok::<(), mundeziwa::Refusal>(())
    /// ```
    pub fn empty() -> Table {
        static EMPTY: OnceLock<Table> = OnceLock::new();
        // Two empty slices are always accepted: a syllable unfolds into its jamo at one level.
        EMPTY.get_or_init(|| Table::new(&[], &[]).expect("two empty slices are accepted")).clone()
    }

    /// The entries, four numbers each: with the pool, what [`Table::new`] takes.
    ///
    /// ```
    /// let table = mundeziwa::Table::new(&[0x61, 0x41, 0, 0], &[])?;
    /// assert_eq!(table.entries(), [0x61, 0x41, 0, 0]);
    /// # Ok::<(), mundeziwa::Refusal>(())
    /// ```
    pub fn entries(&self) -> &[u32] {
        &self.entries
    }

    /// The pool: the decompositions of all entries, one after another.
    ///
    /// ```
    /// let table = mundeziwa::Table::new(&[0xE9, 0xE9, 0, 2], &[0x65, 0x301])?;
    /// assert_eq!(table.pool(), [0x65, 0x301]);
    /// # Ok::<(), mundeziwa::Refusal>(())
    /// ```
    pub fn pool(&self) -> &[u32] {
        &self.pool
    }

    /// The pages, for calls that read them.
    pub(crate) fn pages(&self) -> &Pages {
        &self.pages
    }

    /// The key of a text: two texts are equal exactly when their keys are, so records that are filed under it are joined by
    /// name. A key depends on the table: keys made over different tables (another edition, other lines) must not be compared.
    ///
    /// Refusal 2.
    ///
    /// ```
    /// use mundeziwa::{Collation, Table};
    ///
    /// let table = Table::new(&[0xE9, 0xE9, 0, 2], &[0x65, 0x301])?;
    /// assert_eq!(table.key(Collation::UnicodeCasemap, "é")?, b"\x65\xCC\x81");
    /// assert_eq!(table.key(Collation::UnicodeCasemap, "e\u{301}")?, b"\x65\xCC\x81");
    /// # Ok::<(), mundeziwa::Refusal>(())
    /// ```
    pub fn key(&self, collation: Collation, text: impl AsRef<[u8]>) -> Result<Vec<u8>, Refusal> {
        let text = text.as_ref();
        with_keys(|keys| {
            keys.make_room(text, &[]);
            Ok(self.prepare(collation, text, &mut keys.first)?.key.to_vec())
        })
    }

    /// Prepares a text: its key, whether it is valid, and the lookup count. The key is left at the start of the buffer, or is
    /// the text itself (`i;octet`, and an invalid text). A buffer of [`KEY_PER_OCTET_MOST`](crate::KEY_PER_OCTET_MOST) times
    /// the text's length is always enough.
    ///
    /// Refusals 2, and 8 with the length that the key needs.
    ///
    /// ```
    /// use mundeziwa::{Collation, Table};
    ///
    /// let table = Table::new(&[0x61, 0x41, 0, 0], &[])?;
    /// let mut buffer = [0; 8];
    /// let prepared = table.prepare(Collation::UnicodeCasemap, "a", &mut buffer)?;
    /// assert_eq!(prepared.key, b"A");
    /// assert!(prepared.valid);
    /// assert_eq!(prepared.lookups, 2);
    /// # Ok::<(), mundeziwa::Refusal>(())
    /// ```
    pub fn prepare<'k, T>(&self, collation: Collation, text: &'k T, buffer: &'k mut [u8]) -> Result<Prepared<'k>, Refusal>
    where
        T: AsRef<[u8]> + ?Sized,
    {
        let text = text.as_ref();
        let mut answer = [0; 7];
        // SAFETY: the table was accepted with these pages, and nobody can have changed either since; the buffer overlaps no other
        // argument, since it is borrowed alone.
        unsafe {
            ffi::mz_prepare_accepted(
                collation as u32,
                text.as_ptr(),
                text.len(),
                self.entries.as_ptr(),
                self.entries.len(),
                self.pool.as_ptr(),
                self.pool.len(),
                self.pages.presence.as_ptr(),
                self.pages.presence.len(),
                self.pages.ranks.as_ptr(),
                self.pages.ranks.len(),
                buffer.as_mut_ptr(),
                buffer.len(),
                &mut answer,
            )
        };
        Refusal::of_lone_text(&answer)?;
        let length = answer[5] as usize;
        let key = if answer[6] == 0 { &text[..length] } else { &buffer[..length] };
        Ok(Prepared { key, valid: answer[3] == 1, lookups: answer[4] })
    }

    /// Whether two texts have equal keys.
    ///
    /// Refusal 2.
    ///
    /// ```
    /// use mundeziwa::{Collation, Table};
    ///
    /// let table = Table::new(&[0xE9, 0xE9, 0, 2], &[0x65, 0x301])?;
    /// assert!(table.equal(Collation::UnicodeCasemap, "é", "e\u{301}")?);
    /// assert!(!table.equal(Collation::Octet, "é", "e\u{301}")?);
    /// // A broken name compares as octets.
    /// assert!(table.equal(Collation::UnicodeCasemap, b"Jos\xC3", b"Jos\xC3")?);
    /// # Ok::<(), mundeziwa::Refusal>(())
    /// ```
    pub fn equal(&self, collation: Collation, first: impl AsRef<[u8]>, second: impl AsRef<[u8]>) -> Result<bool, Refusal> {
        let answer = self.compare(ffi::mz_equal_accepted, collation, first.as_ref(), second.as_ref())?;
        Ok(answer[3] == 1)
    }

    /// How the keys of two texts are ordered: octet by octet, unsigned; a proper prefix is less.
    ///
    /// Refusal 2.
    ///
    /// ```
    /// use mundeziwa::{Collation, Table};
    /// use std::cmp::Ordering;
    ///
    /// let table = Table::empty();
    /// assert_eq!(table.order(Collation::AsciiCasemap, "ophelia", "Otto")?, Ordering::Less);
    /// assert_eq!(table.order(Collation::Octet, "ophelia", "Otto")?, Ordering::Greater);
    /// # Ok::<(), mundeziwa::Refusal>(())
    /// ```
    pub fn order(&self, collation: Collation, first: impl AsRef<[u8]>, second: impl AsRef<[u8]>) -> Result<Ordering, Refusal> {
        let answer = self.compare(ffi::mz_order_accepted, collation, first.as_ref(), second.as_ref())?;
        Ok(match answer[3] {
            1 => Ordering::Less,
            2 => Ordering::Equal,
            _ => Ordering::Greater,
        })
    }

    /// Where the first text is found in the second, if it is: the lowest occurrence of its key, and the smallest run of whole
    /// characters that covers it. An empty text is found at 0..0.
    ///
    /// Refusal 2.
    ///
    /// ```
    /// use mundeziwa::{Collation, Table};
    ///
    /// let hit = Table::empty().find(Collation::AsciiCasemap, "irene", "Hurricane Irene")?.expect("she is there");
    /// assert_eq!(hit.text, 10..15);
    ///
    /// // A hit never cuts a letter in half: the accent alone is sought, and the letter is found.
    /// let table = Table::new(&[0xE9, 0xE9, 0, 2], &[0x65, 0x301])?;
    /// let hit = table.find(Collation::UnicodeCasemap, "\u{301}", "José")?.expect("it is there");
    /// assert_eq!((hit.key, hit.text), (4..6, 3..5));
    /// # Ok::<(), mundeziwa::Refusal>(())
    /// ```
    pub fn find(&self, collation: Collation, first: impl AsRef<[u8]>, second: impl AsRef<[u8]>) -> Result<Option<Hit>, Refusal> {
        let answer = self.compare(ffi::mz_substring_accepted, collation, first.as_ref(), second.as_ref())?;
        let [_, _, _, found, key_start, key_end, text_start, text_end] = answer.map(|n| n as usize);
        Ok((found == 1).then_some(Hit { key: key_start..key_end, text: text_start..text_end }))
    }

    /// Makes a comparing call over this table, and answers its row if it was not refused.
    fn compare<const N: usize>(
        &self,
        call: ffi::Comparing<N, *const u64>,
        collation: Collation,
        first: &[u8],
        second: &[u8],
    ) -> Result<[u64; N], Refusal> {
        let mut answer = [0; N];
        with_keys(|keys| {
            keys.make_room(first, second);
            // SAFETY: the table was accepted with these pages, and nobody can have changed either since; the keys overlap no
            // other argument, since they are this module's own.
            unsafe {
                call(
                    collation as u32,
                    first.as_ptr(),
                    first.len(),
                    second.as_ptr(),
                    second.len(),
                    self.entries.as_ptr(),
                    self.entries.len(),
                    self.pool.as_ptr(),
                    self.pool.len(),
                    self.pages.presence.as_ptr(),
                    self.pages.presence.len(),
                    self.pages.ranks.as_ptr(),
                    self.pages.ranks.len(),
                    keys.first.as_mut_ptr(),
                    keys.first.len(),
                    keys.second.as_mut_ptr(),
                    keys.second.len(),
                    &mut answer,
                )
            }
        });
        Refusal::of(&answer)?;
        Ok(answer)
    }
}

/// The number of entries and of pool numbers, not the numbers themselves.
impl fmt::Debug for Table {
    fn fmt(&self, f: &mut fmt::Formatter<'_>) -> fmt::Result {
        f.debug_struct("Table").field("entries", &(self.entries.len() / ENTRY_WIDTH)).field("pool", &self.pool.len()).finish()
    }
}
