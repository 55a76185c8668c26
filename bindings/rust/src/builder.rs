//! Tables out of lines of UnicodeData.txt.
use crate::ffi;
use crate::reading::Named;
use crate::{Refusal, Table};
use std::fmt;

/// The most entries of a table, and the most numbers of its pool.
const ENTRIES_MOST: usize = 16_384;
const POOL_MOST: usize = 65_536;

/// A table that is being built, line by line, from UnicodeData.txt. It owns its numbers.
///
/// ```
/// use mundeziwa::{Collation, TableBuilder};
///
/// let lines = "0061;LATIN SMALL LETTER A;Ll;0;L;;;;;N;;;0041;;0041\n0062;LATIN SMALL LETTER B;Ll;0;L;;;;;N;;;0042;;0042\n";
/// let builder = TableBuilder::read(lines.as_bytes())?;
/// assert_eq!(format!("{builder:?}"), "TableBuilder { lines: 2, entries: 2, pool: 0, last: Some(U+0062) }");
/// let table = builder.table()?;
/// assert!(table.equal(Collation::UnicodeCasemap, "ab", "AB")?);
/// # Ok::<(), Box<dyn std::error::Error>>(())
/// ```
#[derive(Clone)]
pub struct TableBuilder {
    entries: Vec<u32>,
    pool: Vec<u32>,
    entries_used: u64,
    pool_used: u64,
    next: u64,
    lines: u64,
}

impl TableBuilder {
    /// A builder with no line yet.
    ///
    /// ```
    /// let builder = mundeziwa::TableBuilder::new();
    /// assert_eq!(builder.line_count(), 0);
    /// ```
    pub fn new() -> TableBuilder {
        ffi::check_interface();
        TableBuilder {
            entries: vec![0; 4 * ENTRIES_MOST],
            pool: vec![0; POOL_MOST],
            entries_used: 0,
            pool_used: 0,
            next: 0,
            lines: 0,
        }
    }

    /// Adds one line, without its line end. On a refusal the builder stays as it was.
    ///
    /// Refusals 20 to 23, 29, 24 to 27. The titlecase is field 14's, field 12's where 14 is empty, and none where both are.
    /// Hangul syllables need no lines: they map by rule, and a line with a mapping for one is refused with 25.
    ///
    /// ```
    /// let mut builder = mundeziwa::TableBuilder::new();
    /// builder.line("0061;LATIN SMALL LETTER A;Ll;0;L;;;;;N;;;0041;;0041")?;
    /// assert_eq!(builder.line(b"0061;;;;;;;;;;;;;;").unwrap_err().name(), "order of lines");
    /// builder.line("0062;LATIN SMALL LETTER B;Ll;0;L;;;;;N;;;0042;;")?;
    /// assert_eq!(builder.entries()[4..], [0x62, 0x42, 0, 0]);
    /// assert_eq!(builder.line("0063;LATIN SMALL LETTER C;Ll;0;L;;;;;N;;;43;;0043").unwrap_err().number(), 29);
    /// # Ok::<(), mundeziwa::Refusal>(())
    /// ```
    pub fn line(&mut self, line: impl AsRef<[u8]>) -> Result<(), Refusal> {
        let line = line.as_ref();
        let mut answer = [0; 6];
        // SAFETY: the pointers and lengths are those of live slices; entries, pool and answer are borrowed alone, so they
        // overlap nothing.
        unsafe {
            ffi::mz_add_line(
                self.entries_used,
                self.pool_used,
                self.next,
                line.as_ptr(),
                line.len(),
                self.entries.as_mut_ptr(),
                self.entries.len(),
                self.pool.as_mut_ptr(),
                self.pool.len(),
                &mut answer,
            )
        };
        Refusal::of(&answer)?;
        [self.entries_used, self.pool_used, self.next] = [answer[3], answer[4], answer[5]];
        self.lines += 1;
        Ok(())
    }

    /// How many lines were taken.
    ///
    /// ```
    /// let mut builder = mundeziwa::TableBuilder::new();
    /// builder.line("0041;LATIN CAPITAL LETTER A;Lu;0;L;;;;;N;;;;0061;")?;
    /// builder.line("0041;the same again").unwrap_err();
    /// assert_eq!(builder.line_count(), 1);
    /// # Ok::<(), mundeziwa::Refusal>(())
    /// ```
    pub fn line_count(&self) -> u64 {
        self.lines
    }

    /// How many entries were made of them: a line that says nothing of titlecase or decomposition makes none.
    ///
    /// ```
    /// let mut builder = mundeziwa::TableBuilder::new();
    /// builder.line("0041;LATIN CAPITAL LETTER A;Lu;0;L;;;;;N;;;;0061;")?;
    /// builder.line("0061;LATIN SMALL LETTER A;Ll;0;L;;;;;N;;;0041;;0041")?;
    /// assert_eq!((builder.line_count(), builder.entry_count()), (2, 1));
    /// # Ok::<(), mundeziwa::Refusal>(())
    /// ```
    pub fn entry_count(&self) -> usize {
        self.entries_used as usize
    }

    /// The code point of the last line that was taken, if there was one.
    ///
    /// ```
    /// let mut builder = mundeziwa::TableBuilder::new();
    /// assert_eq!(builder.last_code_point(), None);
    /// builder.line("0041;LATIN CAPITAL LETTER A;Lu;0;L;;;;;N;;;;0061;")?;
    /// assert_eq!(builder.last_code_point(), Some(0x41));
    /// # Ok::<(), mundeziwa::Refusal>(())
    /// ```
    pub fn last_code_point(&self) -> Option<u32> {
        self.next.checked_sub(1).map(|last| last as u32)
    }

    /// The entries so far, four numbers each: code point, titlecase, start in the pool, count.
    ///
    /// ```
    /// let mut builder = mundeziwa::TableBuilder::new();
    /// builder.line("00E9;LATIN SMALL LETTER E WITH ACUTE;Ll;0;L;0065 0301;;;;N;;;00C9;;00C9")?;
    /// assert_eq!(builder.entries(), [0xE9, 0xC9, 0, 2]);
    /// # Ok::<(), mundeziwa::Refusal>(())
    /// ```
    pub fn entries(&self) -> &[u32] {
        &self.entries[..4 * self.entries_used as usize]
    }

    /// The pool so far: the decompositions, one after another.
    ///
    /// ```
    /// let mut builder = mundeziwa::TableBuilder::new();
    /// builder.line("00E9;LATIN SMALL LETTER E WITH ACUTE;Ll;0;L;0065 0301;;;;N;;;00C9;;00C9")?;
    /// assert_eq!(builder.pool(), [0x65, 0x301]);
    /// # Ok::<(), mundeziwa::Refusal>(())
    /// ```
    pub fn pool(&self) -> &[u32] {
        &self.pool[..self.pool_used as usize]
    }

    /// The table of the lines so far, checked. It has slices of its own: the builder may go on, or go.
    ///
    /// Refusal 7: lines may decompose in a circle, too deep or too wide, and those for jamo so that a Hangul syllable does.
    ///
    /// ```
    /// use mundeziwa::{Refusal, Table, TableBuilder};
    ///
    /// fn small_letters() -> Result<Table, Refusal> {
    ///     let mut builder = TableBuilder::new();
    ///     builder.line("0061;LATIN SMALL LETTER A;Ll;0;L;;;;;N;;;0041;;0041")?;
    ///     builder.table()
    /// }
    /// assert_eq!(small_letters()?.entries().len(), 4);
    /// # Ok::<(), Refusal>(())
    /// ```
    pub fn table(&self) -> Result<Table, Refusal> {
        Table::new(self.entries().to_vec(), self.pool().to_vec())
    }
}

impl Default for TableBuilder {
    fn default() -> TableBuilder {
        TableBuilder::new()
    }
}

/// The counts, not the numbers themselves.
impl fmt::Debug for TableBuilder {
    fn fmt(&self, f: &mut fmt::Formatter<'_>) -> fmt::Result {
        f.debug_struct("TableBuilder")
            .field("lines", &self.lines)
            .field("entries", &self.entries_used)
            .field("pool", &self.pool_used)
            .field("last", &self.last_code_point().map(Named))
            .finish()
    }
}
