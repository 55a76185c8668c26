//! The pages of include/mundeziwa.h, by which the library finds entries. A table has its own, filled when it is made and only read
//! since. A call that checks the table fills pages each time: it is lent others, since threads share a table.
use crate::kept::with_kept;
use crate::{ffi, Collation};
use std::cell::Cell;

#[cfg(test)]
mod tests;

/// The numbers of either slice: MZ_PAGES.
const PAGES: usize = 17_408;

/// A number for each page of 64 code points, twice: a bit for each code point that has an entry, and the entries before the page.
#[derive(Default)]
pub struct Pages {
    pub presence: Vec<u64>,
    pub ranks: Vec<u64>,
}

impl Pages {
    const NONE: Pages = Pages { presence: Vec::new(), ranks: Vec::new() };

    /// Makes either slice as long as a call asks for. What stands in them is left from their last use: a call fills them afresh.
    fn make_room(&mut self) {
        self.presence.resize(PAGES, 0);
        self.ranks.resize(PAGES, 0);
    }

    /// Checks a table, and answers the row of a call that is refused exactly as the check by itself, and the pages. They are the
    /// table's if the row is no refusal.
    pub fn check(entries: &[u32], pool: &[u32]) -> ([u64; 7], Pages) {
        let mut pages = Pages::NONE;
        pages.make_room();
        (pages.fill(entries, pool), pages)
    }

    /// Prepares the empty text over a table, into these pages, and answers the row. The text has no fault and its key needs no room:
    /// where the pages are long enough, the table alone can be refused.
    fn fill(&mut self, entries: &[u32], pool: &[u32]) -> [u64; 7] {
        let (text, mut key): (&[u8], [u8; 0]) = (&[], []);
        let mut answer = [0; 7];
        // SAFETY: the pointers and lengths are those of live slices; the pages, the key and the answer are borrowed alone, so they
        // overlap nothing.
        unsafe {
            ffi::mz_prepare(
                Collation::UnicodeCasemap as u32,
                text.as_ptr(),
                text.len(),
                entries.as_ptr(),
                entries.len(),
                pool.as_ptr(),
                pool.len(),
                self.presence.as_mut_ptr(),
                self.presence.len(),
                self.ranks.as_mut_ptr(),
                self.ranks.len(),
                key.as_mut_ptr(),
                key.len(),
                &mut answer,
            )
        };
        answer
    }
}

thread_local! {
    static ROOM: Cell<Pages> = const { Cell::new(Pages::NONE) };
}

/// Does some work with room for the pages that a call fills: the thread's own, 272 KiB that it keeps from its first such call on.
pub fn with_page_room<R>(work: impl FnOnce(&mut Pages) -> R) -> R {
    with_kept(&ROOM, |pages| {
        pages.make_room();
        work(pages)
    })
}
