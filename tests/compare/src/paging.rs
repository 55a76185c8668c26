//! The page slices of a table: which of them a call is lent, and what it must leave there.
//!
//! To fill and to compare 272 KiB takes longer than most calls do. So slices pass from table to table; and where there are very
//! many calls (`sparing`), one in so many is lent them as they are before any call, and they are compared at once. The other
//! calls are lent them as the last call left them, and they are compared at once where a table's pages first come into them; else
//! before they are next made what they were, or at the end of the part.

use crate::abi::PREPARE;
use crate::both::Table;
use crate::library;
use crate::page_slices::{Content, PageSlices, ENOUGH};
use second::pages::{are_filled, Lengths, PAGES};
use std::cell::{Cell, OnceCell, RefCell, RefMut};
use std::rc::Rc;

/// Where there are very many calls, one in so many is compared at once. Whatever rows calls come in, each has its turn.
const SPARING: u64 = 13;

thread_local! {
    /// Slices that no table holds.
    static FREE: RefCell<Vec<Lending>> = const { RefCell::new(Vec::new()) };
    /// How many calls there were where there are very many.
    static SPARED: Cell<u64> = const { Cell::new(0) };
}

/// Slices that are lent again and again.
struct Lending {
    slices: PageSlices,
    untouched: Rc<Content>,
    /// What they must hold now.
    holds: Rc<Content>,
    /// Whether a call was lent them after they were last compared.
    is_due: bool,
}

impl Lending {
    fn take(lengths: Lengths) -> Lending {
        let free = FREE.with_borrow_mut(|free| {
            let index = free.iter().position(|lending| lending.slices.lengths() == lengths);
            index.map(|index| free.swap_remove(index))
        });
        free.unwrap_or_else(|| {
            let untouched = Rc::new(Content::untouched(lengths));
            Lending { slices: PageSlices::new(&untouched), holds: untouched.clone(), untouched, is_due: false }
        })
    }

    /// Makes them what they are before any call.
    fn restore(&mut self) -> Result<(), String> {
        self.compare_due()?;
        if !Rc::ptr_eq(&self.holds, &self.untouched) {
            self.slices.write(&self.untouched);
            self.holds = self.untouched.clone();
        }
        Ok(())
    }

    fn compare_due(&mut self) -> Result<(), String> {
        if !std::mem::take(&mut self.is_due) {
            return Ok(());
        }
        self.slices.compare(&self.holds)
    }
}

/// Compares slices that no table holds any more.
pub fn compare_free() -> Result<(), String> {
    FREE.with_borrow_mut(|free| free.iter_mut().try_for_each(Lending::compare_due))
}

/// A table's page slices. They are taken when a call first asks for them: most tables are only checked.
pub struct Paging {
    pub lengths: Lengths,
    is_sparing: bool,
    /// Whether the last call was one of those that are compared at once.
    is_chosen: Cell<bool>,
    filled: OnceCell<Rc<Content>>,
    /// Lent to the calls that check the table.
    written: RefCell<Option<Lending>>,
    /// Lent to those that don't: what a call that does has left there.
    read: RefCell<Option<Lending>>,
}

impl Default for Paging {
    fn default() -> Paging {
        Paging::new(ENOUGH)
    }
}

impl Drop for Paging {
    fn drop(&mut self) {
        let lendings = [self.written.take(), self.read.take()];
        FREE.with_borrow_mut(|free| free.extend(lendings.into_iter().flatten()));
    }
}

impl Paging {
    fn new(lengths: Lengths) -> Paging {
        let (written, read) = (RefCell::new(None), RefCell::new(None));
        Paging { lengths, is_sparing: false, is_chosen: Cell::new(true), filled: OnceCell::new(), written, read }
    }

    /// Whether a call can fill slices of these lengths.
    pub fn is_enough(&self) -> bool {
        self.lengths.presence >= PAGES && self.lengths.ranks >= PAGES
    }

    /// Whether this is a call that is compared at once.
    fn choose(&self) -> bool {
        self.is_chosen.set(!self.is_sparing || SPARED.replace(SPARED.get() + 1) % SPARING == 0);
        self.is_chosen.get()
    }

    fn lend_written(&self) -> Result<RefMut<'_, Lending>, String> {
        let take = || Lending::take(self.lengths);
        let mut lending = RefMut::map(self.written.borrow_mut(), |written| written.get_or_insert_with(take));
        if self.choose() {
            lending.restore()?;
        }
        Ok(lending)
    }
}

impl Table {
    /// The same table, its calls lent page slices of other lengths.
    pub fn lending(mut self, presence: usize, ranks: usize) -> Table {
        self.paging = Paging::new(Lengths { presence, ranks });
        self
    }

    /// The same table, for very many calls or as one of very many tables.
    pub fn sparing(mut self) -> Table {
        self.paging.is_sparing = true;
        self
    }

    /// What the second program leaves in the slices over this table.
    fn filled(&self, untouched: &Content) -> Result<Rc<Content>, String> {
        let table = self.verdict.as_ref().map_err(|_| "the pages of a refused table are asked for")?;
        Ok(self.paging.filled.get_or_init(|| Rc::new(untouched.filled(table))).clone())
    }

    /// The slices for a call. One that doesn't check the table, and reads it, is lent what one that does has left.
    pub fn lend_pages(&self, accepted: bool, collation: u32) -> Result<RefMut<'_, PageSlices>, String> {
        let lending = if accepted && collation == 3 { self.lend_read() } else { self.paging.lend_written() };
        let mut lending = lending.map_err(|difference| self.with_table(difference))?;
        lending.is_due = true;
        Ok(RefMut::map(lending, |lending| &mut lending.slices))
    }

    fn lend_read(&self) -> Result<RefMut<'_, Lending>, String> {
        let mut read = self.paging.read.borrow_mut();
        if read.is_none() {
            let mut lending = Lending::take(self.paging.lengths);
            lending.restore()?;
            library::prepare(PREPARE.checked, 3, &[], &self.lent, &mut lending.slices, &mut [])?;
            lending.holds = self.filled(&lending.untouched)?;
            lending.is_due = true;
            lending.compare_due()?;
            *read = Some(lending);
        }
        Ok(RefMut::map(read, |read| read.as_mut().expect("made above")))
    }

    /// What the library's calls that check the table leave in the slices.
    pub fn pages_left(&self) -> Result<Content, String> {
        let left = self.lend_read().map(|lending| lending.slices.content());
        left.map_err(|difference| self.with_table(difference))
    }

    /// What the last call that checks the table left in the slices.
    pub fn pages_after(&self) -> Option<Content> {
        self.paging.written.borrow().as_ref().map(|lending| lending.slices.content())
    }

    /// After a call that checks the table and answers with a number: the slices hold, whole, what the second program says.
    pub fn compare_pages(&self, collation: u32, number: u64) -> Result<(), String> {
        let mut written = self.paging.written.borrow_mut();
        let lending = written.as_mut().ok_or("no page slices were lent")?;
        let mut is_new = false;
        if are_filled(collation, number) {
            let filled = self.filled(&lending.untouched)?;
            is_new = !Rc::ptr_eq(&lending.holds, &filled);
            lending.holds = filled;
        }
        if is_new || self.paging.is_chosen.get() {
            lending.compare_due().map_err(|difference| self.with_table(difference))?;
        }
        Ok(())
    }

    /// Compares slices that were lent to be read.
    pub fn compare_read_pages(&self) -> Result<(), String> {
        let mut read = self.paging.read.borrow_mut();
        match read.as_mut() {
            Some(lending) if self.paging.choose() => lending.compare_due().map_err(|difference| self.with_table(difference)),
            _ => Ok(()),
        }
    }

    /// A difference in slices, which an earlier call may have brought about.
    fn with_table(&self, difference: String) -> String {
        format!("{difference}, since they were last compared\n{}", self.describe())
    }
}
