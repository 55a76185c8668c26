//! Memory lent to the library. Every slice is lent in two copies, and every call made on both: one copy begins straight after
//! pages that can't be touched, the other ends straight before such pages, so that a read or a write beyond either end is found
//! (see `pages`). On its open side each copy has guard elements that must stay.

use crate::pages::Pages;
use std::slice::{from_raw_parts, from_raw_parts_mut};

/// Guard elements on the open side of a copy.
const GUARDS: usize = 29;

/// Where a copy stands within its pages.
#[derive(Clone, Copy)]
pub enum Side {
    Start,
    End,
}

pub const SIDES: [Side; 2] = [Side::Start, Side::End];

pub struct Lent<T> {
    at_start: Pages,
    at_end: Pages,
    length: usize,
    guard: T,
}

impl<T: Copy + PartialEq> Lent<T> {
    pub fn new(content: &[T], guard: T) -> Lent<T> {
        let size = (content.len() + GUARDS) * size_of::<T>();
        let mut lent = Lent { at_start: Pages::take(size), at_end: Pages::take(size), length: content.len(), guard };
        for side in SIDES {
            // SAFETY: see `guards`; nothing else refers to these pages while they are held.
            unsafe { from_raw_parts_mut(lent.guards(side), GUARDS) }.fill(guard);
        }
        lent.write(content);
        lent
    }

    /// Puts as many elements as there are into both copies.
    pub fn write(&mut self, content: &[T]) {
        for side in SIDES {
            // SAFETY: see `place`; nothing else refers to these pages while they are held.
            unsafe { from_raw_parts_mut(self.pointer_mut(side), self.length) }.copy_from_slice(content);
        }
    }

    pub fn length(&self) -> usize {
        self.length
    }

    pub fn pointer(&self, side: Side) -> *const T {
        self.place(side)
    }

    pub fn pointer_mut(&mut self, side: Side) -> *mut T {
        self.place(side)
    }

    /// What the first copy holds.
    pub fn content(&self) -> &[T] {
        self.copy(Side::Start)
    }

    /// Whether all guards stayed and both copies hold the same.
    pub fn agrees(&self) -> bool {
        self.still_holds(self.copy(Side::Start))
    }

    /// Whether all guards stayed and both copies hold `content`.
    pub fn still_holds(&self, content: &[T]) -> bool {
        self.guards_stay() && SIDES.iter().all(|&side| self.copy(side) == content)
    }

    pub fn guards_stay(&self) -> bool {
        // SAFETY: `new` has written so many elements there.
        let stay = |side| unsafe { from_raw_parts(self.guards(side), GUARDS) }.iter().all(|&element| element == self.guard);
        SIDES.into_iter().all(stay)
    }

    fn copy(&self, side: Side) -> &[T] {
        // SAFETY: `new` has written so many elements there.
        unsafe { from_raw_parts(self.place(side), self.length) }
    }

    /// The first element of a copy. The pages have room for it and its guards; they begin and end at multiples of every
    /// alignment.
    fn place(&self, side: Side) -> *mut T {
        match side {
            Side::Start => self.at_start.start().cast(),
            Side::End => self.at_end.end().cast::<T>().wrapping_sub(self.length),
        }
    }

    /// The first guard element of a copy.
    fn guards(&self, side: Side) -> *mut T {
        match side {
            Side::Start => self.place(side).wrapping_add(self.length),
            Side::End => self.place(side).wrapping_sub(GUARDS),
        }
    }
}
