//! The calls on many texts and many keys.

use super::{new_row, row, LentTable, NUMBER_GUARD, OCTET_GUARD, SIZE_GUARD};
use crate::abi::{mz_match_keys, mz_prepare_many};
use crate::lent::{Lent, Side, SIDES};
use crate::page_slices::PageSlices;
use second::many::{Many, Matched, Prepared};

/// The longest slice of which copies are made.
const COPIED_MOST: usize = 1 << 28;

/// A slice that the library reads: two copies or, where it is too long for them, itself (see `pages::mostly_zeros`).
enum Read<'a, T> {
    Copies(Lent<T>),
    Itself(&'a [T]),
}

impl<'a, T: Copy + PartialEq> Read<'a, T> {
    fn new(slice: &'a [T], guard: T) -> Read<'a, T> {
        if slice.len() > COPIED_MOST {
            return Read::Itself(slice);
        }
        Read::Copies(Lent::new(slice, guard))
    }

    fn pointer(&self, side: Side) -> *const T {
        match self {
            Read::Copies(lent) => lent.pointer(side),
            Read::Itself(slice) => slice.as_ptr(),
        }
    }

    /// Whether it stayed; one that isn't copied stands where it can't be written.
    fn still_holds(&self, slice: &[T]) -> bool {
        match self {
            Read::Copies(lent) => lent.still_holds(slice),
            Read::Itself(_) => true,
        }
    }
}

/// Many texts or keys lent to the library for a call.
struct LentMany<'a> {
    octets: Read<'a, u8>,
    ends: Read<'a, usize>,
}

impl LentMany<'_> {
    fn new(many: Many<'_>) -> LentMany<'_> {
        LentMany { octets: Read::new(many.octets, OCTET_GUARD), ends: Read::new(many.ends, SIZE_GUARD) }
    }

    fn check_unchanged(&self, many: Many) -> Result<(), String> {
        if self.octets.still_holds(many.octets) && self.ends.still_holds(many.ends) {
            return Ok(());
        }
        Err("the library changed the octets or the ends that it read".to_string())
    }
}

/// Copies back what a call left in a slice.
fn copy_back<T: Copy + PartialEq>(lent: &Lent<T>, slice: &mut [T]) -> Result<(), String> {
    if !lent.agrees() {
        return Err("the library wrote outside a lent slice, or left two different contents".to_string());
    }
    slice.copy_from_slice(lent.content());
    Ok(())
}

/// Prepares many texts; the three slices are filled from `prepared` before and copied back after.
pub fn prepare_many(
    collation: u32,
    texts: Many,
    table: &LentTable,
    pages: &mut PageSlices,
    prepared: Prepared,
) -> Result<[u64; 4], String> {
    let lengths = pages.lengths();
    let lent = LentMany::new(texts);
    let mut store = Lent::new(prepared.store, OCTET_GUARD);
    let mut key_ends = Lent::new(prepared.key_ends, SIZE_GUARD);
    let mut valid = Lent::new(prepared.valid, OCTET_GUARD);
    let mut answer = new_row::<4>();
    for side in SIDES {
        // SAFETY: each pointer is that of a lent slice of the length after it.
        unsafe {
            mz_prepare_many(
                collation,
                lent.octets.pointer(side),
                texts.octets.len(),
                lent.ends.pointer(side),
                texts.ends.len(),
                table.entries.pointer(side),
                table.entries.length(),
                table.pool.pointer(side),
                table.pool.length(),
                pages.presence(side),
                lengths.presence,
                pages.ranks(side),
                lengths.ranks,
                store.pointer_mut(side),
                store.length(),
                key_ends.pointer_mut(side),
                key_ends.length(),
                valid.pointer_mut(side),
                valid.length(),
                answer.pointer_mut(side).cast(),
            );
        }
    }
    lent.check_unchanged(texts)?;
    copy_back(&store, prepared.store)?;
    copy_back(&key_ends, prepared.key_ends)?;
    copy_back(&valid, prepared.valid)?;
    row(&answer)
}

/// Matches the keys of two lists; the three slices are filled from `matched` before and copied back after.
pub fn match_keys(keys: Many, first_names: usize, matched: Matched) -> Result<[u64; 5], String> {
    let lent = LentMany::new(keys);
    let mut places = Lent::new(matched.row, NUMBER_GUARD);
    let mut repeats = Lent::new(matched.repeats, NUMBER_GUARD);
    let mut partners = Lent::new(matched.partners, NUMBER_GUARD);
    let mut answer = new_row::<5>();
    for side in SIDES {
        // SAFETY: each pointer is that of a lent slice of the length after it.
        unsafe {
            mz_match_keys(
                lent.octets.pointer(side),
                keys.octets.len(),
                lent.ends.pointer(side),
                keys.ends.len(),
                first_names,
                places.pointer_mut(side),
                places.length(),
                repeats.pointer_mut(side),
                repeats.length(),
                partners.pointer_mut(side),
                partners.length(),
                answer.pointer_mut(side).cast(),
            );
        }
    }
    lent.check_unchanged(keys)?;
    copy_back(&places, matched.row)?;
    copy_back(&repeats, matched.repeats)?;
    copy_back(&partners, matched.partners)?;
    row(&answer)
}
