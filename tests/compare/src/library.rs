//! The C calls of the proved library, each made on both copies of its guarded memory. The answers must be the same.

use crate::abi::{mz_add_line, mz_check_table, mz_read_record, mz_write_key, mz_write_text};
use crate::abi::{Comparing, PagePointer, Preparing, Sharing};
use crate::lent::{Lent, SIDES};
use crate::page_slices::PageSlices;
use second::lists::Report;
use second::records::Origin;
use second::unicode_data::State;

mod many;

pub use many::{match_keys, prepare_many};

/// The answer row before a call: each call must write the whole of it.
const ROW_UNWRITTEN: u64 = 0xA5A5_5A5A_C3C3_3C3C;
const OCTET_GUARD: u8 = 0x9D;
const NUMBER_GUARD: u32 = 0x9D9D_9D9D;
const SIZE_GUARD: usize = usize::MAX / 0xFF * 0x9D;

/// A table lent to the library for many calls.
pub struct LentTable {
    pub entries: Lent<u32>,
    pub pool: Lent<u32>,
}

impl LentTable {
    pub fn new(entries: &[u32], pool: &[u32]) -> LentTable {
        LentTable { entries: Lent::new(entries, NUMBER_GUARD), pool: Lent::new(pool, NUMBER_GUARD) }
    }

    pub fn still_holds(&self, entries: &[u32], pool: &[u32]) -> bool {
        self.entries.still_holds(entries) && self.pool.still_holds(pool)
    }

    fn guards_stay(&self) -> bool {
        self.entries.guards_stay() && self.pool.guards_stay()
    }

    pub fn check(&self) -> Result<[u64; 3], String> {
        let mut answer = new_row::<3>();
        for side in SIDES {
            // SAFETY: each pointer is that of a lent slice of the length after it.
            unsafe {
                mz_check_table(
                    self.entries.pointer(side),
                    self.entries.length(),
                    self.pool.pointer(side),
                    self.pool.length(),
                    answer.pointer_mut(side).cast(),
                );
            }
        }
        row(&answer)
    }
}

fn new_row<const N: usize>() -> Lent<u64> {
    Lent::new(&[ROW_UNWRITTEN; N], ROW_UNWRITTEN)
}

/// The answer of a call to both copies.
fn row<const N: usize>(answer: &Lent<u64>) -> Result<[u64; N], String> {
    if !answer.agrees() {
        return Err("the library wrote outside its answer row, or answered both copies differently".to_string());
    }
    Ok(answer.content().try_into().expect("a row of N numbers"))
}

/// Prepares one text; the buffer is filled from `buffer` before and copied back after.
pub fn prepare<P: PagePointer>(
    call: Preparing<P>,
    collation: u32,
    text: &[u8],
    table: &LentTable,
    pages: &mut PageSlices,
    buffer: &mut [u8],
) -> Result<[u64; 7], String> {
    let lengths = pages.lengths();
    let lent_text = Lent::new(text, OCTET_GUARD);
    let mut key = Lent::new(buffer, OCTET_GUARD);
    let mut answer = new_row::<7>();
    for side in SIDES {
        // SAFETY: each pointer is that of a lent slice of the length after it.
        unsafe {
            call(
                collation,
                lent_text.pointer(side),
                lent_text.length(),
                table.entries.pointer(side),
                table.entries.length(),
                table.pool.pointer(side),
                table.pool.length(),
                P::of(pages.presence(side)),
                lengths.presence,
                P::of(pages.ranks(side)),
                lengths.ranks,
                key.pointer_mut(side),
                key.length(),
                answer.pointer_mut(side).cast(),
            );
        }
    }
    if !lent_text.still_holds(text) || !key.agrees() {
        return Err("the library changed its text, wrote outside its key buffer or left two keys".to_string());
    }
    buffer.copy_from_slice(key.content());
    row(&answer)
}

/// Makes one of the comparing calls; both buffers are filled from the arguments before and copied back after.
pub fn compare<const N: usize, P: PagePointer>(
    call: Comparing<N, P>,
    collation: u32,
    (first, second): (&[u8], &[u8]),
    table: &LentTable,
    pages: &mut PageSlices,
    (first_buffer, second_buffer): (&mut [u8], &mut [u8]),
) -> Result<[u64; N], String> {
    let lengths = pages.lengths();
    let lent_first = Lent::new(first, OCTET_GUARD);
    let lent_second = Lent::new(second, OCTET_GUARD);
    let mut first_key = Lent::new(first_buffer, OCTET_GUARD);
    let mut second_key = Lent::new(second_buffer, OCTET_GUARD);
    let mut answer = new_row::<N>();
    for side in SIDES {
        // SAFETY: each pointer is that of a lent slice of the length after it.
        unsafe {
            call(
                collation,
                lent_first.pointer(side),
                lent_first.length(),
                lent_second.pointer(side),
                lent_second.length(),
                table.entries.pointer(side),
                table.entries.length(),
                table.pool.pointer(side),
                table.pool.length(),
                P::of(pages.presence(side)),
                lengths.presence,
                P::of(pages.ranks(side)),
                lengths.ranks,
                first_key.pointer_mut(side),
                first_key.length(),
                second_key.pointer_mut(side),
                second_key.length(),
                answer.pointer_mut(side).cast(),
            );
        }
    }
    if !lent_first.still_holds(first) || !lent_second.still_holds(second) {
        return Err("the library changed a text".to_string());
    }
    if !first_key.agrees() || !second_key.agrees() {
        return Err("the library wrote outside a key buffer or left two keys".to_string());
    }
    first_buffer.copy_from_slice(first_key.content());
    second_buffer.copy_from_slice(second_key.content());
    row(&answer)
}

/// Adds one line to the slices that are lent for building.
pub fn add_line(state: State, line: &[u8], table: &mut LentTable) -> Result<[u64; 6], String> {
    let lent_line = Lent::new(line, OCTET_GUARD);
    let mut answer = new_row::<6>();
    let (entries_length, pool_length) = (table.entries.length(), table.pool.length());
    for side in SIDES {
        // SAFETY: each pointer is that of a lent slice of the length after it.
        unsafe {
            mz_add_line(
                state.entries_used,
                state.pool_used,
                state.next,
                lent_line.pointer(side),
                lent_line.length(),
                table.entries.pointer_mut(side),
                entries_length,
                table.pool.pointer_mut(side),
                pool_length,
                answer.pointer_mut(side).cast(),
            );
        }
    }
    if !lent_line.still_holds(line) || !table.guards_stay() {
        return Err("the library changed its line or wrote outside a slice".to_string());
    }
    row(&answer)
}

/// A slice of records lent to the library for many calls.
pub fn lend_records(records: &[u8]) -> Lent<u8> {
    Lent::new(records, OCTET_GUARD)
}

/// Reads the record at a position.
pub fn read_record(records: &Lent<u8>, position: u64) -> Result<[u64; 9], String> {
    let mut answer = new_row::<9>();
    for side in SIDES {
        // SAFETY: the pointer is that of a lent slice of the length after it.
        unsafe { mz_read_record(records.pointer(side), records.length(), position, answer.pointer_mut(side).cast()) }
    }
    row(&answer)
}

/// Writes a text as a record at a position.
pub fn write_text(text: &[u8], records: &mut Lent<u8>, position: u64) -> Result<[u64; 4], String> {
    let lent_text = Lent::new(text, OCTET_GUARD);
    let mut answer = new_row::<4>();
    let room = records.length();
    for side in SIDES {
        // SAFETY: each pointer is that of a lent slice of the length after it.
        unsafe {
            mz_write_text(
                lent_text.pointer(side),
                lent_text.length(),
                records.pointer_mut(side),
                room,
                position,
                answer.pointer_mut(side).cast(),
            );
        }
    }
    if !lent_text.still_holds(text) {
        return Err("the library changed the text that it wrote".to_string());
    }
    row(&answer)
}

/// Writes a key as a record at a position.
pub fn write_key(origin: Origin, key: &[u8], records: &mut Lent<u8>, position: u64) -> Result<[u64; 4], String> {
    let lent_key = Lent::new(key, OCTET_GUARD);
    let mut answer = new_row::<4>();
    let room = records.length();
    for side in SIDES {
        // SAFETY: each pointer is that of a lent slice of the length after it.
        unsafe {
            mz_write_key(
                origin.collation,
                origin.valid,
                origin.text_length,
                lent_key.pointer(side),
                lent_key.length(),
                records.pointer_mut(side),
                room,
                position,
                answer.pointer_mut(side).cast(),
            );
        }
    }
    if !lent_key.still_holds(key) {
        return Err("the library changed the key that it wrote".to_string());
    }
    row(&answer)
}

/// Finds what two lists share; store and arrays are filled from the report before and copied back after.
pub fn find_shared<P: PagePointer>(
    call: Sharing<P>,
    collation: u32,
    (first, second): (&[u8], &[u8]),
    table: &LentTable,
    pages: &mut PageSlices,
    report: Report,
) -> Result<[u64; 7], String> {
    let lengths = pages.lengths();
    let lent_first = lend_records(first);
    let lent_second = lend_records(second);
    let mut store = Lent::new(report.store, OCTET_GUARD);
    let mut partners = Lent::new(report.partners, NUMBER_GUARD);
    let mut positions = Lent::new(report.positions, NUMBER_GUARD);
    let mut answer = new_row::<7>();
    for side in SIDES {
        // SAFETY: each pointer is that of a lent slice of the length after it.
        unsafe {
            call(
                collation,
                lent_first.pointer(side),
                lent_first.length(),
                lent_second.pointer(side),
                lent_second.length(),
                table.entries.pointer(side),
                table.entries.length(),
                table.pool.pointer(side),
                table.pool.length(),
                P::of(pages.presence(side)),
                lengths.presence,
                P::of(pages.ranks(side)),
                lengths.ranks,
                store.pointer_mut(side),
                store.length(),
                partners.pointer_mut(side),
                partners.length(),
                positions.pointer_mut(side),
                positions.length(),
                answer.pointer_mut(side).cast(),
            );
        }
    }
    if !lent_first.still_holds(first) || !lent_second.still_holds(second) {
        return Err("the library changed a list".to_string());
    }
    if !store.agrees() || !partners.agrees() || !positions.agrees() {
        return Err("the library wrote outside the store or an array, or left two reports".to_string());
    }
    report.store.copy_from_slice(store.content());
    report.partners.copy_from_slice(partners.content());
    report.positions.copy_from_slice(positions.content());
    row(&answer)
}
