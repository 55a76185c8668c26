//! The calls of include/mundeziwa.h and include/mundeziwa_accepted.h. A slice is a pointer and the number of its elements; an
//! answer is a row of so many numbers. The two page slices, presence and ranks, are written by a call that checks the table, and
//! read by its twin that doesn't: `P` is how they are pointed to, so that the one can't be taken for the other.
//!
//! The comparison with the second program (tests/compare) takes its declarations from this file, and makes the calls that this
//! crate has no use for.
#![allow(dead_code)]

/// MZ_INTERFACE of the header that these declarations render.
pub const INTERFACE: u32 = 2;

/// A call on one text: collation; text; entries, pool; presence, ranks; key; answer.
pub type Preparing<P = *mut u64> = unsafe extern "C" fn(
    u32,
    *const u8,
    usize,
    *const u32,
    usize,
    *const u32,
    usize,
    P,
    usize,
    P,
    usize,
    *mut u8,
    usize,
    *mut [u64; 7],
);

/// A call on two texts that answers a row of N numbers: collation; first, second; entries, pool; presence, ranks; first key,
/// second key; answer.
pub type Comparing<const N: usize, P = *mut u64> = unsafe extern "C" fn(
    u32,
    *const u8,
    usize,
    *const u8,
    usize,
    *const u32,
    usize,
    *const u32,
    usize,
    P,
    usize,
    P,
    usize,
    *mut u8,
    usize,
    *mut u8,
    usize,
    *mut [u64; N],
);

/// A call on two lists: collation; first, second; entries, pool; presence, ranks; store, partners, positions; answer.
pub type Sharing<P = *mut u64> = unsafe extern "C" fn(
    u32,
    *const u8,
    usize,
    *const u8,
    usize,
    *const u32,
    usize,
    *const u32,
    usize,
    P,
    usize,
    P,
    usize,
    *mut u8,
    usize,
    *mut u32,
    usize,
    *mut u32,
    usize,
    *mut [u64; 7],
);

extern "C" {
    pub fn mz_interface() -> u32;

    pub fn mz_check_table(
        entries: *const u32,
        entries_length: usize,
        pool: *const u32,
        pool_length: usize,
        answer: *mut [u64; 3],
    );

    pub fn mz_add_line(
        entries_used: u64,
        pool_used: u64,
        next: u64,
        line: *const u8,
        line_length: usize,
        entries: *mut u32,
        entries_length: usize,
        pool: *mut u32,
        pool_length: usize,
        answer: *mut [u64; 6],
    );

    pub fn mz_read_record(records: *const u8, records_length: usize, position: u64, answer: *mut [u64; 9]);

    pub fn mz_write_text(
        text: *const u8,
        text_length: usize,
        records: *mut u8,
        records_length: usize,
        position: u64,
        answer: *mut [u64; 4],
    );

    pub fn mz_write_key(
        collation: u32,
        valid: u64,
        text_length: u64,
        key: *const u8,
        key_length: usize,
        records: *mut u8,
        records_length: usize,
        position: u64,
        answer: *mut [u64; 4],
    );

    pub fn mz_prepare_many(
        collation: u32,
        octets: *const u8,
        octets_length: usize,
        ends: *const usize,
        ends_length: usize,
        entries: *const u32,
        entries_length: usize,
        pool: *const u32,
        pool_length: usize,
        presence: *mut u64,
        presence_length: usize,
        ranks: *mut u64,
        ranks_length: usize,
        store: *mut u8,
        store_length: usize,
        key_ends: *mut usize,
        key_ends_length: usize,
        valid: *mut u8,
        valid_length: usize,
        answer: *mut [u64; 4],
    );

    pub fn mz_match_keys(
        store: *const u8,
        store_length: usize,
        ends: *const usize,
        ends_length: usize,
        first_names: usize,
        row: *mut u32,
        row_length: usize,
        repeats: *mut u32,
        repeats_length: usize,
        partners: *mut u32,
        partners_length: usize,
        answer: *mut [u64; 5],
    );
}

/// Declares calls on one text, by how they are lent pages.
macro_rules! preparing {
    ($pages:ty: $($name:ident),*) => {
        extern "C" {
            $(pub fn $name(
                collation: u32,
                text: *const u8,
                text_length: usize,
                entries: *const u32,
                entries_length: usize,
                pool: *const u32,
                pool_length: usize,
                presence: $pages,
                presence_length: usize,
                ranks: $pages,
                ranks_length: usize,
                key: *mut u8,
                key_length: usize,
                answer: *mut [u64; 7],
            );)*
        }
    };
}

/// Declares calls on two texts that answer rows of so many numbers, by how they are lent pages.
macro_rules! comparing {
    ($n:literal, $pages:ty: $($name:ident),*) => {
        extern "C" {
            $(pub fn $name(
                collation: u32,
                first: *const u8,
                first_length: usize,
                second: *const u8,
                second_length: usize,
                entries: *const u32,
                entries_length: usize,
                pool: *const u32,
                pool_length: usize,
                presence: $pages,
                presence_length: usize,
                ranks: $pages,
                ranks_length: usize,
                first_key: *mut u8,
                first_key_length: usize,
                second_key: *mut u8,
                second_key_length: usize,
                answer: *mut [u64; $n],
            );)*
        }
    };
}

/// Declares calls on two lists, by how they are lent pages.
macro_rules! sharing {
    ($pages:ty: $($name:ident),*) => {
        extern "C" {
            $(pub fn $name(
                collation: u32,
                first: *const u8,
                first_length: usize,
                second: *const u8,
                second_length: usize,
                entries: *const u32,
                entries_length: usize,
                pool: *const u32,
                pool_length: usize,
                presence: $pages,
                presence_length: usize,
                ranks: $pages,
                ranks_length: usize,
                store: *mut u8,
                store_length: usize,
                partners: *mut u32,
                partners_length: usize,
                positions: *mut u32,
                positions_length: usize,
                answer: *mut [u64; 7],
            );)*
        }
    };
}

preparing!(*mut u64: mz_prepare);
comparing!(4, *mut u64: mz_equal, mz_order);
comparing!(8, *mut u64: mz_substring);
sharing!(*mut u64: mz_find_shared);

preparing!(*const u64: mz_prepare_accepted);
comparing!(4, *const u64: mz_equal_accepted, mz_order_accepted);
comparing!(8, *const u64: mz_substring_accepted);
sharing!(*const u64: mz_find_shared_accepted);

/// Stops the program if the linked library has another interface: the same names may then take other parameters.
pub fn check_interface() {
    // SAFETY: the call takes nothing and reads nothing.
    let linked = unsafe { mz_interface() };
    assert!(
        linked == INTERFACE,
        "the linked libmundeziwa has interface {linked}, and interface {INTERFACE} is needed: \
         build both from one checkout (`make lib`), or name the folder of the right library with MUNDEZIWA_LIB_DIR"
    );
}
