//! The second program's calls for C, so that the benchmark can run them beside the library's. The parameters are those of
//! include/mundeziwa.h, but for the table: a caller has it examined once and lends what came of that. No pages are lent, since
//! the second program finds entries without them; it is told that they are long enough.
//!
//! Each pointer must be that of a slice of the length after it, as the header says.

use second::collate::{self, Pair};
use second::pages::{Lengths, PAGES};
use second::table::{examine, Verdict};
use second::unicode_data::{self, State};
use std::slice::{from_raw_parts, from_raw_parts_mut};

const ENOUGH: Lengths = Lengths { presence: PAGES, ranks: PAGES };

/// Examines a table for many texts. The verdict is never freed: the benchmark has one table.
///
/// # Safety
/// See the top of the file.
#[no_mangle]
pub unsafe extern "C" fn second_examine(
    entries: *const u32,
    entries_length: usize,
    pool: *const u32,
    pool_length: usize,
) -> *const Verdict {
    let verdict = examine(from_raw_parts(entries, entries_length), from_raw_parts(pool, pool_length));
    Box::leak(Box::new(verdict))
}

/// # Safety
/// See the top of the file.
#[no_mangle]
pub unsafe extern "C" fn second_check_table(
    entries: *const u32,
    entries_length: usize,
    pool: *const u32,
    pool_length: usize,
    answer: &mut [u64; 3],
) {
    *answer = collate::check_table(from_raw_parts(entries, entries_length), from_raw_parts(pool, pool_length));
}

/// # Safety
/// See the top of the file.
#[no_mangle]
pub unsafe extern "C" fn second_prepare(
    collation: u32,
    text: *const u8,
    text_length: usize,
    verdict: &Verdict,
    key: *mut u8,
    key_length: usize,
    answer: &mut [u64; 7],
) {
    let text = from_raw_parts(text, text_length);
    *answer = collate::prepare(collation, text, verdict, ENOUGH, from_raw_parts_mut(key, key_length));
}

/// # Safety
/// See the top of the file.
#[no_mangle]
pub unsafe extern "C" fn second_equal(
    collation: u32,
    first: *const u8,
    first_length: usize,
    second: *const u8,
    second_length: usize,
    verdict: &Verdict,
    first_key: *mut u8,
    first_key_length: usize,
    second_key: *mut u8,
    second_key_length: usize,
    answer: &mut [u64; 4],
) {
    let (first, second) = (from_raw_parts(first, first_length), from_raw_parts(second, second_length));
    let pair = Pair { collation, first, second, verdict, pages: ENOUGH };
    let first_key = from_raw_parts_mut(first_key, first_key_length);
    *answer = collate::equal(&pair, first_key, from_raw_parts_mut(second_key, second_key_length));
}

/// # Safety
/// See the top of the file.
#[no_mangle]
pub unsafe extern "C" fn second_add_line(
    entries_used: u64,
    pool_used: u64,
    next: u64,
    line: *const u8,
    line_length: usize,
    entries: *mut u32,
    entries_length: usize,
    pool: *mut u32,
    pool_length: usize,
    answer: &mut [u64; 6],
) {
    let state = State { entries_used, pool_used, next };
    let line = from_raw_parts(line, line_length);
    let entries = from_raw_parts_mut(entries, entries_length);
    *answer = unicode_data::add_line(state, line, entries, from_raw_parts_mut(pool, pool_length));
}
