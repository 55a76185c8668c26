//! The C calls that the comparison makes. They are declared once, in the crate for Rust.

#[path = "../../../bindings/rust/src/ffi.rs"]
mod ffi;

pub use ffi::{check_interface, mz_add_line, mz_check_table, Comparing, Preparing, Sharing};
use ffi::{mz_equal, mz_equal_accepted, mz_order, mz_order_accepted};
use ffi::{mz_find_shared, mz_find_shared_accepted};
pub use ffi::{mz_match_keys, mz_prepare_many, mz_read_record, mz_write_key, mz_write_text};
use ffi::{mz_prepare, mz_prepare_accepted, mz_substring, mz_substring_accepted};

/// A call on texts or lists in its two forms: one checks the table and fills the page slices, and one does neither.
pub struct Call<C, A> {
    pub name: &'static str,
    pub checked: C,
    pub accepted: A,
}

/// How a call is lent the page slices: to write them, or only to read them.
pub trait PagePointer {
    fn of(pointer: *mut u64) -> Self;
}

impl PagePointer for *mut u64 {
    fn of(pointer: *mut u64) -> *mut u64 {
        pointer
    }
}

impl PagePointer for *const u64 {
    fn of(pointer: *mut u64) -> *const u64 {
        pointer
    }
}

type Read = *const u64;
pub type ComparingCall<const N: usize> = Call<Comparing<N>, Comparing<N, Read>>;

pub const PREPARE: Call<Preparing, Preparing<Read>> =
    Call { name: "Prepare", checked: mz_prepare, accepted: mz_prepare_accepted };
pub const EQUAL: ComparingCall<4> = Call { name: "Equal", checked: mz_equal, accepted: mz_equal_accepted };
pub const ORDER: ComparingCall<4> = Call { name: "Order", checked: mz_order, accepted: mz_order_accepted };
pub const SUBSTRING: ComparingCall<8> = Call { name: "Substring", checked: mz_substring, accepted: mz_substring_accepted };
pub const FIND_SHARED: Call<Sharing, Sharing<Read>> =
    Call { name: "Find shared", checked: mz_find_shared, accepted: mz_find_shared_accepted };
