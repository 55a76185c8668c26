//! Runs of pages that can be read and written, each between two that can't be touched at all: whoever reads or writes one octet
//! beyond such a run is ended by SIGSEGV.
//!
//! They are mapped once and handed out again and again, so that a case costs no call of the system.

use std::cell::RefCell;
use std::ffi::{c_int, c_long, c_void};
use std::process::Command;

use crate::stop::Stop;

/// What both shut runs and the smallest open one hold, in octets: a multiple of the page size of every machine there is.
const UNIT: usize = 65_536;

const PROT_NONE: c_int = 0;
const PROT_READ: c_int = 1;
const PROT_READ_AND_WRITE: c_int = 1 | 2;
const MAP_PRIVATE_AND_ANONYMOUS: c_int = 0x02 | 0x20;
const SIGSEGV: c_int = 11;

extern "C" {
    fn mmap(address: *mut c_void, size: usize, protection: c_int, flags: c_int, file: c_int, offset: c_long) -> *mut c_void;
    fn mprotect(address: *mut c_void, size: usize, protection: c_int) -> c_int;
}

thread_local! {
    /// Runs that nobody holds, by their size: UNIT, twice UNIT, four times and so on.
    static FREE: RefCell<Vec<Vec<*mut u8>>> = const { RefCell::new(Vec::new()) };
}

/// A run that is open for as long as this is held.
pub struct Pages {
    start: *mut u8,
    doublings: usize,
}

impl Pages {
    /// A run of at least so many octets. What stands in it is left from its last use.
    pub fn take(size: usize) -> Pages {
        let doublings = size.div_ceil(UNIT).next_power_of_two().trailing_zeros() as usize;
        let free = FREE.with_borrow_mut(|free| free.get_mut(doublings).and_then(Vec::pop));
        Pages { start: free.unwrap_or_else(|| map(UNIT << doublings, PROT_READ_AND_WRITE)), doublings }
    }

    /// The first octet; the one before it can't be read.
    pub fn start(&self) -> *mut u8 {
        self.start
    }

    /// One past the last octet, which can't be read.
    pub fn end(&self) -> *mut u8 {
        self.start.wrapping_add(UNIT << self.doublings)
    }
}

impl Drop for Pages {
    fn drop(&mut self) {
        FREE.with_borrow_mut(|free| {
            if free.len() <= self.doublings {
                free.resize(self.doublings + 1, Vec::new());
            }
            free[self.doublings].push(self.start);
        });
    }
}

/// So many elements for reading: some, and then zeros. However many they are, they take no memory but for those at the beginning,
/// which one page holds. They are never given back.
pub fn mostly_zeros<T: Copy>(beginning: &[T], length: usize) -> &'static [T] {
    let size = length * size_of::<T>();
    let start = map(size.next_multiple_of(UNIT), PROT_READ);
    open(start, UNIT, PROT_READ_AND_WRITE);
    // SAFETY: new pages hold zeros, and the first of them can be written until they are shut to that below.
    let elements = unsafe {
        start.copy_from_nonoverlapping(beginning.as_ptr().cast(), size_of_val(beginning));
        std::slice::from_raw_parts(start.cast(), length)
    };
    open(start, UNIT, PROT_READ);
    elements
}

/// Maps an open run of `size` octets between two shut ones.
fn map(size: usize, protection: c_int) -> *mut u8 {
    // SAFETY: a new mapping is asked for, of which nothing else knows.
    let whole = unsafe { mmap(std::ptr::null_mut(), size + 2 * UNIT, PROT_NONE, MAP_PRIVATE_AND_ANONYMOUS, -1, 0) };
    assert!(whole as isize != -1, "no pages can be mapped");
    let start = whole.cast::<u8>().wrapping_add(UNIT);
    open(start, size, protection);
    start
}

/// Opens mapped pages, for reading or for both.
fn open(start: *mut u8, size: usize, protection: c_int) {
    // SAFETY: they lie within a mapping of this module.
    let status = unsafe { mprotect(start.cast(), size, protection) };
    assert!(status == 0, "pages can't be opened");
}

/// The argument with which this program reads one octet beyond a run, before it or after it.
pub const READ_BEYOND: &str = "read-beyond";
const BEYOND: [&str; 2] = ["before", "after"];

/// Reads the octet just beyond a run: the process ends here.
pub fn read_beyond(side: &str) {
    let pages = Pages::take(1);
    let octet = if side == BEYOND[0] { pages.start().wrapping_sub(1) } else { pages.end() };
    // SAFETY: none. This is the mistake that the pages are there to find.
    let read = unsafe { octet.read_volatile() };
    println!("{read}");
}

/// Sees that a read beyond is found: a process that makes one must be ended by SIGSEGV, on either side.
pub fn check_guards() -> Result<(), Stop> {
    use std::os::unix::process::ExitStatusExt;
    let program = std::env::current_exe().map_err(|error| Stop::Error(format!("this program can't be found: {error}")))?;
    for side in BEYOND {
        let done = Command::new(&program).args([READ_BEYOND, side]).output();
        let status = done.map_err(|error| Stop::Error(format!("this program can't be started: {error}")))?.status;
        if status.signal() != Some(SIGSEGV) {
            return Err(Stop::Error(format!("a read one octet {side} lent pages ends with {status}, not by SIGSEGV")));
        }
    }
    Ok(())
}
