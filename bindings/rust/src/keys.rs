//! Room for keys. The calls that answer no key still need it: that for two texts is kept between calls, since names come by the
//! thousand; that for all keys of a list is not.
use crate::kept::with_kept;
use crate::{KEY_PER_OCTET_MOST, TEXT_MOST};
use std::cell::Cell;

/// The longest store that is lent before it is known how long the keys are. It holds any keys of 128 KiB of names, and those of
/// longer lists mostly; what is not used of it takes no memory.
const STORE_MOST_AT_FIRST: usize = 16 << 20;

/// A store for the keys of names that have so many octets together: mostly long enough. Where it is not, the refusal names the
/// length.
pub fn new_store(octets: usize) -> Vec<u8> {
    Vec::with_capacity(octets.saturating_mul(KEY_PER_OCTET_MOST).min(STORE_MOST_AT_FIRST))
}

/// Room for the keys of two texts.
#[derive(Default)]
pub struct KeyBuffers {
    pub first: Vec<u8>,
    pub second: Vec<u8>,
}

impl KeyBuffers {
    const NONE: KeyBuffers = KeyBuffers { first: Vec::new(), second: Vec::new() };

    /// Makes each buffer long enough for the key of any text that is as long as its own.
    pub fn make_room(&mut self, first: &[u8], second: &[u8]) {
        for (buffer, text) in [(&mut self.first, first), (&mut self.second, second)] {
            // A text over the limit needs none: it is refused.
            let most = text.len().min(TEXT_MOST) * KEY_PER_OCTET_MOST;
            if buffer.len() < most {
                buffer.resize(most, 0);
            }
        }
    }
}

thread_local! {
    static BUFFERS: Cell<KeyBuffers> = const { Cell::new(KeyBuffers::NONE) };
}

/// Does some work with the thread's buffers.
pub fn with_keys<R>(work: impl FnOnce(&mut KeyBuffers) -> R) -> R {
    with_kept(&BUFFERS, work)
}
