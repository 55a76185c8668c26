//! What a thread keeps between calls.
use std::cell::Cell;
use std::thread::LocalKey;

/// Does some work with what the thread keeps or, while the thread ends and keeps nothing any more, with a new one.
pub fn with_kept<T: Default, R>(kept: &'static LocalKey<Cell<T>>, work: impl FnOnce(&mut T) -> R) -> R {
    let mut taken = kept.try_with(Cell::take).unwrap_or_default();
    let result = work(&mut taken);
    // Nothing is lost if the thread keeps none: what was taken is freed here.
    let _ = kept.try_with(|kept| kept.set(taken));
    result
}
