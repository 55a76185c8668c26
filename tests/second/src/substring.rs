//! "The first text is sought in the second. It matches if its key occurs contiguously in the second's key."

use crate::key::Key;

/// A match: start and end in the second's key, start and end in the second text.
pub type Found = [u64; 4];

/// The answer for two keys, or `None` for "no-match".
pub fn seek(first: &Key, second: &Key) -> Option<Found> {
    if first.octets.is_empty() {
        return Some([0, 0, 0, 0]);
    }
    let start = lowest_occurrence(&first.octets, &second.octets)?;
    let end = start + first.octets.len();
    let (text_start, text_end) = covering_run(second, start, end);
    Some([start as u64, end as u64, text_start as u64, text_end as u64])
}

/// The lowest start at which the needle stands; overlapping candidates count.
fn lowest_occurrence(needle: &[u8], hay: &[u8]) -> Option<usize> {
    let last = hay.len().checked_sub(needle.len())?;
    (0..=last).find(|&start| hay[start..start + needle.len()] == *needle)
}

/// "From the start of the character whose expansion holds the first matched octet to the end of the one that holds the last."
fn covering_run(second: &Key, start: usize, end: usize) -> (usize, usize) {
    (second.sources[start].0, second.sources[end - 1].1)
}
