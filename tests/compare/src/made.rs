//! Tables as maps, laid out in the two slices that the calls take.

use std::collections::BTreeMap;

/// Mappings by code point: titlecase (`None` if none) and parts.
pub type Mappings = BTreeMap<u32, (Option<u32>, Vec<u32>)>;

/// The entries and the pool that hold these mappings.
pub fn lay_out(mappings: &Mappings) -> (Vec<u32>, Vec<u32>) {
    let (mut entries, mut pool) = (Vec::new(), Vec::new());
    for (&code_point, (titlecase, parts)) in mappings {
        entries.extend([code_point, titlecase.unwrap_or(code_point), pool.len() as u32, parts.len() as u32]);
        pool.extend(parts);
    }
    (entries, pool)
}
