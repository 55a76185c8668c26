//! Document 01, as document 02 amends it, written a second time, from the papers alone, and as plainly as it can be said. The
//! calls on many texts are in neither: of them the C header is the paper.
//!
//! It shares nothing with the proved library but the papers. The calls take what the C header's calls take and answer with the
//! same rows of numbers, so that `tests/compare` can run both on the same inputs. Where a paper gives a definition, the code is
//! that definition; speed is no aim, except that no input may take forever.

pub mod collate;
pub mod hangul;
pub mod key;
pub mod lists;
pub mod many;
pub mod pages;
pub mod records;
pub mod refusal;
pub mod substring;
pub mod table;
pub mod unfold;
pub mod unicode_data;
pub mod utf8;
