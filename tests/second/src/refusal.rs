//! "Checks run in this order; the first that applies is given, with a place and a detail."

/// A refusal: its number, its place (1 or 2: which text or list, a lone one being 1; 0: neither) and its detail (0 if not said).
#[derive(Clone, Copy, Debug, PartialEq, Eq)]
pub struct Refusal {
    pub number: u64,
    pub place: u64,
    pub detail: u64,
}

impl Refusal {
    /// A refusal that is no text's fault, and no list's.
    pub fn of_no_text(number: u64, detail: usize) -> Refusal {
        Refusal { number, place: 0, detail: detail as u64 }
    }

    /// A refusal because of one text or list; `index` counts them from 0, places from 1.
    pub fn of_text(number: u64, index: usize, detail: usize) -> Refusal {
        Refusal { number, place: index as u64 + 1, detail: detail as u64 }
    }

    /// "On refusal .. every other field of the answer is 0."
    pub fn row<const N: usize>(self) -> [u64; N] {
        let mut row = [0; N];
        row[0] = self.number;
        row[1] = self.place;
        row[2] = self.detail;
        row
    }
}
