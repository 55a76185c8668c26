//! The two page slices, presence and ranks, as the library is lent them: what stands in them before a call, and what after it.
//! (`pages` is about other pages: those of memory, between which every lent slice stands.)

use crate::lent::{Lent, Side};
use second::pages::{fill, Lengths, Pages, PAGES};
use second::table::Table;

/// Enough of both, and something beyond that must stay: in the one not as much as in the other.
pub const ENOUGH: Lengths = Lengths { presence: PAGES + 3, ranks: PAGES + 5 };

const GUARD: u64 = u64::MAX / 0xFF * 0x9D;

/// What the two slices hold.
#[derive(PartialEq, Eq, Clone)]
pub struct Content {
    pub presence: Vec<u64>,
    pub ranks: Vec<u64>,
}

impl Content {
    /// What stands there before a call: nothing that a call leaves there.
    pub fn untouched(lengths: Lengths) -> Content {
        let numbers = |first: u64, length: usize| (first..first + length as u64).collect();
        Content {
            presence: numbers(0xFACE_5A5A_0000_0000, lengths.presence),
            ranks: numbers(0xB00C_5A5A_0000_0000, lengths.ranks),
        }
    }

    /// The same with what the second program fills in for a table.
    pub fn filled(&self, table: &Table) -> Content {
        let mut content = self.clone();
        fill(table, &mut Pages { presence: &mut content.presence, ranks: &mut content.ranks });
        content
    }
}

/// Both slices, lent for many calls.
pub struct PageSlices {
    presence: Lent<u64>,
    ranks: Lent<u64>,
}

impl PageSlices {
    pub fn new(content: &Content) -> PageSlices {
        PageSlices { presence: Lent::new(&content.presence, GUARD), ranks: Lent::new(&content.ranks, GUARD) }
    }

    pub fn write(&mut self, content: &Content) {
        self.presence.write(&content.presence);
        self.ranks.write(&content.ranks);
    }

    pub fn lengths(&self) -> Lengths {
        Lengths { presence: self.presence.length(), ranks: self.ranks.length() }
    }

    pub fn presence(&mut self, side: Side) -> *mut u64 {
        self.presence.pointer_mut(side)
    }

    pub fn ranks(&mut self, side: Side) -> *mut u64 {
        self.ranks.pointer_mut(side)
    }

    /// What the library left there.
    pub fn content(&self) -> Content {
        Content { presence: self.presence.content().to_vec(), ranks: self.ranks.content().to_vec() }
    }

    /// Fails unless all copies hold this, whole, and all guards stayed.
    pub fn compare(&self, content: &Content) -> Result<(), String> {
        compare("presence", &self.presence, &content.presence)?;
        compare("ranks", &self.ranks, &content.ranks)
    }
}

fn compare(name: &str, lent: &Lent<u64>, content: &[u64]) -> Result<(), String> {
    if lent.still_holds(content) {
        return Ok(());
    }
    let differing = lent.content().iter().zip(content).enumerate().find(|(_, (library, second))| library != second);
    Err(match differing {
        Some((page, (library, second))) => format!("{name} of page {page:X}: library {library:X}, second {second:X}"),
        None => format!("the library wrote outside {name}, or left two different contents"),
    })
}
