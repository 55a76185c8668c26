//! Which names two lists share.
use crate::keys::new_store;
use crate::records::write_text;
use crate::{ffi, Collation, Refusal, RefusalKind, Table, NAMES_MOST};

mod error;

pub use error::ListError;

/// The fewest octets of a record: its length and its kind.
const RECORD_LEAST: usize = 6;

/// Which names two lists share, as [`Table::shared`] answers it. Names are told by their index in their list, counted from 0.
/// (The C interface counts them from 1.)
///
/// ```
/// use mundeziwa::{Collation, Table};
///
/// let (first, second) = (["Otto", "Irene", "OTTO"], ["irene", "Beryl", "otto", "Otto"]);
/// let shared = Table::empty().shared(Collation::AsciiCasemap, first, second)?;
/// assert_eq!((shared.first_count(), shared.second_count()), (3, 4));
/// assert!(shared.partners().eq([Some(2), Some(0), Some(2)]));
/// assert_eq!((shared.names_with_partner(), shared.equal_pairs()), (3, 5));
/// # Ok::<(), mundeziwa::ListError>(())
/// ```
#[derive(Clone, Debug, PartialEq, Eq, Hash)]
pub struct Shared {
    second_count: usize,
    equal_pairs: usize,
    names_with_partner: usize,
    partners: Vec<Option<usize>>,
    key_order: Vec<usize>,
}

impl Shared {
    /// What a call that was not refused has answered and left.
    fn new(answer: &[u64; 7], lent: &Lent) -> Shared {
        let [_, _, _, first_count, second_count, equal_pairs, names_with_partner] = answer.map(|n| n as usize);
        let index = |number: &u32| (*number as usize).checked_sub(1);
        Shared {
            second_count,
            equal_pairs,
            names_with_partner,
            partners: lent.partners[..first_count].iter().map(index).collect(),
            // No position is 0, so none is left out.
            key_order: lent.positions[..first_count].iter().filter_map(index).collect(),
        }
    }

    /// How many names the first list has.
    ///
    /// ```
    /// use mundeziwa::{Collation, Table};
    ///
    /// let shared = Table::empty().shared(Collation::Octet, ["Irene", "Irene"], ["Otto"])?;
    /// assert_eq!(shared.first_count(), 2);
    /// # Ok::<(), mundeziwa::ListError>(())
    /// ```
    pub fn first_count(&self) -> usize {
        self.partners.len()
    }

    /// How many names the second list has.
    ///
    /// ```
    /// use mundeziwa::{Collation, Table};
    ///
    /// let shared = Table::empty().shared(Collation::Octet, ["Irene", "Irene"], ["Otto"])?;
    /// assert_eq!(shared.second_count(), 1);
    /// # Ok::<(), mundeziwa::ListError>(())
    /// ```
    pub fn second_count(&self) -> usize {
        self.second_count
    }

    /// How many pairs of a name of the first list and a name of the second are equal. A name that stands twice in a list has a
    /// pair for each.
    ///
    /// ```
    /// use mundeziwa::{Collation, Table};
    ///
    /// let shared = Table::empty().shared(Collation::Octet, ["Irene", "Irene"], ["Irene", "Otto", "Irene"])?;
    /// assert_eq!(shared.equal_pairs(), 4);
    /// # Ok::<(), mundeziwa::ListError>(())
    /// ```
    pub fn equal_pairs(&self) -> usize {
        self.equal_pairs
    }

    /// How many names of the first list have any partner: a name of the second list that is equal to them.
    ///
    /// ```
    /// use mundeziwa::{Collation, Table};
    ///
    /// let shared = Table::empty().shared(Collation::Octet, ["Irene", "Otto"], ["Irene", "Irene"])?;
    /// assert_eq!(shared.names_with_partner(), 1);
    /// # Ok::<(), mundeziwa::ListError>(())
    /// ```
    pub fn names_with_partner(&self) -> usize {
        self.names_with_partner
    }

    /// The lowest index in the second list of a name that is equal to this one of the first; nothing if there is none, or if
    /// the first list has no name with that index.
    ///
    /// ```
    /// use mundeziwa::{Collation, Table};
    ///
    /// let shared = Table::empty().shared(Collation::Octet, ["Irene", "Otto"], ["Beryl", "Irene", "Irene"])?;
    /// assert_eq!((shared.partner(0), shared.partner(1), shared.partner(2)), (Some(1), None, None));
    /// # Ok::<(), mundeziwa::ListError>(())
    /// ```
    pub fn partner(&self, index: usize) -> Option<usize> {
        *self.partners.get(index)?
    }

    /// The partner of each name of the first list, in the list's order, as [`Shared::partner`] has it.
    ///
    /// ```
    /// use mundeziwa::{Collation, Table};
    ///
    /// let held_back = ["Irene", "Otto"];
    /// let shared = Table::empty().shared(Collation::Octet, held_back, ["Beryl", "Irene"])?;
    /// let unseen: Vec<_> = held_back.iter().zip(shared.partners()).filter(|(_, partner)| partner.is_none()).collect();
    /// assert_eq!(unseen, [(&"Otto", None)]);
    /// # Ok::<(), mundeziwa::ListError>(())
    /// ```
    pub fn partners(&self) -> impl ExactSizeIterator<Item = Option<usize>> + DoubleEndedIterator + Clone + '_ {
        self.partners.iter().copied()
    }

    /// The names of the first list that have a partner, in the list's order: the index of each, and that of its partner.
    ///
    /// ```
    /// use mundeziwa::{Collation, Table};
    ///
    /// let shared = Table::empty().shared(Collation::Octet, ["Irene", "Otto", "Lee"], ["Lee", "Irene", "Lee"])?;
    /// assert!(shared.matches().eq([(0, 1), (2, 0)]));
    /// # Ok::<(), mundeziwa::ListError>(())
    /// ```
    pub fn matches(&self) -> impl DoubleEndedIterator<Item = (usize, usize)> + Clone + '_ {
        self.partners.iter().enumerate().filter_map(|(index, partner)| Some((index, (*partner)?)))
    }

    /// The indices of the first list in the order of its names' keys; equal names in the order of their indices.
    ///
    /// ```
    /// use mundeziwa::{Collation, Table};
    ///
    /// let names = ["Otto", "irene", "Irene"];
    /// let shared = Table::empty().shared(Collation::AsciiCasemap, names, [""; 0])?;
    /// assert!(shared.in_key_order().eq([1, 2, 0]));
    /// # Ok::<(), mundeziwa::ListError>(())
    /// ```
    pub fn in_key_order(&self) -> impl ExactSizeIterator<Item = usize> + DoubleEndedIterator + Clone + '_ {
        self.key_order.iter().copied()
    }
}

impl Table {
    /// Says which names two lists share: for each name of the first list the first one of the second that is equal to it, how
    /// many have one, and the order of the first list's names.
    ///
    /// A list is anything that can be iterated over and holds octets: an array or a slice of `&str`, a `&Vec<String>`, an
    /// iterator. At most [`NAMES_MOST`] names are taken in each; [`Table::match_lists`] takes any number. A name is never refused
    /// for its content. The call keeps all keys in memory while it lasts.
    ///
    /// Refusals 13, a name over [`TEXT_MOST`](crate::TEXT_MOST), and 14, too many names.
    ///
    /// ```
    /// use mundeziwa::{Collation, Table};
    ///
    /// let table = Table::new(&[0xE9, 0xE9, 0, 2], &[0x65, 0x301])?;
    /// let held_back = ["Jose\u{301}", "Irene"];
    /// let fitted = vec![String::from("Otto"), String::from("José")];
    /// let shared = table.shared(Collation::UnicodeCasemap, held_back, &fitted)?;
    /// for (index, partner) in shared.matches() {
    ///     println!("{} was fitted on as {}", held_back[index], fitted[partner]);
    /// }
    /// assert!(shared.matches().eq([(0, 1)]));
    /// # Ok::<(), Box<dyn std::error::Error>>(())
    /// ```
    pub fn shared(
        &self,
        collation: Collation,
        first: impl IntoIterator<Item = impl AsRef<[u8]>>,
        second: impl IntoIterator<Item = impl AsRef<[u8]>>,
    ) -> Result<Shared, ListError> {
        let (first, second) = (in_records(1, first)?, in_records(2, second)?);
        self.shared_records(collation, &first, &second)
    }

    /// Says which names two lists share, as [`Table::shared`] does, where they are in [`records`](crate::records) already: each
    /// list a slice of texts.
    ///
    /// Refusals 11 to 14. A record that is no text is refused with 12.
    ///
    /// ```
    /// use mundeziwa::{Collation, Table};
    ///
    /// let first = *b"\x07\0\0\0\x01\0Irene\x06\0\0\0\x01\0Otto";
    /// let second = *b"\x06\0\0\0\x01\0OTTO";
    /// let shared = Table::empty().shared_records(Collation::AsciiCasemap, &first, &second)?;
    /// assert!(shared.matches().eq([(1, 0)]));
    /// # Ok::<(), mundeziwa::ListError>(())
    /// ```
    pub fn shared_records(&self, collation: Collation, first: &[u8], second: &[u8]) -> Result<Shared, ListError> {
        let mut lent = Lent::to_lists(first, second);
        let mut answer = self.find_shared(collation, first, second, &mut lent);
        if answer[0] == RefusalKind::KeyRoom.number() {
            // The arrays are never too short, so it is the store, and the detail is the length of all keys together.
            lent.store.reserve_exact(answer[2] as usize);
            answer = self.find_shared(collation, first, second, &mut lent);
        }
        Refusal::of(&answer).map_err(|refusal| ListError::of_lists(refusal, first, second))?;
        Ok(Shared::new(&answer, &lent))
    }

    /// Makes the call on two lists over this table, and answers its row.
    fn find_shared(&self, collation: Collation, first: &[u8], second: &[u8], lent: &mut Lent) -> [u64; 7] {
        let store = lent.store.spare_capacity_mut();
        let mut answer = [0; 7];
        let pages = self.pages();
        // SAFETY: the table was accepted with these pages, and nobody can have changed either since; the store and the arrays are
        // borrowed alone, so they overlap nothing. The store needs no octets in it, since the call answers nothing of what was
        // there.
        unsafe {
            ffi::mz_find_shared_accepted(
                collation as u32,
                first.as_ptr(),
                first.len(),
                second.as_ptr(),
                second.len(),
                self.entries().as_ptr(),
                self.entries().len(),
                self.pool().as_ptr(),
                self.pool().len(),
                pages.presence.as_ptr(),
                pages.presence.len(),
                pages.ranks.as_ptr(),
                pages.ranks.len(),
                store.as_mut_ptr().cast(),
                store.len(),
                lent.partners.as_mut_ptr(),
                lent.partners.len(),
                lent.positions.as_mut_ptr(),
                lent.positions.len(),
                &mut answer,
            )
        };
        answer
    }
}

/// What is lent to a call on lists: room for all keys, and the two arrays.
struct Lent {
    store: Vec<u8>,
    partners: Vec<u32>,
    positions: Vec<u32>,
}

impl Lent {
    /// Arrays that are long enough for the first list, if it is taken, and a store that mostly is for both.
    fn to_lists(first: &[u8], second: &[u8]) -> Lent {
        let names = (first.len() / RECORD_LEAST).min(NAMES_MOST);
        Lent { store: new_store(first.len() + second.len()), partners: vec![0; names], positions: vec![0; names] }
    }
}

/// A list as records, one for each name.
fn in_records(place: u64, names: impl IntoIterator<Item = impl AsRef<[u8]>>) -> Result<Vec<u8>, ListError> {
    let mut octets = Vec::new();
    for (index, name) in names.into_iter().enumerate() {
        let name = name.as_ref();
        write_text(&mut octets, name).map_err(|error| ListError::of_name(error.refusal().of_list(place), index, name.len()))?;
    }
    Ok(octets)
}
