//! Which names of two lists are equal.
use crate::{ffi, Refusal};

/// Which names of two lists are equal, as [`Table::match_lists`](crate::Table::match_lists) and
/// [`Keys::matches`](crate::Keys::matches) answer it. Names are told by their index in their list, counted from 0. (The C
/// interface counts them from 1.)
///
/// ```
/// use mundeziwa::{Collation, Table};
///
/// let (first, second) = (["Otto", "Irene", "OTTO"], ["irene", "Beryl", "otto", "Otto"]);
/// let matches = Table::empty().match_lists(Collation::AsciiCasemap, first, second)?;
/// assert!(matches.partners().eq([Some(2), Some(0), Some(2)]));
/// assert_eq!((matches.names_with_partner(), matches.equal_pairs()), (3, 5));
/// # Ok::<(), mundeziwa::ListError>(())
/// ```
#[derive(Clone, Debug, PartialEq, Eq, Hash)]
pub struct Matches {
    equal_pairs: u64,
    names_with_partner: usize,
    /// The numbers of all names, from 1, in the order of their keys; the second list's follow the first's.
    row: Vec<u32>,
    /// For each place of the row, 1 if the name at the next place is equal to the one there.
    repeats: Vec<u32>,
    /// For each name of the first list the number of its partner, 0 if it has none.
    partners: Vec<u32>,
}

impl Matches {
    /// Makes the call on many keys.
    pub(super) fn new(octets: &[u8], ends: &[usize], first_count: usize) -> Result<Matches, Refusal> {
        let count = ends.len();
        let (mut row, mut repeats, mut partners) = (vec![0; count], vec![0; count], vec![0; first_count.min(count)]);
        let mut answer = [0; 5];
        // SAFETY: the pointers and lengths are those of live slices; the three that are written are this function's own.
        unsafe {
            ffi::mz_match_keys(
                octets.as_ptr(),
                octets.len(),
                ends.as_ptr(),
                count,
                first_count,
                row.as_mut_ptr(),
                row.len(),
                repeats.as_mut_ptr(),
                repeats.len(),
                partners.as_mut_ptr(),
                partners.len(),
                &mut answer,
            )
        };
        Refusal::of_many(&answer)?;
        Ok(Matches { equal_pairs: answer[3], names_with_partner: answer[4] as usize, row, repeats, partners })
    }

    /// How many names the first list has.
    ///
    /// ```
    /// use mundeziwa::{Collation, Table};
    ///
    /// let matches = Table::empty().match_lists(Collation::Octet, ["Irene", "Irene"], ["Otto"])?;
    /// assert_eq!(matches.first_count(), 2);
    /// # Ok::<(), mundeziwa::ListError>(())
    /// ```
    pub fn first_count(&self) -> usize {
        self.partners.len()
    }

    /// How many names the second list has.
    ///
    /// ```
    /// use mundeziwa::{Collation, Table};
    ///
    /// let matches = Table::empty().match_lists(Collation::Octet, ["Irene", "Irene"], ["Otto"])?;
    /// assert_eq!(matches.second_count(), 1);
    /// # Ok::<(), mundeziwa::ListError>(())
    /// ```
    pub fn second_count(&self) -> usize {
        self.row.len() - self.partners.len()
    }

    /// How many pairs of a name of the first list and a name of the second are equal. A name that stands twice in a list has a
    /// pair for each.
    ///
    /// ```
    /// use mundeziwa::{Collation, Table};
    ///
    /// let matches = Table::empty().match_lists(Collation::Octet, ["Irene", "Irene"], ["Irene", "Otto", "Irene"])?;
    /// assert_eq!(matches.equal_pairs(), 4);
    /// # Ok::<(), mundeziwa::ListError>(())
    /// ```
    pub fn equal_pairs(&self) -> u64 {
        self.equal_pairs
    }

    /// How many names of the first list have any partner: a name of the second list that is equal to them.
    ///
    /// ```
    /// use mundeziwa::{Collation, Table};
    ///
    /// let matches = Table::empty().match_lists(Collation::Octet, ["Irene", "Otto"], ["Irene", "Irene"])?;
    /// assert_eq!(matches.names_with_partner(), 1);
    /// # Ok::<(), mundeziwa::ListError>(())
    /// ```
    pub fn names_with_partner(&self) -> usize {
        self.names_with_partner
    }

    /// The lowest index in the second list of a name that is equal to this one of the first; nothing if there is none, or if
    /// the first list has no name with that index.
    ///
    /// ```
    /// use mundeziwa::{Collation, Table};
    ///
    /// let matches = Table::empty().match_lists(Collation::Octet, ["Irene", "Otto"], ["Beryl", "Irene", "Irene"])?;
    /// assert_eq!((matches.partner(0), matches.partner(1), matches.partner(2)), (Some(1), None, None));
    /// # Ok::<(), mundeziwa::ListError>(())
    /// ```
    pub fn partner(&self, index: usize) -> Option<usize> {
        (*self.partners.get(index)? as usize).checked_sub(1)
    }

    /// The partner of each name of the first list, in the list's order, as [`Matches::partner`] has it.
    ///
    /// ```
    /// use mundeziwa::{Collation, Table};
    ///
    /// let matches = Table::empty().match_lists(Collation::Octet, ["Irene", "Otto"], ["Beryl", "Irene"])?;
    /// assert!(matches.partners().eq([Some(1), None]));
    /// # Ok::<(), mundeziwa::ListError>(())
    /// ```
    pub fn partners(&self) -> impl ExactSizeIterator<Item = Option<usize>> + DoubleEndedIterator + Clone + '_ {
        self.partners.iter().map(|&number| (number as usize).checked_sub(1))
    }

    /// All names of both lists in groups of equal ones, in the order of their keys; a name that no other is equal to is a group
    /// by itself.
    ///
    /// ```
    /// use mundeziwa::{Collation, Table};
    ///
    /// let (first, second) = (["otto", "Irene", "Otto"], ["OTTO", "Beryl"]);
    /// let matches = Table::empty().match_lists(Collation::AsciiCasemap, first, second)?;
    /// let groups: Vec<_> = matches.groups().collect();
    /// assert!(groups[0].first().eq([]) && groups[0].second().eq([1]));
    /// assert!(groups[1].first().eq([1]) && groups[1].second().eq([]));
    /// assert!(groups[2].first().eq([0, 2]) && groups[2].second().eq([0]));
    /// # Ok::<(), mundeziwa::ListError>(())
    /// ```
    pub fn groups(&self) -> impl Iterator<Item = Group<'_>> + Clone {
        let mut left = self.row.as_slice();
        // A place without a repeat ends a group.
        self.repeats.split_inclusive(|&repeats| repeats == 0).map(move |repeats| {
            let (numbers, after) = left.split_at(repeats.len());
            left = after;
            Group::new(numbers, self.first_count())
        })
    }
}

/// Names of two lists that are equal, as [`Matches::groups`] has them.
///
/// ```
/// use mundeziwa::{Collation, Table};
///
/// let (held_back, fitted) = (["Otto", "Irene"], ["OTTO", "Beryl", "otto"]);
/// let matches = Table::empty().match_lists(Collation::AsciiCasemap, held_back, fitted)?;
/// for group in matches.groups().filter(|group| group.is_shared()) {
///     let names: Vec<_> = group.first().map(|index| held_back[index]).collect();
///     let others: Vec<_> = group.second().map(|index| fitted[index]).collect();
///     assert_eq!((names, others), (vec!["Otto"], vec!["OTTO", "otto"]));
/// }
/// # Ok::<(), mundeziwa::ListError>(())
/// ```
#[derive(Clone, Copy, Debug, PartialEq, Eq, Hash)]
pub struct Group<'m> {
    first: &'m [u32],
    second: &'m [u32],
    first_count: usize,
}

impl<'m> Group<'m> {
    /// The group of these numbers: the first list's come before the second's.
    fn new(numbers: &'m [u32], first_count: usize) -> Group<'m> {
        let (first, second) = numbers.split_at(numbers.partition_point(|&number| number as usize <= first_count));
        Group { first, second, first_count }
    }

    /// The indices of its names in the first list, ascending.
    ///
    /// ```
    /// use mundeziwa::{Collation, Table};
    ///
    /// let matches = Table::empty().match_lists(Collation::Octet, ["Otto", "Irene", "Otto"], ["Otto"])?;
    /// assert!(matches.groups().last().unwrap().first().eq([0, 2]));
    /// # Ok::<(), mundeziwa::ListError>(())
    /// ```
    pub fn first(&self) -> impl ExactSizeIterator<Item = usize> + DoubleEndedIterator + Clone + 'm {
        self.first.iter().map(|&number| number as usize - 1)
    }

    /// The indices of its names in the second list, ascending.
    ///
    /// ```
    /// use mundeziwa::{Collation, Table};
    ///
    /// let matches = Table::empty().match_lists(Collation::Octet, ["Otto"], ["Irene", "Otto", "Otto"])?;
    /// assert!(matches.groups().last().unwrap().second().eq([1, 2]));
    /// # Ok::<(), mundeziwa::ListError>(())
    /// ```
    pub fn second(&self) -> impl ExactSizeIterator<Item = usize> + DoubleEndedIterator + Clone + 'm {
        let before = self.first_count + 1;
        self.second.iter().map(move |&number| number as usize - before)
    }

    /// Whether both lists have it.
    ///
    /// ```
    /// use mundeziwa::{Collation, Table};
    ///
    /// let matches = Table::empty().match_lists(Collation::Octet, ["Irene", "Irene", "Otto"], ["Otto", "Zeta"])?;
    /// assert!(matches.groups().map(|group| group.is_shared()).eq([false, true, false]));
    /// # Ok::<(), mundeziwa::ListError>(())
    /// ```
    pub fn is_shared(&self) -> bool {
        !self.first.is_empty() && !self.second.is_empty()
    }
}
