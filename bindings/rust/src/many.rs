//! Many names in one call: their keys, and which of them are equal.
use crate::keys::new_store;
use crate::pages::{with_page_room, Pages};
use crate::{ffi, Collation, ListError, Refusal, RefusalKind, Table};

mod matches;

pub use matches::{Group, Matches};

/// The keys of many texts, in their order, as [`Table::keys`] answers them. Texts are told by their index, counted from 0.
///
/// ```
/// use mundeziwa::{Collation, Table};
///
/// let keys = Table::empty().keys(Collation::AsciiCasemap, ["Otto", "", "otto"])?;
/// assert!(keys.iter().eq([b"OTTO".as_slice(), b"", b"OTTO"]));
/// assert_eq!(keys.get(0), keys.get(2));
/// # Ok::<(), mundeziwa::ListError>(())
/// ```
#[derive(Clone, Debug, PartialEq, Eq, Hash)]
pub struct Keys {
    octets: Vec<u8>,
    ends: Vec<usize>,
    valid: Vec<u8>,
}

impl Keys {
    /// How many there are.
    ///
    /// ```
    /// use mundeziwa::{Collation, Table};
    ///
    /// assert_eq!(Table::empty().keys(Collation::Octet, ["Otto", "Irene"])?.len(), 2);
    /// # Ok::<(), mundeziwa::ListError>(())
    /// ```
    pub fn len(&self) -> usize {
        self.ends.len()
    }

    /// Whether there is none.
    ///
    /// ```
    /// use mundeziwa::{Collation, Table};
    ///
    /// assert!(Table::empty().keys(Collation::Octet, [""; 0])?.is_empty());
    /// assert!(!Table::empty().keys(Collation::Octet, [""])?.is_empty());
    /// # Ok::<(), mundeziwa::ListError>(())
    /// ```
    pub fn is_empty(&self) -> bool {
        self.ends.is_empty()
    }

    /// The key of the text with this index, if there is one.
    ///
    /// ```
    /// use mundeziwa::{Collation, Table};
    ///
    /// let keys = Table::empty().keys(Collation::AsciiCasemap, ["Otto", "Irene"])?;
    /// assert_eq!(keys.get(1), Some(b"IRENE".as_slice()));
    /// assert_eq!(keys.get(2), None);
    /// # Ok::<(), mundeziwa::ListError>(())
    /// ```
    pub fn get(&self, index: usize) -> Option<&[u8]> {
        let end = *self.ends.get(index)?;
        Some(&self.octets[start_of(&self.ends, index)..end])
    }

    /// The keys, in the order of the texts.
    ///
    /// ```
    /// use mundeziwa::{Collation, Table};
    /// use std::collections::HashMap;
    ///
    /// let names = ["Otto", "Irene"];
    /// let keys = Table::empty().keys(Collation::AsciiCasemap, names)?;
    /// let by_key: HashMap<&[u8], &str> = keys.iter().zip(names).collect();
    /// assert_eq!(by_key[b"OTTO".as_slice()], "Otto");
    /// # Ok::<(), mundeziwa::ListError>(())
    /// ```
    pub fn iter(&self) -> impl ExactSizeIterator<Item = &[u8]> + DoubleEndedIterator + Clone + '_ {
        self.ends.iter().enumerate().map(|(index, &end)| &self.octets[start_of(&self.ends, index)..end])
    }

    /// Whether the text with this index is valid UTF-8 (always so under the other collations); nothing if there is none.
    ///
    /// ```
    /// use mundeziwa::{Collation, Table};
    ///
    /// let keys = Table::empty().keys(Collation::UnicodeCasemap, [b"Jos\xC3\xA9".as_slice(), b"Jos\xC3"])?;
    /// assert_eq!((keys.is_valid(0), keys.is_valid(1), keys.is_valid(2)), (Some(true), Some(false), None));
    /// # Ok::<(), mundeziwa::ListError>(())
    /// ```
    pub fn is_valid(&self, index: usize) -> Option<bool> {
        Some(*self.valid.get(index)? == 1)
    }

    /// Which keys are equal, where the first so many are those of a first list and all others those of a second. One list by
    /// itself is a first list of all of them: its groups are the names that it holds more than once.
    ///
    /// Refusal 37: there are fewer keys.
    ///
    /// ```
    /// use mundeziwa::{Collation, Table};
    ///
    /// let keys = Table::empty().keys(Collation::AsciiCasemap, ["Otto", "Irene", "OTTO"])?;
    /// assert!(keys.matches(1)?.partners().eq([Some(1)]));
    ///
    /// let alone = keys.matches(3)?;
    /// let twice: Vec<_> = alone.groups().filter(|group| group.first().len() > 1).collect();
    /// assert!(twice[0].first().eq([0, 2]));
    ///
    /// let refusal = keys.matches(4).unwrap_err();
    /// let sentence = "refused 37 (first count): there are 3 keys, and the first list is said to have more names";
    /// assert_eq!(refusal.to_string(), sentence);
    /// # Ok::<(), Box<dyn std::error::Error>>(())
    /// ```
    pub fn matches(&self, first_count: usize) -> Result<Matches, Refusal> {
        Matches::new(&self.octets, &self.ends, first_count)
    }
}

/// Where a part begins: where the one before it ends.
fn start_of(ends: &[usize], index: usize) -> usize {
    index.checked_sub(1).map_or(0, |before| ends[before])
}

/// Texts one after another, and where each of them ends.
#[derive(Default)]
struct Texts {
    octets: Vec<u8>,
    ends: Vec<usize>,
}

impl Texts {
    fn add(&mut self, texts: impl IntoIterator<Item = impl AsRef<[u8]>>) {
        for text in texts {
            self.octets.extend_from_slice(text.as_ref());
            self.ends.push(self.octets.len());
        }
    }

    fn length(&self, index: usize) -> usize {
        self.ends[index] - start_of(&self.ends, index)
    }
}

impl Table {
    /// The keys of many texts, made in one call: as [`Table::key`] answers each of them, and quicker. A text is never refused for
    /// its content.
    ///
    /// Refusal 2, a text over [`TEXT_MOST`](crate::TEXT_MOST), and 14, over [`ENDS_MOST`](crate::ENDS_MOST) texts.
    ///
    /// ```
    /// use mundeziwa::{Collation, Table};
    ///
    /// let table = Table::new(&[0xE9, 0xE9, 0, 2], &[0x65, 0x301])?;
    /// let keys = table.keys(Collation::UnicodeCasemap, ["José", "Jose\u{301}", "Irene"])?;
    /// assert_eq!(keys.get(0), keys.get(1));
    ///
    /// let error = table.keys(Collation::Octet, ["Irene", &"a".repeat(4097)]).unwrap_err();
    /// assert_eq!(error.to_string(), "text at index 1: it has 4097 octets, and at most 4096 are taken (refused 2)");
    /// # Ok::<(), Box<dyn std::error::Error>>(())
    /// ```
    pub fn keys(&self, collation: Collation, texts: impl IntoIterator<Item = impl AsRef<[u8]>>) -> Result<Keys, ListError> {
        let mut all = Texts::default();
        all.add(texts);
        self.keys_of(collation, &all).map_err(|refusal| match refusal.kind() {
            RefusalKind::TextTooLong => {
                let index = refusal.detail() as usize;
                ListError::of_text(refusal, index, all.length(index))
            }
            _ => ListError::of_all(refusal),
        })
    }

    /// Says which names of two lists are equal, as [`Table::shared`] does, of lists of any length, and in which groups.
    ///
    /// The call keeps all names and their keys in memory while it lasts.
    ///
    /// Refusal 2, a name over [`TEXT_MOST`](crate::TEXT_MOST), and 14, over [`ENDS_MOST`](crate::ENDS_MOST) names in both lists.
    ///
    /// ```
    /// use mundeziwa::{Collation, Table};
    ///
    /// let held_back: Vec<String> = (0..5000).map(|number| format!("storm {number}")).collect();
    /// let matches = Table::empty().match_lists(Collation::AsciiCasemap, &held_back, ["STORM 4000", "Storm 5000"])?;
    /// assert_eq!((matches.names_with_partner(), matches.partner(4000)), (1, Some(0)));
    ///
    /// let error = Table::empty().match_lists(Collation::Octet, &held_back, ["a".repeat(4097)]).unwrap_err();
    /// let sentence = "second list, name at index 0: it has 4097 octets, and at most 4096 are taken (refused 2)";
    /// assert_eq!(error.to_string(), sentence);
    /// # Ok::<(), mundeziwa::ListError>(())
    /// ```
    pub fn match_lists(
        &self,
        collation: Collation,
        first: impl IntoIterator<Item = impl AsRef<[u8]>>,
        second: impl IntoIterator<Item = impl AsRef<[u8]>>,
    ) -> Result<Matches, ListError> {
        let mut all = Texts::default();
        all.add(first);
        let first_count = all.ends.len();
        all.add(second);
        let keys = self.keys_of(collation, &all).map_err(|refusal| match refusal.kind() {
            RefusalKind::TextTooLong => {
                let number = refusal.detail() as usize;
                let (place, index) = number.checked_sub(first_count).map_or((1, number), |index| (2, index));
                ListError::of_name(refusal.of_list(place).of_index(index), index, all.length(number))
            }
            _ => ListError::of_all(refusal),
        })?;
        keys.matches(first_count).map_err(ListError::of_all)
    }

    /// The keys of texts that are laid out.
    fn keys_of(&self, collation: Collation, texts: &Texts) -> Result<Keys, Refusal> {
        let count = texts.ends.len();
        let mut keys = Keys { octets: new_store(texts.octets.len()), ends: vec![0; count], valid: vec![0; count] };
        let prepare = |keys: &mut Keys| with_page_room(|room| self.prepare_many(collation, texts, room, keys));
        let mut answer = prepare(&mut keys);
        if answer[0] == RefusalKind::KeyRoom.number() {
            // The other slices are never too short, so it is the store, and the detail is the length of all keys together.
            keys.octets.reserve_exact(answer[2] as usize);
            answer = prepare(&mut keys);
        }
        Refusal::of_many(&answer)?;
        // SAFETY: the call was not refused, so it has written each octet of the store up to the number that it answers.
        unsafe { keys.octets.set_len(answer[3] as usize) };
        keys.octets.shrink_to_fit();
        Ok(keys)
    }

    /// Makes the call on many texts over this table, and answers its row. It checks the table, and fills pages: not this table's,
    /// which other threads may be reading.
    fn prepare_many(&self, collation: Collation, texts: &Texts, room: &mut Pages, keys: &mut Keys) -> [u64; 4] {
        let store = keys.octets.spare_capacity_mut();
        let mut answer = [0; 4];
        // SAFETY: the pointers and lengths are those of live slices; those that are written are borrowed alone, so they overlap
        // nothing. The store needs no octets in it, since the call answers nothing of what was there.
        unsafe {
            ffi::mz_prepare_many(
                collation as u32,
                texts.octets.as_ptr(),
                texts.octets.len(),
                texts.ends.as_ptr(),
                texts.ends.len(),
                self.entries().as_ptr(),
                self.entries().len(),
                self.pool().as_ptr(),
                self.pool().len(),
                room.presence.as_mut_ptr(),
                room.presence.len(),
                room.ranks.as_mut_ptr(),
                room.ranks.len(),
                store.as_mut_ptr().cast(),
                store.len(),
                keys.ends.as_mut_ptr(),
                keys.ends.len(),
                keys.valid.as_mut_ptr(),
                keys.valid.len(),
                &mut answer,
            )
        };
        answer
    }
}
