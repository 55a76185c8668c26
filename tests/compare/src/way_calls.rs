//! The other calls under collation 3 on texts about the borders between the ways (see `ways`): a preparation that checks the
//! table, the comparing calls, which size both keys or none, and many texts at once.

use crate::both::Case;
use crate::preparing::{TextRooms, Texts};
use crate::stop::Stop;
use crate::way_tables::Spelling;
use crate::way_texts::{accented, ascii, broken_at, of_each_kind, Breadth};
use crate::ways::{few_rooms, is_roomy, key_length};
use second::collate::TEXT_MOST;
use std::collections::BTreeSet;

/// The lengths of texts that are compared, also in a short run.
const COMPARED: [usize; 6] = [0, 13, 64, 65, 511, 512];
const COMPARED_SHORT: [usize; 3] = [13, 65, 512];

/// What comparing calls answered: whether both buffers had room for any key; number and place; the answer.
type Answers = BTreeSet<(bool, [u64; 2], u64)>;

/// Texts of each kind beside the borders, each whole and broken, none too long.
fn texts(spelling: &Spelling, breadth: Breadth) -> Vec<Vec<u8>> {
    let lengths = if breadth == Breadth::Short { Breadth::Short.lengths() } else { Breadth::Narrow.lengths() };
    let lengths = lengths.into_iter().filter(|&length| length <= TEXT_MOST);
    let whole: Vec<Vec<u8>> = lengths.flat_map(|length| of_each_kind(spelling, length)).collect();
    let broken = whole.iter().filter(|text| !text.is_empty()).map(|text| broken_at(text, text.len() / 2, 0xFF));
    whole.iter().cloned().chain(broken).collect()
}

fn rooms(spelling: &Spelling, text: &[u8]) -> Result<BTreeSet<usize>, String> {
    Ok(few_rooms(text.len(), key_length(&spelling.table, text)?))
}

/// Prepares texts by the call that checks the table.
pub fn prepare_checked(spelling: &Spelling, breadth: Breadth) -> Result<u64, Stop> {
    let (mut cases, mut came) = (0, BTreeSet::new());
    for text in texts(spelling, breadth) {
        for room in rooms(spelling, &text)? {
            let row = spelling.table.prepare(false, 3, &text, room)?.row;
            came.insert((row[0], row[3]));
            cases += 1;
        }
    }
    must_have_come(spelling, "calls that check the table", &came, &[(0, 1), (0, 0), (8, 0)])?;
    Ok(cases)
}

/// Prepares the same texts at once, with just enough room for all keys and with one octet less.
pub fn prepare_at_once(spelling: &Spelling, breadth: Breadth) -> Result<u64, Stop> {
    let texts = texts(spelling, breadth);
    let mut store = 0;
    for text in &texts {
        store += key_length(&spelling.table, text)?;
    }
    let many = Texts::new(3, &texts);
    let rooms = [store, store - 1];
    let mut came = BTreeSet::new();
    for room in rooms {
        came.insert(spelling.table.prepare_many(&many, TextRooms::of(room, texts.len()))?.row[0]);
    }
    must_have_come(spelling, "many texts", &came, &[0, 8])?;
    Ok((rooms.len() * texts.len()) as u64)
}

/// ASCII with a fault in the middle, if it has one.
fn faulty(spelling: &Spelling, length: usize) -> Option<Vec<u8>> {
    (length > 0).then(|| broken_at(&ascii(spelling, length), length / 2, 0xFF))
}

/// Compares texts of all lengths with each other, of which the shorter begins the longer, and with ones that differ by a
/// character or a fault.
pub fn compare_pairs(spelling: &Spelling, breadth: Breadth) -> Result<u64, Stop> {
    let lengths = if breadth == Breadth::Short { &COMPARED_SHORT[..] } else { &COMPARED };
    let (mut orders, mut searches, mut cases) = (Answers::new(), Answers::new(), 0);
    for &first in lengths {
        for &second in lengths {
            let others = [Some(ascii(spelling, second)), accented(spelling, second, second / 2), faulty(spelling, second)];
            for second in others.into_iter().flatten() {
                cases += compare_pair(spelling, &ascii(spelling, first), &second, &mut orders, &mut searches)?;
            }
        }
    }
    let answered = |is_roomy| [1, 2, 3].map(|answer| (is_roomy, [0, 0], answer));
    let refused = [(false, [8, 1], 0), (false, [8, 2], 0)];
    must_have_come(spelling, "orders", &orders, &[&answered(true)[..], &answered(false), &refused].concat())?;
    must_have_come(spelling, "searches", &searches, &[&answered(true)[..2], &answered(false)[..2], &refused].concat())?;
    Ok(cases)
}

/// Compares two texts by each call and in each pair of buffers.
fn compare_pair(
    spelling: &Spelling,
    first: &[u8],
    second: &[u8],
    orders: &mut Answers,
    searches: &mut Answers,
) -> Result<u64, String> {
    let mut cases = 0;
    for first_room in rooms(spelling, first)? {
        for second_room in rooms(spelling, second)? {
            let case = Case { collation: 3, first: first.to_vec(), second: second.to_vec(), first_room, second_room };
            let are_roomy = is_roomy(first.len(), first_room) && is_roomy(second.len(), second_room);
            spelling.table.equal(true, &case)?;
            let [number, place, _, answer] = spelling.table.order(true, &case)?.row;
            orders.insert((are_roomy, [number, place], answer));
            let [number, place, _, answer, ..] = spelling.table.substring(true, &case)?.row;
            searches.insert((are_roomy, [number, place], answer));
            cases += 3;
        }
    }
    Ok(cases)
}

/// It is an error if what a group of cases is there for never came.
pub fn must_have_come<T: Ord + std::fmt::Debug>(
    spelling: &Spelling,
    group: &str,
    came: &BTreeSet<T>,
    must_come: &[T],
) -> Result<(), Stop> {
    let missing: Vec<&T> = must_come.iter().filter(|one| !came.contains(one)).collect();
    match missing.is_empty() {
        true => Ok(()),
        false => Err(Stop::Error(format!("{}, {group}: these never came: {missing:?}", spelling.name))),
    }
}
