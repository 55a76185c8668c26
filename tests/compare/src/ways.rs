//! Every way that a key is written under collation 3. Which one the library takes goes by lengths alone, and all must give the
//! same answers: so texts and buffers of all lengths about the borders are tried, over hostile tables.

use crate::both::Table;
use crate::settings::Settings;
use crate::stop::Stop;
use crate::way_calls::{compare_pairs, must_have_come, prepare_at_once, prepare_checked};
use crate::way_tables::{self, Spelling};
use crate::way_texts::{accented, broken, of_each_kind, to_the_brim, Breadth};
use second::collate::TEXT_MOST;
use second::key::key_of;
use std::collections::{BTreeMap, BTreeSet};

/// What the library goes by: a buffer of so many octets for each of a text's has room for any key; from so many octets on a text
/// is long; up to so many it is brief, and its key is first written aside, where there are so many octets. Should the library
/// change these, the cases stay right, but no longer stand at its borders.
const EXPANSION_MOST: usize = 128;
const LONG_TEXT: usize = 512;
const BRIEF_MOST: usize = 64;
const BESIDE_OCTETS: usize = 1_280;

#[derive(PartialEq, Eq, PartialOrd, Ord, Clone, Copy, Debug)]
enum Way {
    /// A buffer with room for any key.
    Walked,
    WalkedLong,
    /// Any other buffer, and a brief text: its key is written aside, or is too long for that.
    Beside,
    BesideFull,
    /// Any other buffer.
    Sized,
    SizedLong,
    /// Over 4,096 octets.
    Refused,
}

#[derive(PartialEq, Eq, PartialOrd, Ord, Clone, Copy, Debug)]
enum Outcome {
    Written,
    Invalid,
    NoRoom,
    TooLong,
}

/// How often each outcome came, by the way to it.
type Tally = BTreeMap<(Way, Outcome), u64>;

/// What must have come over each table, or its texts aren't what they should be.
const MUST_COME: [(Way, Outcome); 14] = [
    (Way::Walked, Outcome::Written),
    (Way::Walked, Outcome::Invalid),
    (Way::WalkedLong, Outcome::Written),
    (Way::WalkedLong, Outcome::Invalid),
    (Way::Beside, Outcome::Written),
    (Way::Beside, Outcome::Invalid),
    (Way::Beside, Outcome::NoRoom),
    (Way::Sized, Outcome::Written),
    (Way::Sized, Outcome::Invalid),
    (Way::Sized, Outcome::NoRoom),
    (Way::SizedLong, Outcome::Written),
    (Way::SizedLong, Outcome::Invalid),
    (Way::SizedLong, Outcome::NoRoom),
    (Way::Refused, Outcome::TooLong),
];

/// And where keys can be too long to be written aside.
const MUST_COME_HEAVY: [(Way, Outcome); 2] = [(Way::BesideFull, Outcome::Written), (Way::BesideFull, Outcome::NoRoom)];

/// All texts over all tables; answers how many cases there were.
pub fn run(settings: &Settings) -> Result<u64, Stop> {
    let (mut tally, mut others) = (Tally::new(), [0; 3]);
    let spellings = way_tables::all(settings)?;
    for (index, spelling) in spellings.iter().enumerate() {
        let (breadth, broken_breadth) = match index {
            _ if settings.short => (Breadth::Short, Breadth::Short),
            0 => (Breadth::Wide, Breadth::Wide),
            _ => (Breadth::Wide, Breadth::Narrow),
        };
        let came = prepare_all(spelling, breadth, broken_breadth)?;
        let must_come = if spelling.is_heavy { [&MUST_COME[..], &MUST_COME_HEAVY].concat() } else { MUST_COME.to_vec() };
        must_have_come(spelling, "preparations", &came.keys().copied().collect(), &must_come)?;
        came.into_iter().for_each(|(outcome, count)| *tally.entry(outcome).or_default() += count);
        let counts =
            [prepare_checked(spelling, breadth)?, compare_pairs(spelling, breadth)?, prepare_at_once(spelling, breadth)?];
        others = std::array::from_fn(|index| others[index] + counts[index]);
        spelling.table.check_unchanged()?;
    }
    println!("  keys over {} tables, by way and outcome: {}", spellings.len(), list(&tally));
    let [checked, compared, at_once] = others;
    println!("  {checked} keys by the call that checks the table, {compared} comparisons, {at_once} texts among many");
    Ok(tally.values().sum::<u64>() + others.iter().sum::<u64>())
}

/// How often each outcome came by each way, in one line.
fn list(tally: &Tally) -> String {
    let counts: Vec<String> = tally.iter().map(|((way, outcome), count)| format!("{way:?} {outcome:?} {count}")).collect();
    counts.join(", ")
}

/// Every text over a table, in buffers of all lengths. An invalid text is its own key over any table: over one there are all of
/// those, over the others those beside the borders.
fn prepare_all(spelling: &Spelling, breadth: Breadth, broken_breadth: Breadth) -> Result<Tally, String> {
    let mut tally = Tally::new();
    for length in breadth.lengths() {
        for text in of_each_kind(spelling, length) {
            prepare_one(spelling, &text, all_rooms, &mut tally)?;
        }
        for text in breadth.places(length).filter_map(|place| accented(spelling, length, place)) {
            prepare_one(spelling, &text, rooms_for(length), &mut tally)?;
        }
    }
    for length in broken_breadth.lengths() {
        for text in of_each_kind(spelling, length).iter().flat_map(|text| broken(text, broken_breadth)) {
            prepare_one(spelling, &text, rooms_for(length), &mut tally)?;
        }
    }
    if spelling.is_heavy {
        to_the_brim(breadth).iter().try_for_each(|text| prepare_one(spelling, text, all_rooms, &mut tally))?;
    }
    Ok(tally)
}

fn prepare_one(spelling: &Spelling, text: &[u8], rooms: Rooms, tally: &mut Tally) -> Result<(), String> {
    let key = key_length(&spelling.table, text)?;
    for room in rooms(text.len(), key) {
        let answer = spelling.table.prepare(true, 3, text, room)?;
        let outcome = outcome_of(&answer.row).ok_or_else(|| format!("{}: both answer {:?}", spelling.name, answer.row))?;
        *tally.entry((way_of(text.len(), key, room), outcome)).or_default() += 1;
    }
    Ok(())
}

/// The length of a text's key, as the second program has it.
pub fn key_length(table: &Table, text: &[u8]) -> Result<usize, String> {
    let accepted = table.verdict.as_ref().map_err(|_| "a table of this part is refused")?;
    match text.len() {
        0..=TEXT_MOST => Ok(key_of(3, text, accepted).octets.len()),
        // No key is made: any length will do.
        length => Ok(length),
    }
}

/// Lengths of buffers for a text and a key of these lengths.
type Rooms = fn(usize, usize) -> BTreeSet<usize>;

/// About the key's own length, and about what has room for any key.
fn all_rooms(text: usize, key: usize) -> BTreeSet<usize> {
    let most = EXPANSION_MOST * text;
    [0, key.saturating_sub(1), key, key + 1, 4 * text, most.saturating_sub(1), most].into()
}

/// A buffer one octet too short, one that is just long enough, and one that has room for any key.
pub fn few_rooms(text: usize, key: usize) -> BTreeSet<usize> {
    [key.saturating_sub(1), key, EXPANSION_MOST * text].into()
}

/// Where there are many texts and each takes long, few buffers are tried.
fn rooms_for(text: usize) -> Rooms {
    if text < 2 * LONG_TEXT {
        all_rooms
    } else {
        few_rooms
    }
}

/// Whether a buffer has room for any key of a text.
pub fn is_roomy(text: usize, room: usize) -> bool {
    text <= room / EXPANSION_MOST
}

/// The way that the library takes.
fn way_of(text: usize, key: usize, room: usize) -> Way {
    match (is_roomy(text, room), text >= LONG_TEXT) {
        _ if text > TEXT_MOST => Way::Refused,
        (true, false) => Way::Walked,
        (true, true) => Way::WalkedLong,
        (false, true) => Way::SizedLong,
        (false, false) if text > BRIEF_MOST => Way::Sized,
        (false, false) if key > BESIDE_OCTETS => Way::BesideFull,
        (false, false) => Way::Beside,
    }
}

fn outcome_of(row: &[u64; 7]) -> Option<Outcome> {
    match (row[0], row[3]) {
        (0, 1) => Some(Outcome::Written),
        (0, 0) => Some(Outcome::Invalid),
        (8, _) => Some(Outcome::NoRoom),
        (2, _) => Some(Outcome::TooLong),
        _ => None,
    }
}
