//! Part 6: records. All small cases of a kind, then random lists and slices.

use crate::both::pattern;
use crate::record_lists;
use crate::recording::{record, Item, Recording};
use crate::settings::Settings;
use crate::stop::Stop;
use second::records::Origin;

/// Positions that no slice has; some of them come back to its start if a length is added or if they are cut to 32 bits.
pub const FAR: [u64; 12] = [
    1 << 31,
    (1 << 32) - 1,
    1 << 32,
    (1 << 32) + 7,
    1 << 63,
    u64::MAX - 12,
    u64::MAX - 6,
    u64::MAX - 5,
    u64::MAX - 4,
    u64::MAX - 3,
    u64::MAX - 1,
    u64::MAX,
];

/// How far past the end of a slice every position is tried.
const PAST: usize = 12;

pub fn run(settings: &Settings) -> Result<u64, Stop> {
    let kinds = kinds(settings.short)?;
    let lengths = lengths()?;
    let fields = fields(settings.short)?;
    let damaged = damaged(settings.short)?;
    let cuts = cuts()?;
    let rooms = rooms()?;
    println!("  {kinds} kinds, {lengths} lengths, {fields} fields of keys, {rooms} writings at the edges of a slice");
    println!("  {damaged} readings of damaged lists, {cuts} readings of cut lists");
    Ok(kinds + lengths + fields + damaged + cuts + rooms + record_lists::run(settings)?)
}

/// Small records of all sorts.
fn items() -> Vec<Item> {
    vec![
        Item::Text(vec![]),
        Item::Text(vec![0]),
        Item::key(1, 1, 1, b"a"),
        Item::Text(vec![2, 0, 0, 0, 1, 0]),
        Item::key(2, 1, 2, &[1, 0]),
        Item::key(3, 0, 1, &[0xFF]),
        Item::key(3, 1, 2, &[0x45, 0xCC, 0x81]),
        Item::key(3, 1, 5, &[]),
        Item::key(3, 1, 0, &[]),
    ]
}

/// These one after another, and the position of each and of the end.
fn list() -> Result<(Vec<u8>, Vec<u64>), String> {
    let items = items();
    let length = items.iter().map(Item::whole_length).sum();
    let mut recording = Recording::new(pattern(length));
    let mut positions = vec![0];
    for item in &items {
        let row = recording.write(item, positions[positions.len() - 1])?;
        positions.push(row[3]);
    }
    if positions[items.len()] != length as u64 {
        return Err(format!("a list of {length} octets is written up to {positions:?}"));
    }
    Ok((recording.octets, positions))
}

/// Every kind, or those out of few octets, over bodies that a text and a key may have and some that a key can't have.
fn kinds(short: bool) -> Result<u64, String> {
    const BODIES: [&[u8]; 4] = [&[], &[1, 1, 0], &[1, 1, 0, 0], &[3, 1, 1, 0, 0x61]];
    let is_tried = |octet: u8| !short || octet <= 4 || octet >= 0xFE || octet.is_power_of_two();
    let mut cases = 0;
    for kind in 0..=u16::MAX {
        let [low, high] = kind.to_le_bytes();
        if !is_tried(low) || !is_tried(high) {
            continue;
        }
        for body in BODIES {
            Recording::new(record(kind, body)).read_on(0)?;
            cases += 1;
        }
    }
    Ok(cases)
}

/// Every small length, and some that are large, over every small slice.
fn lengths() -> Result<u64, String> {
    let mut lengths: Vec<u32> = (0..30).collect();
    for high in [0x100, 0x1_0000, 0x100_0000, 0x8000_0000, u32::MAX - 12] {
        lengths.extend((0..13).map(|low| high + low));
    }
    let mut cases = 0;
    for kind in [1, 2, 3] {
        for &length in &lengths {
            let whole = [&length.to_le_bytes()[..], &[kind, 0, 3, 1, 3, 0], b"abcdefgh"].concat();
            for end in 0..=whole.len() {
                Recording::new(whole[..end].to_vec()).read_on(0)?;
                cases += 1;
            }
        }
    }
    Ok(cases)
}

/// The fields of a key: numbers at which some rule changes, each beside each, written, and read where the octets can hold them.
fn fields(short: bool) -> Result<u64, String> {
    const COLLATIONS: [u32; 10] = [0, 1, 2, 3, 4, 255, 256, 257, 259, u32::MAX];
    const FLAGS: [u64; 8] = [0, 1, 2, 255, 256, 257, 1 << 32, u64::MAX];
    const TEXT_LENGTHS: [u64; 13] = [0, 1, 2, 5, 255, 256, 4_095, 4_096, 4_097, 65_535, 65_536, (1 << 57) + 1, u64::MAX];
    let mut cases = 0;
    for text_length in TEXT_LENGTHS {
        for key_length in key_lengths(text_length, short) {
            let key = vec![b'k'; key_length];
            let is_long = key_length > 10_000;
            for &collation in COLLATIONS.iter().filter(|&&collation| !is_long || (1..5).contains(&collation)) {
                for &valid in FLAGS.iter().filter(|&&valid| !is_long || valid <= 2) {
                    one_key(Origin { collation, valid, text_length }, &key)?;
                    cases += 1;
                }
            }
        }
    }
    Ok(cases)
}

/// Lengths that a key may have, and that it may just not have: around none, the text's length, and 128 times that.
fn key_lengths(text_length: u64, short: bool) -> Vec<usize> {
    let longest = if short { 5_000 } else { 600_000 };
    let mut lengths: Vec<usize> = Vec::new();
    for middle in [1, text_length, text_length.saturating_mul(128)] {
        let around = [middle.saturating_sub(1), middle, middle.saturating_add(1)];
        lengths.extend(around.iter().filter(|&&length| length <= longest).map(|&length| length as usize));
    }
    lengths.sort_unstable();
    lengths.dedup();
    lengths
}

/// Writes a key, and reads the octets that it would have.
fn one_key(origin: Origin, key: &[u8]) -> Result<(), String> {
    let item = Item::Key(origin, key.to_vec());
    Recording::new(pattern(item.whole_length())).write(&item, 0)?;
    let fields = (u8::try_from(origin.collation), u8::try_from(origin.valid), u16::try_from(origin.text_length));
    if let (Ok(collation), Ok(valid), Ok(text_length)) = fields {
        let body = [&[collation, valid], &text_length.to_le_bytes()[..], key].concat();
        Recording::new(record(2, &body)).read(0)?;
    }
    Ok(())
}

/// A slice with every octet, or some, at every place.
pub fn with_damage(slice: &[u8], short: bool) -> Vec<Vec<u8>> {
    const FEW: [u8; 9] = [0, 1, 2, 3, 4, 7, 0x7F, 0x80, 0xFF];
    let mut slices = Vec::new();
    for at in 0..slice.len() {
        for octet in 0..=u8::MAX {
            let near = octet.abs_diff(slice[at]) <= 1;
            if short && !near && !FEW.contains(&octet) {
                continue;
            }
            let mut octets = slice.to_vec();
            octets[at] = octet;
            slices.push(octets);
        }
    }
    slices
}

/// The list with every octet, or some, at every place: read from each record on.
fn damaged(short: bool) -> Result<u64, String> {
    let (list, positions) = list()?;
    let mut cases = 0;
    for octets in with_damage(&list, short) {
        let mut recording = Recording::new(octets);
        for &position in &positions {
            recording.read(position)?;
        }
        recording.read_on(0)?;
        cases += 1 + positions.len() as u64;
    }
    Ok(cases)
}

/// The list cut at every length: read at every position before its end, at it, past it and far from it.
fn cuts() -> Result<u64, String> {
    let (list, positions) = list()?;
    let mut cases = 0;
    for end in 0..=list.len() {
        let mut recording = Recording::new(list[..end].to_vec());
        let near = 0..=(end + PAST) as u64;
        for position in near.chain(FAR) {
            recording.read(position)?;
            cases += 1;
        }
        let whole = positions.iter().filter(|&&position| position > 0 && position <= end as u64).count();
        let is_cut = !positions.contains(&(end as u64));
        let rows = recording.read_on(0)?;
        let last = rows[rows.len() - 1];
        let expected = if is_cut { 11 } else { 0 };
        if rows.len() != whole + 1 || last != [expected, 0, 0, 0, 0, 0, 0, 0, 0] {
            return Err(format!("a list of records that end at {positions:?}, cut at {end}, is read as {rows:?}"));
        }
        cases += 1;
    }
    Ok(cases)
}

/// Small items written into every slice around their length, at every position in it, past it and far from it.
fn rooms() -> Result<u64, String> {
    let mut cases = 0;
    for item in items() {
        for length in 0..item.whole_length() + 4 {
            let near = 0..=(length + PAST) as u64;
            for position in near.chain(FAR) {
                let row = Recording::new(pattern(length)).write(&item, position)?;
                let end = u128::from(position) + item.whole_length() as u128;
                let expected = if end > length as u128 { [8, 0, item.whole_length() as u64, 0] } else { [0, 0, 0, end as u64] };
                if row != expected {
                    return Err(format!("{} at {position} of {length} octets: {row:?}, not {expected:?}", item.describe()));
                }
                cases += 1;
            }
        }
    }
    Ok(cases)
}
