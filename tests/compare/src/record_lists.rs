//! Part 6, random: lists that one program writes and the other reads, slices that look like records, items of any kind, and keys
//! that preparation left.

use crate::both::{pattern, Table};
use crate::cases::{for_cases, list, ENOUGH};
use crate::hex::hex;
use crate::library;
use crate::random::Random;
use crate::recording::{Item, Recording};
use crate::records::FAR;
use crate::settings::Settings;
use crate::stop::Stop;
use crate::{tables, texts};
use second::records as second_program;
use std::collections::BTreeMap;

/// How often each answer came: to readings what is there or the refusal (10 is the end), to writings the refusal.
#[derive(Default)]
struct Tally {
    readings: BTreeMap<u64, u64>,
    writings: BTreeMap<u64, u64>,
    lists: u64,
    prepared: u64,
}

const THE_END: u64 = 10;

pub fn run(settings: &Settings) -> Result<u64, Stop> {
    let mut tally = Tally::default();
    for_cases(settings, settings.cases, |number, random| match number % 5 {
        0 => one_list(random, &mut tally),
        1 | 2 => one_slice(random, &mut tally),
        3 => one_writing(random, &mut tally),
        _ => one_prepared(random, &mut tally),
    })?;
    tally.report(settings.cases)?;
    Ok(settings.cases)
}

impl Tally {
    fn add_readings(&mut self, rows: &[[u64; 9]]) {
        for row in rows {
            let answer = if row[0] == 0 && row[3] == 0 { THE_END } else { row[0] + row[3] };
            *self.readings.entry(answer).or_default() += 1;
        }
    }

    /// Prints how often each answer came. It is an error if one that could come never did.
    fn report(&self, cases: u64) -> Result<(), Stop> {
        println!("  answers to readings ({THE_END} the end): {}", list(&self.readings));
        println!("  answers to writings: {}", list(&self.writings));
        println!("  lists from one program to the other: {}, prepared keys written: {}", self.lists, self.prepared);
        let readings = [1, 2, THE_END, 11, 12, 13].into_iter().filter(|answer| !self.readings.contains_key(answer));
        let writings = [0, 8, 13].into_iter().filter(|answer| !self.writings.contains_key(answer));
        let missing: Vec<u64> = readings.chain(writings).collect();
        if cases >= ENOUGH && (!missing.is_empty() || self.prepared == 0) {
            return Err(Stop::Error(format!("answers that never came: {missing:?}")));
        }
        Ok(())
    }
}

type Writer = fn(&Item, &mut [u8], u64) -> Result<[u64; 4], String>;
type Reader = fn(&[u8], u64) -> Result<[u64; 9], String>;

/// One of the two programs.
struct Program {
    write: Writer,
    read: Reader,
}

const LIBRARY: Program = Program { write: write_by_library, read: read_by_library };
const SECOND: Program = Program {
    write: |item, records, position| Ok(item.write_by_second(records, position)),
    read: |records, position| Ok(second_program::read_record(records, position)),
};

fn write_by_library(item: &Item, records: &mut [u8], position: u64) -> Result<[u64; 4], String> {
    let mut lent = library::lend_records(records);
    let row = item.write_by_library(&mut lent, position)?;
    if !lent.agrees() {
        return Err("the library wrote outside its records or left two of them".to_string());
    }
    records.copy_from_slice(lent.content());
    Ok(row)
}

fn read_by_library(records: &[u8], position: u64) -> Result<[u64; 9], String> {
    let lent = library::lend_records(records);
    let row = library::read_record(&lent, position)?;
    if !lent.still_holds(records) {
        return Err("the library changed the records that it read".to_string());
    }
    Ok(row)
}

/// A list that one program writes and the other reads, both ways; and then both, from any positions.
fn one_list(random: &mut Random, tally: &mut Tally) -> Result<(), String> {
    let items: Vec<Item> = (0..random.between(0, 8)).map(|_| fitting(random)).collect();
    let left_over = random.pick(&[0, 0, 0, 1, 3, 4, 9]);
    let mut slices = Vec::new();
    for (writer, reader) in [(&LIBRARY, &SECOND), (&SECOND, &LIBRARY)] {
        let records = carry(writer, &items, left_over)?;
        come_back(reader, &items, &records, left_over)?;
        slices.push(records);
        tally.lists += 1;
    }
    if slices[0] != slices[1] {
        return Err(format!("lists differ\nlibrary: {}\nsecond:  {}", hex(&slices[0]), hex(&slices[1])));
    }
    read_about(random, tally, slices.remove(0))
}

/// The items, written one after another by one program.
fn carry(writer: &Program, items: &[Item], left_over: usize) -> Result<Vec<u8>, String> {
    let length: usize = items.iter().map(Item::whole_length).sum();
    let mut records = pattern(length + left_over);
    let mut position = 0;
    for item in items {
        let row = (writer.write)(item, &mut records, position)?;
        position += item.whole_length() as u64;
        if row != [0, 0, 0, position] {
            return Err(format!("{}\nis written with {row:?}, and not up to {position}", item.describe()));
        }
    }
    Ok(records)
}

/// The items as the other program reads them. What is left over is no record.
fn come_back(reader: &Program, items: &[Item], records: &[u8], left_over: usize) -> Result<(), String> {
    let mut position = 0;
    for item in items {
        let row = (reader.read)(records, position)?;
        let end = position + item.whole_length() as u64;
        if Item::named(&row, records).as_ref() != Some(item) || row[8] != end {
            return Err(format!("{}\nat {position} is read as {row:?} in {}", item.describe(), hex(records)));
        }
        position = end;
    }
    let expected = if left_over > 0 { 11 } else { 0 };
    match (reader.read)(records, position)? {
        row if row == [expected, 0, 0, 0, 0, 0, 0, 0, 0] => Ok(()),
        row => Err(format!("the end, {left_over} octets before that of the slice, is read as {row:?} in {}", hex(records))),
    }
}

/// A slice of records and of what looks like them, damaged in up to three places.
fn one_slice(random: &mut Random, tally: &mut Tally) -> Result<(), String> {
    let mut records = Vec::new();
    for _ in 0..random.between(0, 5) {
        match random.below(5) {
            0 => records.extend(likely_octets(random)),
            _ => records.extend(raw(random)),
        }
    }
    for _ in 0..random.pick(&[0, 0, 1, 1, 2, 3]) {
        damage(random, &mut records);
    }
    read_about(random, tally, records)
}

/// Reads a slice from its start on and from some other positions on.
fn read_about(random: &mut Random, tally: &mut Tally, records: Vec<u8>) -> Result<(), String> {
    let mut recording = Recording::new(records);
    let length = recording.octets.len();
    for position in [0, position(random, length), position(random, length)] {
        tally.add_readings(&recording.read_on(position)?);
    }
    Ok(())
}

/// An item of any kind, written somewhere into a slice that has what it needs, or a little less or more.
fn one_writing(random: &mut Random, tally: &mut Tally) -> Result<(), String> {
    let mut item = fitting(random);
    if random.one_in(2) {
        spoil(random, &mut item);
    }
    let before = random.pick(&[0, 0, 1, 4, 17]);
    let room = (before + item.whole_length() + random.pick(&[0, 0, 1, 2, 30])).saturating_sub(random.pick(&[0, 0, 0, 1, 5]));
    let position = if random.one_in(4) { position(random, room) } else { before as u64 };
    let mut recording = Recording::new(pattern(room));
    let row = recording.write(&item, position)?;
    *tally.writings.entry(row[0]).or_default() += 1;
    Ok(())
}

/// A text that is prepared: one record may hold its key, with the number of the collation, the flag and the text's length, and
/// another the text.
fn one_prepared(random: &mut Random, tally: &mut Tally) -> Result<(), String> {
    let (entries, pool) = tables::any(random);
    let table = Table::new(entries, pool)?.sparing();
    let case = texts::case(random, &table);
    let prepared = table.prepare(false, case.collation, &case.first, case.first_room)?;
    let row = prepared.row;
    if row[0] != 0 {
        return Ok(());
    }
    let key = if row[6] == 1 { &prepared.first_key[..row[5] as usize] } else { &case.first };
    for item in [Item::key(case.collation, row[3], case.first.len() as u64, key), Item::Text(case.first.clone())] {
        let length = item.whole_length();
        let answer = Recording::new(pattern(length)).write(&item, 0)?;
        if answer != [0, 0, 0, length as u64] {
            return Err(format!("{}\nis written with {answer:?}, after a preparation with {row:?}", item.describe()));
        }
    }
    tally.prepared += 1;
    Ok(())
}

/// A position in a slice, at its end, past it or far from it.
fn position(random: &mut Random, length: usize) -> u64 {
    match random.below(8) {
        0..=3 => random.between(0, length) as u64,
        4 => length as u64,
        5 => length.saturating_sub(random.between(1, 11)) as u64,
        6 => (length + random.between(1, 11)) as u64,
        _ => random.pick(&FAR),
    }
}

fn octets(random: &mut Random, length: usize) -> Vec<u8> {
    (0..length).map(|_| random.next() as u8).collect()
}

/// An item that a record may hold.
fn fitting(random: &mut Random) -> Item {
    let text_length = match random.below(40) {
        0 => random.between(4_090, 4_096),
        1 => random.between(250, 260),
        _ => random.pick(&[0, 1, 1, 2, 3, 5, 9, 20]),
    };
    if random.one_in(3) {
        return Item::Text(octets(random, text_length));
    }
    let (collation, valid) = random.pick(&[(1, 1), (2, 1), (3, 0), (3, 1), (3, 1)]);
    let key_length = match (collation, valid, random.below(8)) {
        (3, 1, 0) => 0,
        (3, 1, 1) => 128 * text_length.min(5),
        (3, 1, 2..=5) => random.below(2 * text_length + 1),
        _ => text_length,
    };
    Item::key(collation, valid, text_length as u64, &octets(random, key_length))
}

/// Changes an item, most often into one that no record may hold.
fn spoil(random: &mut Random, item: &mut Item) {
    match item {
        Item::Text(text) => *text = vec![b'x'; random.pick(&[4_095, 4_096, 4_097, 4_098, 70_000])],
        Item::Key(origin, key) => match random.below(6) {
            0 => origin.collation = random.pick(&[0, 1, 2, 3, 4, 255, 256, 257, 258, 259, 1 << 31, u32::MAX]),
            1 => origin.valid = random.pick(&[0, 1, 2, 255, 256, 257, 1 << 32, u64::MAX]),
            2 => origin.text_length = random.pick(&[0, 1, 4_096, 4_097, 65_535, 65_536, 65_537, 1 << 57, u64::MAX]),
            3 => origin.text_length = origin.text_length.wrapping_add(random.pick(&[1, 256, 65_536, 1 << 32, u64::MAX])),
            4 => key.push(b'x'),
            _ => *key = vec![b'x'; 128 * origin.text_length.min(9) as usize + random.below(2)],
        },
    }
}

/// The octets of a record, composed here: one that may be, or one with a field at fault.
pub fn raw(random: &mut Random) -> Vec<u8> {
    let mut item = fitting(random);
    if random.one_in(3) {
        spoil(random, &mut item);
    }
    let mut kind: u16 = if matches!(item, Item::Text(_)) { 1 } else { 2 };
    if random.one_in(8) {
        kind = random.pick(&[0, 1, 2, 3, 4, 0x100, 0x101, 0x102, 0x200, 0x201, 0xFFFF]);
    }
    let body = match item {
        Item::Text(text) => text,
        Item::Key(origin, key) => {
            let text_length = (origin.text_length as u16).to_le_bytes();
            [&[origin.collation as u8, origin.valid as u8], &text_length[..], &key].concat()
        }
    };
    let length = (2 + body.len() as u32).wrapping_add(random.pick(&[0, 0, 0, 0, 0, 0, 0, 1, 0x100, 0x10000, u32::MAX]));
    [&length.to_le_bytes()[..], &kind.to_le_bytes(), &body].concat()
}

/// Octets such as the heads of records have.
fn likely_octets(random: &mut Random) -> Vec<u8> {
    let count = random.between(1, 24);
    (0..count).map(|_| random.pick(&[0, 0, 0, 0, 1, 1, 2, 2, 3, 4, 5, 6, 7, 10, 0x10, 0xFF])).collect()
}

/// Changes a slice in one place.
pub fn damage(random: &mut Random, records: &mut Vec<u8>) {
    if records.is_empty() {
        return records.extend(likely_octets(random));
    }
    let at = random.below(records.len());
    match random.below(6) {
        0 => records[at] = random.pick(&[0, 1, 2, 3, 4, 0x80, 0xFF]),
        1 => records[at] = records[at].wrapping_add(random.pick(&[1, 0xFF])),
        2 => drop(records.remove(at)),
        3 => records.insert(at, random.pick(&[0, 1, 2, 3])),
        4 => records.truncate(at),
        _ => records.truncate(records.len() - random.between(1, 3).min(records.len())),
    }
}
