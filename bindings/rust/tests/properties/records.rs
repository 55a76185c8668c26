//! What holds of every list of records, and of every slice of octets that is taken for one.
use crate::random::Random;
use crate::{for_cases, tables, texts, COLLATIONS, UNICODE};
use mundeziwa::records::{write_key, write_text, KeyRecord, Record, RecordError, Records};
use mundeziwa::{Collation, KEY_PER_OCTET_MOST, TEXT_MOST};

/// What a record is made of. A list of these may lend the octets of all its records.
struct Made {
    /// What a key says of its text; nothing of a text.
    key_of: Option<(Collation, bool, usize)>,
    octets: Vec<u8>,
}

impl Made {
    fn record(&self) -> Record<'_> {
        match self.key_of {
            None => Record::Text(&self.octets),
            Some((collation, valid, text_length)) => Record::Key(KeyRecord { collation, valid, text_length, key: &self.octets }),
        }
    }
}

/// A text, or its key over some table.
fn made(random: &mut Random) -> Made {
    let table = tables::some(random);
    let [text, _] = texts::related(random, &table);
    if random.one_in(2) {
        return Made { key_of: None, octets: text };
    }
    let collation = random.pick(&COLLATIONS);
    let mut buffer = vec![0; KEY_PER_OCTET_MOST * text.len()];
    let key = table.key_record(collation, &text, &mut buffer).unwrap();
    Made { key_of: Some((collation, key.valid, text.len())), octets: key.key.to_vec() }
}

/// Some records, short ones if each octet of them is to be tried.
fn some(random: &mut Random, short: bool) -> Vec<Made> {
    let mut list: Vec<_> = (0..random.below(6)).map(|_| made(random)).collect();
    list.retain(|made| !short || made.octets.len() < 40);
    list
}

/// The octets of some records, and where each begins and the last one ends.
fn written(list: &[Made]) -> (Vec<u8>, Vec<usize>) {
    let (mut octets, mut positions) = (Vec::new(), vec![0]);
    for made in list {
        made.record().write_to(&mut octets).unwrap();
        positions.push(octets.len());
    }
    (octets, positions)
}

/// The records that were made.
fn records(list: &[Made]) -> Vec<Record<'_>> {
    list.iter().map(Made::record).collect()
}

/// The records of a slice, and why the last one was refused, if it was.
fn read(octets: &[u8]) -> (Vec<Record<'_>>, Option<RecordError>) {
    let mut records = Records::new(octets);
    let (mut list, mut error) = (Vec::new(), None);
    for record in records.by_ref() {
        assert!(error.is_none(), "nothing follows a refusal");
        match record {
            Ok(record) => list.push(record),
            Err(refused) => error = Some(refused),
        }
    }
    assert_eq!(records.next(), None, "what has ended stays so");
    assert_eq!(records.position(), error.as_ref().map_or(octets.len(), RecordError::position));
    (list, error)
}

/// Writes again what is read of a slice: it gives the octets before the refusal, or all of them.
fn assert_written_again(octets: &[u8]) {
    let (list, error) = read(octets);
    let mut again = Vec::new();
    list.iter().for_each(|record| record.write_to(&mut again).unwrap());
    assert_eq!(again, octets[..error.map_or(octets.len(), |error| error.position())]);
}

#[test]
fn what_is_written_is_read() {
    for_cases(|random| {
        let list = some(random, false);
        let (octets, positions) = written(&list);
        let (read, error) = read(&octets);
        assert_eq!(error, None);
        assert_eq!(read, records(&list));
        let told: Vec<_> = Records::new(&octets).with_positions().map(|item| item.unwrap().0).collect();
        assert_eq!(told, positions[..list.len()]);
        let at = random.below(positions.len());
        let rest: Vec<_> = Records::from_position(&octets, positions[at]).map(Result::unwrap).collect();
        assert_eq!(rest, read[at..]);
    });
}

#[test]
fn what_is_read_of_any_octets_is_written_so_again() {
    for_cases(|random| {
        let mut octets: Vec<u8> = Vec::new();
        for _ in 0..random.below(5) {
            // Mostly as a record begins, with numbers that are near the right ones.
            let body: Vec<u8> = (0..random.below(9)).map(|_| random.below(5) as u8).collect();
            let length = (body.len() + 2).saturating_add_signed(random.pick(&[0, 0, 0, 0, -1, 1]));
            octets.extend((length as u32).to_le_bytes());
            octets.extend([random.pick(&[1, 2, 2, 3]), 0]);
            octets.extend(body);
        }
        assert_written_again(&octets);
    });
}

#[test]
fn damage_at_any_octet_leaves_the_records_before_it() {
    for_cases(|random| {
        let list = some(random, true);
        let (mut octets, positions) = written(&list);
        for at in 0..octets.len() {
            let whole = octets[at];
            octets[at] ^= 1 << random.below(8);
            let before = positions.partition_point(|&position| position <= at) - 1;
            let (read, error) = read(&octets);
            assert_eq!(read[..before], records(&list[..before]));
            assert!(error.map_or(octets.len(), |error| error.position()) >= positions[before]);
            assert_written_again(&octets);
            octets[at] = whole;
        }
    });
}

#[test]
fn a_cut_at_any_length_says_where() {
    for_cases(|random| {
        let list = some(random, true);
        let (octets, positions) = written(&list);
        for end in 0..=octets.len() {
            let whole = positions.partition_point(|&position| position <= end) - 1;
            let (read, error) = read(&octets[..end]);
            assert_eq!(read, records(&list[..whole]));
            let told = error.map(|error| (error.refusal().number(), error.position()));
            assert_eq!(told, (end != positions[whole]).then_some((11, positions[whole])), "cut at {end} of {positions:?}");
        }
    });
}

#[test]
fn a_record_is_written_exactly_when_its_lengths_are_right() {
    for_cases(|random| {
        let collation = random.pick(&COLLATIONS);
        let valid = !random.one_in(3);
        let text_length = random.pick(&[0, 1, 2, 20, TEXT_MOST, TEXT_MOST + 1, 65_536, 65_537]);
        let most = text_length.min(TEXT_MOST + 1) * if random.one_in(2) { KEY_PER_OCTET_MOST } else { 1 };
        let key = vec![0xAA; most.saturating_add_signed(random.pick(&[0, 0, -1, 1]))];
        let right = match (collation, valid) {
            (UNICODE, true) => key.len() <= KEY_PER_OCTET_MOST * text_length,
            (UNICODE, false) | (_, true) => key.len() == text_length,
            (_, false) => false,
        };
        let before = vec![0x55; random.below(20)];
        let mut octets = before.clone();
        let record = KeyRecord { collation, valid, text_length, key: &key };
        let result = write_key(&mut octets, &record);
        assert_eq!(result.is_ok(), right && text_length <= TEXT_MOST, "{collation:?} {valid} {text_length} {}", key.len());
        match result {
            Ok(()) => assert_eq!(Records::from_position(&octets, before.len()).next(), Some(Ok(Record::Key(record)))),
            Err(error) => {
                assert_eq!((error.refusal().number(), error.position()), (13, before.len()));
                assert_eq!(octets, before);
            }
        }

        let text = texts::long(random);
        let mut octets = before.clone();
        assert_eq!(write_text(&mut octets, &text).is_ok(), text.len() <= TEXT_MOST);
        assert_eq!(octets == before, text.len() > TEXT_MOST);
        assert!(octets.starts_with(&before));
    });
}
