//! Korean names: a Hangul syllable decomposes by rule into its jamo, whatever the table, and no table or line may say otherwise.
use mundeziwa::{Collation, Hit, Refusal, Table, TableBuilder};
use std::cmp::Ordering;
use std::ops::RangeInclusive;

const UNICODE: Collation = Collation::UnicodeCasemap;
const OTHERS: [Collation; 2] = [Collation::Octet, Collation::AsciiCasemap];
const SYLLABLES: RangeInclusive<char> = '\u{AC00}'..='\u{D7A3}';

/// 한글 in two syllables and in six jamo.
const COMPOSED: &str = "\u{D55C}\u{AE00}";
const DECOMPOSED: &str = "\u{1112}\u{1161}\u{11AB}\u{1100}\u{1173}\u{11AF}";

/// Every syllable with its jamo, counted as they stand in the code charts: by final consonant (or none), vowel, first consonant.
fn syllables() -> impl Iterator<Item = (String, String)> {
    let jamo = ('\u{1100}'..='\u{1112}').flat_map(|first| {
        ('\u{1161}'..='\u{1175}').flat_map(move |vowel| {
            let finals = [String::new()].into_iter().chain(('\u{11A8}'..='\u{11C2}').map(String::from));
            finals.map(move |last| format!("{first}{vowel}{last}"))
        })
    });
    SYLLABLES.map(String::from).zip(jamo)
}

/// The table of Latin, which has no line of Korean.
fn latin() -> Table {
    TableBuilder::read(include_bytes!("../../../sample/ucd.txt").as_slice()).unwrap().table().unwrap()
}

/// What a refused table tells: number, place, detail and sentence.
fn told(result: Result<Table, Refusal>) -> (u64, u64, u64, String) {
    let refusal = result.unwrap_err();
    (refusal.number(), refusal.place(), refusal.detail(), refusal.to_string())
}

#[test]
fn every_syllable_has_the_key_of_its_jamo() {
    let mut count = 0;
    for table in [Table::empty(), latin()] {
        for (syllable, jamo) in syllables() {
            let mut buffer = [0xAA; 10];
            let prepared = table.prepare(UNICODE, &syllable, &mut buffer).unwrap();
            assert_eq!((prepared.key, prepared.valid), (jamo.as_bytes(), true), "{syllable}");
            // One for the titlecase, one for the decomposition, and one for each of two or three parts.
            assert_eq!(prepared.lookups, 2 + jamo.chars().count() as u64, "{syllable}");
            assert_eq!(table.key(UNICODE, &jamo).unwrap(), jamo.as_bytes());
            count += 1;
        }
    }
    assert_eq!(count, 2 * 11_172);
}

#[test]
fn the_code_points_beside_the_syllables_stay() {
    for beside in ["\u{ABFF}", "\u{D7A4}", "\u{10FF}", "\u{11A7}", "\u{3131}"] {
        assert_eq!(Table::empty().key(UNICODE, beside).unwrap(), beside.as_bytes());
    }
}

#[test]
fn a_name_in_syllables_is_the_name_in_jamo() {
    let table = latin();
    assert_eq!(table.equal(UNICODE, COMPOSED, DECOMPOSED), Ok(true));
    assert_eq!(table.order(UNICODE, COMPOSED, DECOMPOSED), Ok(Ordering::Equal));
    assert_eq!(table.key(UNICODE, COMPOSED).unwrap(), DECOMPOSED.as_bytes());
    // A syllable without a final consonant, and that consonant after it.
    assert_eq!(table.equal(UNICODE, "\u{D558}\u{11AB}", "\u{D55C}"), Ok(true));
    assert_eq!(table.equal(UNICODE, "\u{D558}", "\u{D55C}"), Ok(false));
    for collation in OTHERS {
        assert_eq!(table.equal(collation, COMPOSED, DECOMPOSED), Ok(false));
        assert_eq!(table.key(collation, COMPOSED).unwrap(), COMPOSED.as_bytes());
    }
}

#[test]
fn a_hit_is_the_whole_syllable() {
    let table = latin();
    let hit = |first, second| table.find(UNICODE, first, second).unwrap();
    let second_syllable = Some(Hit { key: 9..18, text: 3..6 });
    assert_eq!(hit("\u{AE00}", COMPOSED), second_syllable);
    assert_eq!(hit("\u{1100}\u{1173}\u{11AF}", COMPOSED), second_syllable);
    // A vowel alone, and a consonant with the first of the next syllable: no syllable is cut in half.
    assert_eq!(hit("\u{1173}", COMPOSED), Some(Hit { key: 12..15, text: 3..6 }));
    assert_eq!(hit("\u{11AB}\u{1100}", COMPOSED), Some(Hit { key: 6..12, text: 0..6 }));
    // In jamo each of them is a character.
    assert_eq!(hit("\u{AE00}", DECOMPOSED), Some(Hit { key: 9..18, text: 9..18 }));
    // The syllable without its final consonant stands in the one with it.
    assert_eq!(hit("\u{D558}", COMPOSED), Some(Hit { key: 0..6, text: 0..3 }));
    assert_eq!(hit("\u{D55C}", "\u{D558}"), None);
}

#[test]
fn lists_share_a_name_in_either_spelling() {
    let table = Table::empty();
    let (held_back, fitted) = (["Irene", DECOMPOSED, COMPOSED], ["Otto", COMPOSED]);
    let shared = table.shared(UNICODE, held_back, fitted).unwrap();
    assert!(shared.matches().eq([(1, 1), (2, 1)]));
    let matches = table.match_lists(UNICODE, held_back, fitted).unwrap();
    assert_eq!((matches.names_with_partner(), matches.equal_pairs()), (2, 2));
    let keys = table.keys(UNICODE, held_back).unwrap();
    assert_eq!((keys.get(1), keys.get(2)), (Some(DECOMPOSED.as_bytes()), Some(DECOMPOSED.as_bytes())));
    for collation in OTHERS {
        assert!(table.shared(collation, held_back, fitted).unwrap().matches().eq([(2, 1)]));
    }
}

#[test]
fn a_key_may_be_longer_than_its_text_over_the_empty_table() {
    let mut short = [0xAA; 6];
    let refusal = Table::empty().prepare(UNICODE, COMPOSED, &mut short).unwrap_err();
    assert_eq!((refusal.number(), refusal.place(), refusal.detail()), (8, 1, 18));
    assert_eq!(short, [0xAA; 6]);
    // The longest text, of syllables alone.
    let text = "\u{D55C}".repeat(1365);
    assert_eq!(Table::empty().key(UNICODE, text).unwrap().len(), 9 * 1365);
}

#[test]
fn jamo_that_decompose_are_unfolded_in_a_syllable_too() {
    // The first consonant of the first syllable decomposes; the vowel has a titlecase, which is for characters of a text alone.
    let table = Table::new(&[0x1100, 0x1100, 0, 2, 0x1161, 0x61, 2, 0], &[0x41, 0x42]).unwrap();
    let mut buffer = [0; 16];
    let prepared = table.prepare(UNICODE, "\u{AC00}", &mut buffer).unwrap();
    assert_eq!((prepared.key, prepared.lookups), ("AB\u{1161}".as_bytes(), 6));
    assert_eq!(table.key(UNICODE, "\u{1100}\u{1161}").unwrap(), b"ABa");
}

#[test]
fn an_entry_for_a_syllable_is_refused_and_one_that_maps_to_a_syllable_is_not() {
    let sentence = "refused 4 (code point): entry 1 has a code point or titlecase that is no Unicode scalar value, \
        is for a Hangul syllable (these map by rule), or is not above the one before";
    for syllable in [0xAC00, 0xD55C, 0xD7A3] {
        // Its own parts, and a titlecase alone.
        let parts = Table::new(vec![0x61, 0x41, 0, 0, syllable, syllable, 0, 2], &[0x1100, 0x1161]);
        assert_eq!(told(parts), (4, 0, 1, sentence.into()));
        assert_eq!(told(Table::new(vec![0x61, 0x41, 0, 0, syllable, 0x41, 0, 0], &[])), (4, 0, 1, sentence.into()));

        let table = Table::new(vec![0x41, 0x41, 0, 1, 0x61, syllable, 1, 0], vec![syllable]).unwrap();
        let syllable = char::from_u32(syllable).unwrap().to_string();
        assert_eq!(table.equal(UNICODE, "A", &syllable), Ok(true));
        assert_eq!(table.equal(UNICODE, "a", &syllable), Ok(true));
    }
    Table::new(&[0xABFF, 0x41, 0, 0, 0xD7A4, 0x41, 0, 0], &[]).unwrap();
}

#[test]
fn a_table_whose_syllables_alone_unfold_too_far_is_refused_in_words_of_its_own() {
    let wide = |count: u32| Table::new(vec![0x41, 0x42, 0, 0, 0x11A8, 0x11A8, 0, count], vec![0x43; count as usize]);
    wide(30).unwrap();
    let sentence = "refused 7 (no level): a Hangul syllable whose jamo decompose does not unfold within 8 levels \
        into at most 32 code points";
    assert_eq!(told(wide(31)), (7, 0, 2, sentence.into()));

    // The vowel has seven levels, and its syllables eight; or eight, and they nine.
    let deep = |levels: u32| {
        let chain = 0x41..0x41 + levels - 1;
        let entries = chain.clone().chain([0x1161]).enumerate().flat_map(|(start, code)| [code, code, start as u32, 1]);
        Table::new(entries.collect::<Vec<_>>(), chain.map(|code| code + 1).chain([0x41]).collect::<Vec<_>>())
    };
    assert_eq!(deep(7).unwrap().key(UNICODE, "\u{AC00}").unwrap(), "\u{1100}G".as_bytes());
    assert_eq!(told(deep(8)), (7, 0, 8, sentence.into()));

    // An entry that is at fault for a syllable of its own is named.
    let circle = Table::new(&[0x61, 0x41, 0, 0, 0x1100, 0x1100, 0, 1], &[0xAC00]);
    let sentence = "refused 7 (no level): entry 1 does not unfold within 8 levels into at most 32 code points";
    assert_eq!(told(circle), (7, 0, 1, sentence.into()));
}

#[test]
fn a_pool_that_is_too_long_is_refused_in_words_of_its_own() {
    let sentence = "refused 5 (entry): the pool is longer than the counts of all entries together";
    assert_eq!(told(Table::new(&[0x61, 0x41, 0, 0], &[0x41])), (5, 0, 1, sentence.into()));
    assert_eq!(told(Table::new(&[], &[0x41])), (5, 0, 0, sentence.into()));
    let sentence = "refused 5 (entry): entry 0 has a count over 32, a wrong start or parts past the pool, or says nothing";
    assert_eq!(told(Table::new(&[0x61, 0x61, 0, 0], &[])), (5, 0, 0, sentence.into()));
}

#[test]
fn the_lines_of_the_range_say_nothing_and_a_mapping_is_refused() {
    let range = "AC00;<Hangul Syllable, First>;Lo;0;L;;;;;N;;;;;\nD7A3;<Hangul Syllable, Last>;Lo;0;L;;;;;N;;;;;\n";
    let builder = TableBuilder::read(range.as_bytes()).unwrap();
    assert_eq!((builder.line_count(), builder.entry_count()), (2, 0));

    let sentence = "line 1: refused 25 (surrogate or syllable): a line with a mapping is for a Hangul syllable \
        (these map by rule), or has a surrogate in field 0, 5 or 14, or in 12 where 14 is empty";
    for line in [
        "AC00;HANGUL SYLLABLE GA;Lo;0;L;1100 1161;;;;N;;;;;",
        "D55C;HANGUL SYLLABLE HAN;Lo;0;L;;;;;N;;;;;0041",
        "D7A3;HANGUL SYLLABLE HIH;Lo;0;L;;;;;N;;;0041;;",
    ] {
        assert_eq!(TableBuilder::read(line.as_bytes()).unwrap_err().to_string(), sentence);
    }
    // One that is its own titlecase says nothing, and one that others map to is no fault.
    for line in ["AC00;;;;;;;;;;;;;;AC00", "3131;;;;;AC00;;;;;;;;;AC01"] {
        TableBuilder::read(line.as_bytes()).unwrap().table().unwrap();
    }
}

#[test]
fn over_the_published_file_other_letters_of_korean_meet_syllables_too() {
    let path = std::env::var("MZ_UNICODE_DATA").unwrap_or("/usr/share/unicode/UnicodeData.txt".into());
    let Ok(file) = std::fs::read(&path) else {
        eprintln!("{path} is not here: the published file was not read");
        return;
    };
    let table = TableBuilder::read_whole(file.as_slice()).unwrap().table().unwrap();
    for (syllable, jamo) in syllables() {
        assert_eq!(table.key(UNICODE, &syllable).unwrap(), jamo.as_bytes());
        assert_eq!(table.equal(UNICODE, &syllable, &jamo), Ok(true));
    }
    // The letters of a keyboard, and those half as wide: a vowel or a first consonant, and never a final one.
    for letters in ["\u{314E}\u{314F}", "\u{FFBE}\u{FFC2}"] {
        assert_eq!(table.equal(UNICODE, letters, "\u{D558}"), Ok(true), "{letters}");
    }
    assert_eq!(table.equal(UNICODE, "\u{314E}\u{314F}\u{3134}", "\u{D55C}"), Ok(false));
}
