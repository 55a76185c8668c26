//! Part 9: all 11,172 Hangul syllables over the published table, table T and the empty one. What a syllable decomposes into comes
//! from the other side here: three rows of jamo, and the Unicode Standard's rule of composing them (section 3.12).

use crate::both::{Case, Table};
use crate::example_hangul_tables;
use crate::examples::{expect, table_t};
use crate::made::Mappings;
use crate::published::{build, lines_of, read_unicode_data};
use crate::settings::Settings;
use crate::stop::Stop;
use second::hangul::SYLLABLES;
use second::table::Mapping;
use second::unfold::Heights;

const LEADING: [u32; 2] = [0x1100, 0x1112];
const VOWELS: [u32; 2] = [0x1161, 0x1175];
const TRAILING: [u32; 2] = [0x11A8, 0x11C2];
const COUNT: usize = 11_172;

/// In a short run one syllable of so many; the number has no divisor in common with 28 and 588.
const SHORT_STEP: usize = 59;

/// As many syllables as a text of 4,096 octets holds.
const IN_A_TEXT: usize = 1_365;

/// A syllable and its jamo.
struct Syllable {
    composed: String,
    jamo: String,
}

pub fn run(settings: &Settings) -> Result<u64, Stop> {
    let octets = read_unicode_data(settings)?;
    let tables = [Table::new(vec![], vec![])?, table_t()?, build(&lines_of(&octets))?];
    let all = compose_all()?;
    let step = if settings.short { SHORT_STEP } else { 1 };
    let mut cases = 0;
    for table in &tables {
        for (index, syllable) in all.iter().enumerate().step_by(step) {
            cases += one(table, syllable, all.get(index + 1))?;
        }
        cases += in_long_texts(table, &all)?;
        table.check_unchanged()?;
    }
    let heights = if settings.short { 0 } else { compare_heights()? };
    println!("  {} syllables over {} tables, one in {step}; of {heights} tables the height of each", all.len(), tables.len());
    Ok(cases + heights)
}

fn text_of(code_points: &[u32]) -> Option<String> {
    code_points.iter().map(|&code_point| char::from_u32(code_point)).collect()
}

/// Every syllable in order: (l * 21 + v) * 28 + t from AC00 on, where t is 0 without a trailing consonant.
fn compose_all() -> Result<Vec<Syllable>, Stop> {
    let mut all = Vec::new();
    for leading in LEADING[0]..=LEADING[1] {
        for vowel in VOWELS[0]..=VOWELS[1] {
            for trailing in std::iter::once(None).chain((TRAILING[0]..=TRAILING[1]).map(Some)) {
                let (l, v, t) = (leading - LEADING[0], vowel - VOWELS[0], trailing.map_or(0, |part| part - TRAILING[0] + 1));
                let jamo: Vec<u32> = [leading, vowel].into_iter().chain(trailing).collect();
                let composed = text_of(&[0xAC00 + (l * 21 + v) * 28 + t]);
                let both = composed.zip(text_of(&jamo)).map(|(composed, jamo)| Syllable { composed, jamo });
                all.push(both.ok_or_else(|| Stop::Error(format!("{jamo:04X?} are no code points")))?);
            }
        }
    }
    let ends = (all.first().map(|first| first.composed.as_str()), all.last().map(|last| last.composed.as_str()));
    match (all.len(), ends) {
        (COUNT, (Some("\u{AC00}"), Some("\u{D7A3}"))) => Ok(all),
        other => Err(Stop::Error(format!("the syllables are not all: {other:?}"))),
    }
}

/// A syllable as a text, beside its jamo and beside the next syllable, and inside a text.
fn one(table: &Table, syllable: &Syllable, next: Option<&Syllable>) -> Result<u64, String> {
    let Syllable { composed, jamo } = syllable;
    let parts = jamo.chars().count() as u64;
    let answer = table.prepare(true, 3, composed.as_bytes(), jamo.len())?;
    expect(composed, answer.row, [0, 0, 0, 1, 2 + parts, jamo.len() as u64, 1])?;
    expect(composed, &answer.first_key[..], jamo.as_bytes())?;
    expect(composed, table.equal(true, &case(composed, jamo))?.row, [0, 0, 0, 1])?;
    expect(composed, table.order(true, &case(jamo, composed))?.row, [0, 0, 0, 2])?;
    let mut cases = 3;
    if let Some(next) = next {
        expect(composed, table.order(true, &case(composed, &next.composed))?.row, [0, 0, 0, 1])?;
        expect(composed, table.equal(true, &case(&next.jamo, composed))?.row, [0, 0, 0, 2])?;
        cases += 2;
    }
    Ok(cases + hits(table, syllable)?)
}

fn case(first: &str, second: &str) -> Case {
    let (first, second) = (first.as_bytes().to_vec(), second.as_bytes().to_vec());
    Case { collation: 3, first, second, first_room: 64, second_room: 64 }
}

/// The syllable, its jamo together and one by one, and one octet within each: all are found, and cover the whole syllable.
fn hits(table: &Table, syllable: &Syllable) -> Result<u64, String> {
    let Syllable { composed, jamo } = syllable;
    let text = format!("1{composed}.");
    let whole = [0, 0, 0, 1, 1, 1 + jamo.len() as u64, 1, 4];
    expect(composed, table.substring(true, &case(composed, &text))?.row, whole)?;
    expect(composed, table.substring(true, &case(jamo, &text))?.row, whole)?;
    expect(composed, table.substring(true, &case(composed, &format!("1{jamo}.")))?.row, [0, 0, 0, 1, 1, whole[5], 1, whole[5]])?;
    for (at, part) in jamo.char_indices() {
        let (start, end) = (1 + at as u64, 4 + at as u64);
        expect(composed, table.substring(true, &case(&part.to_string(), &text))?.row, [0, 0, 0, 1, start, end, 1, 4])?;
        let octets = Case { first: jamo.as_bytes()[at + 1..].to_vec(), ..case("", &text) };
        expect(composed, table.substring(true, &octets)?.row, [0, 0, 0, 1, start + 1, whole[5], 1, 4])?;
    }
    Ok(3 + 2 * jamo.chars().count() as u64)
}

/// All syllables in a few texts, by the call that checks the table, with just enough room and with one octet less.
fn in_long_texts(table: &Table, all: &[Syllable]) -> Result<u64, String> {
    let mut cases = 0;
    for run in all.chunks(IN_A_TEXT) {
        let text: String = run.iter().map(|syllable| syllable.composed.as_str()).collect();
        let jamo: String = run.iter().map(|syllable| syllable.jamo.as_str()).collect();
        let (lookups, length) = ((2 * run.len() + jamo.chars().count()) as u64, jamo.len() as u64);
        let answer = table.prepare(false, 3, text.as_bytes(), jamo.len())?;
        expect("a text of syllables", answer.row, [0, 0, 0, 1, lookups, length, 1])?;
        expect("a text of syllables", &answer.first_key[..], jamo.as_bytes())?;
        let short = table.prepare(false, 3, text.as_bytes(), jamo.len() - 1)?;
        expect("a text of syllables, a buffer of one less", short.row, [8, 1, length, 0, 0, 0, 0])?;
        cases += 2;
    }
    Ok(cases)
}

/// The second program's check looks at one syllable of each height. Here each syllable of each hostile table is looked at.
fn compare_heights() -> Result<u64, String> {
    let tables = example_hangul_tables::tables();
    for (what, mappings, row) in &tables {
        let at_fault = has_syllable_at_fault(mappings);
        let entries = mappings.len() as u64;
        if row[0] == 0 && at_fault || *row == [7, 0, entries] && !at_fault {
            return Err(format!("{what}: the check gives {row:?}, and a syllable is at fault: {at_fault}"));
        }
    }
    Ok(tables.len() as u64)
}

fn has_syllable_at_fault(mappings: &Mappings) -> bool {
    let mapping = |(&code_point, (titlecase, parts)): (&u32, &(Option<u32>, Vec<u32>))| {
        (code_point, Mapping { titlecase: *titlecase, parts: parts.clone() })
    };
    let table = second::table::Table { mappings: mappings.iter().map(mapping).collect() };
    let mut heights = Heights::default();
    let mut all = SYLLABLES.map(|syllable| heights.of(syllable, &table));
    !all.all(|height| height.is_some_and(|height| height.level <= 8 && height.full <= 32))
}
