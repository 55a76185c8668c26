//! Part 5: random and hostile tables, texts, lines and states, all from one seed.

use crate::both::Table;
use crate::building::Building;
use crate::lines::{self, Published};
use crate::published::{lines_of, read_unicode_data};
use crate::random::Random;
use crate::settings::Settings;
use crate::stop::Stop;
use crate::{faults, page_lookups, tables, texts};
use second::unicode_data::State;
use std::collections::BTreeMap;

/// With this many cases every refusal must have come up, or the cases would not be what this part says they are.
pub const ENOUGH: u64 = 20_000;

/// Of one accepted table in so many, and of each that is about as large as can be (its entries have more than so many numbers),
/// all code points are looked up in the pages.
const LOOKED_UP: usize = 250;
const LARGE: usize = 40_000;

/// How often each answer came.
#[derive(Default)]
struct Tally {
    calls: BTreeMap<u64, u64>,
    lines: BTreeMap<u64, u64>,
    /// 7 where no entry is at fault, but a syllable is.
    syllables: u64,
    matches: u64,
    runs: u64,
    /// Tables of which every code point was looked up.
    looked_up: u64,
}

pub fn run(settings: &Settings) -> Result<u64, Stop> {
    let octets = read_unicode_data(settings)?;
    let published = Published::new(lines_of(&octets));
    let mut tally = Tally::default();
    for_cases(settings, settings.cases, |number, random| match number % 20 {
        _ if number % 4_000 == 0 => one_table(random, &mut tally, tables::at_the_limits),
        0..=10 => one_table(random, &mut tally, tables::any),
        11..=18 => one_line(random, &mut tally, &published),
        _ => one_file(random, &mut tally, &published),
    })?;
    tally.report(settings.cases)?;
    Ok(settings.cases)
}

/// Makes so many cases, told by their numbers, from the random numbers of the seed; a difference names its case.
pub fn for_cases(
    settings: &Settings,
    cases: u64,
    mut one_case: impl FnMut(u64, &mut Random) -> Result<(), String>,
) -> Result<(), String> {
    let mut random = Random::new(settings.seed);
    for number in 0..cases {
        let outcome = one_case(number, &mut random);
        outcome.map_err(|difference| format!("case {number} of seed {}\n{difference}", settings.seed))?;
    }
    Ok(())
}

/// A table, in a third of the cases with faults put in, and a pair of texts over it.
fn one_table(random: &mut Random, tally: &mut Tally, make: fn(&mut Random) -> tables::Slices) -> Result<(), String> {
    let mut slices = make(random);
    if random.one_in(3) {
        faults::spoil(random, &mut slices);
    }
    let table = Table::new(slices.0, slices.1)?;
    if table.is_accepted() && (table.entries.len() > LARGE || random.one_in(LOOKED_UP)) {
        page_lookups::compare_scalars(&table)?;
        tally.looked_up += 1;
    }
    let [presence, ranks] = tables::page_lengths(random);
    one_pair(random, tally, &table.lending(presence, ranks).sparing())
}

fn one_pair(random: &mut Random, tally: &mut Tally, table: &Table) -> Result<(), String> {
    let case = texts::case(random, table);
    let row = table.make_all_calls(&case, random.below(4))?;
    *tally.calls.entry(row[0]).or_default() += 1;
    tally.syllables += (row[0] == 7 && row[2] == table.entries.len() as u64 / 4) as u64;
    if row[3] == 1 && row[5] > 0 {
        tally.matches += 1;
        tally.runs += ((row[4], row[5]) != (row[6], row[7])) as u64;
    }
    Ok(())
}

/// One line, added to a state of any kind.
fn one_line(random: &mut Random, tally: &mut Tally, published: &Published) -> Result<(), String> {
    let line = lines::line(random, published);
    let (entries_length, pool_length, state) = lines::state(random, &line);
    let mut building = Building::new(entries_length, pool_length);
    let answer = building.add_line(state, &line)?;
    *tally.lines.entry(answer[0]).or_default() += 1;
    building.compare_slices()
}

/// Lines from the fresh state on; the table they leave passes checks 3 to 6, and is used if it is accepted.
fn one_file(random: &mut Random, tally: &mut Tally, published: &Published) -> Result<(), String> {
    let mut building = Building::new(random.between(0, 250), random.between(0, 120));
    let mut state = State::default();
    let mut at = random.below(published.mapped.len());
    for _ in 0..random.between(1, 60) {
        let mut line = published.line(random, published.mapped[at % published.mapped.len()]);
        if random.one_in(6) {
            lines::change(random, &mut line);
        }
        at += random.pick(&[0, 1, 1, 1, 1, 1, 2, 30]);
        let answer = building.add_line(state, &line)?;
        *tally.lines.entry(answer[0]).or_default() += 1;
        state = State { entries_used: answer[3], pool_used: answer[4], next: answer[5] };
    }
    building.compare_slices()?;
    let entries = building.entries[..4 * state.entries_used as usize].to_vec();
    let pool = building.pool[..state.pool_used as usize].to_vec();
    let table = Table::new(entries, pool)?.sparing();
    if !matches!(table.row()[0], 0 | 7) {
        return Err(format!("a built table is refused: {:?}\n{}", table.row(), table.describe()));
    }
    one_pair(random, tally, &table)
}

impl Tally {
    /// Prints how often each answer came. It is an error if one that could come never did.
    fn report(&self, cases: u64) -> Result<(), Stop> {
        println!("  answers to pairs of texts: {}; of 7 for a syllable: {}", list(&self.calls), self.syllables);
        println!("  answers to lines: {}", list(&self.lines));
        println!("  matches: {}, of them with another place in the text than in the key: {}", self.matches, self.runs);
        println!("  tables in whose pages every scalar code point was looked up: {}", self.looked_up);
        let calls = (0..=8).chain([15]).filter(|number| !self.calls.contains_key(number));
        let lines = std::iter::once(0).chain(20..=29).filter(|number| !self.lines.contains_key(number));
        let missing: Vec<u64> = calls.chain(lines).collect();
        let never = [self.runs, self.syllables, self.looked_up].contains(&0);
        if cases >= ENOUGH && (!missing.is_empty() || never) {
            return Err(Stop::Error(format!("answers that never came: {missing:?}")));
        }
        Ok(())
    }
}

/// How often each answer came, in one line.
pub fn list(counts: &BTreeMap<u64, u64>) -> String {
    let counts: Vec<String> = counts.iter().map(|(number, count)| format!("{number}: {count}")).collect();
    counts.join(", ")
}
