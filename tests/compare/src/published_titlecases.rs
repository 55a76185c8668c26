//! Part 2, field 12: the published file builds the table that it built before field 12 was looked at, and builds it too as a
//! partner writes it ("leaves field 14 empty where it equals the uppercase").

use crate::both::Table;
use crate::lines::emptied;
use crate::made::{lay_out, Mappings};
use crate::published::build;
use crate::stop::Stop;

/// The lines of edition 15.0.0 that have the same code point in fields 12 and 14.
const EMPTIED: usize = 1_396;

/// Compares the table of the published lines with those two, and answers how many lines were built from.
pub fn run(lines: &[&[u8]], table: &Table) -> Result<u64, Stop> {
    as_before(lines, table)?;
    as_partner(lines, table)?;
    println!("  field 12 beside an empty field 14: 0 lines; with field 14 emptied in {EMPTIED} lines: the same table");
    Ok(lines.len() as u64)
}

/// No line has field 12 beside an empty field 14, and the table is the one that fields 0, 5 and 14 alone lay out.
fn as_before(lines: &[&[u8]], table: &Table) -> Result<(), Stop> {
    let mut mappings = Mappings::new();
    for line in lines {
        let text = String::from_utf8_lossy(line);
        let fields: Vec<&str> = text.split(';').collect();
        if !fields[12].is_empty() && fields[14].is_empty() {
            return Err(Stop::Error(format!("a published line has field 12 beside an empty field 14: {text}")));
        }
        let code_point = number(fields[0])?;
        let titlecase = if fields[14].is_empty() { code_point } else { number(fields[14])? };
        let words = fields[5].split_whitespace().filter(|word| !word.starts_with('<'));
        let parts = words.map(number).collect::<Result<Vec<u32>, Stop>>()?;
        if titlecase != code_point || !parts.is_empty() {
            mappings.insert(code_point, (Some(titlecase), parts));
        }
    }
    let (entries, pool) = lay_out(&mappings);
    expect_same("fields 0, 5 and 14 alone", table, &entries, &pool)
}

/// The lines as a partner writes them leave the same entries and the same pool in both programs.
fn as_partner(lines: &[&[u8]], table: &Table) -> Result<(), Stop> {
    let emptied: Vec<Option<Vec<u8>>> = lines.iter().map(|line| emptied(line)).collect();
    let count = emptied.iter().flatten().count();
    if count != EMPTIED {
        return Err(Stop::Error(format!("{count} lines have the same in fields 12 and 14, in edition 15.0.0 {EMPTIED} have")));
    }
    let written = lines.iter().zip(&emptied).map(|(line, emptied)| emptied.as_deref().unwrap_or(line));
    let other = build(&written.collect::<Vec<&[u8]>>())?;
    expect_same("field 14 emptied where it equals field 12", table, &other.entries, &other.pool)
}

fn number(digits: &str) -> Result<u32, Stop> {
    u32::from_str_radix(digits, 16).map_err(|_| Stop::Error(format!("the published file has a number {digits:?}")))
}

/// The published table is this one, number for number; fails with the first entries that differ.
fn expect_same(what: &str, table: &Table, entries: &[u32], pool: &[u32]) -> Result<(), Stop> {
    if table.entries == entries && table.pool == pool {
        return Ok(());
    }
    let differing = table.entries.chunks(4).zip(entries.chunks(4)).find(|(published, other)| published != other);
    Err(Stop::Difference(format!("{what}: another table than the published lines build, first at {differing:x?}")))
}
