//! Part 1, the builder: which titlecase is taken ("an empty titlecase means the simple uppercase, field 12"), and what becomes of
//! the line then.

use crate::building::Building;
use crate::example_lines::STATE;
use crate::examples::expect;

/// The line's own code point.
const ITSELF: &str = "itself";

/// Each of `MALFORMED` in turn.
const FAULT: &str = "malformed";

const MALFORMED: [&str; 10] = ["004a", "041", "00041", "110000", "1000000", "0041 ", " 0041", "0041\r", "\r", "0041 0042"];

/// Field 12, field 14, and the titlecase that is taken or the refusal. The two fields hold different numbers, so that a number
/// shows which of them was taken.
const TAKEN: [(&str, &str, Result<&str, u64>); 25] = [
    // field 14 is empty: field 12 is taken
    ("", "", Ok("")),
    (ITSELF, "", Ok(ITSELF)),
    ("0041", "", Ok("0041")),
    ("D801", "", Ok("D801")),
    (FAULT, "", Err(29)),
    // field 14 is filled: it is taken, whatever stands in field 12, unless that is malformed
    ("", ITSELF, Ok(ITSELF)),
    (ITSELF, ITSELF, Ok(ITSELF)),
    ("0041", ITSELF, Ok(ITSELF)),
    ("D801", ITSELF, Ok(ITSELF)),
    (FAULT, ITSELF, Err(29)),
    ("", "0043", Ok("0043")),
    (ITSELF, "0043", Ok("0043")),
    ("0041", "0043", Ok("0043")),
    ("D801", "0043", Ok("0043")),
    (FAULT, "0043", Err(29)),
    ("", "DFFF", Ok("DFFF")),
    (ITSELF, "DFFF", Ok("DFFF")),
    ("0041", "DFFF", Ok("DFFF")),
    ("D801", "DFFF", Ok("DFFF")),
    (FAULT, "DFFF", Err(29)),
    // field 14 is malformed: 24, but 29 comes before it
    ("", FAULT, Err(24)),
    (ITSELF, FAULT, Err(24)),
    ("0041", FAULT, Err(24)),
    ("D801", FAULT, Err(24)),
    (FAULT, FAULT, Err(29)),
];

/// A line up to field 5, its code point and its parts: a letter and a surrogate, each without a part and with one.
const LINES: [(&str, u32, &[u32]); 4] =
    [("0042;;;;;", 0x42, &[]), ("0042;;;;;0044", 0x42, &[0x44]), ("D800;;;;;", 0xD800, &[]), ("D800;;;;;0044", 0xD800, &[0x44])];

/// What becomes of a line.
#[derive(Clone, Copy)]
enum Outcome {
    /// It says nothing, and only moves the last code point.
    Silent,
    /// An entry with this titlecase.
    Entry(u32),
    Refused(u64),
}

/// What becomes of each of `LINES` with a titlecase that is taken: "no parts, titlecase none or itself" say nothing, and "a line
/// with a mapping" that has a surrogate is 25.
fn outcomes(taken: Result<&str, u64>) -> [Outcome; 4] {
    use Outcome::{Entry, Refused, Silent};
    match taken {
        Ok("" | ITSELF) => [Silent, Entry(0x42), Silent, Refused(25)],
        Ok("0041") => [Entry(0x41), Entry(0x41), Refused(25), Refused(25)],
        Ok("0043") => [Entry(0x43), Entry(0x43), Refused(25), Refused(25)],
        Ok(_) => [Refused(25); 4],
        Err(number) => [Refused(number); 4],
    }
}

pub fn run() -> Result<u64, String> {
    let mut cases = 0;
    for (field_12, field_14, taken) in TAKEN {
        for ((start, code_point, parts), outcome) in LINES.into_iter().zip(outcomes(taken)) {
            for line in lines(start, field_12, field_14) {
                add(&line, code_point, parts, outcome)?;
                cases += 1;
            }
        }
    }
    Ok(cases)
}

/// The lines that begin so and have these two fields.
fn lines(start: &str, field_12: &str, field_14: &str) -> Vec<String> {
    let fillings = |field: &str| match field {
        ITSELF => vec![start[..4].to_string()],
        FAULT => MALFORMED.map(str::to_string).to_vec(),
        number => vec![number.to_string()],
    };
    let (uppercases, titlecases) = (fillings(field_12), fillings(field_14));
    let with = |uppercase| titlecases.iter().map(move |titlecase| format!("{start};;;;;;;{uppercase};;{titlecase}"));
    uppercases.iter().flat_map(with).collect()
}

/// Adds a line where there is room for one more entry: the answer, the state in it, and the slices whole.
fn add(line: &str, code_point: u32, parts: &[u32], outcome: Outcome) -> Result<(), String> {
    let mut building = Building::new(11, 3);
    let (mut entries, mut pool) = (building.entries.clone(), building.pool.clone());
    let (next, count) = (u64::from(code_point) + 1, parts.len());
    let row = match outcome {
        Outcome::Silent => [0, 0, 0, 1, 1, next],
        Outcome::Entry(titlecase) => {
            entries[4..8].copy_from_slice(&[code_point, titlecase, 1, count as u32]);
            pool[1..1 + count].copy_from_slice(parts);
            [0, 0, 0, 2, 1 + count as u64, next]
        }
        Outcome::Refused(number) => [number, 0, 0, STATE.entries_used, STATE.pool_used, STATE.next],
    };
    expect(line, building.add_line(STATE, line.as_bytes())?, row)?;
    expect(line, (&building.entries, &building.pool), (&entries, &pool))?;
    building.compare_slices()
}
