//! Part 1, Hangul: lines for syllables. "A line with a mapping for one gets 25."

use crate::building::Building;
use crate::examples::expect;
use second::unicode_data::State;

/// The state that the line for ABFF leaves.
const BEFORE: State = State { entries_used: 1, pool_used: 1, next: 0xAC00 };

pub fn run() -> Result<u64, String> {
    Ok(lines()? + refusals_in_order()?)
}

/// The number that a line is answered in a state, where there is room for one more entry and two more pool numbers; a line
/// that is taken leaves this code point as the last.
fn answered(state: State, line: &str, number: u64) -> Result<u64, String> {
    let mut building = Building::new(11, 3);
    let answer = building.add_line(state, line.as_bytes())?;
    expect(line, answer[0], number)?;
    building.compare_slices()?;
    let next = u64::from_str_radix(&line[..4], 16).map_or(0, |code_point| code_point + 1);
    expect(line, answer[5], if number == 0 { next } else { state.next })?;
    Ok(1)
}

/// Every kind of mapping is one; the range lines, which say nothing, pass. Syllables in other lines are no fault.
fn lines() -> Result<u64, String> {
    let lines = [
        ("AC00;<Hangul Syllable, First>;Lo;0;L;;;;;N;;;;;", 0),
        ("D7A3;<Hangul Syllable, Last>;Lo;0;L;;;;;N;;;;;", 0),
        ("AC01;;;;;;;;;;;;;;", 0),
        ("AC00;;;;;;;;;;;;;;AC00", 0),
        ("D7A3;;;;;;;;;;;;D7A3;;", 0),
        ("AC00;;;;;;;;;;;;0041;;AC00", 0),
        ("AC00;;;;;1100 1161;;;;;;;;;", 25),
        ("AC01;;;;;1100;;;;;;;;;", 25),
        ("D7A2;;;;;<compat> 1100;;;;;;;;;", 25),
        ("D7A3;;;;;1112 1175;;;;;;;;;", 25),
        ("D7A3;;;;;D7A3;;;;;;;;;", 25),
        ("AC00;;;;;;;;;;;;;;0041", 25),
        ("D7A3;;;;;;;;;;;;;;AC00", 25),
        ("AC00;;;;;;;;;;;;0041;;", 25),
        ("D7A3;;;;;;;;;;;;0041;;", 25),
        ("AC00;;;;;1100;;;;;;;0041;;AC00", 25),
        ("ABFF;;;;;1100 1161;;;;;;;;;", 0),
        ("ABFF;;;;;;;;;;;;;;AC00", 0),
        ("D7A4;;;;;1100 1161;;;;;;;;;", 0),
        ("D7A4;;;;;;;;;;;;0041;;", 0),
        ("0042;;;;;AC00 D7A3;;;;;;;;;", 0),
        ("0042;;;;;;;;;;;;;;AC00", 0),
        ("0042;;;;;;;;;;;;D7A3;;", 0),
    ];
    lines.iter().map(|&(line, number)| answered(State { next: 0x42, ..BEFORE }, line, number)).sum()
}

/// 25 of a syllable has the place that 25 has: after 24, before 26 and 27.
fn refusals_in_order() -> Result<u64, String> {
    let full = State { entries_used: 2, ..BEFORE };
    let after = State { next: 0xD7A4, ..BEFORE };
    let impossible = State { entries_used: 3, ..BEFORE };
    let many = format!("AC00;;;;;{};;;;;;;;;", ["1100"; 32].join(" "));
    let long = format!("AC00;{};;;;1100;;;;;;;;;", "N".repeat(513 - 22));
    let answers = [
        (impossible, "AC00;;;;;1100;;;;;;;;;", 28),
        (BEFORE, &long, 20),
        (BEFORE, "AC00;;;;;1100;;;;;;;;", 21),
        (BEFORE, "AC0;;;;;1100;;;;;;;;;", 22),
        (BEFORE, "AC00;;;;;1100  1161;;;;;;;;;", 23),
        (BEFORE, "AC00;;;;;1100;;;;;;;004a;;", 29),
        (BEFORE, "AC00;;;;;1100;;;;;;;;;004a", 24),
        (BEFORE, "AC00;;;;;1100;;;;;;;;;", 25),
        (BEFORE, "AC00;;;;;D800;;;;;;;;;", 25),
        (after, "AC00;;;;;1100;;;;;;;;;", 25),
        (after, "D7A3;;;;;;;;;;;;;;0041", 25),
        (after, "AC00;;;;;;;;;;;;;;", 26),
        (after, "D7A3;;;;;;;;;;;;;;", 26),
        (after, "D7A4;;;;;;;;;;;;;;", 0),
        (after, "ABFF;;;;;1100;;;;;;;;;", 26),
        (full, "AC00;;;;;1100;;;;;;;;;", 25),
        (full, "D7A4;;;;;1100;;;;;;;;;", 27),
        (full, "AC00;;;;;;;;;;;;;;", 0),
        (BEFORE, &many, 25),
    ];
    answers.iter().map(|&(state, line, number)| answered(state, line, number)).sum()
}
