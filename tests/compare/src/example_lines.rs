//! Part 1, the builder: the table that a few lines leave, and each refusal.
//! `STATE` and slices of 11 and 3 numbers have room for one more entry and two more pool numbers.

use crate::building::Building;
use crate::examples::expect;
use second::unicode_data::State;

/// A state that some lines have left, the last of them for 0041.
pub const STATE: State = State { entries_used: 1, pool_used: 1, next: 0x42 };

pub fn run() -> Result<u64, String> {
    Ok(built_table()? + lines()? + order_of_29()? + states()?)
}

/// The lines for 0061, 00C9 and 00E9 leave just these numbers, and nothing else of the slices changes.
fn built_table() -> Result<u64, String> {
    let lines = [
        "0061;LATIN SMALL LETTER A;Ll;0;L;;;;;N;;;0041;;0041",
        "0062;A LINE THAT SAYS NOTHING;Ll;0;L;;;;;N;;;;;0062",
        "00C9;LATIN CAPITAL LETTER E WITH ACUTE;Lu;0;L;0045 0301;;;;N;LATIN CAPITAL LETTER E ACUTE;;;00E9;",
        "00E9;LATIN SMALL LETTER E WITH ACUTE;Ll;0;L;0065 0301;;;;N;LATIN SMALL LETTER E ACUTE;;00C9;;00C9",
    ];
    let states = [[1, 0, 0x62], [1, 0, 0x63], [2, 2, 0xCA], [3, 4, 0xEA]];
    let mut building = Building::new(14, 5);
    let untouched = (building.entries[12..].to_vec(), building.pool[4]);
    let mut state = State::default();
    for (line, [entries_used, pool_used, next]) in lines.into_iter().zip(states) {
        let answer = building.add_line(state, line.as_bytes())?;
        expect(line, answer, [0, 0, 0, entries_used, pool_used, next])?;
        state = State { entries_used, pool_used, next };
    }
    building.compare_slices()?;
    let entries = [0x61, 0x41, 0, 0, 0xC9, 0xC9, 0, 2, 0xE9, 0xC9, 2, 2];
    expect("built entries", &building.entries[..12], &entries[..])?;
    expect("built pool", &building.pool[..4], &[0x45, 0x301, 0x65, 0x301][..])?;
    expect("the rest of the slices", (building.entries[12..].to_vec(), building.pool[4]), untouched)?;
    Ok(lines.len() as u64)
}

/// One line for each refusal of the builder, and lines next to them that are accepted.
fn lines() -> Result<u64, String> {
    let tail = ";;;;;;;;;";
    expect_numbers(&[
        (format!("0042;;;;;{tail}0041"), 0),
        (format!("0042;{};;;;{tail}0041", "N".repeat(512 - 22)), 0),
        (format!("0042;{};;;;{tail}0041", "N".repeat(513 - 22)), 20),
        (format!("0042;;;;{tail}0041"), 21),
        (format!("0042;;;;;;{tail}0041"), 21),
        (format!("042;;;;;{tail}0041"), 22),
        (format!("00042;;;;;{tail}0041"), 22),
        (format!("110000;;;;;{tail}0041"), 22),
        (format!("0042;;;;;0041  0042{tail}"), 23),
        (format!("0042;;;;;<compat>{tail}"), 23),
        (format!("0042;;;;;<compat> {tail}"), 23),
        (format!("0042;;;;;<x> 0041 0042{tail}"), 0),
        (format!("0042;;;;;{}{tail}", ["0041"; 33].join(" ")), 23),
        (format!("0042;;;;;{}{tail}", ["0041"; 32].join(" ")), 27),
        (format!("0042;;;;;{tail}004a"), 24),
        (format!("0042;;;;;{tail}0041\r"), 24),
        (format!("0042;;;;;{tail}D800"), 25),
        (format!("0042;;;;;DFFF{tail}"), 25),
        (format!("D800;;;;;{tail}0041"), 25),
        (format!("D800;;;;;{tail}"), 0),
        (format!("DFFF;;;;;{tail}DFFF"), 0),
        (format!("0041;;;;;{tail}0042"), 26),
        (format!("0041;;;;;{tail}"), 26),
        (format!("0041;;;;;{tail}D800"), 25),
    ])
}

/// 29 comes "between 23 and 24" and is looked for "even when 14 is filled", and where the line says nothing otherwise.
fn order_of_29() -> Result<u64, String> {
    let over = format!("0042;{};;;;;;;;;;;004a;;", "N".repeat(513 - 22));
    let no_room = format!("0042;;;;;{};;;;;;;004a;;", ["0041"; 32].join(" "));
    expect_numbers(&[
        (over.as_str(), 20),
        ("0042;;;;;;;;;;;;004a;", 21),
        ("042;;;;;;;;;;;;004a;;", 22),
        ("0042;;;;;0041  0042;;;;;;;004a;;", 23),
        ("0042;;;;;;;;;;;;004a;;004a", 29),
        ("0042;;;;;;;;;;;;004a;;D800", 29),
        ("D800;;;;;;;;;;;;004a;;0041", 29),
        ("0041;;;;;;;;;;;;004a;;0043", 29),
        (&no_room, 29),
        ("0042;;;;;;;;;;;;004a;;0041", 29),
        ("0042;;;;;;;;;;;;004a;;0042", 29),
        ("0042;;;;;;;;;;;;004a;;", 29),
        // Beside them: a field 12 that is no fault, and one that is taken.
        ("0042;;;;;;;;;;;;D800;;004a", 24),
        ("0041;;;;;;;;;;;;D800;;0043", 26),
        ("0041;;;;;;;;;;;;D800;;", 25),
        ("0041;;;;;;;;;;;;0043;;", 26),
    ])
}

/// Lines and the number that each is answered.
fn expect_numbers<L: AsRef<str>>(lines: &[(L, u64)]) -> Result<u64, String> {
    for (line, number) in lines {
        let line = line.as_ref();
        let mut building = Building::new(11, 3);
        expect(line, building.add_line(STATE, line.as_bytes())?[0], *number)?;
        building.compare_slices()?;
    }
    Ok(lines.len() as u64)
}

/// States that no line can have left, those just before them, and the last room there is.
fn states() -> Result<u64, String> {
    let (silent, mapped) = (format!("10FFFF;;;;;{0}", ";".repeat(9)), format!("10FFFF;;;;;{0}0041", ";".repeat(9)));
    let (raised, faulty) = ("10FFFF;;;;;;;;;;;;0041;;", "10FFFF;;;;;;;;;;;;004a;;");
    let states: [(&str, [usize; 2], [u64; 3], u64); 13] = [
        (&silent, [11, 3], [2, 3, 0x10FFFF], 0),
        (&mapped, [11, 3], [2, 3, 0x10FFFF], 27),
        (&mapped, [11, 3], [1, 3, 0x10FFFF], 0),
        (raised, [11, 3], [2, 3, 0x10FFFF], 27),
        (raised, [11, 3], [1, 3, 0x10FFFF], 0),
        (faulty, [11, 3], [3, 0, 0], 28),
        (&silent, [11, 3], [3, 0, 0], 28),
        (&silent, [11, 3], [0, 4, 0], 28),
        (&silent, [11, 3], [2, 3, 0x110000], 26),
        (&silent, [11, 3], [2, 3, 0x110001], 28),
        (&mapped, [65_540, 65_537], [16_383, 65_536, 0], 0),
        (&mapped, [65_540, 65_537], [16_384, 65_536, 0], 27),
        (&mapped, [65_540, 65_537], [16_385, 65_536, 0], 28),
    ];
    for (line, [entries_length, pool_length], [entries_used, pool_used, next], number) in states {
        let mut building = Building::new(entries_length, pool_length);
        let answer = building.add_line(State { entries_used, pool_used, next }, line.as_bytes())?;
        let after = match number {
            0 => [entries_used + (line != silent) as u64, pool_used, 0x110000],
            _ => [entries_used, pool_used, next],
        };
        expect("a state", answer, [number, 0, 0, after[0], after[1], after[2]])?;
        building.compare_slices()?;
    }
    Ok(states.len() as u64)
}
