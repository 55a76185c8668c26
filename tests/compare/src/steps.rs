//! Every step of an automaton that judges UTF-8, and sequences about the borders of its states.

use crate::both::Table;
use crate::stop::Stop;
use crate::stress::{is_valid_in, KEY_GROWTH};

/// Second octets where what may follow a first octet changes, and those beside them.
const SECOND: [u8; 8] = [0x7F, 0x80, 0x8F, 0x90, 0x9F, 0xA0, 0xBF, 0xC0];

/// The same of the octets after it.
const LATER: [u8; 4] = [0x7F, 0x80, 0xBF, 0xC0];

/// What leads to each state: nothing is missing; one octet, two or three are; and after E0, ED, F0 and F4, which not every octet
/// follows.
const STATES: [&[u8]; 13] = [
    &[],
    &[0x61],
    &[0xC2],
    &[0xE1, 0x80],
    &[0xE0, 0xA0],
    &[0xF0, 0x90, 0x80],
    &[0xE1],
    &[0xF1, 0x80],
    &[0xF1],
    &[0xE0],
    &[0xED],
    &[0xF0],
    &[0xF4],
];

/// What leads to a fault, which nothing mends.
const FAULTS: [&[u8]; 2] = [&[0xFF], &[0x80]];

/// What tells the states from each other: each of them is made valid by another choice of these.
const ENDINGS: [&[u8]; 6] = [&[], &[0x80], &[0x80, 0x80], &[0xA0, 0x80], &[0x80, 0x80, 0x80], &[0x90, 0x80, 0x80]];

/// A buffer that has room for any key, in octets for each octet of a text.
const ROOMY: usize = 128;

/// What stands before a sequence and after it.
const AROUND: [(&[u8], &[u8]); 4] = [(b"", b""), (b"a", b""), (b"", b"z"), (b"a", b"z")];

/// How many texts were valid and how many were not.
#[derive(Default)]
struct Counts {
    valid: u64,
    invalid: u64,
}

/// Answers how many cases there were.
pub fn run(table: &Table, short: bool) -> Result<u64, Stop> {
    let any: Vec<u8> = (0..=u8::MAX).collect();
    let two = pairs(&any, if short { &SECOND } else { &any });
    let three: Vec<Vec<u8>> = pairs(&any, &SECOND).iter().flat_map(|start| followed(start, &LATER)).collect();
    let four: Vec<Vec<u8>> = three.iter().flat_map(|start| followed(start, &LATER)).collect();
    let mut groups = vec![("two octets".to_string(), two), ("three".to_string(), three), ("four".to_string(), four)];
    groups.extend(STATES.iter().map(|state| (format!("steps after {state:02X?}"), steps(state, &any))));
    let mut all = Counts::default();
    for (what, sequences) in &groups {
        let counts = judge(table, sequences, short)?;
        if counts.valid == 0 || counts.invalid == 0 {
            return Err(Stop::Error(format!("{what}: {} valid, {} invalid", counts.valid, counts.invalid)));
        }
        all = Counts { valid: all.valid + counts.valid, invalid: all.invalid + counts.invalid };
    }
    for fault in FAULTS {
        all.invalid += judge(table, &steps(fault, &any), short)?.invalid;
    }
    println!(
        "  sequences of two, three and four octets and steps from state to state: {} valid, {} invalid",
        all.valid, all.invalid
    );
    Ok(all.valid + all.invalid)
}

/// What leads to a state, then each octet of a row, and what tells the state that it led to.
fn steps(state: &[u8], row: &[u8]) -> Vec<Vec<u8>> {
    followed(state, row).iter().flat_map(|step| ENDINGS.map(|ending| [&step[..], ending].concat())).collect()
}

/// An octet string with each octet of a row after it.
fn followed(start: &[u8], row: &[u8]) -> Vec<Vec<u8>> {
    row.iter().map(|&octet| [start, &[octet]].concat()).collect()
}

fn pairs(firsts: &[u8], seconds: &[u8]) -> Vec<Vec<u8>> {
    firsts.iter().flat_map(|&first| followed(&[first], seconds)).collect()
}

/// Judges each sequence, alone and with letters around it, in two buffers each: a key is written in another way where there is
/// room for any. In a short run one sequence of some.
fn judge(table: &Table, sequences: &[Vec<u8>], short: bool) -> Result<Counts, String> {
    let mut counts = Counts::default();
    for sequence in sequences.iter().step_by(if short { 7 } else { 1 }) {
        for (before, after) in AROUND {
            let text = [before, sequence, after].concat();
            for growth in [KEY_GROWTH, ROOMY] {
                *(if is_valid_in(table, &text, growth)? { &mut counts.valid } else { &mut counts.invalid }) += 1;
            }
        }
    }
    Ok(counts)
}
