//! The variables that the comparison reads. One that says nothing of use is an error, never a default.

use crate::stop::Stop;
use std::env::{var, VarError};

const SEED: u64 = 20_071_001;
const CASES: u64 = 100_000;

pub struct Settings {
    pub seed: u64,
    pub cases: u64,
    pub unicode_data: String,
    pub nfkd: String,
    pub normalization: String,
    pub utf8_test: Option<String>,
    pub short: bool,
    pub parts: String,
}

impl Settings {
    pub fn read() -> Result<Settings, Stop> {
        Ok(Settings {
            seed: number("MZ_SEED", SEED)?,
            cases: cases()?,
            unicode_data: text("MZ_UNICODE_DATA")?.unwrap_or("/usr/share/unicode/UnicodeData.txt".to_string()),
            nfkd: text("MZ_NFKD")?.unwrap_or_default(),
            normalization: text("MZ_NORMALIZATION")?.unwrap_or_default(),
            utf8_test: text("UTF8_TEST")?.filter(|path| !path.is_empty()),
            short: is_short()?,
            parts: text("MZ_PARTS")?.unwrap_or("123456789".to_string()),
        })
    }
}

/// What a variable holds, if it is set.
fn text(name: &str) -> Result<Option<String>, Stop> {
    match var(name) {
        Ok(value) => Ok(Some(value)),
        Err(VarError::NotPresent) => Ok(None),
        Err(VarError::NotUnicode(value)) => Err(Stop::Error(format!("{name} is no text: {value:?}"))),
    }
}

/// A number from a variable, or its default.
fn number(name: &str, default: u64) -> Result<u64, Stop> {
    match text(name)? {
        Some(value) => value.parse().map_err(|_| Stop::Error(format!("{name} is no number: {value:?}"))),
        None => Ok(default),
    }
}

fn cases() -> Result<u64, Stop> {
    match number("MZ_CASES", CASES)? {
        0 => Err(Stop::Error("MZ_CASES is 0: nothing would be compared".to_string())),
        cases => Ok(cases),
    }
}

fn is_short() -> Result<bool, Stop> {
    match text("MZ_SHORT")?.as_deref() {
        Some("yes") => Ok(true),
        None | Some("") => Ok(false),
        Some(value) => Err(Stop::Error(format!("MZ_SHORT is neither yes nor empty: {value:?}"))),
    }
}
