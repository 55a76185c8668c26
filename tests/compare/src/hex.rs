//! Inputs and answers in hex, for the report of a difference.

/// Octets in hex, long ones cut: the seed brings a case back whole.
pub fn hex(octets: &[u8]) -> String {
    const SHOWN: usize = 300;
    let shown: Vec<String> = octets.iter().take(SHOWN).map(|octet| format!("{octet:02X}")).collect();
    let rest = if octets.len() > SHOWN { " .." } else { "" };
    format!("({} octets) {}{rest}", octets.len(), shown.join(" "))
}

/// Numbers of a table in hex, long ones cut.
pub fn hex_numbers(numbers: &[u32]) -> String {
    const SHOWN: usize = 400;
    let shown: Vec<String> = numbers.iter().take(SHOWN).map(|number| format!("{number:04X}")).collect();
    let rest = if numbers.len() > SHOWN { " .." } else { "" };
    format!("({} numbers) {}{rest}", numbers.len(), shown.join(" "))
}

/// Numbers of octets, long rows cut.
pub fn sizes(sizes: &[usize]) -> String {
    const SHOWN: usize = 200;
    let rest = if sizes.len() > SHOWN { " .." } else { "" };
    format!("({} numbers) {:?}{rest}", sizes.len(), &sizes[..sizes.len().min(SHOWN)])
}
