//! The numbers of the crate are those of include/mundeziwa.h.
use mundeziwa::records::{KIND_KEY, KIND_TEXT};
use mundeziwa::{Collation, RefusalKind, ENDS_MOST, KEY_PER_OCTET_MOST, NAMES_MOST, TEXT_MOST};

const HEADER: &str = include_str!("../../../include/mundeziwa.h");

/// The defined names that begin so, with their numbers.
fn numbers(prefix: &str) -> Vec<(&'static str, u64)> {
    let defined = HEADER.lines().filter_map(|line| line.strip_prefix("#define ")?.strip_prefix(prefix));
    defined
        .map(|rest| {
            let mut words = rest.split_whitespace();
            (words.next().unwrap(), words.next().unwrap().parse().unwrap())
        })
        .collect()
}

#[test]
fn every_refusal_of_the_header_has_a_kind_and_the_kinds_have_no_more() {
    let refusals = numbers("MZ_REFUSED_");
    assert!(refusals.len() > 10);
    for number in 0..1000 {
        let kind = RefusalKind::from(number);
        assert_eq!(kind.number(), number);
        // 9 is the program's alone.
        let named = number == 9 || refusals.iter().any(|refusal| refusal.1 == number);
        assert_eq!(kind != RefusalKind::Unknown(number), named, "{number}");
    }
}

#[test]
fn collations_limits_and_kinds_of_record_are_the_headers() {
    let defined = numbers("MZ_");
    for (name, number) in [
        ("OCTET", Collation::Octet as u64),
        ("ASCII_CASEMAP", Collation::AsciiCasemap as u64),
        ("UNICODE_CASEMAP", Collation::UnicodeCasemap as u64),
        ("TEXT_MOST", TEXT_MOST as u64),
        ("NAMES_MOST", NAMES_MOST as u64),
        ("ENDS_MOST", ENDS_MOST as u64),
        ("KEY_PER_OCTET_MOST", KEY_PER_OCTET_MOST as u64),
        ("KIND_TEXT", KIND_TEXT.into()),
        ("KIND_KEY", KIND_KEY.into()),
    ] {
        assert!(defined.contains(&(name, number)), "{name}");
    }
}
