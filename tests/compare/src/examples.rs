//! Part 1: the checked examples of document 01, and those of records, lists, many texts, Hangul and page slices. What stands here
//! is what the papers say; both programs must answer it.

use crate::both::{pattern, Case, Table};
use crate::made::lay_out;
use crate::settings::Settings;
use crate::stop::Stop;
use crate::{example_hangul, example_hangul_lines, example_hangul_tables, example_page_slices};
use crate::{example_lines, example_lists, example_many, example_records, example_tables, example_titlecases};

/// Table T as code point / titlecase / decomposition.
pub const T: [(u32, Option<u32>, &[u32]); 12] = [
    (0x0061, Some(0x0041), &[]),
    (0x0066, Some(0x0046), &[]),
    (0x0069, Some(0x0049), &[]),
    (0x007A, Some(0x005A), &[]),
    (0x00C9, None, &[0x0045, 0x0301]),
    (0x00E9, Some(0x00C9), &[0x0065, 0x0301]),
    (0x017D, None, &[0x005A, 0x030C]),
    (0x017E, Some(0x017D), &[0x007A, 0x030C]),
    (0x01C4, Some(0x01C5), &[0x0044, 0x017D]),
    (0x01C5, Some(0x01C5), &[0x0044, 0x017E]),
    (0x01C6, Some(0x01C5), &[0x0064, 0x017E]),
    (0xFB01, None, &[0x0066, 0x0069]),
];

/// Room for every key of these examples.
const ROOM: usize = 8_192;

struct Examples {
    table: Table,
    cases: u64,
}

pub fn run(_: &Settings) -> Result<u64, Stop> {
    let mut examples = Examples { table: table_t()?, cases: 0 };
    examples.keys()?;
    examples.validity()?;
    examples.order()?;
    examples.substring()?;
    examples.lengths()?;
    examples.buffers()?;
    examples.other_collations()?;
    let cases = examples.cases + marks()? + invalid_text()? + example_records::run()? + example_lists::run()?;
    let cases = cases + example_many::run()? + example_tables::run()? + example_lines::run()? + example_titlecases::run()?;
    let cases = cases + example_hangul::run()? + example_hangul_tables::run()? + example_hangul_lines::run()?;
    Ok(cases + example_page_slices::run()?)
}

/// Table T in both programs.
pub fn table_t() -> Result<Table, String> {
    table_of(&T)
}

pub fn table_of(mappings: &[(u32, Option<u32>, &[u32])]) -> Result<Table, String> {
    let mappings = mappings.iter().map(|&(code_point, titlecase, parts)| (code_point, (titlecase, parts.to_vec())));
    let (entries, pool) = lay_out(&mappings.collect());
    Table::new(entries, pool)
}

/// Fails with both values where an answer isn't the papers'.
pub fn expect<T: PartialEq + std::fmt::Debug>(what: &str, answer: T, papers: T) -> Result<(), String> {
    if answer == papers {
        return Ok(());
    }
    Err(format!("{what}: both programs answer {answer:?}, the papers say {papers:?}"))
}

impl Examples {
    /// A preparation under collation 3: both programs give this row and leave this at the start of the buffer.
    fn prepared(&mut self, text: &[u8], row: [u64; 7], written: &[u8]) -> Result<(), String> {
        let mut buffer = pattern(ROOM);
        buffer[..written.len()].copy_from_slice(written);
        for accepted in [false, true] {
            let answer = self.table.prepare(accepted, 3, text, ROOM)?;
            expect("row of a preparation", answer.row, row)?;
            expect("buffer of a preparation", &answer.first_key, &buffer)?;
            self.cases += 1;
        }
        Ok(())
    }

    fn keys(&mut self) -> Result<(), String> {
        self.prepared(&[0xC3, 0xA9], [0, 0, 0, 1, 4, 3, 1], &[0x45, 0xCC, 0x81])?;
        self.prepared(&[0xC7, 0x84], [0, 0, 0, 1, 6, 4, 1], &[0x44, 0x7A, 0xCC, 0x8C])?;
        self.prepared(&[0xEF, 0xAC, 0x81], [0, 0, 0, 1, 4, 2, 1], &[0x66, 0x69])?;
        self.prepared(&[], [0, 0, 0, 1, 0, 0, 1], &[])?;
        self.prepared(&[0xC3], [0, 0, 0, 0, 0, 1, 0], &[])?;
        self.prepared(&[0xC0, 0x80], [0, 0, 0, 0, 0, 2, 0], &[])?;
        self.prepared(&[0x61, 0xFF], [0, 0, 0, 0, 0, 2, 0], &[])?;
        self.prepared("José".as_bytes(), [0, 0, 0, 1, 10, 6, 1], &[0x4A, 0x6F, 0x73, 0x45, 0xCC, 0x81])?;
        self.prepared(&[0x61, 0xC3, 0xA9], [0, 0, 0, 1, 6, 4, 1], &[0x41, 0x45, 0xCC, 0x81])
    }

    fn validity(&mut self) -> Result<(), String> {
        for text in [&[0xED, 0x9F, 0xBF][..], &[0xF4, 0x8F, 0xBF, 0xBF]] {
            self.prepared(text, [0, 0, 0, 1, 2, text.len() as u64, 1], text)?;
        }
        for text in [&[0xED, 0xA0, 0x80][..], &[0xF4, 0x90, 0x80, 0x80]] {
            self.prepared(text, [0, 0, 0, 0, 0, text.len() as u64, 0], &[])?;
        }
        Ok(())
    }

    /// 1 less, 2 equal, 3 greater; equality must say the same.
    fn ordered(&mut self, collation: u32, first: &[u8], second: &[u8], order: u64) -> Result<(), String> {
        let case = case(collation, first, second, ROOM, ROOM);
        for accepted in [false, true] {
            expect("order", self.table.order(accepted, &case)?.row, [0, 0, 0, order])?;
            let equality = if order == 2 { 1 } else { 2 };
            expect("equality", self.table.equal(accepted, &case)?.row, [0, 0, 0, equality])?;
            self.cases += 2;
        }
        Ok(())
    }

    fn order(&mut self) -> Result<(), String> {
        self.ordered(3, &[0x45], &[0xC3, 0xA9], 1)?;
        self.ordered(3, &[0xC3], &[0xC3, 0xA9], 3)?;
        self.ordered(3, "É".as_bytes(), "é".as_bytes(), 2)?;
        // T has a titlecase for small e with an accent, and none for e alone.
        self.ordered(3, "E\u{301}".as_bytes(), "é".as_bytes(), 2)?;
        self.ordered(3, "e\u{301}".as_bytes(), "é".as_bytes(), 3)?;
        for (collation, order) in [(1, 3), (2, 2), (3, 2)] {
            self.ordered(collation, b"a", b"A", order)?;
        }
        // A proper prefix is less.
        self.ordered(3, b"", b"", 2)?;
        self.ordered(3, b"", b"A", 1)?;
        self.ordered(3, b"aa", b"A", 3)?;
        // U+FB01 isn't "fi".
        self.ordered(3, "ﬁ".as_bytes(), b"fi", 3)?;
        // No circle: "a" before "B", "B" before 50 FF, "a" before 50 FF.
        self.ordered(3, b"a", b"B", 1)?;
        self.ordered(3, b"B", &[0x50, 0xFF], 1)?;
        self.ordered(3, b"a", &[0x50, 0xFF], 1)?;
        // `_` comes after "a", also under i;ascii-casemap.
        self.ordered(3, b"_", b"a", 3)?;
        self.ordered(2, b"_", b"a", 3)?;
        self.ordered(1, b"_", b"a", 1)?;
        self.ordered(3, "\u{FFFF}".as_bytes(), "\u{10000}".as_bytes(), 1)
    }

    fn found(&mut self, first: &[u8], second: &[u8], row: [u64; 8]) -> Result<(), String> {
        for accepted in [false, true] {
            let answer = self.table.substring(accepted, &case(3, first, second, ROOM, ROOM))?;
            expect("substring", answer.row, row)?;
            self.cases += 1;
        }
        Ok(())
    }

    fn substring(&mut self) -> Result<(), String> {
        let second = [0x61, 0xC3, 0xA9];
        self.found(&[0xCC, 0x81], &second, [0, 0, 0, 1, 2, 4, 1, 3])?;
        self.found(&[0x81], &second, [0, 0, 0, 1, 3, 4, 1, 3])?;
        self.found(&[], &second, [0, 0, 0, 1, 0, 0, 0, 0])?;
        self.found(b"E", &second, [0, 0, 0, 1, 1, 2, 1, 3])?;
        self.found(b"x", &second, [0, 0, 0, 2, 0, 0, 0, 0])?;
        // From inside one character to inside the next but one.
        self.found(b"\x81AE", "éaé".as_bytes(), [0, 0, 0, 1, 2, 5, 0, 5])?;
        self.found(b"aab", b"aaab", [0, 0, 0, 1, 1, 4, 1, 4])?;
        self.found(b"a", b"bAab", [0, 0, 0, 1, 1, 2, 1, 2])
    }

    /// 4,096 and 4,097 octets, under each collation and at each place.
    fn lengths(&mut self) -> Result<(), String> {
        let (longest, over) = (vec![b'a'; 4_096], vec![b'a'; 4_097]);
        for collation in 1..=3 {
            let answer = self.table.prepare(false, collation, &longest, ROOM)?;
            let (lookups, place) = (if collation == 3 { 8_192 } else { 0 }, (collation != 1) as u64);
            expect("4,096 octets", answer.row, [0, 0, 0, 1, lookups, 4_096, place])?;
            let answer = self.table.prepare(false, collation, &over, ROOM)?;
            expect("4,097 octets", answer.row, [2, 1, 4_097, 0, 0, 0, 0])?;
            let answer = self.table.order(false, &case(collation, &longest, &over, ROOM, ROOM))?;
            expect("4,097 octets, second text", answer.row, [2, 2, 4_097, 0])?;
            let answer = self.table.order(false, &case(collation, &over, &[b'b'; 5_000], ROOM, ROOM))?;
            expect("both texts too long", answer.row, [2, 1, 4_097, 0])?;
            self.cases += 4;
        }
        Ok(())
    }

    /// "A buffer of exactly the key's length, and one less."
    fn buffers(&mut self) -> Result<(), String> {
        let text = "é".as_bytes();
        for accepted in [false, true] {
            let answer = self.table.prepare(accepted, 3, text, 3)?;
            expect("a buffer of the key's length", answer.row, [0, 0, 0, 1, 4, 3, 1])?;
            expect("a buffer of the key's length", answer.first_key, vec![0x45, 0xCC, 0x81])?;
            let answer = self.table.prepare(accepted, 3, text, 2)?;
            expect("a buffer of one less", answer.row, [8, 1, 3, 0, 0, 0, 0])?;
            expect("a buffer of one less", answer.first_key, pattern(2))?;
            let answer = self.table.substring(accepted, &case(3, text, text, 3, 2))?;
            expect("a second buffer of one less", answer.row, [8, 2, 3, 0, 0, 0, 0, 0])?;
            expect("the first buffer then", answer.first_key, pattern(3))?;
            let answer = self.table.equal(accepted, &case(3, text, b"azazaz", 2, 5))?;
            expect("two buffers of one less", answer.row, [8, 1, 3, 0])?;
            let answer = self.table.equal(accepted, &case(3, &[0xC3], &[0xC3], 0, 0))?;
            expect("invalid texts need no buffer", answer.row, [0, 0, 0, 1])?;
            self.cases += 5;
        }
        Ok(())
    }

    fn other_collations(&mut self) -> Result<(), String> {
        for collation in [0, 4, u32::MAX] {
            let answer = self.table.prepare(false, collation, &[b'a'; 4_097], ROOM)?;
            expect("no such collation", answer.row, [1, 0, 0, 0, 0, 0, 0])?;
            self.cases += 1;
        }
        let answer = self.table.prepare(false, 1, b"aZ[`z{\xFF", 0)?;
        expect("i;octet", answer.row, [0, 0, 0, 1, 0, 7, 0])?;
        let answer = self.table.prepare(false, 2, b"aZ[`z{\xFF", 7)?;
        expect("i;ascii-casemap", answer.row, [0, 0, 0, 1, 0, 7, 1])?;
        expect("i;ascii-casemap", answer.first_key, b"AZ[`Z{\xFF".to_vec())?;
        self.cases += 2;
        Ok(())
    }
}

fn case(collation: u32, first: &[u8], second: &[u8], first_room: usize, second_room: usize) -> Case {
    Case { collation, first: first.to_vec(), second: second.to_vec(), first_room, second_room }
}

/// "Marks aren't reordered", neither those of a text nor those of a decomposition.
fn marks() -> Result<u64, String> {
    let table = table_of(&[(0x100, None, &[0x61, 0x0323, 0x0307])])?;
    let answer = table.prepare(false, 3, "\u{100}\u{304}\u{301}".as_bytes(), 9)?;
    expect("marks", answer.first_key, "a\u{323}\u{307}\u{304}\u{301}".as_bytes().to_vec())?;
    Ok(1)
}

/// "A text is never refused for its content", but the table is checked for an invalid text too, and before any buffer.
fn invalid_text() -> Result<u64, String> {
    let table = Table::new(vec![0x41, 0x41, 0, 0], vec![])?;
    expect("an invalid text over a faulty table", table.prepare(false, 3, &[0xFF], 0)?.row, [5, 0, 0, 0, 0, 0, 0])?;
    let answer = table.substring(false, &case(3, &[], b"a", 0, 0))?;
    expect("an empty text over a faulty table", answer.row, [5, 0, 0, 0, 0, 0, 0, 0])?;
    Ok(2)
}
