//! One input given to both programs: their answers and all lent memory must be the same.

use crate::abi::{ComparingCall, EQUAL, ORDER, PREPARE, SUBSTRING};
use crate::hex::{hex, hex_numbers};
use crate::library::{self, LentTable};
use crate::paging::Paging;
use second::collate::{self, Pair};
use second::table::{examine, Verdict};

/// A table as both programs hold it, with the second program's verdict and the page slices that its calls are lent.
pub struct Table {
    pub entries: Vec<u32>,
    pub pool: Vec<u32>,
    pub verdict: Verdict,
    pub lent: LentTable,
    pub paging: Paging,
}

/// What both programs answered, and the key buffers after the call (the second one empty where there is one text).
#[derive(PartialEq, Eq, Debug, Clone)]
pub struct Agreed<const N: usize> {
    pub row: [u64; N],
    pub first_key: Vec<u8>,
    pub second_key: Vec<u8>,
}

/// Two texts under a collation, and the lengths of the two key buffers. A lone text is the first.
#[derive(Clone)]
pub struct Case {
    pub collation: u32,
    pub first: Vec<u8>,
    pub second: Vec<u8>,
    pub first_room: usize,
    pub second_room: usize,
}

/// What stands in a buffer before a call: octets that no UTF-8 has, and no two next to each other the same.
pub fn pattern(length: usize) -> Vec<u8> {
    const ROW: [u8; 7] = [0xF8, 0xF9, 0xFA, 0xFB, 0xFC, 0xFD, 0xFE];
    let mut pattern = ROW.repeat(length.div_ceil(ROW.len()));
    pattern.truncate(length);
    pattern
}

/// What stands in a slice of numbers before a call: numbers from one on that no call brings.
pub fn number_pattern(first: u32, length: usize) -> Vec<u32> {
    (0..length as u32).map(|at| first + at).collect()
}

/// What the report of a difference shows of an answer.
pub trait Describe {
    fn describe(&self) -> String;
}

/// Both programs' answers to a case must be the same.
pub fn agree<A: PartialEq + Describe>(case: impl Fn() -> String, answer: Result<A, String>, expected: A) -> Result<A, String> {
    if answer.as_ref() == Ok(&expected) {
        return Ok(expected);
    }
    let library = answer.map_or_else(|fault| fault, |answer| answer.describe());
    Err(format!("{}library: {library}\nsecond:  {}", case(), expected.describe()))
}

impl Table {
    /// Lends a table to both programs and compares their checks of it.
    pub fn new(entries: Vec<u32>, pool: Vec<u32>) -> Result<Table, String> {
        let (verdict, lent) = (examine(&entries, &pool), LentTable::new(&entries, &pool));
        let table = Table { verdict, lent, entries, pool, paging: Paging::default() };
        let expected = collate::verdict_row(&table.verdict);
        let answer = table.lent.check()?;
        table.check_unchanged()?;
        if answer != expected {
            return Err(format!("mz_check_table: library {answer:?}, second {expected:?}\n{}", table.describe()));
        }
        Ok(table)
    }

    pub fn is_accepted(&self) -> bool {
        self.verdict.is_ok()
    }

    /// The answer that both programs gave to the check.
    pub fn row(&self) -> [u64; 3] {
        collate::verdict_row(&self.verdict)
    }

    /// The library must leave its lent table as it was, and page slices that it only reads.
    pub fn check_unchanged(&self) -> Result<(), String> {
        if self.lent.still_holds(&self.entries, &self.pool) {
            return self.compare_read_pages();
        }
        Err(format!("the library changed its table\n{}", self.describe()))
    }

    /// Prepares a text in both programs.
    pub fn prepare(&self, accepted: bool, collation: u32, text: &[u8], room: usize) -> Result<Agreed<7>, String> {
        let mut key = pattern(room);
        let mut pages = self.lend_pages(accepted, collation)?;
        let row = if accepted {
            library::prepare(PREPARE.accepted, collation, text, &self.lent, &mut pages, &mut key)
        } else {
            library::prepare(PREPARE.checked, collation, text, &self.lent, &mut pages, &mut key)
        };
        drop(pages);
        let answer = row.map(|row| Agreed { row, first_key: key, second_key: Vec::new() });
        let mut key = pattern(room);
        let row = collate::prepare(collation, text, &self.verdict, self.paging.lengths, &mut key);
        let expected = Agreed { row, first_key: key, second_key: Vec::new() };
        let case = || Case { collation, first: text.to_vec(), second: Vec::new(), first_room: room, second_room: 0 };
        let agreed = self.agree(PREPARE.name, accepted, || case().describe(), answer, expected)?;
        self.compare_after(PREPARE.name, accepted, collation, agreed.row[0], || case().describe())?;
        if collation == 3 && !is_within_bounds(text, &agreed.row) {
            return Err(format!("over the bounds: {:?}\n{}{}", agreed.row, case().describe(), self.describe()));
        }
        Ok(agreed)
    }

    pub fn equal(&self, accepted: bool, case: &Case) -> Result<Agreed<4>, String> {
        self.compare(EQUAL, accepted, case, collate::equal)
    }

    pub fn order(&self, accepted: bool, case: &Case) -> Result<Agreed<4>, String> {
        self.compare(ORDER, accepted, case, collate::order)
    }

    pub fn substring(&self, accepted: bool, case: &Case) -> Result<Agreed<8>, String> {
        self.compare(SUBSTRING, accepted, case, collate::substring)
    }

    fn compare<const N: usize>(
        &self,
        call: ComparingCall<N>,
        accepted: bool,
        case: &Case,
        second: fn(&Pair, &mut [u8], &mut [u8]) -> [u64; N],
    ) -> Result<Agreed<N>, String> {
        let (mut first_key, mut second_key) = (pattern(case.first_room), pattern(case.second_room));
        let texts = (case.first.as_slice(), case.second.as_slice());
        let buffers = (first_key.as_mut_slice(), second_key.as_mut_slice());
        let mut pages = self.lend_pages(accepted, case.collation)?;
        let row = if accepted {
            library::compare(call.accepted, case.collation, texts, &self.lent, &mut pages, buffers)
        } else {
            library::compare(call.checked, case.collation, texts, &self.lent, &mut pages, buffers)
        };
        drop(pages);
        let answer = row.map(|row| Agreed { row, first_key, second_key });
        let (mut first_key, mut second_key) = (pattern(case.first_room), pattern(case.second_room));
        let pair = self.pair(case.collation, texts);
        let row = second(&pair, &mut first_key, &mut second_key);
        let agreed = self.agree(call.name, accepted, || case.describe(), answer, Agreed { row, first_key, second_key })?;
        self.compare_after(call.name, accepted, case.collation, agreed.row[0], || case.describe())?;
        Ok(agreed)
    }

    /// Two texts or two lists with this table, as the second program is given them.
    pub fn pair<'a>(&'a self, collation: u32, (first, second): (&'a [u8], &'a [u8])) -> Pair<'a> {
        Pair { collation, first, second, verdict: &self.verdict, pages: self.paging.lengths }
    }

    /// After a call that both programs answer with a number, what it left in the page slices, unless it only reads them.
    pub fn compare_after(
        &self,
        name: &str,
        accepted: bool,
        collation: u32,
        number: u64,
        case: impl Fn() -> String,
    ) -> Result<(), String> {
        if accepted {
            return Ok(());
        }
        self.compare_pages(collation, number).map_err(|difference| format!("{name}, answer {number}\n{}{difference}", case()))
    }

    /// Both programs' answers to a case over this table must be the same.
    pub fn agree<A: PartialEq + Describe>(
        &self,
        name: &str,
        accepted: bool,
        case: impl Fn() -> String,
        answer: Result<A, String>,
        expected: A,
    ) -> Result<A, String> {
        let twin = if accepted { ", without the check of the table" } else { "" };
        agree(|| format!("{name}{twin}\n{}{}", case(), self.describe()), answer, expected)
    }

    /// The forms of a call that the header allows: with the check of the table (false), and without it, for which another call
    /// must have filled the page slices.
    pub fn forms(&self, collation: u32) -> &'static [bool] {
        if collation != 3 || self.is_accepted() && self.paging.is_enough() {
            &[false, true]
        } else {
            &[false]
        }
    }

    /// Makes every call on one case in all forms, and answers with the row of the last, the substring's. Of the calls that fill
    /// page slices only one is made, whose turn it is.
    pub fn make_all_calls(&self, case: &Case, turn: usize) -> Result<[u64; 8], String> {
        let mut forms = self.forms(case.collation);
        if case.collation == 3 && forms.len() > 1 {
            self.make_checked_call(case, turn)?;
            forms = &forms[1..];
        }
        let mut row = [0; 8];
        for &accepted in forms {
            self.prepare(accepted, case.collation, &case.first, case.first_room)?;
            self.prepare(accepted, case.collation, &case.second, case.second_room)?;
            let equality = self.equal(accepted, case)?.row;
            let order = self.order(accepted, case)?.row;
            if (equality[3] == 1) != (order[3] == 2) {
                return Err(format!("equality {equality:?}, order {order:?}\n{}{}", case.describe(), self.describe()));
            }
            row = self.substring(accepted, case)?.row;
        }
        self.check_unchanged()?;
        Ok(row)
    }

    /// Makes one of the calls on a case in the form that checks the table.
    fn make_checked_call(&self, case: &Case, turn: usize) -> Result<(), String> {
        match turn {
            0 => self.prepare(false, case.collation, &case.first, case.first_room).map(drop),
            1 => self.equal(false, case).map(drop),
            2 => self.order(false, case).map(drop),
            _ => self.substring(false, case).map(drop),
        }
    }

    pub fn describe(&self) -> String {
        let (entries, pool) = (hex_numbers(&self.entries), hex_numbers(&self.pool));
        format!("entries: {entries}\npool: {pool}\npage slices: {:?}\n", self.paging.lengths)
    }
}

impl<const N: usize> Describe for Agreed<N> {
    fn describe(&self) -> String {
        format!("{:?}\n  first key buffer {}\n  second key buffer {}", self.row, hex(&self.first_key), hex(&self.second_key))
    }
}

impl Case {
    fn describe(&self) -> String {
        let rooms = format!("key buffers of {} and {} octets", self.first_room, self.second_room);
        let (first, second) = (hex(&self.first), hex(&self.second));
        format!("collation {}, {rooms}\nfirst text: {first}\nsecond text: {second}\n", self.collation)
    }
}

/// Over an accepted table a valid text of n code points takes at most 258 n lookups and has a key of at most 128 n octets.
fn is_within_bounds(text: &[u8], row: &[u64; 7]) -> bool {
    let code_points = text.iter().filter(|&octet| octet & 0xC0 != 0x80).count() as u64;
    row[3] == 0 || row[4] <= 258 * code_points && row[5] <= 128 * code_points
}
