//! Tables between threads, and calls that are made while a thread ends.
use mundeziwa::{Collation, Table};
use std::cell::RefCell;
use std::sync::mpsc::{channel, Sender};
use std::sync::Arc;
use std::thread;

const UNICODE: Collation = Collation::UnicodeCasemap;

fn accented() -> Table {
    Table::new(&[0xC9, 0xC9, 0, 2, 0xE9, 0xC9, 2, 2], &[0x45, 0x301, 0x65, 0x301]).unwrap()
}

#[test]
fn a_table_may_be_shared_and_sent() {
    let table = Arc::new(accented());
    let threads: Vec<_> = (0..4)
        .map(|_| {
            let table = Arc::clone(&table);
            thread::spawn(move || (0..1000).for_each(|_| assert_eq!(table.equal(UNICODE, "é", "É"), Ok(true))))
        })
        .collect();
    threads.into_iter().for_each(|thread| thread.join().unwrap());
}

#[test]
fn threads_may_make_every_call_at_once_over_tables_that_they_share() {
    // é has one key over the one table and another over the other, so that pages of the wrong table, or half filled, are seen.
    let other = Table::new(&[0x65, 0x78, 0, 0, 0xE9, 0x79, 0, 1], &[0x7A]).unwrap();
    let tables = Arc::new([(accented(), b"E\xCC\x81".as_slice()), (other, b"y")]);
    let threads: Vec<_> = (0..4)
        .map(|first| {
            let tables = Arc::clone(&tables);
            thread::spawn(move || {
                for round in first..first + 200 {
                    let (table, key) = &tables[round % 2];
                    assert!(table.keys(UNICODE, ["é", "E", "é"]).unwrap().iter().eq([key, b"E".as_slice(), key]));
                    assert!(table.shared(UNICODE, ["E", "é"], ["é", "é"]).unwrap().matches().eq([(1, 0)]));
                    assert_eq!(table.key(UNICODE, "é").unwrap(), *key);
                    assert_eq!(table.equal(UNICODE, "é", key), Ok(true));
                }
            })
        })
        .collect();
    threads.into_iter().for_each(|thread| thread.join().unwrap());
}

/// Makes calls that keep something for the thread when it is dropped, and tells what they answered.
struct Late {
    table: Table,
    answers: Sender<bool>,
}

impl Drop for Late {
    fn drop(&mut self) {
        let equal = self.table.equal(UNICODE, "é", "É").unwrap();
        let hit = self.table.find(UNICODE, "\u{301}", "é").unwrap().unwrap();
        let key = self.table.key(UNICODE, "é").unwrap();
        let keys = self.table.keys(UNICODE, ["é", "E"]).unwrap();
        let same = keys.iter().eq([key.as_slice(), b"E"]);
        self.answers.send(equal && hit.text == (0..2) && key == b"E\xCC\x81" && same).unwrap();
    }
}

thread_local! {
    static EARLIER: RefCell<Option<Late>> = const { RefCell::new(None) };
    static LATER: RefCell<Option<Late>> = const { RefCell::new(None) };
}

#[test]
fn calls_from_the_destructor_of_a_thread_local_are_answered() {
    // Whichever of the thread's locals goes first, one of these two is dropped after the crate's own.
    let (answers, told) = channel();
    let thread = thread::spawn(move || {
        let late = || Late { table: accented(), answers: answers.clone() };
        EARLIER.set(Some(late()));
        assert_eq!(accented().equal(UNICODE, "é", "É"), Ok(true));
        assert_eq!(accented().keys(UNICODE, ["é"]).unwrap().get(0), Some(b"E\xCC\x81".as_slice()));
        LATER.set(Some(late()));
    });
    thread.join().unwrap();
    assert_eq!(told.iter().collect::<Vec<_>>(), [true, true]);
}
