//! Lines and files of UnicodeData.txt: what is counted, what is refused, and that no file that was cut off is taken for a whole
//! one.
use mundeziwa::{ReadError, RefusalKind, TableBuilder};
use std::fs;
use std::io::{self, BufReader, Read};

/// A short file that begins and ends as the published one, with a titlecase that can be cut to another (1E921).
const WHOLE: &str = "\
0000;<control>;Cc;0;BN;;;;;N;NULL;;;;
0061;LATIN SMALL LETTER A;Ll;0;L;;;;;N;;;0041;;0041
00C9;LATIN CAPITAL LETTER E WITH ACUTE;Lu;0;L;0045 0301;;;;N;LATIN CAPITAL LETTER E ACUTE;;;00E9;
00E9;LATIN SMALL LETTER E WITH ACUTE;Ll;0;L;0065 0301;;;;N;LATIN SMALL LETTER E ACUTE;;00C9;;00C9
1E943;ADLAM SMALL LETTER SHA;Ll;0;R;;;;;N;;;1E921;;1E921
100000;<Plane 16 Private Use, First>;Co;0;L;;;;;N;;;;;
10FFFD;<Plane 16 Private Use, Last>;Co;0;L;;;;;N;;;;;
";

#[test]
fn a_whole_file_is_taken_and_counted() {
    let builder = TableBuilder::read_whole(WHOLE.as_bytes()).unwrap();
    assert_eq!((builder.line_count(), builder.entry_count(), builder.last_code_point()), (7, 4, Some(0x10FFFD)));
    assert_eq!(format!("{builder:?}"), "TableBuilder { lines: 7, entries: 4, pool: 4, last: Some(U+10FFFD) }");
}

#[test]
fn a_file_cut_off_anywhere_is_not_taken_for_a_whole_one() {
    for end in 0..WHOLE.len() {
        let cut = &WHOLE[..end];
        let whole_lines = cut.rfind('\n').map(|at| &cut[..at]);
        let last = whole_lines.map(|lines| lines.rsplit('\n').next().unwrap().split(';').next().unwrap());
        let last = last.map(|digits| u32::from_str_radix(digits, 16).unwrap());
        let error = TableBuilder::read_whole(cut.as_bytes()).unwrap_err();
        assert!(matches!(error, ReadError::NotWhole(found) if found == last), "cut at {end}: {error}");
    }
}

#[test]
fn a_cut_in_the_last_field_is_what_read_alone_would_take() {
    let end = WHOLE.find("1E921\n").unwrap() + "1E921".len();
    let cut = &WHOLE[..end - 1];
    let builder = TableBuilder::read(cut.as_bytes()).unwrap();
    assert_eq!(builder.entries()[12..], [0x1E943, 0x1E92, 4, 0], "a titlecase that is not the file's");
    let error = TableBuilder::read_whole(cut.as_bytes()).unwrap_err();
    assert_eq!(
        error.to_string(),
        "not the whole file: its last whole line is that of U+00E9, and UnicodeData.txt ends with that of U+10FFFD and a line feed"
    );
}

#[test]
fn the_published_file_is_whole_and_no_part_of_it_is() {
    let path = std::env::var("MZ_UNICODE_DATA").unwrap_or("/usr/share/unicode/UnicodeData.txt".into());
    let Ok(file) = fs::read(&path) else {
        eprintln!("{path} is not here: the published file was not read");
        return;
    };
    let builder = TableBuilder::read_whole(file.as_slice()).unwrap();
    assert_eq!(builder.line_count(), file.iter().filter(|&&octet| octet == b'\n').count() as u64);
    builder.table().unwrap();
    for end in (0..file.len()).step_by(file.len() / 20).chain(file.len() - 60..file.len()) {
        assert!(TableBuilder::read_whole(&file[..end]).is_err(), "cut at {end}");
    }
}

#[test]
fn a_refused_line_is_named_and_changes_nothing() {
    let mut builder = TableBuilder::new();
    builder.line("0061;LATIN SMALL LETTER A;Ll;0;L;;;;;N;;;0041;;0041").unwrap();
    let refusal = builder.line("0061;LATIN SMALL LETTER A;Ll;0;L;;;;;N;;;0041;;0041").unwrap_err();
    assert_eq!(refusal.to_string(), "refused 26 (order of lines): the code point is not above that of the line before");
    assert_eq!(builder.entries(), [0x61, 0x41, 0, 0]);
    assert!(builder.pool().is_empty());
    assert_eq!((builder.line_count(), builder.entry_count()), (1, 1));

    let error = TableBuilder::read("0041;A;Lu;0;L;;;;;N;;;;0061;\nno line of the file\n".as_bytes()).unwrap_err();
    assert!(matches!(&error, ReadError::Line(2, refusal) if refusal.kind() == RefusalKind::FieldCount), "{error}");
}

#[test]
fn a_line_without_end_is_refused_and_not_kept() {
    let endless = BufReader::new(io::repeat(b'A'));
    let error = TableBuilder::read(endless).unwrap_err();
    assert_eq!(format!("{error:?}"), "line 1: refused 20 (line too long): the line has over 512 octets");

    let longest = format!("0041;{};Lu;0;L;;;;;N;;;;0061;", "A".repeat(512 - "0041;;Lu;0;L;;;;;N;;;;0061;".len()));
    assert_eq!(longest.len(), 512);
    assert_eq!(TableBuilder::read(longest.as_bytes()).unwrap().line_count(), 1);
    assert_eq!(TableBuilder::read(format!("{longest}\n").as_bytes()).unwrap().line_count(), 1);
    let longer = longest.replacen(";A", ";AA", 1);
    assert!(matches!(TableBuilder::read_whole(longer.as_bytes()), Err(ReadError::Line(1, refusal)) if refusal.number() == 20));
}

/// A reader that fails.
struct Failing;

impl Read for Failing {
    fn read(&mut self, _: &mut [u8]) -> io::Result<usize> {
        Err(io::Error::other("the disk is gone"))
    }
}

#[test]
fn a_failure_to_read_is_told() {
    let error = TableBuilder::read(BufReader::new(Failing)).unwrap_err();
    assert_eq!(format!("{error:?}"), "reading failed: the disk is gone");
}
