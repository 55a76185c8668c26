//! Files of lines of UnicodeData.txt.
use crate::{Refusal, TableBuilder};
use std::fmt;
use std::io::{self, BufRead, Read};

/// The most octets of a line.
const LINE_MOST: usize = 512;

/// The code point of the last line of UnicodeData.txt, the end of the last plane's private use. No edition can have a line
/// after it: the two code points above are noncharacters.
const LAST_OF_FILE: u32 = 0x10FFFD;

/// Why lines could not be read into a table. Both `{}` and `{:?}` print the sentence.
///
/// ```
/// use mundeziwa::TableBuilder;
///
/// let error = TableBuilder::read("0041;A;Lu;0;L;;;;;N;;;;0061;\nno line of the file\n".as_bytes()).unwrap_err();
/// assert_eq!(format!("{error:?}"), "line 2: refused 21 (field count): the line has not exactly 14 semicolons");
/// ```
#[non_exhaustive]
pub enum ReadError {
    /// Reading failed.
    Io(io::Error),
    /// A line was refused; lines are counted from 1.
    Line(u64, Refusal),
    /// The lines were read, and the table that they build is refused.
    Table(Refusal),
    /// The file is not the whole UnicodeData.txt; with the code point of its last whole line, if it has one.
    NotWhole(Option<u32>),
}

impl TableBuilder {
    /// Reads every line of a file of your own making, such as the lines for some scripts. A line ends at a line feed, which
    /// alone is cut off; a last line without one counts. Whoever reads the published file takes [`TableBuilder::read_whole`]: a
    /// file that was cut off between two lines, or in a line's last field, looks to this call like a shorter one.
    ///
    /// ```
    /// use mundeziwa::TableBuilder;
    ///
    /// let builder = TableBuilder::read("0041;LATIN CAPITAL LETTER A;Lu;0;L;;;;;N;;;;0061;\n".as_bytes())?;
    /// assert_eq!((builder.line_count(), builder.entry_count()), (1, 0));
    /// # Ok::<(), mundeziwa::ReadError>(())
    /// ```
    pub fn read(mut reader: impl BufRead) -> Result<TableBuilder, ReadError> {
        let mut builder = TableBuilder::new();
        let mut line = Vec::new();
        while next_line(&mut reader, &mut line)?.is_some() {
            builder.numbered_line(&line)?;
        }
        Ok(builder)
    }

    /// Reads the whole published UnicodeData.txt, and takes no file that was cut off: the last line must be that of U+10FFFD,
    /// after which no edition can have one, and have its line feed. So whatever is missing at the end, if only an octet, is
    /// noticed. What is missing or altered in the middle is not; a checksum is for that.
    ///
    /// ```
    /// use mundeziwa::{ReadError, TableBuilder};
    ///
    /// let whole = "0061;LATIN SMALL LETTER A;Ll;0;L;;;;;N;;;0041;;0041\n10FFFD;<Plane 16 Private Use, Last>;Co;0;L;;;;;N;;;;;\n";
    /// assert_eq!(TableBuilder::read_whole(whole.as_bytes())?.line_count(), 2);
    ///
    /// let cut = &whole[..52];
    /// assert!(matches!(TableBuilder::read_whole(cut.as_bytes()), Err(ReadError::NotWhole(Some(0x61)))));
    /// # Ok::<(), ReadError>(())
    /// ```
    pub fn read_whole(mut reader: impl BufRead) -> Result<TableBuilder, ReadError> {
        let mut builder = TableBuilder::new();
        let mut line = Vec::new();
        while let Some(end) = next_line(&mut reader, &mut line)? {
            if end == LineEnd::EndOfFile {
                return Err(ReadError::NotWhole(builder.last_code_point()));
            }
            builder.numbered_line(&line)?;
        }
        match builder.last_code_point() {
            Some(LAST_OF_FILE) => Ok(builder),
            last => Err(ReadError::NotWhole(last)),
        }
    }

    /// Adds one line, and names its number if it is refused.
    fn numbered_line(&mut self, line: &[u8]) -> Result<(), ReadError> {
        self.line(line).map_err(|refusal| ReadError::Line(self.line_count() + 1, refusal))
    }
}

/// Where a line ended.
#[derive(PartialEq)]
enum LineEnd {
    LineFeed,
    EndOfFile,
    /// The line is longer than any that is taken; the rest of it was not read.
    TooLong,
}

/// Reads one line without its line end, and says where it ended; nothing at the end of the file.
fn next_line(reader: &mut impl BufRead, line: &mut Vec<u8>) -> Result<Option<LineEnd>, ReadError> {
    line.clear();
    let most = LINE_MOST + 1;
    if reader.take(most as u64).read_until(b'\n', line).map_err(ReadError::Io)? == 0 {
        return Ok(None);
    }
    Ok(Some(if line.last() == Some(&b'\n') {
        line.pop();
        LineEnd::LineFeed
    } else if line.len() == most {
        LineEnd::TooLong
    } else {
        LineEnd::EndOfFile
    }))
}

/// A code point as it is usually written.
pub(crate) struct Named(pub u32);

impl fmt::Debug for Named {
    fn fmt(&self, f: &mut fmt::Formatter<'_>) -> fmt::Result {
        write!(f, "U+{:04X}", self.0)
    }
}

impl fmt::Display for ReadError {
    fn fmt(&self, f: &mut fmt::Formatter<'_>) -> fmt::Result {
        match self {
            ReadError::Io(error) => write!(f, "reading failed: {error}"),
            ReadError::Line(number, refusal) => write!(f, "line {number}: {refusal}"),
            ReadError::Table(refusal) => write!(f, "the table that the lines build: {refusal}"),
            ReadError::NotWhole(last) => {
                match last {
                    Some(last) => write!(f, "not the whole file: its last whole line is that of {:?}", Named(*last))?,
                    None => write!(f, "not the whole file: it has no whole line")?,
                }
                write!(f, ", and UnicodeData.txt ends with that of {:?} and a line feed", Named(LAST_OF_FILE))
            }
        }
    }
}

impl fmt::Debug for ReadError {
    fn fmt(&self, f: &mut fmt::Formatter<'_>) -> fmt::Result {
        fmt::Display::fmt(self, f)
    }
}

/// Opening a file fails as reading it does.
impl From<io::Error> for ReadError {
    fn from(error: io::Error) -> ReadError {
        ReadError::Io(error)
    }
}

/// What [`TableBuilder::table`] answers, so that one function may read and check.
///
/// ```no_run
/// use mundeziwa::{ReadError, Table, TableBuilder};
/// use std::{fs::File, io::BufReader};
///
/// fn load(path: &str) -> Result<Table, ReadError> {
///     Ok(TableBuilder::read_whole(BufReader::new(File::open(path)?))?.table()?)
/// }
/// # load("UnicodeData.txt").ok();
/// ```
impl From<Refusal> for ReadError {
    fn from(refusal: Refusal) -> ReadError {
        ReadError::Table(refusal)
    }
}

impl std::error::Error for ReadError {
    fn source(&self) -> Option<&(dyn std::error::Error + 'static)> {
        match self {
            ReadError::Io(error) => Some(error),
            ReadError::Line(_, refusal) | ReadError::Table(refusal) => Some(refusal),
            ReadError::NotWhole(_) => None,
        }
    }
}
