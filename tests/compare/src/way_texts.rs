//! Texts of a given length: of ASCII, with one other character in it, of wide characters, and each of these broken.

use crate::way_tables::Spelling;
use second::collate::TEXT_MOST;

/// The lengths beside the borders between the ways.
const BORDERS: [usize; 13] = [0, 1, 2, 12, 13, 63, 64, 65, 511, 512, 513, 4_096, 4_097];

/// The longest text that is looked at in a short run, other than one that is refused, and the longest at every place of which a
/// character or a fault is put.
const SHORT_MOST: usize = 513;
const EVERY_PLACE: usize = 70;

/// In longer texts, at the first and the last places and at one in so many: no divisor of 64, of 512 or of a row of letters.
const STRIDE: usize = 37;

/// Octets that stand for another one: one that no character has, and one that only continues a character.
const WRONG: [u8; 2] = [0xFF, 0x80];

/// Characters that are cut off.
const CUT_OFF: [&[u8]; 6] = [&[0xC3], &[0xE2], &[0xE2, 0x84], &[0xF0], &[0xF0, 0x90], &[0xF0, 0x90, 0x80]];

/// How many texts there are: all about the borders; those beside them; and of these the few that a short run has time for.
#[derive(PartialEq, Eq, Clone, Copy)]
pub enum Breadth {
    Wide,
    Narrow,
    Short,
}

impl Breadth {
    /// The lengths of texts.
    pub fn lengths(self) -> Vec<usize> {
        match self {
            Breadth::Wide => (0..=EVERY_PLACE).chain(500..=520).chain(4_088..=TEXT_MOST + 1).collect(),
            Breadth::Narrow => BORDERS.to_vec(),
            Breadth::Short => BORDERS.into_iter().filter(|&length| length <= SHORT_MOST || length > TEXT_MOST).collect(),
        }
    }

    /// Places in a text of a length.
    pub fn places(self, length: usize) -> impl Iterator<Item = usize> {
        let every = self == Breadth::Wide && length <= EVERY_PLACE;
        // A long text takes long: of those only one is looked at everywhere.
        let far = self == Breadth::Wide && (length <= 520 || length == TEXT_MOST);
        // One that is too long is refused whatever it holds.
        let is_edge = move |place| (self == Breadth::Wide || length <= TEXT_MOST) && (place < 3 || place + 4 >= length);
        (0..length).filter(move |&place| every || is_edge(place) || far && place % STRIDE == 0)
    }
}

/// Octets of ASCII.
pub fn ascii(spelling: &Spelling, length: usize) -> Vec<u8> {
    spelling.ascii.iter().copied().cycle().take(length).collect()
}

/// ASCII with a character of two octets at a place, if there is room for it.
pub fn accented(spelling: &Spelling, length: usize, place: usize) -> Option<Vec<u8>> {
    let mut text = ascii(spelling, length);
    spelling.wide[0].encode_utf8(text.get_mut(place..place + 2)?);
    Some(text)
}

/// A wide character again and again, an octet of ASCII after each third, and as many at the end as fill the text.
pub fn wide(spelling: &Spelling, length: usize, character: char) -> Vec<u8> {
    let mut letters = spelling.ascii.iter().copied().cycle();
    let (mut text, mut since_letter) = (Vec::new(), 0);
    while text.len() + character.len_utf8() <= length {
        if since_letter == 3 {
            text.extend(letters.next());
            since_letter = 0;
        } else {
            text.extend(character.to_string().as_bytes());
            since_letter += 1;
        }
    }
    text.extend(letters.take(length - text.len()));
    text
}

/// One text of each kind, of the same length.
pub fn of_each_kind(spelling: &Spelling, length: usize) -> Vec<Vec<u8>> {
    let mut texts: Vec<Vec<u8>> = spelling.wide.iter().map(|&character| wide(spelling, length, character)).collect();
    texts.push(ascii(spelling, length));
    texts.extend(accented(spelling, length, length / 2));
    texts
}

/// A text with another octet at a place.
pub fn broken_at(text: &[u8], place: usize, octet: u8) -> Vec<u8> {
    let mut broken = text.to_vec();
    broken[place] = octet;
    broken
}

/// A text with one octet wrong, at each place that is looked at, or with a character cut off at its end.
pub fn broken(text: &[u8], breadth: Breadth) -> Vec<Vec<u8>> {
    let mut all = Vec::new();
    for place in breadth.places(text.len()) {
        all.extend(WRONG.map(|octet| broken_at(text, place, octet)));
    }
    for cut_off in CUT_OFF.into_iter().filter(|cut_off| cut_off.len() <= text.len()) {
        all.push([&text[..text.len() - cut_off.len()], cut_off].concat());
    }
    all
}

/// Short texts whose keys have about as many octets as the library writes aside: letters of 128 octets or 127 and letters of
/// one, in both orders.
pub fn to_the_brim(breadth: Breadth) -> Vec<Vec<u8>> {
    let mut texts = Vec::new();
    for heavy in [[b'b', b'b'], [b'b', b'c']] {
        for count in 8..=12 {
            for others in (0..=64 - count).step_by(if breadth == Breadth::Wide { 1 } else { 13 }) {
                let heavy: Vec<u8> = heavy.iter().copied().cycle().take(count).collect();
                let others = vec![b'x'; others];
                texts.extend([[&heavy[..], &others].concat(), [&others[..], &heavy].concat()]);
            }
        }
    }
    texts
}
