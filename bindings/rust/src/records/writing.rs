//! Records at the end of a vector.
use super::{KeyRecord, RecordError};
use crate::{ffi, Refusal, RefusalKind};
use std::mem::MaybeUninit;

/// Appends a text as a record. On a refusal the vector stays as it was.
///
/// Refusal 13: the text is over [`TEXT_MOST`](crate::TEXT_MOST).
///
/// ```
/// use mundeziwa::records::write_text;
///
/// let mut octets = Vec::new();
/// write_text(&mut octets, "José")?;
/// assert_eq!(octets, b"\x07\0\0\0\x01\0Jos\xC3\xA9");
///
/// let error = write_text(&mut octets, [b'a'; 4097]).unwrap_err();
/// assert_eq!(error.to_string(), "record at octet 11: its text has 4097 octets, and at most 4096 are taken (refused 13)");
/// assert_eq!(octets.len(), 11);
/// # Ok::<(), mundeziwa::records::RecordError>(())
/// ```
pub fn write_text(octets: &mut Vec<u8>, text: impl AsRef<[u8]>) -> Result<(), RecordError> {
    let text = text.as_ref();
    append(octets, |room, answer| {
        // SAFETY: the pointers and lengths are those of live slices; the room and the answer are borrowed alone, so they overlap
        // nothing.
        unsafe { ffi::mz_write_text(text.as_ptr(), text.len(), room.as_mut_ptr().cast(), room.len(), 0, answer) }
    })
    .map_err(|refusal| RecordError::write_text(refusal, octets.len(), text))
}

/// Appends a key as a record. On a refusal the vector stays as it was.
///
/// Refusal 13: what is said of the text isn't as [`KeyRecord`] has it. The key that
/// [`Table::key_record`](crate::Table::key_record) answers is never refused.
///
/// ```
/// use mundeziwa::records::{write_key, KeyRecord};
/// use mundeziwa::Collation;
///
/// let mut octets = Vec::new();
/// let key = KeyRecord { collation: Collation::AsciiCasemap, valid: true, text_length: 4, key: b"OTTO" };
/// write_key(&mut octets, &key)?;
/// assert_eq!(octets, b"\x0A\0\0\0\x02\0\x02\x01\x04\0OTTO");
///
/// let error = write_key(&mut octets, &KeyRecord { text_length: 5, ..key }).unwrap_err();
/// let sentence = "record at octet 14: its key has 4 octets and its text 5, and under collation 2 they agree (refused 13)";
/// assert_eq!(error.to_string(), sentence);
/// # Ok::<(), mundeziwa::records::RecordError>(())
/// ```
pub fn write_key(octets: &mut Vec<u8>, record: &KeyRecord<'_>) -> Result<(), RecordError> {
    let KeyRecord { collation, valid, text_length, key } = *record;
    append(octets, |room, answer| {
        // SAFETY: as in `write_text`.
        unsafe {
            ffi::mz_write_key(
                collation as u32,
                valid.into(),
                text_length as u64,
                key.as_ptr(),
                key.len(),
                room.as_mut_ptr().cast(),
                room.len(),
                0,
                answer,
            )
        }
    })
    .map_err(|refusal| RecordError::write_key(refusal, octets.len(), record))
}

/// Appends the record that a writing call leaves at the start of the room lent to it. The room needs no octets in it, since the
/// call answers nothing of what was there.
fn append(octets: &mut Vec<u8>, write: impl Fn(&mut [MaybeUninit<u8>], &mut [u64; 4])) -> Result<(), Refusal> {
    ffi::check_interface();
    let mut answer = [0; 4];
    write(octets.spare_capacity_mut(), &mut answer);
    if answer[0] == RefusalKind::KeyRoom.number() {
        // The detail is the length of the whole record.
        octets.reserve(answer[2] as usize);
        write(octets.spare_capacity_mut(), &mut answer);
    }
    Refusal::of(&answer)?;
    // SAFETY: the call was not refused, so it has written each octet of the room up to the position that it answers.
    unsafe { octets.set_len(octets.len() + answer[3] as usize) };
    Ok(())
}
