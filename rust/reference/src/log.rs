//! A watch file that is kept in a buffer: a record put in its place, or taken out.
//! Refusals 18, 16 and 17, and 254.
//!
//! The first `size` bytes of the buffer are the file, all of them where there are
//! fewer. The new file stands at the buffer's start, and the bytes behind it stay as
//! they were, those of a longer old file too. Refused, no byte changes.

use crate::refusal::Refused;
use crate::watchfile::{self, Record, MOST_RECORDS};

/// Puts the record in its place, "by minute, then kind", and returns the length of
/// the new file; "one of the same minute and kind is replaced".
///
/// Or the first of these: 18 for the file that is there; 16, "the record breaks the
/// file rules, with the index that it would have, or there would be 49, with 48"; 17
/// with the bytes needed.
pub fn place(buffer: &mut [u8], size: usize, record: &Record) -> Result<usize, Refused> {
    let mut records = records(buffer, size)?;
    match find(&records, record.minute, record.body.kind()) {
        Ok(index) => records[index] = *record,
        Err(index) => records.insert(index, *record),
    }
    watchfile::write(&records, buffer)
}

/// Takes the record of this kind and minute out, and returns the length of the new
/// file; or 18 for the file that is there; or 254, "it has none such".
pub fn take_out(buffer: &mut [u8], size: usize, kind: u32, minute: u32) -> Result<usize, Refused> {
    let mut records = records(buffer, size)?;
    let index = u8::try_from(kind)
        .ok()
        .and_then(|kind| find(&records, minute, kind).ok())
        .ok_or(Refused::NoRecord)?;
    records.remove(index);
    watchfile::write(&records, buffer)
}

/// The records of the file that is there, or refusal 18.
fn records(buffer: &[u8], size: usize) -> Result<Vec<Record>, Refused> {
    let file = &buffer[..size.min(buffer.len())];
    let mut room = [Record::BLANK; MOST_RECORDS];
    watchfile::read(file, &mut room).map(<[Record]>::to_vec)
}

/// The index of this minute and kind; as an error the one that it would have.
fn find(records: &[Record], minute: u32, kind: u8) -> Result<usize, usize> {
    records.binary_search_by_key(&(minute, kind), |record| {
        (record.minute, record.body.kind())
    })
}
