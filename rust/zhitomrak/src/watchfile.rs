//! Watch files: read, written, changed and listed.

use core::fmt;

use crate::ffi;
use crate::figures::{
    Direction, Humidity, Pressure, PressureChange, Speed, Temperature, Tendency, VapourPressure,
    Wind,
};
use crate::refusal::{placed, Refused};
use crate::store::{whole, Kind};

/// The most records of a file.
pub const MAX_RECORDS: usize = 48;
/// The bytes of the longest file.
pub const MAX_BYTES: usize = 820;
/// Bytes that are enough for the listing of any file.
pub const LISTING_MAX_BYTES: usize = 2264;

/// What a record says. As text it is the answer's sentence.
#[derive(Clone, Copy, Debug, PartialEq, Eq, Hash)]
#[non_exhaustive]
pub enum Body {
    /// The pressure at sea level.
    Pressure(Pressure),
    /// Its change in three hours.
    Tendency(Tendency),
    /// The true wind.
    Wind(Wind),
    /// Humidity.
    Humidity(Humidity),
}

impl Body {
    /// Its kind.
    pub const fn kind(&self) -> Kind {
        match self {
            Body::Pressure(_) => Kind::Pressure,
            Body::Tendency(_) => Kind::Tendency,
            Body::Wind(_) => Kind::Wind,
            Body::Humidity(_) => Kind::Humidity,
        }
    }
}

impl From<Pressure> for Body {
    fn from(pressure: Pressure) -> Body {
        Body::Pressure(pressure)
    }
}

impl From<Tendency> for Body {
    fn from(tendency: Tendency) -> Body {
        Body::Tendency(tendency)
    }
}

impl From<Wind> for Body {
    fn from(wind: Wind) -> Body {
        Body::Wind(wind)
    }
}

impl From<Humidity> for Body {
    fn from(humidity: Humidity) -> Body {
        Body::Humidity(humidity)
    }
}

impl fmt::Display for Body {
    fn fmt(&self, line: &mut fmt::Formatter<'_>) -> fmt::Result {
        match self {
            Body::Pressure(pressure) => pressure.fmt(line),
            Body::Tendency(tendency) => tendency.fmt(line),
            Body::Wind(wind) => wind.fmt(line),
            Body::Humidity(humidity) => humidity.fmt(line),
        }
    }
}

/// A record: an answer and its minute.
#[derive(Clone, Copy, Debug, Default, PartialEq, Eq, Hash)]
#[repr(transparent)]
pub struct Record(pub(crate) ffi::Record);

impl Record {
    /// The record of an answer and its minute, right or wrong. Of a figure that four bytes with a sign do not hold it has the nearest
    /// that they do, which no file takes.
    pub fn new(minute: u32, body: impl Into<Body>) -> Record {
        let body = body.into();
        let figures = match body {
            Body::Pressure(p) => [whole(p.tenths()), 0, 0, 0, 0],
            Body::Tendency(t) => [whole(t.change.tenths()), whole(t.absent), 0, 0, 0],
            Body::Wind(w) => [
                whole(w.speed.tenths()),
                whole(w.direction.degrees()),
                0,
                0,
                0,
            ],
            Body::Humidity(h) => [
                whole(h.vapour_pressure.hundredths()),
                whole(h.saturation.hundredths()),
                whole(h.deficit.hundredths()),
                whole(h.relative_humidity),
                h.dew_point.tenths(),
            ],
        };
        Record(ffi::Record {
            kind: body.kind().number(),
            minute,
            figures,
        })
    }

    /// The minute of the answer.
    #[inline]
    pub const fn minute(&self) -> u32 {
        self.0.minute
    }

    /// The answer. None where there is no such record: the record of index 48 of a file, or one that this crate does not know.
    #[inline]
    pub fn body(&self) -> Option<Body> {
        let [first, second, third, fourth, fifth] = self.0.figures;
        let some = |figure: i32| u32::try_from(figure).ok();
        Some(match self.0.kind {
            1 => Body::Pressure(Pressure::from_tenths(first.into())),
            2 => Body::Tendency(Tendency {
                change: PressureChange::from_tenths(first.into()),
                absent: some(second)?.into(),
            }),
            3 => Body::Wind(Wind {
                speed: Speed::from_tenths(some(first)?),
                direction: Direction::from_degrees(some(second)?),
            }),
            4 => Body::Humidity(Humidity {
                vapour_pressure: VapourPressure::from_hundredths(some(first)?),
                saturation: VapourPressure::from_hundredths(some(second)?),
                deficit: VapourPressure::from_hundredths(some(third)?),
                relative_humidity: some(fourth)?,
                dew_point: Temperature::from_tenths(fifth),
            }),
            _ => return None,
        })
    }
}

/// A record as C has it, right or wrong.
impl From<ffi::Record> for Record {
    #[inline]
    fn from(told: ffi::Record) -> Record {
        Record(told)
    }
}

impl From<Record> for ffi::Record {
    #[inline]
    fn from(record: Record) -> ffi::Record {
        record.0
    }
}

/// `minute 240: 977.0 hPa at sea level`
impl fmt::Display for Record {
    fn fmt(&self, line: &mut fmt::Formatter<'_>) -> fmt::Result {
        match self.body() {
            Some(body) => write!(line, "minute {}: {body}", self.minute()),
            None => line.write_str("no record"),
        }
    }
}

/// The records of a good file, each read where it stands when it is asked for.
#[derive(Clone, Copy, Debug)]
pub struct Records<'file> {
    file: &'file [u8],
    count: usize,
}

impl<'file> Records<'file> {
    /// How many there are, 48 at the most.
    #[inline]
    pub const fn len(&self) -> usize {
        self.count
    }

    /// Whether there are none.
    #[inline]
    pub const fn is_empty(&self) -> bool {
        self.count == 0
    }

    /// The record with this index, counted from 0.
    #[inline]
    pub fn get(&self, index: usize) -> Option<Record> {
        (index < self.count).then(|| record_at(self.file, index))
    }

    /// All of them in their order.
    #[inline]
    pub fn iter(&self) -> Iter<'file> {
        Iter {
            file: self.file,
            left: 0..self.count,
        }
    }
}

impl<'file> IntoIterator for Records<'file> {
    type Item = Record;
    type IntoIter = Iter<'file>;

    #[inline]
    fn into_iter(self) -> Iter<'file> {
        self.iter()
    }
}

impl<'file> IntoIterator for &Records<'file> {
    type Item = Record;
    type IntoIter = Iter<'file>;

    #[inline]
    fn into_iter(self) -> Iter<'file> {
        self.iter()
    }
}

/// The records of a file, one after the other.
#[derive(Clone, Debug)]
pub struct Iter<'file> {
    file: &'file [u8],
    left: core::ops::Range<usize>,
}

impl Iterator for Iter<'_> {
    type Item = Record;

    #[inline]
    fn next(&mut self) -> Option<Record> {
        self.left.next().map(|index| record_at(self.file, index))
    }

    #[inline]
    fn size_hint(&self) -> (usize, Option<usize>) {
        self.left.size_hint()
    }

    // What goes through all of them gets each where the library puts it, and not in an `Option` first.
    #[inline]
    fn fold<B, F: FnMut(B, Record) -> B>(self, first: B, mut each: F) -> B {
        let file = self.file;
        self.left
            .fold(first, |so_far, index| each(so_far, record_at(file, index)))
    }
}

impl DoubleEndedIterator for Iter<'_> {
    #[inline]
    fn next_back(&mut self) -> Option<Record> {
        self.left
            .next_back()
            .map(|index| record_at(self.file, index))
    }
}

impl ExactSizeIterator for Iter<'_> {}

impl core::iter::FusedIterator for Iter<'_> {}

/// The record with this index of a good file; of any bytes what stands there. Where there is none it has no body.
#[inline]
pub fn record_at(file: &[u8], index: usize) -> Record {
    Record(ffi::record_at(file, index))
}

/// The records of a watch file; or [`Refused::Broken`] with the place.
#[inline]
pub fn read(file: &[u8]) -> Result<Records<'_>, Refused> {
    let told = ffi::read(file);
    match told.number {
        0 => Ok(Records {
            file,
            count: told.count,
        }),
        18 => Err(Refused::Broken { place: told.place }),
        number => Err(Refused::Unknown { number }),
    }
}

/// Writes the records as a watch file at the start of the buffer, leaves the bytes behind it, and gives the file's length. Or
/// [`Refused::BreaksRules`], else [`Refused::TooShort`], and every byte stays.
#[inline]
pub fn write(records: &[Record], buffer: &mut [u8]) -> Result<usize, Refused> {
    let told = ffi::write(buffer, ffi::told(records));
    match told.number {
        0 => Ok(told.bytes),
        16 => Err(Refused::BreaksRules { index: told.index }),
        17 => Err(Refused::TooShort { bytes: told.bytes }),
        number => Err(Refused::Unknown { number }),
    }
}

/// Puts a record in its place in the watch file that the first `size` bytes of the buffer are; one of the same minute and kind is
/// replaced. The new file stands at the buffer's start, and its length is given. Or [`Refused::Broken`], else
/// [`Refused::BreaksRules`], else [`Refused::TooShort`], and every byte stays.
pub fn place(buffer: &mut [u8], size: usize, record: &Record) -> Result<usize, Refused> {
    placed(ffi::place(buffer, size, &record.0))
}

/// Takes the record of a kind and a minute out of that file, and gives the new length; or [`Refused::Broken`], else
/// [`Refused::NoRecord`], and every byte stays.
pub fn take_out(buffer: &mut [u8], size: usize, kind: Kind, minute: u32) -> Result<usize, Refused> {
    placed(ffi::take_out(buffer, size, kind.number(), minute))
}

/// The listing of a watch file, at the start of the lent room: a line for the file and one for each record, or one that says where
/// it is broken. It is ASCII. Or [`Refused::TooShort`], and every byte of the room stays.
pub fn list<'room>(file: &[u8], room: &'room mut [u8]) -> Result<&'room [u8], Refused> {
    let told = ffi::list(file, room);
    match told.number {
        0 => Ok(&room[..told.bytes]),
        17 => Err(Refused::TooShort { bytes: told.bytes }),
        number => Err(Refused::Unknown { number }),
    }
}

/// A watch file that grows record by record. It never holds but a good file.
///
/// ```
/// use zhitomrak::watchfile::{Record, WatchFile};
/// use zhitomrak::{Kind, Pressure};
/// let mut file = WatchFile::new();
/// file.place(&Record::new(240, Pressure::from_tenths(9770)))?;
/// for record in &file {
///     assert_eq!(record.to_string(), "minute 240: 977.0 hPa at sea level");
/// }
/// file.take_out(Kind::Pressure, 240)?;
/// assert!(file.records().is_empty());
/// # Ok::<(), zhitomrak::Refused>(())
/// ```
#[derive(Clone)]
pub struct WatchFile {
    buffer: [u8; MAX_BYTES],
    length: usize,
}

impl WatchFile {
    /// A file without a record.
    pub fn new() -> WatchFile {
        let mut file = WatchFile {
            buffer: [0; MAX_BYTES],
            length: 0,
        };
        // no record breaks a rule, and there is room
        file.length = write(&[], &mut file.buffer).unwrap_or(0);
        file
    }

    /// The file that these bytes are; or [`Refused::Broken`] with the place.
    pub fn from_bytes(bytes: &[u8]) -> Result<WatchFile, Refused> {
        read(bytes)?;
        let mut file = WatchFile::new();
        let longest = Refused::Broken { place: MAX_BYTES };
        let room = file.buffer.get_mut(..bytes.len()).ok_or(longest)?;
        room.copy_from_slice(bytes);
        file.length = bytes.len();
        Ok(file)
    }

    /// Its bytes.
    pub fn as_bytes(&self) -> &[u8] {
        &self.buffer[..self.length]
    }

    /// Its records.
    pub fn records(&self) -> Records<'_> {
        Records {
            file: self.as_bytes(),
            count: ffi::read(self.as_bytes()).count,
        }
    }

    /// Puts a record in its place, or in that of one of its minute and kind; or [`Refused::BreaksRules`], also where there are 48.
    pub fn place(&mut self, record: &Record) -> Result<(), Refused> {
        self.length = place(&mut self.buffer, self.length, record)?;
        Ok(())
    }

    /// Takes a record out; or [`Refused::NoRecord`].
    pub fn take_out(&mut self, kind: Kind, minute: u32) -> Result<(), Refused> {
        self.length = take_out(&mut self.buffer, self.length, kind, minute)?;
        Ok(())
    }
}

impl Default for WatchFile {
    fn default() -> Self {
        WatchFile::new()
    }
}

impl PartialEq for WatchFile {
    fn eq(&self, other: &WatchFile) -> bool {
        self.as_bytes() == other.as_bytes()
    }
}

impl Eq for WatchFile {}

impl core::hash::Hash for WatchFile {
    fn hash<H: core::hash::Hasher>(&self, state: &mut H) {
        self.as_bytes().hash(state);
    }
}

impl AsRef<[u8]> for WatchFile {
    fn as_ref(&self) -> &[u8] {
        self.as_bytes()
    }
}

impl<'file> IntoIterator for &'file WatchFile {
    type Item = Record;
    type IntoIter = Iter<'file>;

    fn into_iter(self) -> Iter<'file> {
        self.records().into_iter()
    }
}

impl fmt::Debug for WatchFile {
    fn fmt(&self, line: &mut fmt::Formatter<'_>) -> fmt::Result {
        line.debug_list().entries(self.records()).finish()
    }
}

/// The listing.
impl fmt::Display for WatchFile {
    fn fmt(&self, line: &mut fmt::Formatter<'_>) -> fmt::Result {
        let mut room = [0; LISTING_MAX_BYTES];
        let text = list(self.as_bytes(), &mut room).map_err(|_| fmt::Error)?;
        line.write_str(core::str::from_utf8(text).map_err(|_| fmt::Error)?)
    }
}

#[cfg(test)]
mod tests {
    use super::*;
    use std::string::ToString;
    use std::vec::Vec;

    fn pressure(minute: u32, tenths: i64) -> Record {
        Record::new(minute, Pressure::from_tenths(tenths))
    }

    #[test]
    fn records_are_placed_replaced_and_taken_out() {
        let mut file = WatchFile::new();
        assert!(file.records().is_empty());
        for minute in [300, 200, 250] {
            assert_eq!(file.place(&pressure(minute, 10_000)), Ok(()));
        }
        assert_eq!(file.place(&pressure(250, 9_999)), Ok(()));
        let minutes = |file: &WatchFile| file.into_iter().map(|r| r.minute()).collect::<Vec<_>>();
        assert_eq!(minutes(&file), [200, 250, 300]);
        let said = file.records().get(1).map(|r| r.to_string());
        assert_eq!(said.as_deref(), Some("minute 250: 999.9 hPa at sea level"));
        assert_eq!(file.take_out(Kind::Pressure, 200), Ok(()));
        assert_eq!(file.take_out(Kind::Pressure, 200), Err(Refused::NoRecord));
        assert_eq!(file.take_out(Kind::Wind, 250), Err(Refused::NoRecord));
        assert_eq!(minutes(&file), [250, 300]);
        assert_eq!(WatchFile::from_bytes(file.as_bytes()), Ok(file.clone()));
        assert_eq!(file.to_string(), "WT 1 2\nP 250 9999\nP 300 10000\n");
        let cut = &file.as_bytes()[..7];
        assert_eq!(
            WatchFile::from_bytes(cut),
            Err(Refused::Broken { place: 7 })
        );
    }

    #[test]
    fn a_49th_is_refused_and_nothing_is_lost() {
        let mut file = WatchFile::new();
        for minute in 0..48 {
            assert_eq!(file.place(&pressure(minute, 10_000)), Ok(()));
        }
        let full = file.clone();
        let refused = Err(Refused::BreaksRules { index: 48 });
        assert_eq!(file.place(&pressure(48, 10_000)), refused);
        assert_eq!(file, full);
        assert_eq!(file.records().into_iter().rev().count(), 48);
    }

    #[test]
    fn a_figure_that_does_not_fit_is_refused_by_its_own_place() {
        let mut file = WatchFile::new();
        assert_eq!(file.place(&pressure(200, 10_000)), Ok(()));
        for wrong in [i64::MIN, -1, 65_536, i64::MAX] {
            let refused = Err(Refused::BreaksRules { index: 0 });
            assert_eq!(file.place(&pressure(199, wrong)), refused);
        }
        let falls = Tendency {
            change: PressureChange::from_tenths(i64::MIN),
            absent: 0,
        };
        let record = Record::new(200, falls);
        let Some(Body::Tendency(kept)) = record.body() else {
            panic!("it is a tendency");
        };
        // the nearest that four bytes hold
        assert_eq!(kept.change.tenths(), i64::from(i32::MIN));
        assert_eq!(file.place(&record), Err(Refused::BreaksRules { index: 1 }));
    }
}
