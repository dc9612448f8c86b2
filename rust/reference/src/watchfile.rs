//! The watch file: records to bytes and back. Refusals 16, 17 and 18.
//!
//! "Contents first, then bodies, little endian. Bytes 57 54, version 01, count 0
//! to 48. Then 8 bytes a record: kind (1), zero (1), body offset (2), minute (4).
//! [..] Bodies follow in that order with no space between and nothing after them."

use crate::humidity::{self, Humidity};
use crate::message::LAST_MINUTE;
use crate::pressure::Tendency;
use crate::refusal::Refused;
use crate::store::{BETWEEN, THREE_HOURS};
use crate::vapour::{vapour, Vapour, LEAST_VAPOUR, MOST_VAPOUR};
use crate::wind::Wind;

/// "Count 0 to 48": the most records of a file.
pub const MOST_RECORDS: usize = 48;
/// The longest file: 48 humidities of 9 bytes behind their contents.
pub const LONGEST_FILE: usize = HEAD + MOST_RECORDS * (ROW + 9);

/// "Bytes 57 54": the label, `WT`.
const LABEL: [u8; 2] = [0x57, 0x54];
/// "Version 01".
const VERSION: u8 = 1;
/// Bytes of label, version and count.
const HEAD: usize = 4;
/// Bytes of a record in the contents.
const ROW: usize = 8;

/// What a record says, by kind.
#[derive(Clone, Copy, Debug, PartialEq, Eq)]
pub enum Body {
    /// Kind 1: sea level pressure, tenths hPa.
    Pressure(i32),
    /// Kind 2.
    Tendency(Tendency),
    /// Kind 3.
    Wind(Wind),
    /// Kind 4.
    Humidity(Humidity),
}

/// A record of the watch.
#[derive(Clone, Copy, Debug, PartialEq, Eq)]
pub struct Record {
    /// The minute of the answer.
    pub minute: u32,
    /// The answer.
    pub body: Body,
}

impl Record {
    /// A record to fill lent room with.
    pub const BLANK: Record = Record {
        minute: 0,
        body: Body::Pressure(8000),
    };
}

impl Body {
    /// The kind's number in the contents.
    #[inline]
    pub const fn kind(&self) -> u8 {
        match self {
            Body::Pressure(_) => 1,
            Body::Tendency(_) => 2,
            Body::Wind(_) => 3,
            Body::Humidity(_) => 4,
        }
    }

    /// "Kind letter P, T, W or H".
    #[inline]
    pub const fn letter(&self) -> u8 {
        match self {
            Body::Pressure(_) => b'P',
            Body::Tendency(_) => b'T',
            Body::Wind(_) => b'W',
            Body::Humidity(_) => b'H',
        }
    }

    /// Bytes of the body.
    #[inline]
    pub const fn length(&self) -> usize {
        body_length(self.kind())
    }
}

/// Bytes of a body of kind 1 to 4.
#[inline]
const fn body_length(kind: u8) -> usize {
    match kind {
        1 => 2,
        2 => 3,
        3 => 4,
        _ => 9,
    }
}

// The rules of the fields, one each, for reader and writer alike.

/// "Minutes are at most 16,777,215"; for a tendency "minute at least 180".
/// "Records rise strictly by minute, then kind": the minute and kind before are
/// `last`, none for the first record.
#[inline]
fn minute_right(kind: u8, minute: u32, last: Option<(u32, u8)>) -> bool {
    let rises = match last {
        Some(last) => last < (minute, kind),
        None => true,
    };
    minute <= LAST_MINUTE && (kind != 2 || minute >= THREE_HOURS) && rises
}

/// "8000 to 11500 tenths hPa".
#[inline]
fn pressure_right(pressure: i32) -> bool {
    (8000..=11500).contains(&pressure)
}

/// "-3000 to 3000".
#[inline]
fn change_right(change: i32) -> bool {
    (-3000..=3000).contains(&change)
}

/// "Absent 1 byte, 0 to 179".
#[inline]
fn absent_right(absent: i32) -> bool {
    (0..=BETWEEN as i32).contains(&absent)
}

/// "Speed 2, 0 to 956".
#[inline]
fn speed_right(speed: i32) -> bool {
    (0..=956).contains(&speed)
}

/// "Direction 2, 0 to 360, 0 exactly when speed is 0".
#[inline]
fn direction_right(speed: i32, direction: i32) -> bool {
    (0..=360).contains(&direction) && (direction == 0) == (speed == 0)
}

/// "e 19 to saturation".
#[inline]
fn vapour_right(e: i32, saturation: i32) -> bool {
    (LEAST_VAPOUR..=saturation).contains(&e)
}

/// "Saturation 19 to 12345".
#[inline]
fn saturation_right(saturation: i32) -> bool {
    (LEAST_VAPOUR..=MOST_VAPOUR).contains(&saturation)
}

/// Whether every field of a body keeps its rule.
#[inline]
fn body_right(body: &Body, tables: &Vapour) -> bool {
    match *body {
        Body::Pressure(pressure) => pressure_right(pressure),
        Body::Tendency(tendency) => change_right(tendency.change) && absent_right(tendency.absent),
        Body::Wind(wind) => speed_right(wind.speed) && direction_right(wind.speed, wind.direction),
        Body::Humidity(h) => {
            vapour_right(h.e, h.saturation)
                && saturation_right(h.saturation)
                && h.deficit == h.saturation - h.e
                && h.relative == humidity::relative(h.e, h.saturation)
                && Some(h.dew) == tables.dew_point(h.e)
        }
    }
}

// Reading.

/// A file being read front to back. A field that is cut short is refused at the
/// file's length.
struct Reader<'file> {
    length: usize,
    rest: &'file [u8],
}

impl Reader<'_> {
    /// The next field, of so many bytes.
    #[inline]
    fn field<const BYTES: usize>(&mut self) -> Result<[u8; BYTES], Refused> {
        let Some((field, rest)) = self.rest.split_first_chunk() else {
            return Err(Refused::Broken { place: self.length });
        };
        self.rest = rest;
        Ok(*field)
    }

    /// A field of one byte.
    #[inline]
    fn byte(&mut self) -> Result<i32, Refused> {
        self.field().map(|[byte]| i32::from(byte))
    }

    /// A field of two bytes without sign.
    #[inline]
    fn two(&mut self) -> Result<i32, Refused> {
        self.field().map(|two| i32::from(u16::from_le_bytes(two)))
    }

    /// A field of two signed bytes.
    #[inline]
    fn signed(&mut self) -> Result<i32, Refused> {
        self.field().map(|two| i32::from(i16::from_le_bytes(two)))
    }

    /// Refusal 18 at the field that began so many bytes back, unless it is right.
    #[inline]
    fn test(&self, right: bool, back: usize) -> Result<(), Refused> {
        if right {
            return Ok(());
        }
        Err(Refused::Broken {
            place: self.length - self.rest.len() - back,
        })
    }

    /// Label, version and count. "The label is one field."
    #[inline]
    fn head(&mut self) -> Result<usize, Refused> {
        let label: [u8; 2] = self.field()?;
        self.test(label == LABEL, 2)?;
        let [version] = self.field()?;
        self.test(version == VERSION, 1)?;
        let [count] = self.field()?;
        self.test(usize::from(count) <= MOST_RECORDS, 1)?;
        Ok(usize::from(count))
    }

    /// A row of the contents: its minute and kind. Its body begins at `offset`.
    #[inline]
    fn row(&mut self, offset: usize, last: Option<(u32, u8)>) -> Result<(u32, u8), Refused> {
        let [kind] = self.field()?;
        self.test((1..=4).contains(&kind), 1)?;
        let [zero] = self.field()?;
        self.test(zero == 0, 1)?;
        let stored = self.field().map(u16::from_le_bytes)?;
        self.test(usize::from(stored) == offset, 2)?;
        let minute = self.field().map(u32::from_le_bytes)?;
        self.test(minute_right(kind, minute, last), 4)?;
        Ok((minute, kind))
    }

    /// A body of kind 1 to 4.
    #[inline]
    fn body(&mut self, kind: u8, tables: &Vapour) -> Result<Body, Refused> {
        match kind {
            1 => self.pressure(),
            2 => self.tendency(),
            3 => self.wind(),
            _ => self.humidity(tables),
        }
    }

    #[inline]
    fn pressure(&mut self) -> Result<Body, Refused> {
        let pressure = self.two()?;
        self.test(pressure_right(pressure), 2)?;
        Ok(Body::Pressure(pressure))
    }

    #[inline]
    fn tendency(&mut self) -> Result<Body, Refused> {
        let change = self.signed()?;
        self.test(change_right(change), 2)?;
        let absent = self.byte()?;
        self.test(absent_right(absent), 1)?;
        Ok(Body::Tendency(Tendency { change, absent }))
    }

    #[inline]
    fn wind(&mut self) -> Result<Body, Refused> {
        let speed = self.two()?;
        self.test(speed_right(speed), 2)?;
        let direction = self.two()?;
        self.test(direction_right(speed, direction), 2)?;
        Ok(Body::Wind(Wind { speed, direction }))
    }

    /// "e is tested once saturation is whole, and before it."
    #[inline]
    fn humidity(&mut self, tables: &Vapour) -> Result<Body, Refused> {
        let e = self.two()?;
        let saturation = self.two()?;
        self.test(vapour_right(e, saturation), 4)?;
        self.test(saturation_right(saturation), 2)?;
        let deficit = self.two()?;
        self.test(deficit == saturation - e, 2)?;
        let relative = self.byte()?;
        self.test(relative == humidity::relative(e, saturation), 1)?;
        let dew = self.signed()?;
        self.test(Some(dew) == tables.dew_point(e), 2)?;
        Ok(Body::Humidity(Humidity {
            e,
            saturation,
            deficit,
            relative,
            dew,
        }))
    }
}

/// The records of a file, put into the lent room, or refusal 18 with its place;
/// what the room then holds has no meaning.
///
/// "The reader goes front to back, all contents before any body, and tests a
/// field once it is whole."
pub fn read<'room>(
    file: &[u8],
    room: &'room mut [Record; MOST_RECORDS],
) -> Result<&'room [Record], Refused> {
    let tables = vapour();
    let mut reader = Reader {
        length: file.len(),
        rest: file,
    };
    let count = reader.head()?;
    let mut kinds = [0; MOST_RECORDS];
    let (mut offset, mut last) = (HEAD + count * ROW, None);
    for (record, kept) in room.iter_mut().zip(&mut kinds).take(count) {
        let (minute, kind) = reader.row(offset, last)?;
        record.minute = minute;
        *kept = kind;
        offset += body_length(kind);
        last = Some((minute, kind));
    }
    for (record, kind) in room.iter_mut().zip(kinds).take(count) {
        record.body = reader.body(kind, tables)?;
    }
    // The first extra byte, if there is one.
    reader.test(reader.rest.is_empty(), 0)?;
    Ok(&room[..count])
}

// Writing.

/// The index of the first record that "breaks the file rules, or is the 49th".
#[inline]
fn first_wrong(records: &[Record], tables: &Vapour) -> Option<usize> {
    let mut last = None;
    records.iter().enumerate().position(|(index, record)| {
        let kind = record.body.kind();
        let right = index < MOST_RECORDS
            && minute_right(kind, record.minute, last)
            && body_right(&record.body, tables);
        last = Some((record.minute, kind));
        !right
    })
}

/// The low bytes of a field that its rule lets fit.
#[inline]
fn two_bytes(value: i32) -> [u8; 2] {
    (value as u16).to_le_bytes()
}

/// A body into the bytes lent for it.
#[inline]
fn write_body(body: &Body, bytes: &mut [u8]) {
    match *body {
        Body::Pressure(pressure) => bytes.copy_from_slice(&two_bytes(pressure)),
        Body::Tendency(tendency) => {
            bytes[..2].copy_from_slice(&two_bytes(tendency.change));
            bytes[2] = tendency.absent as u8;
        }
        Body::Wind(wind) => {
            bytes[..2].copy_from_slice(&two_bytes(wind.speed));
            bytes[2..].copy_from_slice(&two_bytes(wind.direction));
        }
        Body::Humidity(h) => {
            bytes[..2].copy_from_slice(&two_bytes(h.e));
            bytes[2..4].copy_from_slice(&two_bytes(h.saturation));
            bytes[4..6].copy_from_slice(&two_bytes(h.deficit));
            bytes[6] = h.relative as u8;
            bytes[7..].copy_from_slice(&two_bytes(h.dew));
        }
    }
}

/// Writes the records as a file to the front of the lent buffer and returns its
/// length, or refusal 16 and then 17 with no byte changed. "A successful write
/// leaves bytes behind the file untouched."
pub fn write(records: &[Record], buffer: &mut [u8]) -> Result<usize, Refused> {
    if let Some(index) = first_wrong(records, vapour()) {
        return Err(Refused::Record { index });
    }
    let contents = HEAD + records.len() * ROW;
    let bodies: usize = records.iter().map(|record| record.body.length()).sum();
    let needed = contents + bodies;
    let file = buffer.get_mut(..needed).ok_or(Refused::Room { needed })?;
    file[..HEAD].copy_from_slice(&[LABEL[0], LABEL[1], VERSION, records.len() as u8]);
    let (rows, bodies) = file[HEAD..].split_at_mut(records.len() * ROW);
    let mut offset = 0;
    for (record, row) in records.iter().zip(rows.chunks_exact_mut(ROW)) {
        let length = record.body.length();
        row[0] = record.body.kind();
        row[1] = 0;
        row[2..4].copy_from_slice(&((contents + offset) as u16).to_le_bytes());
        row[4..].copy_from_slice(&record.minute.to_le_bytes());
        write_body(&record.body, &mut bodies[offset..offset + length]);
        offset += length;
    }
    Ok(needed)
}
