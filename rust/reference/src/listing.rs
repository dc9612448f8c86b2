//! A watch file as lines of text.

use crate::refusal::Refused;
use crate::watchfile::{self, Body, Record, MOST_RECORDS};

/// The longest listing: `WT 1 48` and 48 lines like
/// `H 16777215 12345 12345 12326 100 -399`, each with its line end.
pub const LONGEST_LISTING: usize = 8 + MOST_RECORDS * 38;

/// Text growing in lent room.
struct Text<'room> {
    room: &'room mut [u8],
    length: usize,
}

impl Text<'_> {
    #[inline]
    fn put(&mut self, bytes: &[u8]) {
        self.room[self.length..][..bytes.len()].copy_from_slice(bytes);
        self.length += bytes.len();
    }

    /// A space and a whole number, its digits filled in from the last.
    #[inline]
    fn number(&mut self, number: i32) {
        self.put(b" ");
        if number < 0 {
            self.put(b"-");
        }
        let mut left = number.unsigned_abs();
        let digits = left.checked_ilog10().unwrap_or(0) as usize + 1;
        for digit in self.room[self.length..][..digits].iter_mut().rev() {
            *digit = b'0' + (left % 10) as u8;
            left /= 10;
        }
        self.length += digits;
    }

    /// "Kind letter P, T, W or H, minute, body fields in order, whole numbers as
    /// stored."
    #[inline]
    fn record(&mut self, record: &Record) {
        self.put(&[record.body.letter()]);
        self.number(record.minute as i32);
        match record.body {
            Body::Pressure(pressure) => self.number(pressure),
            Body::Tendency(tendency) => {
                self.number(tendency.change);
                self.number(tendency.absent);
            }
            Body::Wind(wind) => {
                self.number(wind.speed);
                self.number(wind.direction);
            }
            Body::Humidity(h) => {
                self.number(h.e);
                self.number(h.saturation);
                self.number(h.deficit);
                self.number(h.relative);
                self.number(h.dew);
            }
        }
        self.put(b"\n");
    }
}

/// Writes the listing of a file to the lent room and returns its length.
///
/// A good file gives its "label, version, count" and one line a record; "a bad
/// file prints only `refused 18 at`, a space and the place. Each line ends with
/// byte 0A."
pub fn list(file: &[u8], room: &mut [u8; LONGEST_LISTING]) -> usize {
    let mut text = Text { room, length: 0 };
    let mut records = [Record::BLANK; MOST_RECORDS];
    match watchfile::read(file, &mut records) {
        Ok(records) => {
            text.put(b"WT 1");
            text.number(records.len() as i32);
            text.put(b"\n");
            for record in records {
                text.record(record);
            }
        }
        Err(Refused::Broken { place }) => {
            text.put(b"refused 18 at");
            // A wrong place never lies behind the longest file.
            text.number(place as i32);
            text.put(b"\n");
        }
        Err(other) => unreachable!("a reader refuses only by 18, not {other}"),
    }
    text.length
}

#[cfg(test)]
mod tests {
    use super::*;

    fn listed(file: &[u8]) -> String {
        let mut room = [0; LONGEST_LISTING];
        let length = list(file, &mut room);
        String::from_utf8(room[..length].to_vec()).unwrap()
    }

    #[test]
    fn the_example_file() {
        let file = [
            0x57, 0x54, 0x01, 0x01, 0x02, 0x00, 0x0C, 0x00, 0x18, 0x01, 0x00, 0x00, 0xEE, 0xFF,
            0xB3,
        ];
        assert_eq!(listed(&file), "WT 1 1\nT 280 -18 179\n");
        assert_eq!(listed(&file[..14]), "refused 18 at 14\n");
        assert_eq!(listed(&[]), "refused 18 at 0\n");
    }

    #[test]
    fn the_longest_listing_fits() {
        use crate::humidity::Humidity;
        let record = |minute| Record {
            minute,
            body: Body::Humidity(Humidity {
                e: 1234,
                saturation: 12345,
                deficit: 11111,
                relative: 10,
                dew: crate::vapour::dew_point(1234).unwrap(),
            }),
        };
        let records: Vec<Record> = (0..48).map(|i| record(16_777_168 + i)).collect();
        let mut file = [0; watchfile::LONGEST_FILE];
        assert_eq!(watchfile::write(&records, &mut file), Ok(820));
        let text = listed(&file);
        assert_eq!(text.lines().count(), 49);
        assert_eq!(
            text.lines().last(),
            Some("H 16777215 1234 12345 11111 10 101")
        );
        assert!("H 16777215 12345 12345 12326 100 -399\n".len() * 48 + "WT 1 48\n".len() == 1832);
        assert_eq!(LONGEST_LISTING, 1832);
    }

    #[test]
    fn the_longest_number_and_its_sign() {
        let mut room = [0; 40];
        let mut text = Text {
            room: &mut room,
            length: 0,
        };
        for number in [0, -1, i32::MIN, i32::MAX] {
            text.number(number);
        }
        let length = text.length;
        assert_eq!(&room[..length], b" 0 -1 -2147483648 2147483647");
    }
}
