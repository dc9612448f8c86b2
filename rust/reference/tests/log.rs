//! A watch file in a buffer: records put in their places, and taken out.

mod records;

use records::{humidity, pressure, tendency, wind};
use reference::log::{place, take_out};
use reference::refusal::Refused;
use reference::watchfile::{read, write, Record, MOST_RECORDS};

/// The humidity of document 01: dry 20.0, wet 15.0.
const MOIST: [i32; 5] = [1366, 2335, 969, 59, 116];

/// The byte that stands behind every file here.
const BEHIND: u8 = 0xAA;

/// A buffer of so many bytes that holds a file of these records, and how long it is.
fn holding(records: &[Record], room: usize) -> (Vec<u8>, usize) {
    let mut buffer = vec![BEHIND; room];
    let size = write(records, &mut buffer).expect("the records are right, and fit");
    (buffer, size)
}

/// The records of a good file.
fn held(file: &[u8]) -> Vec<Record> {
    let mut room = [Record::BLANK; MOST_RECORDS];
    read(file, &mut room).expect("a good file").to_vec()
}

/// Places the record in a file of the others, in a buffer of 900 bytes: what is held
/// then, or the refusal, which changed no byte.
fn placed(records: &[Record], record: Record) -> Result<Vec<Record>, Refused> {
    let (mut buffer, size) = holding(records, 900);
    let before = buffer.clone();
    match place(&mut buffer, size, &record) {
        Ok(length) => {
            let old = length.max(size);
            assert!(buffer[old..].iter().all(|byte| *byte == BEHIND));
            assert_eq!(buffer[length..old], before[length..old]);
            Ok(held(&buffer[..length]))
        }
        Err(refused) => {
            assert_eq!(buffer, before);
            Err(refused)
        }
    }
}

#[test]
fn the_example_file_grows_and_shrinks_byte_for_byte() {
    let empty = [0x57, 0x54, 1, 0];
    let example = [
        0x57, 0x54, 1, 1, 2, 0, 0x0C, 0, 0x18, 1, 0, 0, 0xEE, 0xFF, 0xB3,
    ];
    // A pressure of 1013.2 hPa before it: bodies at 20 and 22, 10132 is 2794 in
    // sixteens.
    let both = [
        0x57, 0x54, 1, 2, 1, 0, 20, 0, 0x18, 1, 0, 0, 2, 0, 22, 0, 0x18, 1, 0, 0, 0x94, 0x27, 0xEE,
        0xFF, 0xB3,
    ];
    let mut buffer = [BEHIND; 30];
    buffer[..4].copy_from_slice(&empty);
    assert_eq!(place(&mut buffer, 4, &tendency(280, -18, 179)), Ok(15));
    assert_eq!(buffer[..15], example);
    assert_eq!(buffer[15..], [BEHIND; 15]);
    assert_eq!(place(&mut buffer, 15, &pressure(280, 10132)), Ok(25));
    assert_eq!(buffer[..25], both);
    assert_eq!(buffer[25..], [BEHIND; 5]);
    // Taken out again: what the longer file had behind the new one stays.
    assert_eq!(take_out(&mut buffer, 25, 1, 280), Ok(15));
    assert_eq!(buffer[..15], example);
    assert_eq!(buffer[15..25], both[15..]);
    assert_eq!(take_out(&mut buffer, 15, 2, 280), Ok(4));
    assert_eq!(buffer[..4], empty);
    assert_eq!(buffer[4..15], example[4..]);
    assert_eq!(buffer[15..25], both[15..]);
    assert_eq!(buffer[25..], [BEHIND; 5]);
}

#[test]
fn a_record_goes_by_minute_then_kind() {
    let there = [pressure(200, 9000), wind(200, 48, 60), pressure(300, 9100)];
    for (record, index) in [
        (pressure(0, 10000), 0),
        (humidity(199, MOIST), 0),
        (tendency(200, 5, 0), 1),
        (humidity(200, MOIST), 2),
        (tendency(201, 5, 0), 2),
        (wind(299, 0, 0), 2),
        (tendency(300, 5, 0), 3),
        (pressure(16_777_215, 11500), 3),
    ] {
        let mut records = there.to_vec();
        records.insert(index, record);
        assert_eq!(placed(&there, record), Ok(records), "{record:?}");
    }
    assert_eq!(placed(&[], there[1]), Ok(vec![there[1]]));
}

#[test]
fn the_same_minute_and_kind_is_replaced() {
    let there = [pressure(200, 9000), wind(200, 48, 60), pressure(300, 9100)];
    for (index, record) in [pressure(200, 9001), wind(200, 0, 0), pressure(300, 9100)]
        .into_iter()
        .enumerate()
    {
        let mut records = there.to_vec();
        records[index] = record;
        assert_eq!(placed(&there, record), Ok(records));
    }
    // Also in a full file.
    let full: Vec<Record> = (0..48).map(|i| pressure(i, 9000)).collect();
    let mut records = full.clone();
    records[47] = pressure(47, 9001);
    assert_eq!(placed(&full, pressure(47, 9001)), Ok(records));
}

#[test]
fn the_first_bytes_are_the_file_all_of_them_where_there_are_fewer() {
    let (mut buffer, size) = holding(&[pressure(7, 9000)], 14);
    assert_eq!(size, 14);
    for more in [15, 1000, usize::MAX] {
        assert_eq!(place(&mut buffer, more, &pressure(7, 9001)), Ok(14));
        assert_eq!(held(&buffer), [pressure(7, 9001)]);
        assert_eq!(take_out(&mut buffer, more, 2, 7), Err(Refused::NoRecord));
    }
    assert_eq!(take_out(&mut buffer, usize::MAX, 1, 7), Ok(4));
    // The ten bytes of the old file that follow are extra where they are counted.
    let broken = Err(Refused::Broken { place: 4 });
    assert_eq!(take_out(&mut buffer, 14, 1, 7), broken);
    assert_eq!(place(&mut buffer, 4, &pressure(8, 9002)), Ok(14));
    // No bytes are no file, also where some are lent.
    let broken = Err(Refused::Broken { place: 0 });
    assert_eq!(place(&mut buffer, 0, &pressure(8, 9002)), broken);
    assert_eq!(take_out(&mut buffer, 0, 1, 8), broken);
    assert_eq!(place(&mut [], 4, &pressure(8, 9002)), broken);
}

#[test]
fn a_broken_file_is_refused_first_and_stays() {
    let (mut buffer, size) = holding(&[tendency(280, -18, 179)], 15);
    buffer[8..12].copy_from_slice(&179u32.to_le_bytes());
    let before = buffer.clone();
    let broken = Err(Refused::Broken { place: 8 });
    // 18 stands before 16, 17 and 254.
    assert_eq!(place(&mut buffer, size, &pressure(7, 0)), broken);
    assert_eq!(place(&mut buffer, size, &wind(7, -1, 0)), broken);
    assert_eq!(place(&mut buffer, size, &pressure(7, 9000)), broken);
    assert_eq!(take_out(&mut buffer, size, 9, 7), broken);
    assert_eq!(take_out(&mut buffer, size, 2, 179), broken);
    let cut = Err(Refused::Broken { place: 10 });
    assert_eq!(place(&mut buffer, 10, &pressure(7, 9000)), cut);
    assert_eq!(take_out(&mut buffer, 10, 2, 179), cut);
    assert_eq!(buffer, before);
}

#[test]
fn a_wrong_record_is_named_by_the_index_it_would_have() {
    let there = [pressure(200, 9000), wind(200, 48, 60), pressure(300, 9100)];
    for (record, index) in [
        (pressure(100, 7999), 0),
        (pressure(200, 11501), 0),
        (tendency(179, 0, 0), 0),
        (tendency(200, 3001, 0), 1),
        (tendency(200, 0, 180), 1),
        (wind(200, 957, 1), 1),
        (wind(200, 1, 361), 1),
        (humidity(200, [1366, 2335, 969, 59, 115]), 2),
        (pressure(300, 65535), 2),
        (tendency(300, -32768, 255), 3),
        (pressure(16_777_216, 9000), 3),
        (humidity(u32::MAX, MOIST), 3),
    ] {
        let refused = Err(Refused::Record { index });
        assert_eq!(placed(&there, record), refused, "{record:?}");
    }
}

#[test]
fn one_whose_figure_does_not_fit_by_its_index_too() {
    let there = [pressure(200, 9000), wind(200, 48, 60), wind(300, 48, 60)];
    for (record, index) in [
        (pressure(100, -1), 0),
        (pressure(200, 65536), 0),
        (tendency(200, 32768, 0), 1),
        (tendency(200, -32769, 0), 1),
        (tendency(200, 0, -1), 1),
        (tendency(200, 0, 256), 1),
        (wind(200, -1, 0), 1),
        (wind(200, 0, 65536), 1),
        (humidity(200, [-1, 2335, 969, 59, 116]), 2),
        (humidity(200, [1366, 65536, 969, 59, 116]), 2),
        (humidity(200, [1366, 2335, -1, 59, 116]), 2),
        (humidity(200, [1366, 2335, 969, 256, 116]), 2),
        (humidity(200, [1366, 2335, 969, 59, 32768]), 2),
        (humidity(250, [1366, 2335, 969, -1, 116]), 2),
        (wind(300, i32::MAX, 0), 2),
        (humidity(300, [i32::MIN; 5]), 3),
        (wind(301, i32::MIN, 0), 3),
        (wind(u32::MAX, i32::MIN, 0), 3),
    ] {
        let refused = Err(Refused::Record { index });
        assert_eq!(placed(&there, record), refused, "{record:?}");
    }
}

#[test]
fn the_49th_is_refused_by_its_number_and_a_wrong_one_by_its_own() {
    let full: Vec<Record> = (0..48).map(|i| pressure(2 * i, 9000)).collect();
    let refused = |index| Err(Refused::Record { index });
    for minute in [1, 41, 93, 95, 16_777_215] {
        assert_eq!(placed(&full, pressure(minute, 9000)), refused(48));
    }
    assert_eq!(placed(&full, wind(0, 0, 0)), refused(48));
    assert_eq!(placed(&full, pressure(1, 0)), refused(1));
    assert_eq!(placed(&full, pressure(0, 0)), refused(0));
    assert_eq!(placed(&full, tendency(94, 0, 0)), refused(48));
    assert_eq!(placed(&full, tendency(93, 0, 0)), refused(47));
    assert_eq!(placed(&full, wind(94, -1, 0)), refused(48));
    assert_eq!(placed(&full, wind(95, -1, 0)), refused(48));
    let (seven, last) = (full[..7].to_vec(), pressure(94, 9000));
    assert_eq!(placed(&full[..47], last), Ok(full.clone()));
    assert_eq!(placed(&seven, full[7]), Ok(full[..8].to_vec()));
}

#[test]
fn a_buffer_too_short_is_refused_with_the_bytes_needed() {
    let (mut buffer, size) = holding(&[pressure(200, 9000)], 24);
    assert_eq!(size, 14);
    let before = buffer.clone();
    for (record, needed) in [
        (tendency(200, 0, 0), 4 + 16 + 2 + 3),
        (wind(100, 0, 0), 4 + 16 + 2 + 4),
        (humidity(201, MOIST), 4 + 16 + 2 + 9),
    ] {
        let refused = Err(Refused::Room { needed });
        assert_eq!(place(&mut buffer, size, &record), refused);
    }
    // 16 stands before 17.
    let wrong = Err(Refused::Record { index: 1 });
    assert_eq!(place(&mut buffer, size, &wind(200, 0, 1)), wrong);
    assert_eq!(buffer, before);
    assert_eq!(place(&mut buffer, size, &pressure(201, 9001)), Ok(24));
    assert_eq!(held(&buffer), [pressure(200, 9000), pressure(201, 9001)]);
}

#[test]
fn only_the_record_of_that_kind_and_minute_is_taken_out() {
    let there = [
        pressure(200, 9000),
        tendency(200, -5, 3),
        wind(300, 48, 60),
        humidity(300, MOIST),
    ];
    for (index, kind, minute) in [(0, 1, 200), (1, 2, 200), (2, 3, 300), (3, 4, 300)] {
        let (mut buffer, size) = holding(&there, 60);
        let before = buffer.clone();
        let length = 54 - 8 - there[index].body.length();
        assert_eq!(take_out(&mut buffer, size, kind, minute), Ok(length));
        let mut left = there.to_vec();
        left.remove(index);
        assert_eq!(held(&buffer[..length]), left);
        assert_eq!(buffer[length..], before[length..]);
    }
    let (mut buffer, size) = holding(&there, 60);
    let before = buffer.clone();
    for (kind, minute) in [
        (0, 200),
        (3, 200),
        (1, 300),
        (1, 199),
        (5, 200),
        (257, 200),
        (u32::MAX, 200),
        (1, u32::MAX),
    ] {
        let none = Err(Refused::NoRecord);
        assert_eq!(take_out(&mut buffer, size, kind, minute), none);
    }
    assert_eq!(buffer, before);
    assert_eq!(
        take_out(&mut [0x57, 0x54, 1, 0], 4, 1, 0),
        Err(Refused::NoRecord)
    );
}
