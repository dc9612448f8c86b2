//! The watch file: what is read, where it is broken, what is written.

mod records;

use records::{humidity, pressure, tendency, wind};
use reference::refusal::Refused;
use reference::vapour::dew_point;
use reference::watchfile::{read, write, Record, LONGEST_FILE, MOST_RECORDS};

/// The bytes of the file, with some written over.
fn file(records: &[Record], changes: &[(usize, u8)]) -> Vec<u8> {
    let mut buffer = [0; LONGEST_FILE];
    let length = write(records, &mut buffer).expect("the records are right");
    let mut file = buffer[..length].to_vec();
    for &(at, byte) in changes {
        file[at] = byte;
    }
    file
}

/// The place where the file is broken.
fn place(file: &[u8]) -> Option<usize> {
    match read(file, &mut [Record::BLANK; MOST_RECORDS]) {
        Ok(_) => None,
        Err(Refused::Broken { place }) => Some(place),
        Err(other) => panic!("{other}"),
    }
}

fn one_of_each() -> [Record; 4] {
    [
        pressure(280, 10132),
        tendency(280, -18, 179),
        wind(280, 48, 60),
        humidity(281, [1366, 2335, 969, 59, 116]),
    ]
}

#[test]
fn records_written_and_read_again_are_the_same() {
    let records = one_of_each();
    let bytes = file(&records, &[]);
    let mut room = [Record::BLANK; MOST_RECORDS];
    assert_eq!(read(&bytes, &mut room), Ok(&records[..]));
    assert_eq!(bytes.len(), 4 + 32 + 2 + 3 + 4 + 9);
    // Body offsets stand at bytes 2 and 3 of each row.
    let offsets: Vec<u8> = (0..4).map(|row| bytes[4 + 8 * row + 2]).collect();
    assert_eq!(offsets, [36, 38, 41, 45]);
}

#[test]
fn the_example_file() {
    let bytes = [
        0x57, 0x54, 1, 1, 2, 0, 0x0C, 0, 0x18, 1, 0, 0, 0xEE, 0xFF, 0xB3,
    ];
    let mut room = [Record::BLANK; MOST_RECORDS];
    assert_eq!(read(&bytes, &mut room), Ok(&[tendency(280, -18, 179)][..]));
    assert_eq!(file(&[tendency(280, -18, 179)], &[]), bytes);
}

#[test]
fn every_shortened_file_is_broken_at_its_length() {
    let bytes = file(&one_of_each(), &[]);
    for length in 0..bytes.len() {
        assert_eq!(place(&bytes[..length]), Some(length));
    }
    let mut longer = bytes.clone();
    longer.extend([0, 0]);
    assert_eq!(place(&longer), Some(bytes.len()));
}

#[test]
fn the_head() {
    assert_eq!(place(&[0x57]), Some(1));
    assert_eq!(place(&[0x00]), Some(1));
    assert_eq!(place(&[0x57, 0x55]), Some(0));
    assert_eq!(place(&[0x56, 0x54]), Some(0));
    assert_eq!(place(&[0x57, 0x54, 2]), Some(2));
    assert_eq!(place(&[0x57, 0x54, 1, 49]), Some(3));
    assert_eq!(place(&[0x57, 0x54, 1, 48]), Some(4));
    assert_eq!(place(&[0x57, 0x54, 1, 0]), None);
    assert_eq!(place(&[0x57, 0x54, 1, 0, 0]), Some(4));
}

#[test]
fn a_wrong_field_is_refused_at_its_first_byte() {
    let broken = |changes: &[(usize, u8)]| place(&file(&one_of_each(), changes));
    assert_eq!(broken(&[]), None);
    // Rows begin at 4, 12, 20, 28; bodies at 36, 38, 41, 45.
    for row in [4, 12, 20, 28] {
        assert_eq!(broken(&[(row, 0)]), Some(row));
        assert_eq!(broken(&[(row, 5)]), Some(row));
        assert_eq!(broken(&[(row + 1, 1)]), Some(row + 1));
        assert_eq!(broken(&[(row + 2, 9)]), Some(row + 2));
        assert_eq!(broken(&[(row + 3, 1)]), Some(row + 2));
        assert_eq!(broken(&[(row + 7, 1)]), Some(row + 4));
    }
    assert_eq!(broken(&[(37, 0)]), Some(36));
    assert_eq!(broken(&[(39, 0x7f)]), Some(38));
    assert_eq!(broken(&[(40, 180)]), Some(40));
    assert_eq!(broken(&[(42, 4)]), Some(41));
    assert_eq!(broken(&[(44, 2)]), Some(43));
    assert_eq!(broken(&[(43, 0)]), Some(43));
    // Calm with a direction.
    assert_eq!(broken(&[(41, 0)]), Some(43));
    // e above saturation, e below 19, then deficit, relative and dew.
    assert_eq!(broken(&[(46, 0x7f)]), Some(45));
    assert_eq!(broken(&[(45, 18), (46, 0)]), Some(45));
    assert_eq!(broken(&[(49, 0)]), Some(49));
    assert_eq!(broken(&[(51, 58)]), Some(51));
    assert_eq!(broken(&[(52, 115)]), Some(52));
    assert_eq!(broken(&[(53, 1)]), Some(52));
}

#[test]
fn a_minute_is_wrong_at_the_minute() {
    // Out of order by kind alone: the same minute and kind, then a lower kind.
    let two = [pressure(7, 9000), pressure(8, 9001)];
    assert_eq!(place(&file(&two, &[(16, 7)])), Some(16));
    assert_eq!(place(&file(&two, &[(16, 6)])), Some(16));
    let kinds = [wind(7, 0, 0), pressure(8, 9000)];
    assert_eq!(place(&file(&kinds, &[(16, 7)])), Some(16));
    // A tendency's minute below 180.
    assert_eq!(place(&file(&[tendency(180, 0, 0)], &[])), None);
    assert_eq!(place(&file(&[tendency(180, 0, 0)], &[(8, 179)])), Some(8));
    assert_eq!(place(&file(&[pressure(7, 9000)], &[(11, 1)])), Some(8));
    assert_eq!(place(&file(&[pressure(16_777_215, 9000)], &[])), None);
}

#[test]
fn e_is_tested_once_saturation_is_whole_and_before_it() {
    let good = file(&[humidity(7, [19, 19, 0, 100, -399])], &[]);
    let body = |bytes: &[u8]| [&good[..12], bytes].concat();
    // e is 18 and saturation cut: the file's length.
    assert_eq!(place(&body(&[18, 0, 19])), Some(15));
    assert_eq!(place(&body(&[18, 0, 19, 0])), Some(12));
    // Both 13000: e is not above saturation, which is itself wrong.
    let [low, high] = 13000u16.to_le_bytes();
    assert_eq!(place(&body(&[low, high, low, high])), Some(14));
    // Both 18: e is tested first.
    assert_eq!(place(&body(&[18, 0, 18, 0])), Some(12));
    // Any saturation will do, table entry or not.
    let off_table = humidity(7, [19, 12344, 12325, 0, -399]);
    assert_eq!(place(&file(&[off_table], &[])), None);
}

#[test]
fn an_earlier_fault_beats_a_later_one() {
    let bytes = file(&one_of_each(), &[]);
    // A wrong second row beats a wrong first body and a cut.
    let mut both = bytes.clone();
    both[12] = 9;
    both[37] = 0;
    assert_eq!(place(&both[..40]), Some(12));
    // A wrong first body beats a later cut, and an extra byte.
    let mut cut = bytes.clone();
    cut[37] = 0;
    assert_eq!(place(&cut[..39]), Some(36));
    cut.push(0);
    assert_eq!(place(&cut), Some(36));
}

fn written(records: &[Record], room: usize) -> Result<usize, Refused> {
    let mut buffer = vec![0xAA; room];
    let answer = write(records, &mut buffer);
    let behind = *answer.as_ref().unwrap_or(&0);
    assert!(buffer[behind..].iter().all(|byte| *byte == 0xAA));
    if answer.is_ok() {
        let mut room = [Record::BLANK; MOST_RECORDS];
        assert_eq!(read(&buffer[..behind], &mut room), Ok(records));
    }
    answer
}

#[test]
fn a_refused_write_changes_nothing_and_a_good_one_no_byte_behind() {
    let records = one_of_each();
    assert_eq!(written(&records, 53), Err(Refused::Room { needed: 54 }));
    assert_eq!(written(&records, 54), Ok(54));
    assert_eq!(written(&records, 60), Ok(54));
    assert_eq!(written(&[], 3), Err(Refused::Room { needed: 4 }));
    assert_eq!(written(&[], 4), Ok(4));
}

#[test]
fn the_first_wrong_record_is_named() {
    let wrong = [
        pressure(200, 7999),
        pressure(200, 11501),
        pressure(16_777_216, 9000),
        pressure(u32::MAX, 9000),
        tendency(179, 0, 0),
        tendency(200, 3001, 0),
        tendency(200, -3001, 0),
        tendency(200, 0, -1),
        tendency(200, 0, 180),
        wind(200, -1, 0),
        wind(200, 957, 1),
        wind(200, 0, 1),
        wind(200, 1, 0),
        wind(200, 1, 361),
        wind(200, 65536, 0),
        humidity(200, [18, 19, 1, 95, -399]),
        humidity(200, [20, 19, -1, 105, -394]),
        humidity(200, [19, 12346, 12327, 0, -399]),
        humidity(200, [19, 19, 1, 100, -399]),
        humidity(200, [19, 19, 0, 99, -399]),
        humidity(200, [19, 19, 0, 100, -400]),
        pressure(100, 9000),
        pressure(99, 9000),
    ];
    for record in wrong {
        let records = [pressure(100, 9000), record, pressure(0, 0)];
        // 16 is tested even with no room.
        assert_eq!(
            written(&records, 0),
            Err(Refused::Record { index: 1 }),
            "{record:?}"
        );
    }
}

#[test]
fn the_49th_record_is_refused() {
    let records: Vec<Record> = (0..50).map(|i| pressure(i, 9000)).collect();
    assert_eq!(written(&records[..48], 820), Ok(4 + 48 * 10));
    let refused = Err(Refused::Record { index: 48 });
    assert_eq!(written(&records[..49], 820), refused);
    assert_eq!(written(&records, 0), refused);
    let mut wrong = records.clone();
    wrong[47] = pressure(47, 0);
    assert_eq!(written(&wrong, 820), Err(Refused::Record { index: 47 }));
}

#[test]
fn the_longest_file_is_820_bytes() {
    let most = [12345, 12345, 0, 100, dew_point(12345).unwrap()];
    let records: Vec<Record> = (0..48).map(|i| humidity(i, most)).collect();
    assert_eq!(written(&records, 820), Ok(820));
    assert_eq!(LONGEST_FILE, 820);
    let mut extra = file(&records, &[]);
    extra.push(0);
    assert_eq!(place(&extra), Some(820));
}
