//! Answers, readings and refusals as people read them.

use reference::sentence::{humidity, pressure, reading, refusal, tendency, wind, MOST_BYTES};

#[test]
fn a_pressure() {
    for (tenths, text) in [
        (10057, "1005.7 hPa at sea level"),
        (9900, "990.0 hPa at sea level"),
        (10, "1.0 hPa at sea level"),
        (9, "0.9 hPa at sea level"),
        (0, "0.0 hPa at sea level"),
        (-1, "-0.1 hPa at sea level"),
        (-9, "-0.9 hPa at sea level"),
        (-10, "-1.0 hPa at sea level"),
        (i64::MAX, "922337203685477580.7 hPa at sea level"),
        (i64::MIN, "-922337203685477580.8 hPa at sea level"),
    ] {
        assert_eq!(pressure(tenths), text);
    }
}

#[test]
fn a_tendency_has_its_sign_and_its_minutes() {
    for (change, absent, text) in [
        (
            -1,
            11,
            "-0.1 hPa in three hours, 11 minutes without a reading",
        ),
        (4, 0, "+0.4 hPa in three hours, 0 minutes without a reading"),
        (0, 1, "0.0 hPa in three hours, 1 minute without a reading"),
        (
            -18,
            179,
            "-1.8 hPa in three hours, 179 minutes without a reading",
        ),
        (1, 2, "+0.1 hPa in three hours, 2 minutes without a reading"),
        (
            3000,
            101,
            "+300.0 hPa in three hours, 101 minutes without a reading",
        ),
        (
            i64::MAX,
            u64::MAX,
            "+922337203685477580.7 hPa in three hours, \
             18446744073709551615 minutes without a reading",
        ),
        (
            i64::MIN,
            u64::MAX - 4,
            "-922337203685477580.8 hPa in three hours, \
             18446744073709551611 minutes without a reading",
        ),
    ] {
        assert_eq!(tendency(change, absent), text);
    }
}

#[test]
fn a_wind_or_a_calm() {
    for (speed, direction, text) in [
        (45, 166, "4.5 m/s from 166°"),
        (1, 360, "0.1 m/s from 360°"),
        (956, 1, "95.6 m/s from 1°"),
        (10, 0, "1.0 m/s from 0°"),
        (0, 0, "calm"),
        (0, 166, "calm"),
        (u32::MAX, u32::MAX, "429496729.5 m/s from 4294967295°"),
    ] {
        assert_eq!(wind(speed, direction), text);
    }
    // The degree sign is C2 B0.
    assert_eq!(wind(45, 6).as_bytes(), b"4.5 m/s from 6\xC2\xB0");
}

#[test]
fn a_humidity() {
    assert_eq!(
        humidity(910, 1200, 290, 76, 55),
        "vapour pressure 9.10 hPa, saturation 12.00 hPa, deficit 2.90 hPa, \
         relative humidity 76 %, dew point 5.5 °C"
    );
    assert_eq!(
        humidity(19, 19, 0, 100, -399),
        "vapour pressure 0.19 hPa, saturation 0.19 hPa, deficit 0.00 hPa, \
         relative humidity 100 %, dew point -39.9 °C"
    );
    assert_eq!(
        humidity(101, 12345, 9, 0, -1),
        "vapour pressure 1.01 hPa, saturation 123.45 hPa, deficit 0.09 hPa, \
         relative humidity 0 %, dew point -0.1 °C"
    );
    assert_eq!(
        humidity(u32::MAX, u32::MAX, u32::MAX, u32::MAX, i32::MIN),
        "vapour pressure 42949672.95 hPa, saturation 42949672.95 hPa, deficit 42949672.95 hPa, \
         relative humidity 4294967295 %, dew point -214748364.8 °C"
    );
}

#[test]
fn a_reading_of_each_channel() {
    for (channel, unit, first, second, text) in [
        (0, 0, 10042, 0, "1004.2 hPa"),
        (0, 1, 7531, 0, "753.1 mm Hg"),
        (1, 2, 124, 0, "12.4 °C"),
        (1, 2, -1, 0, "-0.1 °C"),
        (2, 3, 85, 30, "8.5 m/s, 30° from the bow"),
        (2, 3, 0, 0, "0.0 m/s, 0° from the bow"),
        (3, 4, 102, 45, "10.2 knots, course 45°"),
        (3, 4, 0, 359, "0.0 knots, course 359°"),
        (4, 2, -400, 0, "-40.0 °C"),
        (5, 2, 98, 0, "9.8 °C, water on it"),
        (5, 2, -100, 1, "-10.0 °C, ice on it"),
        (5, 2, 0, 2, "0.0 °C, state unknown"),
        // A second figure that a channel has not is not told.
        (4, 2, 5, u32::MAX, "0.5 °C"),
        (
            2,
            3,
            i32::MAX,
            u32::MAX,
            "214748364.7 m/s, 4294967295° from the bow",
        ),
        (
            3,
            4,
            i32::MIN,
            u32::MAX,
            "-214748364.8 knots, course 4294967295°",
        ),
    ] {
        assert_eq!(reading(channel, unit, first, second).as_deref(), Some(text));
    }
}

#[test]
fn what_the_documents_have_no_words_for_has_none() {
    for (channel, unit, second) in [
        (6, 0, 0),
        (u32::MAX, 2, 0),
        (0, 5, 0),
        (2, u32::MAX, 30),
        (5, 2, 3),
        (5, 2, u32::MAX),
    ] {
        assert_eq!(reading(channel, unit, 100, second), None);
    }
    for channel in [6, 256, 1 << 32, u64::MAX] {
        assert_eq!(refusal(11, channel, 820), None);
    }
}

/// The table of docs/REFUSALS.md, and its sentences for those that return more, told
/// with 3 and 820.
const REFUSALS: [(u32, &str); 28] = [
    (0, "nothing is refused"),
    (1, "the message is not 16 bytes"),
    (2, "the channel is above 5"),
    (3, "a byte of the message that must be zero is not"),
    (4, "the state of the wet bulb is above 2"),
    (5, "the minute is above 16777215"),
    (6, "a value is infinite or not a number"),
    (7, "a value is outside its limits"),
    (8, "the minute is that of the channel's newest reading"),
    (9, "a setting is outside its limits"),
    (10, "the barometer's certificate breaks its rules"),
    (11, "the ship's motion has no reading at minute 820"),
    (12, "the barometer at minute 3 is outside its certificate"),
    (13, "the wet bulb is above the dry bulb, with water on it"),
    (14, "there are no three hours before the minute"),
    (15, "the vapour pressure is below 0.19 hPa"),
    (
        16,
        "record 3, counted from 0, breaks the rules of the file, or is one too many",
    ),
    (17, "the buffer is too short: 3 bytes are needed"),
    (18, "the file is broken at byte 3"),
    (
        19,
        "the minute is 3 minutes earlier than the channel's newest reading",
    ),
    (20, "the wet bulb is above 0.0 °C, and not with water on it"),
    (
        21,
        "the wet bulb's state is unknown, and the dry bulb not within -9.9 to 0.0 °C",
    ),
    (
        22,
        "the vapour pressure is above saturation over water at the dry bulb",
    ),
    (23, "a dial is above 9999, or the seconds are not 1 to 600"),
    (
        24,
        "the rate is outside the anemometer's certificate, or there is none",
    ),
    (25, "the anemometer's certificate breaks its rules"),
    (254, "there is no such record"),
    (255, "the store was never opened"),
];

#[test]
fn each_refusal_by_its_number() {
    for (number, text) in REFUSALS {
        assert_eq!(refusal(number, 3, 820).as_deref(), Some(text));
        // What a number does not return is not looked at.
        let more = [11, 12, 16, 17, 18, 19].contains(&number);
        if !more {
            assert_eq!(refusal(number, u64::MAX, 0).as_deref(), Some(text));
        }
        if number != 11 {
            assert_eq!(refusal(number, 3, u64::MAX).as_deref(), Some(text));
        }
    }
    for number in [26, 77, 100, 253, 256, 267, u32::MAX] {
        let text = format!("no refusal has the number {number}");
        assert_eq!(refusal(number, 3, 820), Some(text));
    }
}

#[test]
fn each_channel_that_has_no_reading() {
    for (channel, text) in [
        (0, "the barometer has no reading at minute 820"),
        (1, "the wheelhouse thermometer has no reading at minute 820"),
        (2, "the apparent wind has no reading at minute 820"),
        (3, "the ship's motion has no reading at minute 820"),
        (4, "the dry bulb has no reading at minute 820"),
        (5, "the wet bulb has no reading at minute 820"),
    ] {
        assert_eq!(refusal(11, channel, 820).as_deref(), Some(text));
    }
}

#[test]
fn the_numbers_that_refusals_return() {
    for (number, first, second, text) in [
        (11, 0, 0, "the barometer has no reading at minute 0"),
        (
            11,
            1,
            u64::MAX,
            "the wheelhouse thermometer has no reading at minute 18446744073709551615",
        ),
        (
            12,
            820,
            0,
            "the barometer at minute 820 is outside its certificate",
        ),
        (
            12,
            0,
            9,
            "the barometer at minute 0 is outside its certificate",
        ),
        (
            16,
            48,
            0,
            "record 48, counted from 0, breaks the rules of the file, or is one too many",
        ),
        (17, 54, 0, "the buffer is too short: 54 bytes are needed"),
        (18, 41, 0, "the file is broken at byte 41"),
        (
            19,
            60,
            0,
            "the minute is 60 minutes earlier than the channel's newest reading",
        ),
        (
            19,
            1,
            0,
            "the minute is 1 minute earlier than the channel's newest reading",
        ),
        (
            19,
            0,
            0,
            "the minute is 0 minutes earlier than the channel's newest reading",
        ),
        (
            19,
            11,
            0,
            "the minute is 11 minutes earlier than the channel's newest reading",
        ),
        (
            19,
            u64::MAX,
            0,
            "the minute is 18446744073709551615 minutes earlier than the channel's newest reading",
        ),
    ] {
        assert_eq!(refusal(number, first, second).as_deref(), Some(text));
    }
}

/// A sentence, with the zero behind it, never is longer than 160 bytes.
#[test]
fn the_longest_sentence_fits() {
    let most = u32::MAX;
    let mut sentences = vec![
        pressure(i64::MIN),
        tendency(i64::MIN, u64::MAX),
        wind(most, most),
        humidity(most, most, most, most, i32::MIN),
    ];
    for channel in 0..6 {
        let second = if channel == 5 { 2 } else { most };
        for unit in 0..5 {
            sentences.extend(reading(channel, unit, i32::MIN, second));
        }
        sentences.extend(refusal(11, u64::from(channel), u64::MAX));
    }
    sentences.extend((0..=256).filter_map(|number| refusal(number, u64::MAX, u64::MAX)));
    // Of the 257 numbers 11 has no such channel.
    assert_eq!(sentences.len(), 4 + 6 * 6 + 256);
    let longest = sentences.iter().map(String::len).max();
    assert!(longest < Some(MOST_BYTES), "{longest:?}");
}
