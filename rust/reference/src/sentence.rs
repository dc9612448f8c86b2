//! What people read: an answer, a reading or a refusal as a sentence.
//!
//! Figures may be any numbers of their types. The documents have no words for a channel
//! above 5, a unit above 4 or a wet bulb's state above 2: there is no sentence then.

/// "A sentence, in UTF-8, with a zero behind it", is at most so many bytes.
pub const MOST_BYTES: usize = 160;

/// `1005.7 hPa at sea level`, from tenths.
pub fn pressure(tenths: i64) -> String {
    format!("{} hPa at sea level", in_tenths(tenths))
}

/// `-0.1 hPa in three hours, 11 minutes without a reading`, from tenths. A rise has its
/// plus, no change no sign.
pub fn tendency(change: i64, absent: u64) -> String {
    let plus = if change > 0 { "+" } else { "" };
    format!(
        "{plus}{} hPa in three hours, {} without a reading",
        in_tenths(change),
        minutes(absent)
    )
}

/// `4.5 m/s from 166°`, from tenths of m/s; `calm` where the speed is 0.
pub fn wind(speed: u32, direction: u32) -> String {
    if speed == 0 {
        return "calm".to_string();
    }
    format!("{} m/s from {direction}°", in_tenths(i64::from(speed)))
}

/// `vapour pressure 9.10 hPa, saturation 12.00 hPa, deficit 2.90 hPa, relative humidity
/// 76 %, dew point 5.5 °C`, from hundredths of hPa and tenths of a degree.
pub fn humidity(
    vapour_pressure: u32,
    saturation: u32,
    deficit: u32,
    relative: u32,
    dew_point: i32,
) -> String {
    format!(
        "vapour pressure {} hPa, saturation {} hPa, deficit {} hPa, \
         relative humidity {relative} %, dew point {} °C",
        in_hundredths(vapour_pressure),
        in_hundredths(saturation),
        in_hundredths(deficit),
        in_tenths(i64::from(dew_point))
    )
}

/// A reading as it is kept, the first figure in tenths: `1004.2 hPa`, `753.1 mm Hg`,
/// `12.4 °C`, `8.5 m/s, 30° from the bow`, `10.2 knots, course 45°`, `9.8 °C, water on
/// it`.
pub fn reading(channel: u32, unit: u32, first: i32, second: u32) -> Option<String> {
    let figure = in_tenths(i64::from(first));
    let unit = match unit {
        0 => "hPa",
        1 => "mm Hg",
        2 => "°C",
        3 => "m/s",
        4 => "knots",
        _ => return None,
    };
    Some(match (channel, second) {
        (0 | 1 | 4, _) => format!("{figure} {unit}"),
        (2, degrees) => format!("{figure} {unit}, {degrees}° from the bow"),
        (3, degrees) => format!("{figure} {unit}, course {degrees}°"),
        (5, 0) => format!("{figure} {unit}, water on it"),
        (5, 1) => format!("{figure} {unit}, ice on it"),
        (5, 2) => format!("{figure} {unit}, state unknown"),
        _ => return None,
    })
}

/// Any refusal by its number and what it also returns: 11 channel and minute, 12 the
/// minute, 16 an index, 17 bytes, 18 a place, 19 minutes.
pub fn refusal(number: u32, first: u64, second: u64) -> Option<String> {
    let text = match number {
        0 => "nothing is refused",
        1 => "the message is not 16 bytes",
        2 => "the channel is above 5",
        3 => "a byte of the message that must be zero is not",
        4 => "the state of the wet bulb is above 2",
        5 => "the minute is above 16777215",
        6 => "a value is infinite or not a number",
        7 => "a value is outside its limits",
        8 => "the minute is that of the channel's newest reading",
        9 => "a setting is outside its limits",
        10 => "the barometer's certificate breaks its rules",
        11 => {
            let instrument = instrument(first)?;
            return Some(format!("{instrument} has no reading at minute {second}"));
        }
        12 => {
            return Some(format!(
                "the barometer at minute {first} is outside its certificate"
            ))
        }
        13 => "the wet bulb is above the dry bulb, with water on it",
        14 => "there are no three hours before the minute",
        15 => "the vapour pressure is below 0.19 hPa",
        16 => {
            return Some(format!(
                "record {first}, counted from 0, breaks the rules of the file, or is one too many"
            ))
        }
        17 => return Some(format!("the buffer is too short: {first} bytes are needed")),
        18 => return Some(format!("the file is broken at byte {first}")),
        19 => {
            let late = minutes(first);
            return Some(format!(
                "the minute is {late} earlier than the channel's newest reading"
            ));
        }
        20 => "the wet bulb is above 0.0 °C, and not with water on it",
        21 => "the wet bulb's state is unknown, and the dry bulb not within -9.9 to 0.0 °C",
        22 => "the vapour pressure is above saturation over water at the dry bulb",
        23 => "a dial is above 9999, or the seconds are not 1 to 600",
        24 => "the rate is outside the anemometer's certificate, or there is none",
        25 => "the anemometer's certificate breaks its rules",
        254 => "there is no such record",
        255 => "the store was never opened",
        _ => return Some(format!("no refusal has the number {number}")),
    };
    Some(text.to_string())
}

/// What a channel is called.
fn instrument(channel: u64) -> Option<&'static str> {
    Some(match channel {
        0 => "the barometer",
        1 => "the wheelhouse thermometer",
        2 => "the apparent wind",
        3 => "the ship's motion",
        4 => "the dry bulb",
        5 => "the wet bulb",
        _ => return None,
    })
}

/// `1 minute`, and of every other number `minutes`.
fn minutes(number: u64) -> String {
    match number {
        1 => "1 minute".to_string(),
        _ => format!("{number} minutes"),
    }
}

/// Tenths with their point, and a minus below zero.
fn in_tenths(tenths: i64) -> String {
    let minus = if tenths < 0 { "-" } else { "" };
    let size = tenths.unsigned_abs();
    format!("{minus}{}.{}", size / 10, size % 10)
}

/// Hundredths with their point.
fn in_hundredths(hundredths: u32) -> String {
    format!("{}.{:02}", hundredths / 100, hundredths % 100)
}
