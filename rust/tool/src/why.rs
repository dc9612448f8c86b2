//! What a refusal's number means. The table is that of docs/REFUSALS.md; what one can do about it stands here.

use crate::fault::{fault, Result};

const TABLE: &str = include_str!("../../../docs/REFUSALS.md");

/// A row of the table: text, given when, also returns.
fn row(number: u32) -> Option<[&'static str; 3]> {
    TABLE.lines().find_map(|line| {
        let cells: Vec<&str> = line.split('|').map(str::trim).collect();
        match cells[..] {
            ["", n, text, when, also, ""] if n.parse() == Ok(number) => Some([text, when, also]),
            _ => None,
        }
    })
}

/// What a person can do about a refusal.
fn advice(number: u32) -> Option<&'static str> {
    Some(match number {
        1 => "The sender was cut off, or sends something else. A message is 16 bytes: docs/FORMAT.md.",
        2..=4 | 6 => "The sender is at fault, or sends something else: docs/FORMAT.md has a message byte by byte.",
        5 => "Minutes are counted from the watch's epoch; the last is some 32 years after it. Begin a new watch.",
        7 => "The instrument is at fault, or set to another unit. Limits: barometer 850.0 to 1100.0 hPa or 640.0 to 825.0 mm Hg; wheelhouse -40.0 to 60.0 °C; wind 0 to 75.0 m/s; ship 0 to 40.0 knots; directions 0 to 360°; bulbs -40.0 to 50.0 °C.",
        8 => "The instrument repeats itself, or the minute was entered before; the first reading of a minute counts. A wrong one can be struck out (`help strike`).",
        9 => "Limits: height 0.0 to 60.0 m; sea level difference -30.0 to 30.0 m; temperature coefficient -0.050 to 0.050 per °C; psychrometer coefficient 0.000500 to 0.001000 per °C.",
        10 => "Rules: 2 to 16 points [reading, correction]; readings 850.0 to 1100.0 hPa or 640.0 to 825.0 mm Hg, each above the one before; corrections -5.0 to 5.0. Is barometer_unit right?",
        25 => "Rules: 2 to 20 points [divisions a second, m/s]; rates 0 to 9999 and speeds 0.0 to 75.0, both above the point before.",
        11 => "That minute is missing, and is not filled by an older one. `zhitomrak status` shows which minutes are there; ask for one that is. A channel keeps its newest minute and the 255 before it.",
        12 => "The certificate in station.toml does not reach that far. A watch with a longer one is a new watch.",
        13 => "Look at the wick: is it wet, is it ice, are the bulbs exchanged?",
        14 => "Ask for minute 180 or later, or for the pressure.",
        15 => "The air is drier than the psychrometer's tables; or a bulb is at fault.",
        16 => "The record says what no watch file may; a file has 48 records at the most.",
        17 => "The tool lends enough; this is for programs.",
        18 => "The file is not one that was saved whole. The place says where it goes wrong: docs/FORMAT.md.",
        19 => "The instrument's clock has gone back, or its messages come out of order: nothing older than the newest is taken. If the newest is wrong, and lies ahead, strike it out (`help strike`).",
        20 | 21 => "Look at the wick, and send or enter the wet bulb with `water` or `ice`.",
        22 => "A bulb is at fault, or the wick carries water and not ice.",
        23 => "Read the dial again: 0 to 9999, and 1 to 600 seconds.",
        24 => "The wind is outside the anemometer's certificate, or station.toml has none.",
        254 => "`zhitomrak show` lists what is in the log.",
        255 => "The tool opens each watch; this is for programs.",
        _ => return None,
    })
}

/// What a number means, for a person.
pub fn why(number: u32) -> Result<String> {
    let Some([text, when, also]) = row(number) else {
        return Err(fault!(
            "no refusal has the number {number}: they are 1 to 25, 254 and 255"
        ));
    };
    let mut told = format!("refused {number}: {text}\n");
    if when.replace("a message", "the message") != text && !when.starts_with("none of") {
        told += &format!("Given when {when}.\n");
    }
    if !also.is_empty() {
        told += &format!("With it come: {also}.\n");
    }
    if let Some(advice) = advice(number) {
        told += &format!("{advice}\n");
    }
    Ok(told)
}

#[cfg(test)]
mod tests {
    use super::*;
    use zhitomrak::{Certificate, Point, Refused, Settings, Store};

    /// Whether a certificate of these points opens a store.
    fn points(pairs: &[(i32, i32)]) -> bool {
        let points: Vec<Point> = pairs.iter().map(|&pair| pair.into()).collect();
        let certificate = Certificate::new(&points);
        Store::open(&Settings {
            certificate,
            ..Settings::default()
        })
        .is_ok()
    }

    /// The limits that are told are those that open a store.
    #[test]
    fn the_limits_told_are_the_library_s() {
        let good = Settings {
            certificate: [(8500, 0), (11000, 0)].into(),
            ..Settings::default()
        };
        let opens = |settings: Settings| Store::open(&settings).is_ok();
        let ends =
            |told: &str, refusal: u32| assert!(why(refusal).unwrap().contains(told), "{told}");
        for (low, high, told, with) in [
            (
                0,
                600,
                "height 0.0 to 60.0 m",
                (|height, good| Settings { height, ..good }) as fn(i32, Settings) -> Settings,
            ),
            (
                -300,
                300,
                "difference -30.0 to 30.0 m",
                |difference, good| Settings { difference, ..good },
            ),
            (
                -50,
                50,
                "coefficient -0.050 to 0.050",
                |coefficient, good| Settings {
                    coefficient,
                    ..good
                },
            ),
            (
                500,
                1000,
                "coefficient 0.000500 to 0.001000",
                |psychrometer, good| Settings {
                    psychrometer,
                    ..good
                },
            ),
        ] {
            assert!(opens(with(low, good)) && opens(with(high, good)), "{told}");
            assert!(
                !opens(with(low - 1, good)) && !opens(with(high + 1, good)),
                "{told}"
            );
            ends(told, 9);
        }
        assert!(points(&[(8500, -50), (11000, 50)]));
        assert!(!points(&[(8499, 0), (11000, 0)]) && !points(&[(8500, 0), (11001, 0)]));
        assert!(!points(&[(8500, -51), (11000, 0)]) && !points(&[(8500, 0), (11000, 51)]));
        let many = |count: i32| (0..count).map(|n| (9000 + n, 0)).collect::<Vec<_>>();
        assert!(points(&many(2)) && points(&many(16)) && !points(&many(1)) && !points(&many(17)));
        ends(
            "2 to 16 points [reading, correction]; readings 850.0 to 1100.0 hPa",
            10,
        );
    }

    #[test]
    fn every_refusal_has_its_row_and_the_library_s_text() {
        for number in (1..=25).chain([254, 255]) {
            let text = Refused::text_of(number).expect("it is one of the library's");
            assert_eq!(row(number).map(|row| row[0]), Some(text));
            assert!(why(number)
                .unwrap()
                .starts_with(&format!("refused {number}: {text}\n")));
        }
        for number in [0, 26, 253, 256] {
            assert_eq!(Refused::text_of(number), None);
            assert!(why(number).is_err());
        }
    }
}
