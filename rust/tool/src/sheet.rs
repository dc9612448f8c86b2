//! `station.toml`, the settings of a station as a person writes them: units in the names, decimals as in the instruments' papers. A
//! fault is told with its line; where a rule of the station is broken, with the refusal's number and sentence, as the library gives them.

use std::fmt::Write as _;

use chrono::{DateTime, Utc};
use serde::de::{Deserialize, Deserializer, Visitor};
use toml::Spanned;
use zhitomrak::{
    AnemometerCertificate, AnemometerPoint, Certificate, Point, Refused, Settings, Store, Unit,
};

use crate::fault::{counted, unclear, Fault, Result, NOT_UNDERSTOOD, REFUSED};

/// What a station.toml says.
#[derive(Clone, Debug)]
pub struct Sheet {
    pub settings: Settings,
    pub epoch: Option<DateTime<Utc>>,
}

/// A number; how it is written stands in the text, where its span says.
struct Number;

impl<'de> Deserialize<'de> for Number {
    fn deserialize<D: Deserializer<'de>>(from: D) -> std::result::Result<Number, D::Error> {
        struct Any;
        impl Visitor<'_> for Any {
            type Value = Number;
            fn expecting(&self, line: &mut std::fmt::Formatter<'_>) -> std::fmt::Result {
                line.write_str("a number")
            }
            fn visit_i64<E>(self, _: i64) -> std::result::Result<Number, E> {
                Ok(Number)
            }
            fn visit_f64<E>(self, _: f64) -> std::result::Result<Number, E> {
                Ok(Number)
            }
        }
        from.deserialize_any(Any)
    }
}

type Pairs = Spanned<Vec<Spanned<(Spanned<Number>, Spanned<Number>)>>>;

#[derive(serde::Deserialize)]
#[serde(deny_unknown_fields)]
struct Written {
    epoch: Option<Spanned<toml::value::Datetime>>,
    barometer_unit: Spanned<String>,
    height_m: Spanned<Number>,
    sea_level_difference_m: Option<Spanned<Number>>,
    #[serde(rename = "temperature_coefficient_per_C")]
    temperature_coefficient: Spanned<Number>,
    #[serde(rename = "psychrometer_coefficient_per_C")]
    psychrometer_coefficient: Option<Spanned<Number>>,
    certificate: Pairs,
    anemometer_certificate: Option<Pairs>,
}

/// The text of a station.toml, and the faults found in it so far, each with its line.
struct Text<'a> {
    text: &'a str,
    faults: Vec<(usize, String)>,
}

/// A decimal as written, in parts of `places` places behind the point; why not, where that cannot be.
fn decimal(written: &str, places: usize) -> std::result::Result<i32, String> {
    let plain = written.replace('_', "");
    let (minus, digits) = match plain.strip_prefix('-') {
        Some(rest) => (true, rest),
        None => (false, plain.strip_prefix('+').unwrap_or(&plain)),
    };
    let (whole, behind) = digits.split_once('.').unwrap_or((digits, ""));
    let are_digits = |text: &str| text.bytes().all(|b| b.is_ascii_digit());
    if whole.is_empty() || !are_digits(whole) || !are_digits(behind) {
        return Err("is to be written with digits and a point".into());
    }
    let kept = &behind[..behind.len().min(places)];
    if behind[kept.len()..].bytes().any(|b| b != b'0') {
        return Err(match places {
            0 => "has places behind the point, and is to be whole".into(),
            1 => "has more than one place behind the point".into(),
            _ => format!("has more than {places} places behind the point"),
        });
    }
    let all = format!("{whole}{kept:0<places$}");
    let size: i32 = all.parse().map_err(|_| "is too large".to_string())?;
    Ok(if minus { -size } else { size })
}

/// `refused 9: a setting is outside its limits`.
pub fn refusal(why: Refused) -> String {
    match why.number() {
        0 => why.to_string(),
        number => format!("refused {number}: {why}"),
    }
}

impl Text<'_> {
    /// The line, from 1, of a place.
    fn line(&self, place: usize) -> usize {
        1 + self.text[..place].matches('\n').count()
    }

    /// A number as it is written. (A span of toml's begins behind the point of a number that has one.)
    fn written(&self, number: &Spanned<Number>) -> &str {
        let before = &self.text[..number.start()];
        let is_digit = |b: &u8| b.is_ascii_alphanumeric() || b"+-._".contains(b);
        let more = before.bytes().rev().take_while(is_digit).count();
        &self.text[number.start() - more..number.end()]
    }

    fn fault(&mut self, place: usize, words: String) {
        let line = self.line(place);
        self.faults.push((line, words));
    }

    /// The number of `places` places that is written there; 0, and a fault, where none is.
    fn number(&mut self, name: &str, written: &Spanned<Number>, places: usize) -> i32 {
        let text = self.written(written).to_string();
        decimal(&text, places).unwrap_or_else(|why| {
            let words = format!("{name}: {text} {why}");
            self.fault(written.start(), words);
            0
        })
    }

    /// A certificate's points, in parts of so many places.
    fn points<P: From<(i32, i32)>>(
        &mut self,
        name: &str,
        pairs: &Pairs,
        places: (usize, usize),
    ) -> Vec<P> {
        let mut points = Vec::new();
        for pair in pairs.get_ref() {
            let (first, second) = pair.get_ref();
            let first = self.number(name, first, places.0);
            points.push(P::from((first, self.number(name, second, places.1))));
        }
        points
    }
}

/// Settings in which nothing is wrong, to try one of another sheet in.
fn good(unit: Unit) -> Settings {
    let ends = match unit {
        Unit::Hectopascals => [(8500, 0), (11000, 0)],
        Unit::MillimetresOfMercury => [(6400, 0), (8250, 0)],
    };
    Settings {
        unit,
        certificate: ends.into(),
        ..Settings::default()
    }
}

/// The first point at which a certificate breaks its rules, by what opens: one point is tried between its neighbours by reading, and
/// then as many points as there are up to it. None where it is their number that is wrong.
fn first_wrong<P: Copy>(
    points: &[P],
    neighbours: impl Fn(P) -> [[P; 2]; 2],
    opens: impl Fn(&[P]) -> bool,
) -> Option<usize> {
    let alone = |point: P| neighbours(point).iter().any(|pair| opens(pair));
    (0..points.len()).find(|&i| {
        !alone(points[i]) || (i > 0 && alone(points[i - 1]) && !opens(&points[i - 1..=i]))
    })
}

/// What may be meant where a line is no TOML, or says more or less than it should.
fn hint(line: &str) -> &'static str {
    let said = line.split('#').next().unwrap_or(line);
    let bytes = said.as_bytes();
    let digit = |at: usize| bytes.get(at).is_some_and(u8::is_ascii_digit);
    let comma = (1..bytes.len()).any(|at| bytes[at] == b',' && digit(at - 1) && digit(at + 1));
    let value = said
        .split_once('=')
        .map_or("", |(_, value)| value.trim_start());
    let unit = value.starts_with(|first: char| first.is_ascii_digit() || first == '-')
        && value.contains(|letter: char| letter.is_alphabetic() && !"eE_".contains(letter));
    if said.contains(|letter| matches!(letter, '\u{400}'..='\u{4ff}')) {
        " (there is a Cyrillic letter in this line)"
    } else if said.contains(['\u{2212}', '\u{2013}']) {
        " (a minus is to be -)"
    } else if comma {
        " (a number has a point, as 12.0)"
    } else if unit {
        " (a number stands without its unit)"
    } else {
        ""
    }
}

/// Why a text is no station.toml, with the line.
fn not_toml(name: &str, text: &str, error: &toml::de::Error) -> Fault {
    let message = error.to_string();
    // toml's own words end with the key, and with line and column
    let words = message.split(" at line ").next().unwrap_or(&message);
    if let Some(missing) = words.strip_prefix("missing field ") {
        return unclear!("{name}: it does not say {missing}");
    }
    // of a name, and of a list of another length, toml tells where the table begins
    let named = ["unknown field `", "duplicate field `", "for key `"]
        .into_iter()
        .find_map(|before| words.split_once(before)?.1.split('`').next());
    let its_line = |name: &str| {
        text.lines()
            .collect::<Vec<_>>()
            .iter()
            .rposition(|line| line.trim_start().starts_with(name))
    };
    let line = named
        .and_then(its_line)
        .or(error.line_col().map(|(line, _)| line))
        .unwrap_or(0);
    let words = words.split(" for key `").next().unwrap_or(words);
    unclear!(
        "{name}, line {}: {words}{}",
        line + 1,
        hint(text.lines().nth(line).unwrap_or_default())
    )
}

/// What the text says; or every fault in it, a line for each, with the file's name in front.
pub fn read(name: &str, text: &str) -> Result<Sheet> {
    let told = |line: usize, words: &str| format!("{name}, line {line}: {words}");
    let written: Written = toml::from_str(text).map_err(|error| not_toml(name, text, &error))?;
    let mut text = Text {
        text,
        faults: Vec::new(),
    };
    let unit = match written.barometer_unit.get_ref().as_str() {
        "hPa" => Unit::Hectopascals,
        "mmHg" => Unit::MillimetresOfMercury,
        other => {
            let words = format!("barometer_unit: \"{other}\" is neither \"hPa\" nor \"mmHg\"");
            text.fault(written.barometer_unit.start(), words);
            Unit::Hectopascals
        }
    };
    let settings = settings_of(&written, unit, &mut text);
    let epoch = written.epoch.as_ref().and_then(|epoch| {
        let time = epoch.get_ref().to_string().parse::<DateTime<Utc>>().ok();
        let whole = time.filter(|time| time.timestamp() % 60 == 0);
        if whole.is_none() {
            let words = "epoch: it is to be a day that there is, and a whole minute with its zone, as 2026-11-16T00:00:00Z";
            text.fault(epoch.start(), words.into());
        }
        whole
    });
    if text.faults.is_empty() {
        rules(&written, &settings, &mut text);
    }
    if text.faults.is_empty() {
        return Ok(Sheet { settings, epoch });
    }
    text.faults.sort();
    let lines: Vec<String> = text
        .faults
        .iter()
        .map(|(line, words)| told(*line, words))
        .collect();
    let refused = lines.iter().all(|line| line.contains(": refused "));
    Err(Fault(
        lines.join("\n"),
        if refused { REFUSED } else { NOT_UNDERSTOOD },
    ))
}

/// The settings in the library's whole numbers; what cannot be said in them is a fault.
fn settings_of(written: &Written, unit: Unit, text: &mut Text) -> Settings {
    let mut or = |name: &str, number: &Option<Spanned<Number>>, places, default| match number {
        Some(number) => text.number(name, number, places),
        None => default,
    };
    let difference = or(
        "sea_level_difference_m",
        &written.sea_level_difference_m,
        1,
        0,
    );
    let usual = Settings::default().psychrometer;
    let psychrometer = or(
        "psychrometer_coefficient_per_C",
        &written.psychrometer_coefficient,
        6,
        usual,
    );
    let points: Vec<Point> = text.points("certificate", &written.certificate, (1, 1));
    let rates: Vec<AnemometerPoint> = match &written.anemometer_certificate {
        Some(pairs) => text.points("anemometer_certificate", pairs, (0, 1)),
        None => Vec::new(),
    };
    Settings {
        unit,
        height: text.number("height_m", &written.height_m, 1),
        difference,
        coefficient: text.number(
            "temperature_coefficient_per_C",
            &written.temperature_coefficient,
            3,
        ),
        psychrometer,
        certificate: Certificate::new(&points),
        anemometer: AnemometerCertificate::new(&rates),
    }
}

/// Why settings open no store.
fn refused(settings: Settings) -> Option<Refused> {
    Store::open(&settings).err()
}

/// Good settings with this certificate of the barometer.
fn with_points(unit: Unit, points: &[Point]) -> Settings {
    Settings {
        certificate: Certificate::new(points),
        ..good(unit)
    }
}

/// Good settings with this certificate of the anemometer.
fn with_rates(unit: Unit, points: &[AnemometerPoint]) -> Settings {
    Settings {
        anemometer: AnemometerCertificate::new(points),
        ..good(unit)
    }
}

/// Every rule that the settings break, each told where it is broken: the library is asked of each setting by itself.
fn rules(written: &Written, settings: &Settings, text: &mut Text) {
    let unit = settings.unit;
    let mut single = |name: &str, number: Option<&Spanned<Number>>, settings: Settings| {
        if let (Some(number), Some(why)) = (number, refused(settings)) {
            let words = format!("{name} = {}: {}", text.written(number), refusal(why));
            text.fault(number.start(), words);
        }
    };
    single(
        "height_m",
        Some(&written.height_m),
        Settings {
            height: settings.height,
            ..good(unit)
        },
    );
    let difference = written.sea_level_difference_m.as_ref();
    single(
        "sea_level_difference_m",
        difference,
        Settings {
            difference: settings.difference,
            ..good(unit)
        },
    );
    let coefficient = Some(&written.temperature_coefficient);
    single(
        "temperature_coefficient_per_C",
        coefficient,
        Settings {
            coefficient: settings.coefficient,
            ..good(unit)
        },
    );
    let psychrometer = written.psychrometer_coefficient.as_ref();
    single(
        "psychrometer_coefficient_per_C",
        psychrometer,
        Settings {
            psychrometer: settings.psychrometer,
            ..good(unit)
        },
    );

    if let Some(why) = refused(Settings {
        certificate: settings.certificate,
        ..good(unit)
    }) {
        let beside = |p: Point| {
            let other = |by: i32| Point {
                reading: p.reading.saturating_add(by),
                correction: 0,
            };
            [[other(-1), p], [p, other(1)]]
        };
        let opens = |points: &[Point]| refused(with_points(unit, points)).is_none();
        let wrong = first_wrong(settings.certificate.as_slice(), beside, opens);
        told_of(text, "certificate", &written.certificate, wrong, why);
    }
    let Some(pairs) = &written.anemometer_certificate else {
        return;
    };
    if let Some(why) = refused(Settings {
        anemometer: settings.anemometer,
        ..good(unit)
    }) {
        let beside = |p: AnemometerPoint| {
            let other = |by: i32| AnemometerPoint {
                rate: p.rate.saturating_add(by),
                speed: p.speed.saturating_add(by),
            };
            [[other(-1), p], [p, other(1)]]
        };
        let opens = |points: &[AnemometerPoint]| refused(with_rates(unit, points)).is_none();
        let wrong = first_wrong(settings.anemometer.as_slice(), beside, opens);
        told_of(text, "anemometer_certificate", pairs, wrong, why);
    } else if pairs.get_ref().is_empty() {
        let words = "anemometer_certificate: it has no points; leave it out where there is no such instrument";
        text.fault(pairs.start(), words.into());
    }
}

/// Tells of a certificate that breaks its rules, at the point that does, or that the number of points is wrong.
fn told_of(text: &mut Text, name: &str, pairs: &Pairs, wrong: Option<usize>, why: Refused) {
    match wrong.and_then(|index| pairs.get_ref().get(index)) {
        Some(pair) => {
            let shown = text.text[pair.start()..pair.end()].to_string();
            text.fault(
                pair.start(),
                format!("{name}: {}, first at {shown}", refusal(why)),
            );
        }
        None => {
            let count = counted(pairs.get_ref().len(), "point");
            text.fault(
                pairs.start(),
                format!("{name}: {}: it has {count}", refusal(why)),
            );
        }
    }
}

/// A number of parts as a decimal: 120 of one place is `12.0`.
fn shown(parts: i32, places: usize) -> String {
    let scale = 10_u32.pow(places as u32);
    let sign = if parts < 0 { "-" } else { "" };
    let size = parts.unsigned_abs();
    match places {
        0 => format!("{sign}{size}"),
        _ => format!("{sign}{}.{:0places$}", size / scale, size % scale),
    }
}

/// The settings as a station.toml that says them.
pub fn write(sheet: &Sheet) -> String {
    let settings = &sheet.settings;
    let mut text = String::new();
    if let Some(epoch) = sheet.epoch {
        let _ = writeln!(text, "epoch = {}", epoch.format("%Y-%m-%dT%H:%M:%SZ"));
    }
    let unit = match settings.unit {
        Unit::Hectopascals => "hPa",
        Unit::MillimetresOfMercury => "mmHg",
    };
    let pairs = |points: Vec<(i32, i32)>, places: usize| {
        let shown: Vec<String> = points
            .iter()
            .map(|&(a, b)| format!("[{}, {}]", shown(a, places), shown(b, 1)))
            .collect();
        format!("[{}]", shown.join(", "))
    };
    let _ = writeln!(text, "barometer_unit = \"{unit}\"");
    let _ = writeln!(text, "height_m = {}", shown(settings.height, 1));
    let _ = writeln!(
        text,
        "sea_level_difference_m = {}",
        shown(settings.difference, 1)
    );
    let _ = writeln!(
        text,
        "temperature_coefficient_per_C = {}",
        shown(settings.coefficient, 3)
    );
    let _ = writeln!(
        text,
        "psychrometer_coefficient_per_C = {}",
        shown(settings.psychrometer, 6)
    );
    let points = settings
        .certificate
        .as_slice()
        .iter()
        .map(|p| (p.reading, p.correction))
        .collect();
    let _ = writeln!(text, "certificate = {}", pairs(points, 1));
    if !settings.anemometer.as_slice().is_empty() {
        let points = settings
            .anemometer
            .as_slice()
            .iter()
            .map(|p| (p.rate, p.speed))
            .collect();
        let _ = writeln!(text, "anemometer_certificate = {}", pairs(points, 0));
    }
    text
}

#[cfg(test)]
mod tests {
    use super::*;

    const GOOD: &str = "epoch = 2026-11-16T00:00:00Z\nbarometer_unit = \"hPa\"\nheight_m = 12.0\n\
        temperature_coefficient_per_C = -0.002\ncertificate = [[850.0, 0.0], [950.0, -0.3], [1050.0, 0.2], [1100.0, 0.4]]\n\
        anemometer_certificate = [[1, 1.3], [5, 4.9], [20, 18.8]]\n";

    fn faults(text: &str) -> String {
        read("s.toml", text).expect_err(text).0
    }

    #[test]
    fn what_is_written_is_said_in_whole_numbers() {
        let sheet = read("s.toml", GOOD).unwrap();
        let s = sheet.settings;
        assert_eq!(
            (s.height, s.difference, s.coefficient, s.psychrometer),
            (120, 0, -2, 662)
        );
        assert_eq!(
            s.certificate,
            [(8500, 0), (9500, -3), (10500, 2), (11000, 4)].into()
        );
        assert_eq!(s.anemometer, [(1, 13), (5, 49), (20, 188)].into());
        assert_eq!(sheet.epoch.unwrap().timestamp(), 1_794_787_200);
        // and back
        let again = read("s.toml", &write(&sheet)).unwrap();
        assert_eq!((again.settings, again.epoch), (s, sheet.epoch));
    }

    #[test]
    fn every_fault_has_its_line() {
        let wrong = GOOD
            .replace("12.0", "60.1")
            .replace("-0.002", "0.051")
            .replace("[950.0, -0.3]", "[850.0, -0.3]");
        assert_eq!(
            faults(&wrong),
            "s.toml, line 3: height_m = 60.1: refused 9: a setting is outside its limits\n\
             s.toml, line 4: temperature_coefficient_per_C = 0.051: refused 9: a setting is outside its limits\n\
             s.toml, line 5: certificate: refused 10: the barometer's certificate breaks its rules, first at [850.0, -0.3]"
        );
        for (from, to, said) in [
            ("12.0", "12.05", "line 3: height_m: 12.05 has more than one place behind the point"),
            ("12.0", "1e1", "line 3: height_m: 1e1 is to be written with digits and a point"),
            ("12.0", "nan", "line 3: height_m: nan is to be written"),
            ("12.0", "99999999999", "line 3: height_m: 99999999999 is too large"),
            ("12.0", "\"12\"", "line 3: "),
            ("height_m", "height_ft", "line 3: unknown field `height_ft`"),
            ("12.0\n", "12.0\nheight_m = 13.0\n", "line 4: duplicate field `height_m`"),
            ("-0.3]", "-0,3]", "line 5: invalid length 3, expected 2 elements in sequence (a number has a point, as 12.0)"),
            ("12.0", "12,0", "line 3: expected newline, found a comma (a number has a point, as 12.0)"),
            ("12.0", "12.0 m", "line 3: expected newline, found an identifier (a number stands without its unit)"),
            ("height_m", "h\u{435}ight_m", "(there is a Cyrillic letter in this line)"),
            ("-0.002", "\u{2212}0.002", "(a minus is to be -)"),
            ("2026-11-16", "2026-11-31", "line 1: epoch: it is to be a day that there is"),
            ("height_m = 12.0\n", "", "it does not say `height_m`"),
            ("12.0", "12.0 13", "line 3: "),
            ("\"hPa\"", "\"kPa\"", "line 2: barometer_unit: \"kPa\" is neither"),
            ("00:00:00Z", "00:00:30Z", "line 1: epoch"),
            ("00:00:00Z", "00:00:00", "line 1: epoch"),
            ("[850.0, 0.0]", "[849.9, 0.0]", "line 5: certificate: refused 10: the barometer's certificate breaks its rules, first at [849.9, 0.0]"),
            ("[1100.0, 0.4]", "[1100.0, 5.1]", "first at [1100.0, 5.1]"),
            (", [950.0, -0.3], [1050.0, 0.2], [1100.0, 0.4]", "", "it has 1 point"),
            ("[5, 4.9]", "[5, 1.3]", "line 6: anemometer_certificate: refused 25: the anemometer's certificate breaks its rules, first at [5, 1.3]"),
            ("[1, 1.3], [5, 4.9], [20, 18.8]", "[1, 1.3]", "it has 1 point"),
            ("[1, 1.3], [5, 4.9], [20, 18.8]", "", "leave it out"),
            ("[1, 1.3]", "[1.5, 1.3]", "is to be whole"),
        ] {
            let told = faults(&GOOD.replace(from, to));
            assert!(told.contains(said), "{from} -> {to}: {told}");
        }
    }

    #[test]
    fn too_many_points_are_told_by_their_number() {
        let points: Vec<String> = (0..17).map(|i| format!("[{}.0, 0.0]", 900 + i)).collect();
        let text = GOOD.replace(
            "[850.0, 0.0], [950.0, -0.3], [1050.0, 0.2], [1100.0, 0.4]",
            &points.join(", "),
        );
        assert!(faults(&text).contains(
            "refused 10: the barometer's certificate breaks its rules: it has 17 points"
        ));
    }

    #[test]
    fn a_decimal_is_exact() {
        for (text, places, parts) in [
            ("12.0", 1, 120),
            ("-0.3", 1, -3),
            ("12", 1, 120),
            ("0.000662", 6, 662),
            ("1_000.50", 1, 10005),
            ("+5", 0, 5),
        ] {
            assert_eq!(decimal(text, places), Ok(parts), "{text}");
            assert_eq!(decimal(&shown(parts, places), places), Ok(parts));
        }
        for (text, places) in [
            ("12.05", 1),
            ("1.5", 0),
            (".5", 1),
            ("inf", 1),
            ("0x10", 0),
            ("", 1),
            ("2147483648", 0),
        ] {
            assert!(decimal(text, places).is_err(), "{text}");
        }
    }
}
