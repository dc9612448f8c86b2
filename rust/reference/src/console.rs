//! The station at a prompt: one command a line, one answer a line.
//!
//! ```text
//! open UNIT H DIFFERENCE COEFFICIENT A READING:CORRECTION ... anemometer RATE:SPEED ...
//! hear HEX
//! note M DIRECTION FIRST SECOND SECONDS
//! pressure M | tendency M | wind M | humidity M
//! read HEX
//! write ROOM P:M:p T:M:change:absent W:M:speed:direction H:M:e:E:d:rh:dew ...
//! ```
//!
//! Of `open` the word `anemometer` and what follows may be left out.

use std::fmt::Display;

use crate::anemometer::{Entry, RatePoint};
use crate::humidity::Humidity;
use crate::listing::{list, LONGEST_LISTING};
use crate::pressure::Tendency;
use crate::settings::{Point, Settings, Unit};
use crate::station::Store;
use crate::watchfile::{self, Body, Record, LONGEST_FILE};
use crate::wind::Wind;

/// A prompt with at most one open store.
#[derive(Default)]
pub struct Console {
    store: Option<Store>,
}

impl Console {
    /// A prompt before any `open`.
    pub fn new() -> Console {
        Console::default()
    }

    /// The answer to one line, each of its lines ended; nothing for an empty line
    /// or one that begins with `#`. Whatever is no command gets a line that says
    /// so and changes nothing.
    pub fn answer(&mut self, line: &str) -> String {
        if line.starts_with('#') || line.trim().is_empty() {
            return String::new();
        }
        let mut words = line.split_whitespace();
        let command = words.next().unwrap_or_default();
        let words: Vec<&str> = words.collect();
        let answer = match command {
            "open" => self.open(&words),
            "hear" => self.hear(&words),
            "note" => self.note(&words),
            "pressure" | "tendency" | "wind" | "humidity" => self.ask(command, &words),
            "read" => read(&words),
            "write" => write(&words),
            _ => None,
        };
        answer.unwrap_or_else(|| "not a command\n".to_string())
    }

    /// A refused opening leaves the store that was open as it was.
    fn open(&mut self, words: &[&str]) -> Option<String> {
        let [unit, height, difference, coefficient, psychrometer, points @ ..] = words else {
            return None;
        };
        let mut lists = points.splitn(2, |word| *word == "anemometer");
        let [readings, rates] = [lists.next(), lists.next()].map(Option::unwrap_or_default);
        let certificate: Vec<Point> = readings.iter().map(|p| point(p)).collect::<Option<_>>()?;
        let anemometer: Vec<RatePoint> =
            rates.iter().map(|p| rate_point(p)).collect::<Option<_>>()?;
        let settings = Settings {
            unit: match *unit {
                "hPa" => Unit::HPa,
                "mmHg" => Unit::MmHg,
                _ => return None,
            },
            height: whole(height)?,
            difference: whole(difference)?,
            coefficient: whole(coefficient)?,
            psychrometer: whole(psychrometer)?,
            certificate: &certificate,
            anemometer: &anemometer,
        };
        Some(match Store::open(&settings) {
            Ok(store) => {
                self.store = Some(store);
                "open\n".to_string()
            }
            Err(refused) => said(refused),
        })
    }

    fn hear(&mut self, words: &[&str]) -> Option<String> {
        let message = bytes(words)?;
        let Some(store) = &mut self.store else {
            return Some(no_store());
        };
        Some(match store.hear(&message) {
            Ok(()) => "heard\n".to_string(),
            Err(refused) => said(refused),
        })
    }

    fn note(&mut self, words: &[&str]) -> Option<String> {
        let numbers: Vec<u32> = words.iter().map(|w| count(w)).collect::<Option<_>>()?;
        let [minute, direction, first, second, seconds] = numbers[..] else {
            return None;
        };
        let entry = Entry {
            minute,
            direction,
            first,
            second,
            seconds,
        };
        let Some(store) = &mut self.store else {
            return Some(no_store());
        };
        Some(match store.note(&entry) {
            Ok(()) => said("noted"),
            Err(refused) => said(refused),
        })
    }

    fn ask(&self, question: &str, words: &[&str]) -> Option<String> {
        let [minute] = words else { return None };
        let minute = count(minute)?;
        let Some(store) = &self.store else {
            return Some(no_store());
        };
        let answer = match question {
            "pressure" => store.pressure(minute).map(Body::Pressure),
            "tendency" => store.tendency(minute).map(Body::Tendency),
            "wind" => store.wind(minute).map(Body::Wind),
            _ => store.humidity(minute).map(Body::Humidity),
        };
        Some(match answer {
            Ok(body) => said(figures(minute, body)),
            Err(refused) => said(refused),
        })
    }
}

/// The listing of the bytes given.
fn read(words: &[&str]) -> Option<String> {
    let file = bytes(words)?;
    let mut room = [0; LONGEST_LISTING];
    let length = list(&file, &mut room);
    String::from_utf8(room[..length].to_vec()).ok()
}

/// The file of the records given, in a buffer of so many bytes. More room than
/// the longest file needs changes no answer.
fn write(words: &[&str]) -> Option<String> {
    let [room, records @ ..] = words else {
        return None;
    };
    let room = usize::try_from(whole(room)?).ok()?.min(LONGEST_FILE);
    let records: Vec<Record> = records.iter().map(|r| record(r)).collect::<Option<_>>()?;
    let mut buffer = [0; LONGEST_FILE];
    Some(match watchfile::write(&records, &mut buffer[..room]) {
        Ok(length) => {
            let hex: String = buffer[..length]
                .iter()
                .map(|byte| format!("{byte:02x}"))
                .collect();
            said(format!("file {hex}"))
        }
        Err(refused) => said(refused),
    })
}

/// A line of the answer.
fn said(line: impl Display) -> String {
    format!("{line}\n")
}

/// The answer where a store is needed and none was opened.
fn no_store() -> String {
    said("no store is open")
}

/// The figures of an answer, in the order of the watch file's body.
fn figures(minute: u32, body: Body) -> String {
    match body {
        Body::Pressure(pressure) => format!("P {minute} {pressure}"),
        Body::Tendency(t) => format!("T {minute} {} {}", t.change, t.absent),
        Body::Wind(w) => format!("W {minute} {} {}", w.speed, w.direction),
        Body::Humidity(h) => format!(
            "H {minute} {} {} {} {} {}",
            h.e, h.saturation, h.deficit, h.relative, h.dew
        ),
    }
}

/// A whole number. One too large for 32 bits becomes the largest of its sign,
/// which lies outside every limit as it does.
fn whole(word: &str) -> Option<i32> {
    let digits = word.strip_prefix('-').unwrap_or(word);
    if digits.is_empty() || !digits.bytes().all(|digit| digit.is_ascii_digit()) {
        return None;
    }
    let end = if word.starts_with('-') {
        i32::MIN
    } else {
        i32::MAX
    };
    Some(word.parse().unwrap_or(end))
}

/// A minute or what is noted, not signed; see [`whole`] for one too large.
fn count(word: &str) -> Option<u32> {
    if word.is_empty() || !word.bytes().all(|digit| digit.is_ascii_digit()) {
        return None;
    }
    Some(word.parse().unwrap_or(u32::MAX))
}

/// Two whole numbers with a colon between.
fn pair(word: &str) -> Option<(i32, i32)> {
    let (left, right) = word.split_once(':')?;
    Some((whole(left)?, whole(right)?))
}

/// `READING:CORRECTION`.
fn point(word: &str) -> Option<Point> {
    let (reading, correction) = pair(word)?;
    Some(Point {
        reading,
        correction,
    })
}

/// `RATE:SPEED`.
fn rate_point(word: &str) -> Option<RatePoint> {
    let (rate, speed) = pair(word)?;
    Some(RatePoint { rate, speed })
}

/// The bytes of at most one word of hexadecimal digits.
fn bytes(words: &[&str]) -> Option<Vec<u8>> {
    let word = match words {
        [] => "",
        [word] => word,
        _ => return None,
    };
    let digits: Vec<u8> = word
        .chars()
        .map(|digit| digit.to_digit(16).map(|digit| digit as u8))
        .collect::<Option<_>>()?;
    if digits.len() % 2 == 1 {
        return None;
    }
    Some(
        digits
            .chunks(2)
            .map(|pair| pair[0] * 16 + pair[1])
            .collect(),
    )
}

/// `P:M:p`, `T:M:change:absent`, `W:M:speed:direction` or `H:M:e:E:d:rh:dew`.
fn record(word: &str) -> Option<Record> {
    let parts: Vec<&str> = word.split(':').collect();
    let [kind, minute, fields @ ..] = parts.as_slice() else {
        return None;
    };
    let fields: Vec<i32> = fields.iter().map(|f| whole(f)).collect::<Option<_>>()?;
    let body = match (*kind, fields.as_slice()) {
        ("P", &[pressure]) => Body::Pressure(pressure),
        ("T", &[change, absent]) => Body::Tendency(Tendency { change, absent }),
        ("W", &[speed, direction]) => Body::Wind(Wind { speed, direction }),
        ("H", &[e, saturation, deficit, relative, dew]) => Body::Humidity(Humidity {
            e,
            saturation,
            deficit,
            relative,
            dew,
        }),
        _ => return None,
    };
    Some(Record {
        minute: count(minute)?,
        body,
    })
}
