//! A store of each side, opened alike and told the same.

use reference::refusal::Refused as Independent;
use reference::{anemometer, settings, station};
use zhitomrak::{
    AnemometerPoint, Entry, Humidity, Point, Refused, Settings, Store, Tendency, Unit, Wind,
};

use crate::random::Random;
use crate::tally::{Answer, Tally, To};

/// The last minute there is.
pub const LAST: u32 = 16_777_215;

/// The limits of a barometer's reading, in tenths of its unit.
pub fn barometer(mm_hg: bool) -> (i32, i32) {
    if mm_hg {
        (6400, 8250)
    } else {
        (8500, 11000)
    }
}

/// Settings that either side can be given.
#[derive(Clone, Debug)]
pub struct Chosen {
    pub mm_hg: bool,
    pub height: i32,
    pub difference: i32,
    pub coefficient: i32,
    pub psychrometer: i32,
    pub points: Vec<(i32, i32)>,
    /// The hand anemometer's: rates and speeds.
    pub rates: Vec<(i32, i32)>,
}

impl Chosen {
    /// Corrections that leave the reading as it is, and no hand anemometer.
    pub fn plain(mm_hg: bool) -> Chosen {
        let (low, high) = barometer(mm_hg);
        Chosen {
            mm_hg,
            height: 0,
            difference: 0,
            coefficient: 0,
            psychrometer: 662,
            points: vec![(low, 0), (high, 0)],
            rates: Vec::new(),
        }
    }

    /// The same with a hand anemometer.
    pub fn with_rates(rates: &[(i32, i32)]) -> Chosen {
        Chosen {
            rates: rates.to_vec(),
            ..Chosen::plain(false)
        }
    }

    /// These settings as the proved side takes them.
    pub fn proved(&self) -> Settings {
        let certificate: Vec<Point> = self.points.iter().map(|&pair| pair.into()).collect();
        let anemometer: Vec<AnemometerPoint> = self.rates.iter().map(|&pair| pair.into()).collect();
        Settings {
            unit: if self.mm_hg {
                Unit::MillimetresOfMercury
            } else {
                Unit::Hectopascals
            },
            height: self.height,
            difference: self.difference,
            coefficient: self.coefficient,
            psychrometer: self.psychrometer,
            certificate: (&certificate[..]).into(),
            anemometer: (&anemometer[..]).into(),
        }
    }

    /// What the independent side does with these settings.
    pub fn independent<T>(&self, open: impl FnOnce(&settings::Settings) -> T) -> T {
        let certificate: Vec<settings::Point> = self
            .points
            .iter()
            .map(|&(reading, correction)| settings::Point {
                reading,
                correction,
            })
            .collect();
        let anemometer: Vec<anemometer::RatePoint> = self
            .rates
            .iter()
            .map(|&(rate, speed)| anemometer::RatePoint { rate, speed })
            .collect();
        open(&settings::Settings {
            unit: if self.mm_hg {
                settings::Unit::MmHg
            } else {
                settings::Unit::HPa
            },
            height: self.height,
            difference: self.difference,
            coefficient: self.coefficient,
            psychrometer: self.psychrometer,
            certificate: &certificate,
            anemometer: &anemometer,
        })
    }

    pub fn line(&self) -> String {
        let unit = if self.mm_hg { "mmHg" } else { "hPa" };
        let list = |pairs: &[(i32, i32)]| -> String {
            pairs.iter().map(|(a, b)| format!(" {a}:{b}")).collect()
        };
        let anemometer = match &self.rates[..] {
            [] => String::new(),
            rates => format!(" anemometer{}", list(rates)),
        };
        format!(
            "open {unit} {} {} {} {}{}{anemometer}",
            self.height,
            self.difference,
            self.coefficient,
            self.psychrometer,
            list(&self.points)
        )
    }
}

pub fn proved_refusal(refused: Refused) -> Answer {
    let (a, b) = match refused {
        Refused::Late { minutes } => (minutes as usize, 0),
        Refused::MissingReading { channel, minute } => (channel as usize, minute as usize),
        Refused::OutsideCertificate { minute } => (minute as usize, 0),
        Refused::BreaksRules { index } => (index, 0),
        Refused::TooShort { bytes } => (bytes, 0),
        Refused::Broken { place } => (place, 0),
        _ => (0, 0),
    };
    Answer::Refused(refused.number(), a, b)
}

pub fn independent_refusal(refused: Independent) -> Answer {
    let (a, b) = match refused {
        Independent::Late { minutes } => (minutes as usize, 0),
        Independent::Absent { channel, minute } => (usize::from(channel), minute as usize),
        Independent::OutsideCertificate { minute } => (minute as usize, 0),
        Independent::Record { index } => (index, 0),
        Independent::Room { needed } => (needed, 0),
        Independent::Broken { place } => (place, 0),
        _ => (0, 0),
    };
    Answer::Refused(u32::from(refused.number()), a, b)
}

/// The figures of answers, in the documents' order. Each fits 32 bits.
pub fn of_tendency(t: Tendency) -> [i32; 5] {
    [t.change.tenths() as i32, t.absent as i32, 0, 0, 0]
}

pub fn of_wind(w: Wind) -> [i32; 5] {
    let (speed, direction) = (w.speed.tenths(), w.direction.degrees());
    [speed as i32, direction as i32, 0, 0, 0]
}

pub fn of_humidity(h: Humidity) -> [i32; 5] {
    [
        h.vapour_pressure.hundredths() as i32,
        h.saturation.hundredths() as i32,
        h.deficit.hundredths() as i32,
        h.relative_humidity as i32,
        h.dew_point.tenths(),
    ]
}

fn proved<T>(answer: Result<T, Refused>, figures: impl FnOnce(T) -> [i32; 5]) -> Answer {
    answer.map_or_else(proved_refusal, |a| Answer::Given(figures(a)))
}

pub fn independent<T>(
    answer: Result<T, Independent>,
    figures: impl FnOnce(T) -> [i32; 5],
) -> Answer {
    answer.map_or_else(independent_refusal, |a| Answer::Given(figures(a)))
}

/// An entry of the hand anemometer: minute, compass direction, first and second dial, seconds.
pub type Noted = [u32; 5];

/// The entry as the proved side has it, and as the independent side does.
pub fn my_entry([minute, direction, first, second, seconds]: Noted) -> Entry {
    Entry {
        minute,
        direction,
        first,
        second,
        seconds,
    }
}

pub fn their_entry([minute, direction, first, second, seconds]: Noted) -> anemometer::Entry {
    anemometer::Entry {
        minute,
        direction,
        first,
        second,
        seconds,
    }
}

/// The command of an entry.
pub fn note_line([minute, direction, first, second, seconds]: Noted) -> String {
    format!("note {minute} {direction} {first} {second} {seconds}\n")
}

/// The command of a message.
pub fn hear_line(message: &[u8]) -> String {
    let hex: String = message.iter().map(|b| format!("{b:02x}")).collect();
    format!("hear {hex}\n")
}

/// What a store was told.
#[derive(Clone)]
enum Told {
    Message(Vec<u8>),
    Entry(Noted),
}

/// The two stores, and what they were told since they were opened.
#[derive(Clone)]
pub struct Pair {
    proved: Store,
    independent: station::Store,
    opened: String,
    told: Vec<Told>,
}

impl Pair {
    /// Opens both and compares what that came to: a pair, where both opened.
    pub fn open(tally: &mut Tally, chosen: &Chosen) -> Option<Pair> {
        let a = Store::open(&chosen.proved());
        let b = chosen.independent(station::Store::open);
        let told = |err: Option<Answer>| err.unwrap_or(Answer::Given([0; 5]));
        tally.answers_to(
            To::Opening,
            "open",
            told(a.as_ref().err().map(|&r| proved_refusal(r))),
            told(b.as_ref().err().map(|&r| independent_refusal(r))),
            || chosen.line(),
        );
        Some(Pair {
            proved: a.ok()?,
            independent: b.ok()?,
            opened: chosen.line(),
            told: Vec::new(),
        })
    }

    /// The commands of the console that lead here.
    fn script(&self, last: String) -> String {
        let told: String = self
            .told
            .iter()
            .map(|told| match told {
                Told::Message(message) => hear_line(message),
                Told::Entry(entry) => note_line(*entry),
            })
            .collect();
        format!("{}\n{told}{last}", self.opened)
    }

    /// Whether the message was heard, which is compared.
    pub fn hear(&mut self, tally: &mut Tally, kind: &'static str, message: &[u8]) -> bool {
        self.told.push(Told::Message(message.to_vec()));
        let a = proved(self.proved.hear(message), |()| [0; 5]);
        let b = independent(self.independent.hear(message), |()| [0; 5]);
        tally.answers_to(To::Message, kind, a, b, || self.script(String::new()));
        matches!(b, Answer::Given(_))
    }

    /// Whether the entry was noted, which is compared.
    pub fn note(&mut self, tally: &mut Tally, kind: &'static str, entry: Noted) -> bool {
        self.told.push(Told::Entry(entry));
        let a = proved(self.proved.note(my_entry(entry)), |()| [0; 5]);
        let b = self.independent.note(&their_entry(entry));
        let b = independent(b, |()| [0; 5]);
        tally.answers_to(To::Entry, kind, a, b, || self.script(String::new()));
        matches!(b, Answer::Given(_))
    }

    pub fn pressure(&self, tally: &mut Tally, kind: &'static str, minute: u32) {
        let a = proved(self.proved.pressure(minute), |p| {
            [p.tenths() as i32, 0, 0, 0, 0]
        });
        let b = independent(self.independent.pressure(minute), |p| [p, 0, 0, 0, 0]);
        tally.answers_to(To::Question, kind, a, b, || {
            self.script(format!("pressure {minute}"))
        });
    }

    pub fn tendency(&self, tally: &mut Tally, kind: &'static str, minute: u32) {
        let a = proved(self.proved.tendency(minute), of_tendency);
        let b = independent(self.independent.tendency(minute), |t| {
            [t.change, t.absent, 0, 0, 0]
        });
        tally.answers_to(To::Question, kind, a, b, || {
            self.script(format!("tendency {minute}"))
        });
    }

    pub fn wind(&self, tally: &mut Tally, kind: &'static str, minute: u32) {
        let a = proved(self.proved.wind(minute), of_wind);
        let b = independent(self.independent.wind(minute), |w| {
            [w.speed, w.direction, 0, 0, 0]
        });
        tally.answers_to(To::Question, kind, a, b, || {
            self.script(format!("wind {minute}"))
        });
    }

    pub fn humidity(&self, tally: &mut Tally, kind: &'static str, minute: u32) {
        let a = proved(self.proved.humidity(minute), of_humidity);
        let b = independent(self.independent.humidity(minute), |h| {
            [h.e, h.saturation, h.deficit, h.relative, h.dew]
        });
        tally.answers_to(To::Question, kind, a, b, || {
            self.script(format!("humidity {minute}"))
        });
    }

    pub fn ask_all(&self, tally: &mut Tally, kind: &'static str, minute: u32) {
        self.pressure(tally, kind, minute);
        self.tendency(tally, kind, minute);
        self.wind(tally, kind, minute);
        self.humidity(tally, kind, minute);
    }

    /// Both as they were before: what they heard since is forgotten.
    pub fn back_to(&mut self, before: &Pair) {
        self.proved.clone_from(&before.proved);
        self.independent.clone_from(&before.independent);
        self.told.truncate(before.told.len());
    }

    /// Only the last n messages and entries still matter, so no more of them are remembered.
    pub fn forget_but(&mut self, n: usize) {
        if self.told.len() > 2 * n {
            self.told.drain(..self.told.len() - n);
        }
    }
}

/// A message: channel, minute and two values, little endian. The second is a direction on channels 2 and 3, the state on channel 5,
/// and on the others there is none.
pub fn message(channel: u8, minute: u32, first: f32, second: f32) -> [u8; 16] {
    let mut m = [0; 16];
    m[0] = channel;
    m[4..8].copy_from_slice(&minute.to_le_bytes());
    m[8..12].copy_from_slice(&first.to_le_bytes());
    match channel {
        2 | 3 => m[12..].copy_from_slice(&second.to_le_bytes()),
        5 => m[1] = second as u8,
        _ => {}
    }
    m
}

/// By how many minutes a message is not later than its channel's newest: none, the least, what is still kept and what no longer, and
/// borders of bytes.
const EARLIER: [u32; 16] = [
    0, 0, 1, 2, 3, 60, 254, 255, 256, 257, 511, 512, 65_535, 65_536, 1_000_000, LAST,
];

/// A minute at or before the newest, and minute 0 where there is none so early.
pub fn not_later(r: &mut Random, newest: u32) -> u32 {
    newest.saturating_sub(r.pick(&EARLIER))
}

/// A message whose values are whole tenths, and whole degrees or a state.
pub fn tenths(channel: u8, minute: u32, first: i32, second: i32) -> [u8; 16] {
    message(channel, minute, first as f32 / 10.0, second as f32)
}
