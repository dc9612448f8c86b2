//! What both sides are given: settings, messages of whole watches, and records of files.

use reference::anemometer::TABLE_1;
use reference::{
    anemometer, humidity, pressure, settings, station, vapour, watchfile as independent, wind,
};
use zhitomrak::watchfile as proved;
use zhitomrak::{raw, Entry, Settings, Store, Unit};

/// A barometer: its unit, its certificate, and the readings that it has.
pub struct Barometer {
    mm_hg: bool,
    points: [(i32, i32); 5],
    readings: (i32, i32),
}

/// Five points, and with them a height and coefficients that all have work to do.
pub const HPA: Barometer = Barometer {
    mm_hg: false,
    points: [(8500, -12), (9400, 3), (9900, 8), (10300, -4), (11000, 25)],
    readings: (9000, 10800),
};

pub const MM_HG: Barometer = Barometer {
    mm_hg: true,
    points: [(6400, -12), (7000, 3), (7400, 8), (7700, -4), (8250, 25)],
    readings: (6750, 8100),
};

pub fn open_proved(barometer: &Barometer) -> Store {
    let settings = Settings {
        unit: if barometer.mm_hg {
            Unit::MillimetresOfMercury
        } else {
            Unit::Hectopascals
        },
        height: 101,
        difference: -268,
        coefficient: 24,
        psychrometer: 662,
        certificate: barometer.points.into(),
        anemometer: TABLE_1.into(),
    };
    Store::open(&settings).expect("the settings are good")
}

pub fn open_independent(barometer: &Barometer) -> station::Store {
    let certificate = barometer
        .points
        .map(|(reading, correction)| settings::Point {
            reading,
            correction,
        });
    let settings = settings::Settings {
        unit: if barometer.mm_hg {
            settings::Unit::MmHg
        } else {
            settings::Unit::HPa
        },
        height: 101,
        difference: -268,
        coefficient: 24,
        psychrometer: 662,
        certificate: &certificate,
        anemometer: &TABLE_1.map(|(rate, speed)| anemometer::RatePoint { rate, speed }),
    };
    station::Store::open(&settings).expect("the settings are good")
}

/// A certificate that has none of the readings.
pub const NARROW: Barometer = Barometer {
    mm_hg: false,
    points: [
        (10850, -12),
        (10900, 3),
        (10950, 8),
        (10980, -4),
        (11000, 25),
    ],
    readings: (9000, 10800),
};

/// A psychrometer: what is on its wet bulb, the dry bulbs that it has, and by how much the wet one stands below them at most, less what
/// it stands higher.
pub struct Bulbs {
    state: u8,
    dry: (i32, i32),
    below: u32,
    higher: f32,
}

pub const WATER: Bulbs = Bulbs {
    state: 0,
    dry: (-100, 350),
    below: 39,
    higher: 0.0,
};

pub const ICE: Bulbs = Bulbs {
    state: 1,
    dry: (-100, 0),
    below: 9,
    higher: 0.0,
};

/// A wet bulb above the dry one.
pub const CROSSED: Bulbs = Bulbs {
    higher: 5.0,
    ..WATER
};

/// The air in which a state may be unknown.
pub const UNKNOWN: Bulbs = Bulbs {
    state: 2,
    dry: (-99, 0),
    below: 9,
    higher: 0.0,
};

pub type Message = [u8; 16];

fn message(channel: u8, minute: u32, first: f32, second: f32) -> Message {
    let mut m = [0; 16];
    m[0] = channel;
    m[4..8].copy_from_slice(&minute.to_le_bytes());
    m[8..12].copy_from_slice(&first.to_le_bytes());
    if channel == 2 || channel == 3 {
        m[12..].copy_from_slice(&second.to_le_bytes());
    }
    m
}

/// A number from 0 to n - 1 with no pattern.
fn scattered(i: u32, n: u32) -> u32 {
    (i.wrapping_mul(2_654_435_761) ^ i.rotate_left(13).wrapping_mul(40_503)) % n
}

/// All six channels a minute, each minute `step` after the last; values with no pattern.
pub fn watch(barometer: &Barometer, bulbs: &Bulbs, minutes: u32, step: u32) -> Vec<Message> {
    let (low, high) = barometer.readings;
    let mut sent = Vec::new();
    for t in 0..minutes {
        let tenths = |salt: u32, low: i32, high: i32| {
            (low + scattered(t * 8 + salt, (high - low + 1) as u32) as i32) as f32 / 10.0
        };
        let dry = tenths(4, bulbs.dry.0, bulbs.dry.1);
        let below = scattered(t + 3, bulbs.below + 1) as f32 / 10.0;
        let mut wet = message(5, t * step, dry - below + bulbs.higher, 0.0);
        wet[1] = bulbs.state;
        sent.push(message(0, t * step, tenths(0, low, high), 0.0));
        sent.push(message(1, t * step, tenths(1, -100, 400), 0.0));
        sent.push(message(
            2,
            t * step,
            tenths(2, 0, 400),
            scattered(t + 7, 361) as f32,
        ));
        sent.push(message(
            3,
            t * step,
            tenths(3, 0, 300),
            scattered(t + 9, 361) as f32,
        ));
        sent.push(message(4, t * step, dry, 0.0));
        sent.push(wet);
    }
    sent
}

/// The ship's motion of so many minutes, no more than are kept.
pub fn courses(minutes: u32) -> Vec<Message> {
    (0..minutes)
        .map(|t| message(3, t, 12.5, scattered(t + 9, 361) as f32))
        .collect()
}

pub type Entries = (Vec<Entry>, Vec<anemometer::Entry>);

/// An entry for each of so many minutes, at rates with no pattern: of so many divisions within a minute, from the least to the most.
pub fn entries(minutes: u32, (least, most): (u32, u32)) -> Entries {
    (0..minutes)
        .map(|t| {
            let first = scattered(t + 1, 10_000);
            let turns = least + scattered(t + 5, most - least + 1);
            let mine = Entry {
                minute: t,
                direction: scattered(t + 7, 361),
                first,
                second: (first + turns) % 10_000,
                seconds: 60,
            };
            let theirs = anemometer::Entry {
                minute: mine.minute,
                direction: mine.direction,
                first: mine.first,
                second: mine.second,
                seconds: mine.seconds,
            };
            (mine, theirs)
        })
        .unzip()
}

pub type Records = (Vec<proved::Record>, Vec<independent::Record>);

/// So many records of all four kinds, good ones, rising by minute.
pub fn records(count: usize) -> Records {
    let mut both: Records = (Vec::new(), Vec::new());
    for i in 0..count {
        let minute = 200 + 3 * i as u32;
        let n = scattered(i as u32 + 1, 900) as i32;
        let (figures, theirs) = match i % 4 {
            0 => (
                [9000 + n, 0, 0, 0, 0],
                independent::Body::Pressure(9000 + n),
            ),
            1 => {
                let t = pressure::Tendency {
                    change: n - 450,
                    absent: n % 180,
                };
                let figures = [t.change, t.absent, 0, 0, 0];
                (figures, independent::Body::Tendency(t))
            }
            2 => {
                let w = wind::Wind {
                    speed: 1 + n,
                    direction: 1 + n % 360,
                };
                let figures = [w.speed, w.direction, 0, 0, 0];
                (figures, independent::Body::Wind(w))
            }
            _ => {
                let (e, saturation) = (19 + n, 1000 + n);
                let h = humidity::Humidity {
                    e,
                    saturation,
                    deficit: saturation - e,
                    relative: humidity::relative(e, saturation),
                    dew: vapour::dew_point(e).expect("within the table"),
                };
                let figures = [h.e, h.saturation, h.deficit, h.relative, h.dew];
                (figures, independent::Body::Humidity(h))
            }
        };
        let mine = raw::Record {
            kind: 1 + i as u32 % 4,
            minute,
            figures,
        };
        both.0.push(mine.into());
        both.1.push(independent::Record {
            minute,
            body: theirs,
        });
    }
    both
}
