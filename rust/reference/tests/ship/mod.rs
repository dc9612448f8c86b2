//! A ship that sends messages to its store.

#![allow(dead_code)] // each test file uses its own part

use reference::anemometer::{Entry, RatePoint, TABLE_1};
use reference::refusal::Refused;
use reference::settings::{Point, Settings, Unit, USUAL_PSYCHROMETER};
use reference::station::Store;

pub struct Ship {
    pub store: Store,
}

/// A message by channel, minute and two values.
pub fn message(channel: u8, minute: u32, first: f32, second: f32) -> Vec<u8> {
    let mut bytes = vec![channel, 0, 0, 0];
    bytes.extend(minute.to_le_bytes());
    bytes.extend(first.to_le_bytes());
    bytes.extend(second.to_le_bytes());
    bytes
}

/// A message of the wet bulb with its state.
pub fn wet_bulb(minute: u32, state: u8, value: f32) -> Vec<u8> {
    let mut bytes = message(5, minute, value, 0.0);
    bytes[1] = state;
    bytes
}

/// Settings in hPa whose corrections are all 0.
pub fn plain_settings() -> Settings<'static> {
    const NONE: [Point; 2] = [
        Point {
            reading: 8500,
            correction: 0,
        },
        Point {
            reading: 11000,
            correction: 0,
        },
    ];
    Settings {
        unit: Unit::HPa,
        height: 0,
        difference: 0,
        coefficient: 0,
        psychrometer: USUAL_PSYCHROMETER,
        certificate: &NONE,
        anemometer: &[],
    }
}

impl Ship {
    pub fn open(
        unit: Unit,
        height: i32,
        difference: i32,
        coefficient: i32,
        points: &[(i32, i32)],
    ) -> Ship {
        Ship::fitted(unit, height, difference, coefficient, points, &[])
    }

    /// A ship with a hand anemometer, where its certificate has points.
    fn fitted(
        unit: Unit,
        height: i32,
        difference: i32,
        coefficient: i32,
        points: &[(i32, i32)],
        rates: &[(i32, i32)],
    ) -> Ship {
        let anemometer: Vec<RatePoint> = rates
            .iter()
            .map(|&(rate, speed)| RatePoint { rate, speed })
            .collect();
        let certificate: Vec<Point> = points
            .iter()
            .map(|&(reading, correction)| Point {
                reading,
                correction,
            })
            .collect();
        let settings = Settings {
            unit,
            height,
            difference,
            coefficient,
            psychrometer: USUAL_PSYCHROMETER,
            certificate: &certificate,
            anemometer: &anemometer,
        };
        Ship {
            store: Store::open(&settings).expect("the settings are right"),
        }
    }

    /// A ship in hPa whose corrections are all 0.
    pub fn plain() -> Ship {
        Ship::open(Unit::HPa, 0, 0, 0, &[(8500, 0), (11000, 0)])
    }

    /// The same with the hand anemometer of table 1.
    pub fn without_wind_head() -> Ship {
        Ship::fitted(Unit::HPa, 0, 0, 0, &[(8500, 0), (11000, 0)], &TABLE_1)
    }

    /// Minute, compass direction, the dial before and after, the seconds between.
    pub fn notes(
        &mut self,
        [minute, direction, first, second, seconds]: [u32; 5],
    ) -> Result<(), Refused> {
        self.store.note(&Entry {
            minute,
            direction,
            first,
            second,
            seconds,
        })
    }

    pub fn says(&mut self, channel: u8, minute: u32, value: f32) {
        self.says_pair(channel, minute, value, 0.0);
    }

    /// The psychrometer: dry bulb, and wet bulb with its state.
    pub fn says_bulbs(&mut self, minute: u32, dry: f32, state: u8, wet: f32) {
        self.says(4, minute, dry);
        assert_eq!(self.store.hear(&wet_bulb(minute, state, wet)), Ok(()));
    }

    pub fn says_pair(&mut self, channel: u8, minute: u32, first: f32, second: f32) {
        assert_eq!(self.tries(channel, minute, first, second), Ok(()));
    }

    pub fn tries(
        &mut self,
        channel: u8,
        minute: u32,
        first: f32,
        second: f32,
    ) -> Result<(), Refused> {
        self.store.hear(&message(channel, minute, first, second))
    }
}
