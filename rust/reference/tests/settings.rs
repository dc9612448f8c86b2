//! The settings of a store, read back.

mod ship;

use reference::anemometer::RatePoint;
use reference::refusal::Refused;
use reference::settings::{Point, Settings, Unit};
use reference::station::Memory;
use ship::{message, plain_settings};

fn points(given: &[(i32, i32)]) -> Vec<Point> {
    let point = |&(reading, correction): &(i32, i32)| Point {
        reading,
        correction,
    };
    given.iter().map(point).collect()
}

fn rate_points(given: &[(i32, i32)]) -> Vec<RatePoint> {
    let point = |&(rate, speed): &(i32, i32)| RatePoint { rate, speed };
    given.iter().map(point).collect()
}

/// The settings are read back as they were given, and open the same store again.
fn come_back(settings: &Settings) {
    let mut memory = Memory::default();
    assert_eq!(memory.open(settings), Ok(()));
    assert_eq!(memory.settings(), Ok(*settings));
    let mut again = Memory::default();
    let read_back = memory.settings().expect("a store is open");
    assert_eq!(again.open(&read_back), Ok(()));
    assert_eq!(again.settings(), Ok(*settings));
}

#[test]
fn settings_come_back_as_they_were_given() {
    // Document 01's case with the difference of the Caspian.
    let certificate = points(&[(7300, -4), (7500, -8)]);
    let anemometer = rate_points(&[(1, 13), (2, 22), (20, 188)]);
    let settings = Settings {
        unit: Unit::MmHg,
        height: 101,
        difference: -268,
        coefficient: 24,
        psychrometer: 662,
        certificate: &certificate,
        anemometer: &anemometer,
    };
    come_back(&settings);
    come_back(&Settings {
        anemometer: &[],
        ..settings
    });
    come_back(&plain_settings());
}

#[test]
fn the_ends_of_every_limit_come_back() {
    let sixteen: Vec<(i32, i32)> = (0..16).map(|i| (8500 + i, 50 - i)).collect();
    let twenty: Vec<(i32, i32)> = (0..20).map(|i| (9980 + i, 731 + i)).collect();
    let (certificate, anemometer) = (points(&sixteen), rate_points(&twenty));
    let least = Settings {
        unit: Unit::HPa,
        height: 0,
        difference: -300,
        coefficient: -50,
        psychrometer: 500,
        certificate: &certificate,
        anemometer: &anemometer,
    };
    come_back(&least);
    let certificate = points(&[(10999, -50), (11000, 50)]);
    let anemometer = rate_points(&[(0, 0), (9999, 750)]);
    come_back(&Settings {
        unit: Unit::HPa,
        height: 600,
        difference: 300,
        coefficient: 50,
        psychrometer: 1000,
        certificate: &certificate,
        anemometer: &anemometer,
    });
}

#[test]
fn messages_do_not_change_them_and_only_an_opening_does() {
    let mut memory = Memory::default();
    assert_eq!(memory.settings(), Err(Refused::NoStore));
    let plain = plain_settings();
    let wrong = Settings {
        height: 601,
        ..plain
    };
    assert_eq!(memory.open(&wrong), Err(Refused::Setting));
    assert_eq!(memory.settings(), Err(Refused::NoStore));
    let long = points(&[(8500, 1), (9000, 2), (11000, 3)]);
    let first = Settings {
        height: 7,
        certificate: &long,
        ..plain
    };
    assert_eq!(memory.open(&first), Ok(()));
    assert_eq!(memory.hear(&message(0, 10, 1000.0, 0.0)), Ok(()));
    assert_eq!(memory.settings(), Ok(first));
    // A refused opening leaves the store that is there.
    assert_eq!(memory.open(&wrong), Err(Refused::Setting));
    assert_eq!(memory.settings(), Ok(first));
    // A shorter certificate leaves nothing of the longer one.
    assert_eq!(memory.open(&plain), Ok(()));
    assert_eq!(memory.settings(), Ok(plain));
    assert_eq!(memory.settings().map(|s| s.certificate.len()), Ok(2));
}
