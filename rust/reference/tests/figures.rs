//! "Figures on both sides" of document 01, as document 02 has changed them, worked through a store from messages.

mod ship;

use reference::humidity::{Humidity, Psychrometer};
use reference::message::BulbState;
use reference::pressure::Tendency;
use reference::refusal::Refused;
use reference::settings::Unit;
use reference::vapour::vapour;
use reference::wind::{true_wind, Wind};
use ship::Ship;

const CERTIFICATE: [(i32, i32); 2] = [(7300, -4), (7500, -8)];

fn wind(speed: i32, direction: i32) -> Wind {
    Wind { speed, direction }
}

#[test]
fn sea_level_pressure() {
    for (difference, pressure) in [(0, 9900), (-268, 9865)] {
        let mut ship = Ship::open(Unit::MmHg, 101, difference, 24, &CERTIFICATE);
        ship.says(0, 9, 741.9);
        ship.says(1, 9, 12.4);
        assert_eq!(ship.store.pressure(9), Ok(pressure));
    }
}

#[test]
fn winds() {
    for (course, knots, degrees, metres, expected) in [
        (260.0, 12.5, 40.0, 2.5, wind(48, 60)),
        (30.0, 10.0, 0.0, 0.0, wind(51, 210)),
        (90.0, 10.0, 0.0, 5.0, wind(1, 270)),
        (350.0, 0.0, 20.0, 8.0, wind(80, 10)),
        (0.0, 0.0, 0.0, 10.0, wind(100, 360)),
        (0.0, 0.0, 0.0, 0.0, wind(0, 0)),
    ] {
        let mut ship = Ship::plain();
        ship.says_pair(2, 9, metres, degrees);
        ship.says_pair(3, 9, knots, course);
        assert_eq!(ship.store.wind(9), Ok(expected));
        let [course, knots, metres, degrees] =
            [course, knots * 10.0, metres * 10.0, degrees].map(|value| value as i32);
        assert_eq!(true_wind(course, knots, metres, degrees), expected);
    }
}

#[test]
fn humidities() {
    let warm = Humidity {
        e: 1366,
        saturation: 2335,
        deficit: 969,
        relative: 59,
        dew: 116,
    };
    let freezing = Humidity {
        e: 611,
        saturation: 611,
        deficit: 0,
        relative: 100,
        dew: 0,
    };
    let coldest = Humidity {
        e: 19,
        saturation: 19,
        deficit: 0,
        relative: 100,
        dew: -399,
    };
    // "It must give 2.60 hPa at -10.0", which is 91 % (004, appendix В).
    let iced = Humidity {
        e: 260,
        saturation: 287,
        deficit: 27,
        relative: 91,
        dew: -112,
    };
    for (dry, state, wet, expected) in [
        (20.0, 0, 15.0, Ok(warm)),
        (0.0, 0, 0.0, Ok(freezing)),
        (-40.0, 0, -40.0, Ok(coldest)),
        (30.0, 0, 5.0, Err(Refused::TooDry)),
        (-10.0, 1, -10.0, Ok(iced)),
        (0.0, 1, 0.0, Ok(freezing)),
        (0.0, 2, 0.0, Ok(freezing)),
    ] {
        let mut ship = Ship::plain();
        ship.says(0, 9, 1000.0);
        ship.says_bulbs(9, dry, state, wet);
        assert_eq!(ship.store.humidity(9), expected);
        let [dry, wet] = [dry, wet].map(|value: f32| (value * 10.0) as i32);
        let air = Psychrometer {
            dry,
            wet,
            state: BulbState::of(state).expect("a state"),
            pressure: 10000,
            coefficient: 662,
        };
        assert_eq!(air.humidity(vapour()), expected);
    }
}

#[test]
fn tendency_over_a_silent_watch() {
    let mut ship = Ship::plain();
    for (minute, pressure) in [(100, 1001.8), (280, 1000.0)] {
        ship.says(0, minute, pressure);
        ship.says(1, minute, 15.0);
    }
    let level = Tendency {
        change: -18,
        absent: 179,
    };
    assert_eq!(ship.store.tendency(280), Ok(level));
    ship.says(0, 400, 1000.0);
    ship.says(1, 400, 15.0);
    let missing = Refused::Absent {
        channel: 0,
        minute: 220,
    };
    assert_eq!(ship.store.tendency(400), Err(missing));
}

/// The wind of an entry is that of the message of channel 2 that says what is kept:
/// by table 1 of 004, with a ship under way, so that speed and direction both tell.
#[test]
fn winds_by_the_hand_anemometer() {
    for (course, direction, [first, second, seconds], metres, degrees) in [
        // A point: 5 divisions a second.
        (0.0, 90, [100, 400, 60], 4.9, 90.0),
        // The dial passes 9999: 60 divisions in 30 seconds.
        (0.0, 90, [9970, 30, 30], 2.2, 90.0),
        // Both ends, 1 and 20 divisions a second.
        (0.0, 90, [0, 600, 600], 1.3, 90.0),
        (0.0, 90, [9999, 1, 2], 1.3, 90.0),
        (0.0, 90, [0, 9980, 499], 18.8, 90.0),
        // 1.5 divisions a second: 1.75, and so 1.8.
        (0.0, 90, [0, 150, 100], 1.8, 90.0),
        // Compass direction less course.
        (350.0, 10, [0, 300, 60], 4.9, 20.0),
        (0.0, 360, [0, 300, 60], 4.9, 0.0),
        (0.0, 0, [0, 300, 60], 4.9, 0.0),
        (360.0, 360, [0, 300, 60], 4.9, 0.0),
        (1.0, 0, [0, 300, 60], 4.9, 359.0),
        (359.0, 360, [0, 300, 60], 4.9, 1.0),
        (260.0, 300, [0, 300, 60], 4.9, 40.0),
    ] {
        let (mut noted, mut heard) = (Ship::without_wind_head(), Ship::plain());
        for ship in [&mut noted, &mut heard] {
            ship.says_pair(3, 9, 12.5, course);
        }
        assert_eq!(noted.notes([9, direction, first, second, seconds]), Ok(()));
        heard.says_pair(2, 9, metres, degrees);
        let answer = noted.store.wind(9);
        assert!(answer.is_ok());
        assert_eq!(answer, heard.store.wind(9), "{direction} less {course}");
    }
}

#[test]
fn rates_beyond_the_hand_anemometers_certificate() {
    let mut ship = Ship::without_wind_head();
    ship.says_pair(3, 9, 0.0, 0.0);
    // One division less than 1 a second, and one more than 20.
    for [second, seconds] in [[599, 600], [0, 1], [9981, 499], [21, 1]] {
        let answer = ship.notes([9, 90, 0, second, seconds]);
        assert_eq!(answer, Err(Refused::Rate));
    }
    assert_eq!(ship.notes([9, 90, 0, 20, 1]), Ok(()));
    // The ship lies still, so the true wind is the one noted.
    assert_eq!(ship.store.wind(9), Ok(wind(188, 90)));
}
