//! The order of refusals, windows that share nothing, and document 01's slips.

mod ship;

use reference::message::LAST_MINUTE;
use reference::pressure::Tendency;
use reference::refusal::Refused;
use reference::settings::{Settings, Unit};
use reference::station::Store;
use ship::{message, wet_bulb, Ship};

fn absent(channel: u8, minute: u32) -> Refused {
    Refused::Absent { channel, minute }
}

#[test]
fn a_minute_too_late_is_refused_first() {
    let ship = Ship::plain();
    for minute in [LAST_MINUTE + 1, u32::MAX] {
        let late = Refused::MinuteTooLate;
        assert_eq!(ship.store.pressure(minute), Err(late));
        assert_eq!(ship.store.tendency(minute), Err(late));
        assert_eq!(ship.store.wind(minute), Err(late));
        assert_eq!(ship.store.humidity(minute), Err(late));
    }
    assert_eq!(
        ship.store.pressure(LAST_MINUTE),
        Err(absent(0, LAST_MINUTE))
    );
}

#[test]
fn tendency_below_180_is_refused_before_it_looks() {
    let ship = Ship::plain();
    assert_eq!(ship.store.tendency(179), Err(Refused::NoThreeHours));
    assert_eq!(ship.store.tendency(180), Err(absent(0, 0)));
}

#[test]
fn absent_goes_by_minute_then_channel() {
    let mut ship = Ship::open(Unit::HPa, 0, 0, 0, &[(9000, 0), (9500, 0)]);
    let (before, now) = (1000, 1180);
    assert_eq!(ship.store.tendency(now), Err(absent(0, before)));
    // Both readings of channel 0 lie outside the certificate: 12 waits for 11.
    ship.says(0, before, 1000.0);
    assert_eq!(ship.store.tendency(now), Err(absent(1, before)));
    ship.says(1, before, 20.0);
    assert_eq!(ship.store.tendency(now), Err(absent(0, now)));
    ship.says(0, now, 1000.0);
    assert_eq!(ship.store.tendency(now), Err(absent(1, now)));
    ship.says(1, now, 20.0);
    let outside = |minute| Refused::OutsideCertificate { minute };
    assert_eq!(ship.store.tendency(now), Err(outside(before)));
    assert_eq!(ship.store.pressure(now), Err(outside(now)));
}

#[test]
fn the_later_reading_outside_the_certificate_is_named() {
    let mut ship = Ship::open(Unit::HPa, 0, 0, 0, &[(9000, 0), (9500, 0)]);
    for (minute, pressure) in [(1000, 950.0), (1180, 950.1)] {
        ship.says(0, minute, pressure);
        ship.says(1, minute, 20.0);
    }
    let outside = Refused::OutsideCertificate { minute: 1180 };
    assert_eq!(ship.store.tendency(1180), Err(outside));
    assert_eq!(ship.store.pressure(1000), Ok(9500));
}

#[test]
fn wind_and_humidity_look_at_their_own_channels() {
    let mut ship = Ship::open(Unit::HPa, 0, 0, 0, &[(9000, 0), (9500, 0)]);
    assert_eq!(ship.store.wind(9), Err(absent(2, 9)));
    ship.says_pair(2, 9, 10.0, 0.0);
    assert_eq!(ship.store.wind(9), Err(absent(3, 9)));
    assert_eq!(ship.store.humidity(9), Err(absent(0, 9)));
    ship.says(0, 9, 1000.0);
    assert_eq!(ship.store.humidity(9), Err(absent(4, 9)));
    ship.says(4, 9, 5.0);
    assert_eq!(ship.store.humidity(9), Err(absent(5, 9)));
    ship.says(5, 9, 5.1);
    // 12 before 13, and the wheelhouse thermometer is not missed.
    let outside = Refused::OutsideCertificate { minute: 9 };
    assert_eq!(ship.store.humidity(9), Err(outside));
    ship.says(0, 10, 950.0);
    ship.says_bulbs(10, 5.0, 0, 5.1);
    assert_eq!(ship.store.humidity(10), Err(Refused::WetAboveDry));
}

#[test]
fn humidity_tests_the_state_after_12_and_before_15() {
    let mut ship = Ship::open(Unit::HPa, 0, 0, 0, &[(9000, 0), (10000, 0)]);
    for (minute, pressure, dry, state, wet, number) in [
        (10, 1000.1, 0.0, 2, 0.1, 12),
        (11, 1000.0, 5.0, 0, 5.1, 13),
        (12, 1000.0, 0.0, 1, 0.1, 20),
        (13, 1000.0, 0.1, 2, 0.1, 20),
        (14, 1000.0, 0.1, 2, 0.0, 21),
        (15, 1000.0, -10.0, 2, 0.0, 21),
        (16, 1000.0, -10.0, 1, 0.0, 22),
        (17, 1000.0, -9.9, 2, 0.0, 22),
        (18, 1000.0, -40.0, 1, -40.0, 15),
    ] {
        ship.says(0, minute, pressure);
        ship.says_bulbs(minute, dry, state, wet);
        let answer = ship.store.humidity(minute).map_err(Refused::number);
        assert_eq!(answer, Err(number), "minute {minute}");
    }
}

#[test]
fn each_minute_keeps_its_own_state() {
    let mut ship = Ship::plain();
    for (minute, state) in [(9, 1), (10, 0), (11, 2), (12, 0), (13, 1)] {
        ship.says(0, minute, 1000.0);
        ship.says_bulbs(minute, -5.0, state, -5.2);
    }
    let e = |minute| ship.store.humidity(minute).unwrap().e;
    let [water, ice, unknown] = [e(10), e(9), e(11)];
    assert_eq!([water, ice, unknown], [403, 383, 393]);
    assert_eq!([e(12), e(13)], [water, ice]);
}

#[test]
fn a_refused_state_leaves_the_one_that_was_kept() {
    let mut ship = Ship::plain();
    ship.says(0, 9, 1000.0);
    ship.says_bulbs(9, -10.0, 1, -10.0);
    for (minute, state, value, refused) in [
        (10, 3, -10.0, Refused::NoSuchState),
        (10, 255, -10.0, Refused::NoSuchState),
        (10, 2, 50.1, Refused::OutsideLimits),
        (9, 0, -10.0, Refused::Repeated),
        (8, 0, -10.0, Refused::Late { minutes: 1 }),
    ] {
        let answer = ship.store.hear(&wet_bulb(minute, state, value));
        assert_eq!(answer, Err(refused));
    }
    assert_eq!(ship.store.humidity(9).unwrap().e, 260);
    assert_eq!(ship.store.humidity(10), Err(absent(0, 10)));
}

#[test]
fn wet_and_dry_are_compared_as_kept() {
    let mut ship = Ship::plain();
    ship.says(0, 9, 1000.0);
    ship.says(4, 9, 5.01);
    ship.says(5, 9, 5.04);
    assert_eq!(ship.store.humidity(9).unwrap().relative, 100);
}

#[test]
fn tendency_is_the_difference_of_two_rounded_pressures() {
    let mut ship = Ship::open(Unit::MmHg, 0, 0, 0, &[(6400, 0), (8250, 0)]);
    for (minute, pressure) in [(0, 750.0), (180, 750.1)] {
        ship.says(0, minute, pressure);
        ship.says(1, minute, 20.0);
    }
    // 999.9 and 1000.03332 hPa: 1 tenth apart, as 0.1 mm Hg is 0.13332 hPa.
    let rise = |change| Tendency {
        change,
        absent: 179,
    };
    assert_eq!(ship.store.tendency(180), Ok(rise(1)));
    ship.says(0, 181, 750.4);
    ship.says(1, 181, 20.0);
    ship.says(0, 361, 750.5);
    ship.says(1, 361, 20.0);
    // 1000.43328 and 1000.5666: 1000.4 and 1000.6, 2 tenths apart.
    let answer = ship.store.tendency(361).unwrap();
    assert_eq!(answer, rise(2));
}

#[test]
fn scale_and_temperature_are_rounded_and_the_height_is_not() {
    // Scale 0.05 and temperature 0.05: each becomes 0.1. Height 0.05 stays.
    let mut ship = Ship::open(Unit::MmHg, 5, 0, 5, &[(7000, 0), (7002, 1)]);
    ship.says(0, 9, 700.1);
    ship.says(1, 9, 10.0);
    // 700.35 times 1.3332 is 933.707. With 0.1 for the height it would be 933.77, with none of them rounded 933.57.
    assert_eq!(ship.store.pressure(9), Ok(9337));
}

#[test]
fn humidity_takes_the_station_pressure() {
    let settings = [(8500, 0), (11000, 0)];
    let mut low = Ship::open(Unit::HPa, 0, 0, 0, &settings);
    let mut high = Ship::open(Unit::HPa, 600, 300, 50, &settings);
    for ship in [&mut low, &mut high] {
        ship.says(0, 9, 1000.0);
        ship.says(1, 9, 60.0);
        ship.says(4, 9, 50.0);
        ship.says(5, 9, 30.0);
    }
    assert_ne!(low.store.pressure(9), high.store.pressure(9));
    assert_eq!(low.store.humidity(9), high.store.humidity(9));
}

#[test]
fn humidity_in_mm_hg_takes_rounded_hectopascals() {
    let mut ship = Ship::open(Unit::MmHg, 0, 0, 0, &[(6400, 3), (8250, 3)]);
    ship.says(0, 9, 749.8);
    ship.says(4, 9, 34.0);
    ship.says(5, 9, 22.0);
    // 750.1 times 1.3332 is 1000.03332; unrounded it would give an e of 18.25.
    assert_eq!(ship.store.humidity(9).unwrap().e, 1826);
}

#[test]
fn one_channel_moves_no_other_window() {
    let mut ship = Ship::plain();
    for channel in [0, 1, 4, 5] {
        ship.says(channel, 9, if channel == 0 { 1000.0 } else { 5.0 });
    }
    ship.says_pair(2, 9, 5.0, 0.0);
    ship.says_pair(3, 5000, 0.0, 0.0);
    assert_eq!(ship.store.pressure(9), Ok(10000));
    assert!(ship.store.humidity(9).is_ok());
    assert_eq!(ship.store.wind(9), Err(absent(3, 9)));
    ship.says(1, 5000, 5.0);
    assert_eq!(ship.store.pressure(9), Err(absent(1, 9)));
    assert!(ship.store.humidity(9).is_ok());
}

#[test]
fn a_refused_message_changes_nothing() {
    let mut ship = Ship::plain();
    ship.says(0, 300, 1000.0);
    ship.says(1, 300, 20.0);
    let mut wrong = message(0, 301, 1000.0, 0.0);
    wrong[2] = 1;
    assert_eq!(ship.store.hear(&wrong), Err(Refused::NotZero));
    let tries = [
        (ship.tries(0, 301, 1101.0, 0.0), Refused::OutsideLimits),
        (ship.tries(0, 301, f32::NAN, 0.0), Refused::NotFinite),
        (ship.tries(0, 300, 900.0, 0.0), Refused::Repeated),
        (ship.tries(0, 299, 900.0, 0.0), Refused::Late { minutes: 1 }),
        (ship.tries(0, 0, 900.0, 0.0), Refused::Late { minutes: 300 }),
        // 7 before 8 and before 19.
        (ship.tries(0, 300, 1101.0, 0.0), Refused::OutsideLimits),
        (ship.tries(0, 299, 1101.0, 0.0), Refused::OutsideLimits),
        (
            ship.tries(0, LAST_MINUTE + 1, 900.0, 0.0),
            Refused::MinuteTooLate,
        ),
    ];
    for (answer, refused) in tries {
        assert_eq!(answer, Err(refused));
    }
    assert_eq!(ship.store.pressure(300), Ok(10000));
    assert_eq!(ship.store.pressure(301), Err(absent(0, 301)));
    ship.says(0, 301, 1000.0);
}

#[test]
fn repeated_and_late_go_by_the_channel_s_own_newest() {
    let mut ship = Ship::plain();
    let value = [1000.0, 20.0, 5.0, 10.0, 20.0, 15.0];
    // Each channel's first message is earlier than what all before it have heard.
    for (channel, minute) in (0..6).zip([500, 400, 300, 200, 100, 0]) {
        ship.says(channel, minute, value[usize::from(channel)]);
    }
    for (channel, newest) in (0..6).zip([500, 400, 300, 200, 100, 0]) {
        let value = value[usize::from(channel)];
        let again = ship.tries(channel, newest, value, 0.0);
        assert_eq!(again, Err(Refused::Repeated));
        // Channel 5 has no minute before its newest, 0.
        for minutes in [1, 50, newest].into_iter().filter(|_| newest > 0) {
            let late = ship.tries(channel, newest - minutes, value, 0.0);
            assert_eq!(late, Err(Refused::Late { minutes }));
        }
    }
}

#[test]
fn a_message_refused_by_1_to_7_is_not_the_newest() {
    let mut ship = Ship::plain();
    ship.says(5, 100, 15.0);
    let later = |change: fn(&mut Vec<u8>)| {
        let mut bytes = message(5, 200, 15.0, 0.0);
        change(&mut bytes);
        bytes
    };
    let wrong = [
        later(|m| m.truncate(15)),
        later(|m| m[0] = 6),
        later(|m| m[2] = 1),
        later(|m| m[1] = 3),
        later(|m| m[7] = 1),
        later(|m| m[8..12].copy_from_slice(&f32::NAN.to_le_bytes())),
        later(|m| m[8..12].copy_from_slice(&50.1f32.to_le_bytes())),
    ];
    for (number, bytes) in (1..).zip(wrong) {
        let answer = ship.store.hear(&bytes).map_err(Refused::number);
        assert_eq!(answer, Err(number));
        assert_eq!(ship.tries(5, 100, 15.0, 0.0), Err(Refused::Repeated));
        let late = Refused::Late { minutes: 1 };
        assert_eq!(ship.tries(5, 99, 15.0, 0.0), Err(late));
    }
    ship.says(5, 101, 15.0);
}

#[test]
fn a_message_refused_by_1_to_7_is_no_first_one() {
    let mut ship = Ship::plain();
    let outside = ship.tries(4, 200, 50.1, 0.0);
    assert_eq!(outside, Err(Refused::OutsideLimits));
    ship.says(4, 0, 20.0);
    let again = ship.tries(4, 0, 20.0, 0.0);
    assert_eq!(again, Err(Refused::Repeated));
}

#[test]
fn the_absent_count_is_of_the_barometer_between_the_two() {
    let mut ship = Ship::plain();
    for minute in 99..=281 {
        if minute % 3 == 1 || !(101..=279).contains(&minute) {
            ship.says(0, minute, 1000.0);
        }
    }
    for minute in [100, 280] {
        ship.says(1, minute, 20.0);
    }
    // Of 101 to 279 the 59 minutes 103, 106, .. 277 are present.
    let answer = ship.store.tendency(280).unwrap();
    assert_eq!(answer.absent, 179 - 59);
}

#[test]
fn a_refused_opening_gives_no_store() {
    let settings = Settings {
        unit: Unit::HPa,
        height: 0,
        difference: 0,
        coefficient: 0,
        psychrometer: 662,
        certificate: &[],
        anemometer: &[],
    };
    assert_eq!(Store::open(&settings).err(), Some(Refused::Certificate));
}

const GOOD: [u32; 5] = [1000, 90, 0, 300, 60];

/// GOOD with another figure at this place.
fn noted_with(at: usize, value: u32) -> [u32; 5] {
    let mut entry = GOOD;
    entry[at] = value;
    entry
}

#[test]
fn an_entry_is_tested_in_order() {
    let mut ship = Ship::without_wind_head();
    ship.says_pair(2, 1000, 8.0, 40.0);
    // Minute, direction, dials, seconds: all wrong, and then less and less of it. The rate is beyond the certificate too.
    for (entry, refused) in [
        ([LAST_MINUTE + 1, 361, 10_000, 0, 0], Refused::MinuteTooLate),
        ([u32::MAX, 361, 10_000, 0, 0], Refused::MinuteTooLate),
        ([1000, 361, 10_000, 0, 0], Refused::OutsideLimits),
        ([999, u32::MAX, 10_000, 0, 0], Refused::OutsideLimits),
        ([1000, 360, 10_000, 0, 0], Refused::Repeated),
        ([999, 360, 10_000, 0, 0], Refused::Late { minutes: 1 }),
        ([0, 360, 10_000, 0, 0], Refused::Late { minutes: 1000 }),
        ([1001, 360, 10_000, 0, 1], Refused::Dial),
        ([1001, 360, 0, 10_000, 1], Refused::Dial),
        ([1001, 360, 0, 0, 0], Refused::Dial),
        ([1001, 360, 0, 0, 601], Refused::Dial),
        ([1001, 360, 0, 0, 1], absent(3, 1001)),
    ] {
        assert_eq!(ship.notes(entry), Err(refused), "{entry:?}");
    }
    ship.says_pair(3, 1001, 10.0, 0.0);
    assert_eq!(ship.notes([1001, 360, 0, 0, 1]), Err(Refused::Rate));
    assert_eq!(ship.notes([1001, 360, 0, 1, 1]), Ok(()));
    assert_eq!(ship.notes([1001, 360, 0, 1, 1]), Err(Refused::Repeated));
}

#[test]
fn an_entry_needs_the_course_of_its_own_minute() {
    let mut ship = Ship::without_wind_head();
    assert_eq!(ship.notes(GOOD), Err(absent(3, 1000)));
    // The minutes beside it do not help, and one jumped over stays absent.
    ship.says_pair(3, 999, 10.0, 90.0);
    assert_eq!(ship.notes(GOOD), Err(absent(3, 1000)));
    ship.says_pair(3, 1001, 10.0, 90.0);
    assert_eq!(ship.notes(GOOD), Err(absent(3, 1000)));
    assert_eq!(ship.notes(noted_with(0, 1001)), Ok(()));
    // A course that is no longer kept is absent, however new the entry would be.
    let mut ship = Ship::without_wind_head();
    for (minute, expected) in [(1000, Ok(())), (1255, Ok(())), (1256, Err(absent(3, 1000)))] {
        ship.says_pair(3, minute, 10.0, 90.0);
        let mut asked = Ship {
            store: ship.store.clone(),
        };
        assert_eq!(asked.notes(GOOD), expected);
    }
}

#[test]
fn a_refused_entry_changes_nothing() {
    let mut ship = Ship::without_wind_head();
    ship.says_pair(3, 900, 10.0, 90.0);
    ship.says_pair(2, 900, 8.0, 40.0);
    let wind = ship.store.wind(900);
    for (entry, number) in [
        (noted_with(0, LAST_MINUTE + 1), 5),
        (noted_with(1, 361), 7),
        (noted_with(0, 900), 8),
        (noted_with(0, 899), 19),
        (noted_with(2, 10_000), 23),
        (noted_with(0, 901), 11),
    ] {
        assert_eq!(ship.notes(entry).map_err(Refused::number), Err(number));
    }
    ship.says_pair(3, 1000, 10.0, 90.0);
    let beyond = ship.notes(noted_with(3, 9999));
    assert_eq!(beyond, Err(Refused::Rate));
    assert_eq!(ship.store.wind(900), wind);
    assert_eq!(ship.store.wind(1000), Err(absent(2, 1000)));
    // 900 is still the newest of channel 2.
    let again = ship.tries(2, 900, 8.0, 40.0);
    assert_eq!(again, Err(Refused::Repeated));
    assert_eq!(ship.notes(GOOD), Ok(()));
}

#[test]
fn an_entry_moves_channel_2_as_a_message_does() {
    let mut ship = Ship::without_wind_head();
    for minute in [100, 355, 356] {
        ship.says_pair(3, minute, 0.0, 90.0);
    }
    ship.says_pair(2, 100, 8.0, 0.0);
    assert_eq!(ship.notes(noted_with(0, 355)), Ok(()));
    let answers = |ship: &Ship, minute| ship.store.wind(minute).map_err(Refused::number);
    // Channel 3 has let minute 100 go at 356; channel 2 still keeps it.
    assert_eq!(ship.store.wind(100), Err(absent(3, 100)));
    assert_eq!(answers(&ship, 355).unwrap().speed, 49);
    assert_eq!(ship.notes(noted_with(0, 356)), Ok(()));
    assert_eq!(ship.store.wind(100), Err(absent(2, 100)));
    // A message is late by an entry, and an entry by a message.
    let late = Err(Refused::Late { minutes: 1 });
    assert_eq!(ship.tries(2, 355, 8.0, 0.0), late);
    ship.says_pair(2, 357, 8.0, 0.0);
    assert_eq!(ship.notes(noted_with(0, 356)), late);
    // No other channel sees it.
    for channel in [0, 1, 4, 5] {
        ship.says(
            channel,
            0,
            [1000.0, 10.0, 0.0, 0.0, 20.0, 15.0][usize::from(channel)],
        );
    }
    assert_eq!(ship.tries(3, 356, 0.0, 0.0), Err(Refused::Repeated));
}

#[test]
fn the_course_counts_when_the_entry_is_made() {
    let mut ship = Ship::without_wind_head();
    ship.says_pair(3, 1000, 0.0, 350.0);
    assert_eq!(ship.notes(noted_with(1, 10)), Ok(()));
    // The ship lies still: 20 degrees from the bow of a course of 350.
    let answer = ship.store.wind(1000).unwrap();
    assert_eq!((answer.speed, answer.direction), (49, 10));
    // A later course is another minute's.
    ship.says_pair(3, 1001, 0.0, 90.0);
    assert_eq!(ship.store.wind(1000), Ok(answer));
}

#[test]
fn a_ship_without_a_certificate_takes_no_entry() {
    let mut ship = Ship::plain();
    assert_eq!(ship.notes(GOOD), Err(absent(3, 1000)));
    ship.says_pair(3, 1000, 10.0, 90.0);
    for second in [0, 1, 300, 9999] {
        assert_eq!(ship.notes(noted_with(3, second)), Err(Refused::Rate));
    }
    assert_eq!(ship.notes(noted_with(4, 0)), Err(Refused::Dial));
    assert_eq!(ship.store.wind(1000), Err(absent(2, 1000)));
}
