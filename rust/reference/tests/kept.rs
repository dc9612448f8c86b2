//! What is kept, asked by channel: newest minutes, readings, stretches.

mod ship;

use reference::message::LAST_MINUTE;
use reference::refusal::Refused;
use reference::settings::Unit;
use reference::station::{Kept, Memory};
use ship::{message, wet_bulb, Ship};

fn absent(channel: u8, minute: u32) -> Refused {
    Refused::Absent { channel, minute }
}

/// What a channel keeps: its unit, and two figures.
fn kept(channel: u32, unit: u32, first: i32, second: u32) -> Result<Kept, Refused> {
    Ok(Kept {
        channel,
        unit,
        first,
        second,
    })
}

#[test]
fn memory_that_was_never_opened_answers_255_first() {
    let memory = Memory::default();
    for channel in [0, 5, 6, u32::MAX] {
        assert_eq!(memory.newest(channel), Err(Refused::NoStore));
        let reading = memory.reading(channel, u32::MAX);
        assert_eq!(reading, Err(Refused::NoStore));
        assert_eq!(memory.stretch(channel, 0, 3), Err(Refused::NoStore));
    }
}

#[test]
fn a_channel_above_5_is_refused_before_its_minute() {
    let ship = Ship::plain();
    for channel in [6, 255, 256, 65_536, u32::MAX] {
        let unknown = Refused::UnknownChannel;
        assert_eq!(ship.store.newest(channel), Err(unknown));
        assert_eq!(ship.store.reading(channel, 7), Err(unknown));
        assert_eq!(ship.store.reading(channel, LAST_MINUTE + 1), Err(unknown));
        assert_eq!(ship.store.stretch(channel, 7, 0), Err(unknown));
        assert_eq!(ship.store.stretch(channel, u32::MAX, 9), Err(unknown));
    }
}

#[test]
fn the_newest_minute_is_each_channels_own() {
    let mut ship = Ship::plain();
    for channel in 0..6u8 {
        let nothing = Err(absent(channel, 0));
        assert_eq!(ship.store.newest(u32::from(channel)), nothing);
        let value = if channel == 0 { 1000.0 } else { 5.0 };
        let minute = 1000 * u32::from(channel);
        ship.says(channel, minute, value);
        assert_eq!(ship.store.newest(u32::from(channel)), Ok(minute));
        // What is refused is no newest.
        assert!(ship.tries(channel, minute + 1, 5000.0, 0.0).is_err());
        assert_eq!(ship.store.newest(u32::from(channel)), Ok(minute));
    }
    ship.says(4, LAST_MINUTE, 5.0);
    let newest: Vec<_> = (0..6).map(|channel| ship.store.newest(channel)).collect();
    assert_eq!(newest, [0, 1000, 2000, 3000, LAST_MINUTE, 5000].map(Ok));
}

#[test]
fn each_reading_as_it_is_kept() {
    let mut ship = Ship::plain();
    // The examples of the message, and halves to the even one.
    ship.says(0, 100, 1013.25);
    ship.says(1, 100, -0.75);
    ship.says_pair(2, 100, 8.0, 360.4);
    ship.says_pair(3, 100, 8.75, -0.5);
    ship.says(4, 100, -0.25);
    assert_eq!(ship.store.hear(&wet_bulb(100, 1, -10.0)), Ok(()));
    assert_eq!(ship.store.reading(0, 100), kept(0, 0, 10132, 0));
    assert_eq!(ship.store.reading(1, 100), kept(1, 2, -8, 0));
    assert_eq!(ship.store.reading(2, 100), kept(2, 3, 80, 0));
    assert_eq!(ship.store.reading(3, 100), kept(3, 4, 88, 0));
    assert_eq!(ship.store.reading(4, 100), kept(4, 2, -2, 0));
    assert_eq!(ship.store.reading(5, 100), kept(5, 2, -100, 1));
    ship.says_pair(2, 101, 75.0, 359.0);
    ship.says_pair(3, 101, 40.0, 1.5);
    assert_eq!(ship.store.reading(2, 101), kept(2, 3, 750, 359));
    assert_eq!(ship.store.reading(3, 101), kept(3, 4, 400, 2));
    for (minute, state) in [(102, 0), (103, 1), (104, 2)] {
        assert_eq!(ship.store.hear(&wet_bulb(minute, state, 50.0)), Ok(()));
        let wet = kept(5, 2, 500, u32::from(state));
        assert_eq!(ship.store.reading(5, minute), wet);
    }
}

#[test]
fn a_barometer_in_millimetres_says_so() {
    let mut ship = Ship::open(Unit::MmHg, 0, 0, 0, &[(6400, 0), (8250, 0)]);
    ship.says(0, 7, 753.1);
    ship.says(1, 7, 12.4);
    assert_eq!(ship.store.reading(0, 7), kept(0, 1, 7531, 0));
    assert_eq!(ship.store.reading(1, 7), kept(1, 2, 124, 0));
}

#[test]
fn what_a_mate_notes_is_kept_as_apparent_wind() {
    let mut ship = Ship::without_wind_head();
    ship.says_pair(3, 600, 10.0, 260.0);
    assert_eq!(ship.notes([600, 300, 1200, 1340, 60]), Ok(()));
    assert_eq!(ship.store.newest(2), Ok(600));
    assert_eq!(ship.store.reading(2, 600), kept(2, 3, 25, 40));
    assert_eq!(ship.store.stretch(2, 599, 3), Ok(vec![false, true, false]));
}

#[test]
fn a_reading_that_is_not_kept_is_named() {
    let mut ship = Ship::plain();
    for channel in 0..6u8 {
        let asked = u32::from(channel);
        let late = Err(Refused::MinuteTooLate);
        assert_eq!(ship.store.reading(asked, LAST_MINUTE + 1), late);
        assert_eq!(ship.store.reading(asked, u32::MAX), late);
        for minute in [0, 7, LAST_MINUTE] {
            let nothing = Err(absent(channel, minute));
            assert_eq!(ship.store.reading(asked, minute), nothing);
        }
    }
    ship.says(1, 100, 5.0);
    ship.says(1, 355, 6.0);
    assert_eq!(ship.store.reading(1, 100), kept(1, 2, 50, 0));
    assert_eq!(ship.store.reading(1, 356), Err(absent(1, 356)));
    ship.says(1, 356, 7.0);
    assert_eq!(ship.store.reading(1, 100), Err(absent(1, 100)));
    assert_eq!(ship.store.reading(1, 101), Err(absent(1, 101)));
    assert_eq!(ship.store.reading(1, 355), kept(1, 2, 60, 0));
    // Another channel has none of them.
    assert_eq!(ship.store.reading(4, 355), Err(absent(4, 355)));
}

/// A stretch as text: `x` for a minute with a reading.
fn stretch(ship: &Ship, channel: u32, first: u32, count: usize) -> String {
    let minutes = ship.store.stretch(channel, first, count);
    let minutes = minutes.expect("a channel from 0 to 5");
    minutes.iter().map(|m| if *m { 'x' } else { '.' }).collect()
}

#[test]
fn a_stretch_says_which_minutes_have_a_reading() {
    let mut ship = Ship::plain();
    assert_eq!(stretch(&ship, 4, 0, 5), ".....");
    for minute in [0, 2, 3, 6] {
        ship.says(4, minute, 5.0);
    }
    assert_eq!(stretch(&ship, 4, 0, 9), "x.xx..x..");
    assert_eq!(stretch(&ship, 4, 1, 2), ".x");
    assert_eq!(stretch(&ship, 4, 6, 1), "x");
    assert_eq!(stretch(&ship, 4, 7, 0), "");
    assert_eq!(stretch(&ship, 5, 0, 9), ".........");
    // Newest 258: minutes 3 to 258 are kept, and no other.
    ship.says(4, 258, 5.0);
    assert_eq!(stretch(&ship, 4, 0, 9), "...x..x..");
    assert_eq!(stretch(&ship, 4, 256, 4), "..x.");
    let kept = ship.store.stretch(4, 0, 1000).unwrap();
    assert_eq!(kept.len(), 1000);
    assert_eq!(kept.iter().filter(|minute| **minute).count(), 3);
}

#[test]
fn a_stretch_past_the_last_minute_finds_nothing_there() {
    let mut ship = Ship::plain();
    for minute in [0, 1, LAST_MINUTE] {
        ship.says(0, minute, 1000.0);
    }
    assert_eq!(stretch(&ship, 0, LAST_MINUTE - 1, 4), ".x..");
    // The minutes behind the last number of 32 bits are not 0 and 1 again.
    let mut ship = Ship::plain();
    ship.says(0, 0, 1000.0);
    ship.says(0, 1, 1000.0);
    assert_eq!(stretch(&ship, 0, u32::MAX - 1, 5), ".....");
    assert_eq!(stretch(&ship, 0, u32::MAX, 3), "...");
}

#[test]
fn memory_answers_as_its_store() {
    let mut ship = Ship::plain();
    let mut memory = Memory::default();
    assert!(memory.open(&ship::plain_settings()).is_ok());
    for minute in [9, 11] {
        let bytes = message(3, minute, 10.2, 45.0);
        assert_eq!(memory.hear(&bytes), Ok(()));
        assert_eq!(ship.store.hear(&bytes), Ok(()));
    }
    assert_eq!(memory.newest(3), Ok(11));
    assert_eq!(memory.newest(2), Err(absent(2, 0)));
    assert_eq!(memory.newest(6), Err(Refused::UnknownChannel));
    assert_eq!(memory.reading(3, 9), kept(3, 4, 102, 45));
    assert_eq!(memory.reading(3, 10), Err(absent(3, 10)));
    assert_eq!(memory.stretch(3, 9, 3), Ok(vec![true, false, true]));
    assert_eq!(memory.stretch(3, 9, 3), ship.store.stretch(3, 9, 3));
}
