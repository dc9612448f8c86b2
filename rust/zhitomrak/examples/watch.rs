//! A watch of four hours through the Rust crate: instruments are heard each minute with a gap, the four questions are asked, the wick
//! freezes, the wind head falls silent and the mate takes the hand anemometer, the answers go into a watch file, and the file is
//! listed.

use std::io::Write;

use zhitomrak::watchfile::{self, Record, WatchFile, LISTING_MAX_BYTES};
use zhitomrak::{BulbState, Entry, Kind, Message, Refused, Settings, Store, Unit};

/// Hears a message, and says why where it is refused. Its first byte is the channel.
fn send(store: &mut Store, minute: u32, message: impl AsRef<[u8]>) {
    if let Err(why) = store.hear(&message) {
        println!("channel {}, minute {minute}: {why}", message.as_ref()[0]);
    }
}

/// The wind by the hand anemometer. It needs the course of its minute, from channel 3.
fn note(store: &mut Store, entry: Entry) {
    if let Err(why) = store.note(entry) {
        println!("entry, minute {}: {why}", entry.minute);
    }
}

/// The instruments of one minute.
fn minute_passes(store: &mut Store, minute: u32) {
    let falls = minute as f32 * 0.03;
    // a quarter of an hour without barometer
    if !(60..75).contains(&minute) {
        send(store, minute, Message::barometer(minute, 741.9 - falls));
    }
    send(store, minute, Message::wheelhouse(minute, 12.4));
    send(store, minute, Message::apparent_wind(minute, 2.5, 40.0));
    send(store, minute, Message::ship_motion(minute, 12.5, 260.0));
    send(store, minute, Message::dry_bulb(minute, 20.0));
    let wet = Message::wet_bulb(minute, 15.0, BulbState::Water);
    send(store, minute, wet);
}

fn main() -> Result<(), Refused> {
    let mut settings = Settings {
        unit: Unit::MillimetresOfMercury,
        height: 601,
        difference: -268, // the Caspian
        coefficient: 24,
        psychrometer: 662,
        certificate: [(7300, -4), (7500, -8)].into(),
        // table 1 of RD 52.04.651
        anemometer: [
            (1, 13),
            (2, 22),
            (3, 31),
            (4, 40),
            (5, 49),
            (6, 58),
            (7, 67),
            (8, 76),
            (9, 85),
            (10, 94),
            (20, 188),
        ]
        .into(),
    };
    if let Err(why) = Store::open(&settings) {
        println!("open: {why}");
    }
    settings.height = 101;
    let mut store = Store::open(&settings)?;
    println!("open: nothing is refused");
    for minute in 0..=240 {
        minute_passes(&mut store, minute);
    }
    // the newest minute again
    send(&mut store, 240, Message::barometer(240, 741.9));
    // a clock that has gone back by an hour
    send(&mut store, 180, Message::dry_bulb(180, 20.0));

    if let Err(why) = store.pressure(70) {
        println!("pressure: {why}");
    }
    println!("pressure: {}", store.pressure(240)?);
    println!("tendency: {}", store.tendency(230)?);
    println!("wind: {}", store.wind(240)?);
    println!("humidity: {}", store.humidity(240)?);

    send(&mut store, 241, Message::barometer(241, 734.7));
    send(&mut store, 241, Message::dry_bulb(241, -10.0));
    let iced = Message::wet_bulb(241, -10.0, BulbState::Ice);
    // there is no state 3
    let mut wrong = *iced.as_bytes();
    wrong[1] = 3;
    send(&mut store, 241, wrong);
    send(&mut store, 241, iced);
    println!("humidity by an iced bulb: {}", store.humidity(241)?);

    // 140 divisions in a minute, past 9999, by the compass from 300 degrees: 2.5 m/s, and 40 degrees from the bow
    let entry = Entry {
        minute: 242,
        direction: 300,
        first: 9940,
        second: 80,
        seconds: 60,
    };
    // the course has not come yet
    note(&mut store, entry);
    send(&mut store, 242, Message::ship_motion(242, 12.5, 260.0));
    note(&mut store, entry);
    // the same minute again
    note(&mut store, entry);
    println!("wind by hand: {}", store.wind(242)?);

    let records: [Record; 4] = [
        store.record(Kind::Tendency, 230)?,
        store.record(Kind::Pressure, 240)?,
        store.record(Kind::Wind, 240)?,
        store.record(Kind::Humidity, 240)?,
    ];
    if let Err(why) = watchfile::write(&records, &mut [0; 10]) {
        println!("write: {why}");
    }
    // one by one, in whatever order they come, each in its place
    let mut file = WatchFile::new();
    for record in records.iter().rev() {
        file.place(record)?;
    }
    println!("written: {} bytes", file.as_bytes().len());
    let read = file.records();
    println!(
        "read: {} records, the last of minute {}",
        read.len(),
        read.iter().next_back().map_or(0, |record| record.minute())
    );
    if let Err(why) = watchfile::list(file.as_bytes(), &mut [0; 10]) {
        println!("list: {why}");
    }
    print!("{file}");
    // a damaged dew point
    let mut damaged = file.as_bytes().to_vec();
    if let Some(last) = damaged.last_mut() {
        *last ^= 1;
    }
    let mut room = [0; LISTING_MAX_BYTES];
    std::io::stdout()
        .write_all(watchfile::list(&damaged, &mut room)?)
        .expect("standard output takes it");
    Ok(())
}
