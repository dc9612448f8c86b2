//! The same program over the independent implementation.

use std::io::{Read, Write};

use reference::anemometer::{Entry, RatePoint};
use reference::listing::{list, LONGEST_LISTING};
use reference::settings::{Point, Settings, Unit};
use reference::station::Store;
use reference::watchfile::{self, Body, Record};

fn main() {
    let mut input = Vec::new();
    std::io::stdin().read_to_end(&mut input).unwrap();
    let certificate = [
        Point {
            reading: 8500,
            correction: 0,
        },
        Point {
            reading: 11000,
            correction: 0,
        },
    ];
    let anemometer = [(1, 13), (20, 188)].map(|(rate, speed)| RatePoint { rate, speed });
    let settings = Settings {
        unit: Unit::HPa,
        height: 0,
        difference: 0,
        coefficient: 0,
        psychrometer: 662,
        certificate: &certificate,
        anemometer: &anemometer,
    };
    let Ok(mut store) = Store::open(&settings) else {
        return;
    };
    let heard = input.chunks(16).filter(|m| store.hear(m).is_ok()).count() as u32;
    let entry = Entry {
        minute: heard,
        direction: 10,
        first: 9900,
        second: heard,
        seconds: 60,
    };
    let noted = store.note(&entry).is_ok() as u8;
    let mut records = Vec::new();
    let mut keep = |body| {
        records.push(Record {
            minute: heard,
            body,
        })
    };
    if let Ok(p) = store.pressure(heard) {
        keep(Body::Pressure(p));
    }
    if let Ok(t) = store.tendency(heard) {
        keep(Body::Tendency(t));
    }
    if let Ok(w) = store.wind(heard) {
        keep(Body::Wind(w));
    }
    if let Ok(h) = store.humidity(heard) {
        keep(Body::Humidity(h));
    }
    let mut file = [0; watchfile::LONGEST_FILE];
    let length = watchfile::write(&records, &mut file).unwrap_or(0);
    let mut room = [Record::BLANK; watchfile::MOST_RECORDS];
    let read = watchfile::read(&file[..length], &mut room).map_or(0, |r| r.len() as u8);
    let mut room = [0; LONGEST_LISTING];
    let length = list(&file[..length], &mut room);
    std::io::stdout().write_all(&room[..length]).unwrap();
    std::io::stdout().write_all(&[read, noted]).unwrap();
}
