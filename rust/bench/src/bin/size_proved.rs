//! A program that uses all of the proved library: hears its input, asks, writes a file and lists it.

use std::io::{Read, Write};

use zhitomrak::watchfile::{self, Body, Record};
use zhitomrak::{Entry, Settings, Store, Unit};

fn main() {
    let mut input = Vec::new();
    std::io::stdin().read_to_end(&mut input).unwrap();
    let settings = Settings {
        unit: Unit::Hectopascals,
        height: 0,
        difference: 0,
        coefficient: 0,
        psychrometer: 662,
        certificate: [(8500, 0), (11000, 0)].into(),
        anemometer: [(1, 13), (20, 188)].into(),
    };
    let Ok(mut store) = Store::open(&settings) else {
        return;
    };
    let heard = input.chunks(16).filter(|m| store.hear(m).is_ok()).count() as u32;
    let entry = Entry {
        minute: heard,
        direction: 10,
        first: 9900,
        second: heard,
        seconds: 60,
    };
    let noted = store.note(entry).is_ok() as u8;
    let mut records = Vec::new();
    let mut keep = |body| records.push(Record::new(heard, body));
    if let Ok(p) = store.pressure(heard) {
        keep(Body::Pressure(p));
    }
    if let Ok(t) = store.tendency(heard) {
        keep(Body::Tendency(t));
    }
    if let Ok(w) = store.wind(heard) {
        keep(Body::Wind(w));
    }
    if let Ok(h) = store.humidity(heard) {
        keep(Body::Humidity(h));
    }
    let mut file = [0; watchfile::MAX_BYTES];
    let length = watchfile::write(&records, &mut file).unwrap_or(0);
    let read = watchfile::read(&file[..length]).map_or(0, |r| r.len() as u8);
    let mut room = [0; watchfile::LISTING_MAX_BYTES];
    let text = watchfile::list(&file[..length], &mut room).unwrap_or(b"");
    std::io::stdout().write_all(text).unwrap();
    std::io::stdout().write_all(&[read, noted]).unwrap();
}
