//! The proved library beside the independent implementation in one run: ns a call and their ratio. Both get the same inputs, and
//! their answers are compared before anything is timed. Each figure is the least of several rounds, taken in turns.
//!
//! usage: bench [GAP...]
//! With gaps, hearing alone is measured, a message every so many minutes.

mod besides;
mod inputs;

use std::hint::black_box;
use std::time::Instant;

use inputs::{Barometer, Bulbs, Message, CROSSED, HPA, ICE, MM_HG, NARROW, UNKNOWN, WATER};
use reference::{anemometer, listing, station, watchfile as independent};
use zhitomrak::watchfile as proved;
use zhitomrak::{Entry, Humidity, Pressure, Store, Tendency, Wind};

const ROUNDS: usize = 60;

fn time(calls: usize, work: impl FnOnce() -> u64) -> f64 {
    let began = Instant::now();
    black_box(work());
    began.elapsed().as_nanos() as f64 / calls as f64
}

fn print_row(name: &str, proved: f64, plain: f64) {
    println!("{name:42} {proved:9.1} {plain:9.1} {:9.2}", proved / plain);
}

/// Times both in turns and prints a row.
fn row(name: &str, calls: usize, mut mine: impl FnMut() -> u64, mut theirs: impl FnMut() -> u64) {
    let (mut a, mut b) = (f64::MAX, f64::MAX);
    for _ in 0..ROUNDS {
        a = a.min(time(calls, &mut mine));
        b = b.min(time(calls, &mut theirs));
    }
    print_row(name, a, b);
}

fn same<T: PartialEq + std::fmt::Debug>(what: &str, mine: T, theirs: T) {
    assert_eq!(mine, theirs, "{what}: the answers differ");
}

/// A refusal's number, or 0.
fn number<A, E>(answer: &Result<A, E>, of: impl Fn(&E) -> u32) -> u32 {
    answer.as_ref().err().map_or(0, of)
}

fn hear_proved(store: &mut Store, sent: &[Message]) -> u64 {
    sent.iter()
        .map(|m| number(&store.hear(black_box(m)), |r| r.number()))
        .map(u64::from)
        .sum()
}

fn hear_independent(store: &mut station::Store, sent: &[Message]) -> u64 {
    sent.iter()
        .map(|m| number(&store.hear(black_box(m)), |r| u32::from(r.number())))
        .map(u64::from)
        .sum()
}

fn hearing(name: &str, sent: &[Message]) {
    let (mut a, mut b) = (inputs::open_proved(&HPA), inputs::open_independent(&HPA));
    for m in sent {
        same(
            name,
            number(&a.hear(m), |r| r.number()),
            number(&b.hear(m), |r| u32::from(r.number())),
        );
    }
    let (fresh_a, fresh_b) = (inputs::open_proved(&HPA), inputs::open_independent(&HPA));
    let (mut a, mut b) = (fresh_a.clone(), fresh_b.clone());
    row(
        name,
        sent.len(),
        || {
            a.clone_from(&fresh_a);
            hear_proved(&mut a, sent)
        },
        || {
            b.clone_from(&fresh_b);
            hear_independent(&mut b, sent)
        },
    );
}

/// Hears messages that come every so many minutes.
fn after_gaps(gaps: &[u32]) {
    for &gap in gaps {
        hearing(
            &format!("hear, every {gap} minutes"),
            &inputs::watch(&HPA, &WATER, 5_000, gap),
        );
    }
}

/// Hears again what is not later: all of it refused by this number, after all the other tests.
fn not_later(refused: u32, sent: &[Message], again: &[Message]) {
    let name = format!("hear, refused {refused}");
    let (mut a, mut b) = (inputs::open_proved(&HPA), inputs::open_independent(&HPA));
    same(
        &name,
        hear_proved(&mut a, sent),
        hear_independent(&mut b, sent),
    );
    for m in again {
        let (mine, theirs) = (a.hear(m), b.hear(m));
        same(&name, number(&mine, |r| r.number()), refused);
        // with the minutes of 19
        same(
            &name,
            match mine {
                Err(zhitomrak::Refused::Late { minutes }) => minutes,
                _ => 0,
            },
            match theirs {
                Err(reference::refusal::Refused::Late { minutes }) => minutes.into(),
                _ => 0,
            },
        );
    }
    row(
        &name,
        again.len(),
        || hear_proved(&mut a, again),
        || hear_independent(&mut b, again),
    );
}

/// Entries are noted for minutes whose course was heard: no more at a time than are kept, so in more rounds.
const NOTED: u32 = 250;

fn note_proved(store: &mut Store, entries: &[Entry]) -> u64 {
    entries
        .iter()
        .map(|&entry| number(&store.note(black_box(entry)), |r| r.number()))
        .map(u64::from)
        .sum()
}

fn note_independent(store: &mut station::Store, entries: &[anemometer::Entry]) -> u64 {
    entries
        .iter()
        .map(|entry| number(&store.note(black_box(entry)), |r| u32::from(r.number())))
        .map(u64::from)
        .sum()
}

/// Notes entries of so many divisions a minute: all of them noted where the number is 0, and refused by it else.
fn noting(name: &str, refused: u32, divisions: (u32, u32)) {
    let (mut fresh_a, mut fresh_b) = (inputs::open_proved(&HPA), inputs::open_independent(&HPA));
    let sent = inputs::courses(NOTED);
    same(
        name,
        hear_proved(&mut fresh_a, &sent),
        hear_independent(&mut fresh_b, &sent),
    );
    let (mine, theirs) = inputs::entries(NOTED, divisions);
    let (mut a, mut b) = (fresh_a.clone(), fresh_b.clone());
    for (minute, (mine, theirs)) in (0..).zip(mine.iter().zip(&theirs)) {
        let told = (a.note(*mine), b.note(theirs));
        same(name, number(&told.0, |r| r.number()), refused);
        same(name, number(&told.1, |r| u32::from(r.number())), refused);
        same(
            name,
            a.wind(minute).ok().map(of_wind),
            b.wind(minute).ok().map(|w| (w.speed, w.direction)),
        );
    }
    let (mut proved, mut plain) = (f64::MAX, f64::MAX);
    for _ in 0..50 * ROUNDS {
        a.clone_from(&fresh_a);
        proved = proved.min(time(mine.len(), || note_proved(&mut a, &mine)));
        b.clone_from(&fresh_b);
        plain = plain.min(time(mine.len(), || note_independent(&mut b, &theirs)));
    }
    print_row(name, proved, plain);
}

/// The same messages so many minutes later.
fn later(sent: &[Message], minutes: u32) -> Vec<Message> {
    sent.iter()
        .map(|m| {
            let mut m = *m;
            let minute = u32::from_le_bytes([m[4], m[5], m[6], m[7]]) + minutes;
            m[4..8].copy_from_slice(&minute.to_le_bytes());
            m
        })
        .collect()
}

/// Many stores, each message heard by all of them: what does not fit the caches any more.
fn stores(count: usize) {
    let minutes = (200_000 / count / 6).clamp(4, 400) as u32;
    let sent = inputs::watch(&HPA, &WATER, minutes, 1);
    let mut mine = vec![inputs::open_proved(&HPA); count];
    let mut theirs = vec![inputs::open_independent(&HPA); count];
    let (mut a, mut b) = (f64::MAX, f64::MAX);
    for round in 0..ROUNDS {
        let sent = later(&sent, round as u32 * minutes);
        let calls = sent.len() * count;
        a = a.min(time(calls, || {
            let all = |m: &Message| {
                mine.iter_mut()
                    .map(|s| s.hear(black_box(m)).is_ok() as u64)
                    .sum::<u64>()
            };
            sent.iter().map(all).sum()
        }));
        b = b.min(time(calls, || {
            let all = |m: &Message| {
                theirs
                    .iter_mut()
                    .map(|s| s.hear(black_box(m)).is_ok() as u64)
                    .sum::<u64>()
            };
            sent.iter().map(all).sum()
        }));
    }
    print_row(&format!("hear, {count} stores in turn"), a, b);
}

const MINUTES: u32 = 400;

/// Asks at each minute; figures are added up so that no answer can be left out.
fn ask(asked: &[u32], figure: impl Fn(u32) -> i32) -> u64 {
    asked
        .iter()
        .map(|&m| figure(black_box(m)) as u64)
        .fold(0, u64::wrapping_add)
}

/// The figures of the proved side's answers, as the independent side has them.
fn of_pressure(p: Pressure) -> i32 {
    p.tenths() as i32
}

fn of_tendency(t: Tendency) -> (i32, i32) {
    (t.change.tenths() as i32, t.absent as i32)
}

fn of_wind(w: Wind) -> (i32, i32) {
    (w.speed.tenths() as i32, w.direction.degrees() as i32)
}

fn of_humidity(h: Humidity) -> (i32, i32, i32) {
    (
        h.vapour_pressure.hundredths() as i32,
        h.relative_humidity as i32,
        h.dew_point.tenths(),
    )
}

fn sum((a, b): (i32, i32)) -> i32 {
    a + b
}

fn compare_questions(a: &Store, b: &station::Store, asked: &[u32]) {
    let mut answered = [0; 4];
    for &m in asked {
        let p = (a.pressure(m), b.pressure(m));
        same("pressure", p.0.ok().map(of_pressure), p.1.ok());
        let t = (a.tendency(m), b.tendency(m));
        same(
            "tendency",
            t.0.ok().map(of_tendency),
            t.1.ok().map(|t| (t.change, t.absent)),
        );
        let w = (a.wind(m), b.wind(m));
        same(
            "wind",
            w.0.ok().map(of_wind),
            w.1.ok().map(|w| (w.speed, w.direction)),
        );
        let h = (a.humidity(m), b.humidity(m));
        same(
            "humidity",
            h.0.ok().map(of_humidity),
            h.1.ok().map(|h| (h.e, h.relative, h.dew)),
        );
        let given = [p.0.is_ok(), t.0.is_ok(), w.0.is_ok(), h.0.is_ok()];
        for (count, given) in answered.iter_mut().zip(given) {
            *count += usize::from(given);
        }
    }
    let enough = |&n: &usize| n > asked.len() / 2;
    assert!(
        answered.iter().all(enough),
        "too few questions are answered: {answered:?}"
    );
}

/// A watch heard on both sides.
fn heard(barometer: &Barometer, bulbs: &Bulbs) -> (Store, station::Store) {
    let (mut a, mut b) = (
        inputs::open_proved(barometer),
        inputs::open_independent(barometer),
    );
    let sent = inputs::watch(barometer, bulbs, MINUTES, 1);
    same(
        "hear",
        hear_proved(&mut a, &sent),
        hear_independent(&mut b, &sent),
    );
    (a, b)
}

/// The same, and their answers compared.
fn kept(barometer: &Barometer, bulbs: &Bulbs, asked: &[u32]) -> (Store, station::Store) {
    let (a, b) = heard(barometer, bulbs);
    compare_questions(&a, &b, asked);
    (a, b)
}

/// Humidity refused by this number each time: what comes before that test, which tells the parts of an answer apart.
fn humidity_refused(number: u32, barometer: &Barometer, bulbs: &Bulbs, asked: &[u32], back: u32) {
    let (a, b) = heard(barometer, bulbs);
    for &m in asked {
        let told = (a.humidity(m - back), b.humidity(m - back));
        same("humidity", told.0.err().map(|r| r.number()), Some(number));
        same(
            "humidity",
            told.1.err().map(|r| u32::from(r.number())),
            Some(number),
        );
    }
    row(
        &format!("humidity, refused {number}"),
        asked.len(),
        || {
            ask(asked, |m| {
                a.humidity(m - back).map_or(0, |h| of_humidity(h).0)
            })
        },
        || ask(asked, |m| b.humidity(m - back).map_or(0, |h| h.e)),
    );
}

fn questions() {
    let asked: Vec<u32> = (0..20_000).map(|i| MINUTES - 1 - i * 7 % 76).collect();
    let n = asked.len();
    let (a, b) = kept(&HPA, &WATER, &asked);
    row(
        "pressure",
        n,
        || ask(&asked, |m| a.pressure(m).map_or(0, of_pressure)),
        || ask(&asked, |m| b.pressure(m).unwrap_or(0)),
    );
    row(
        "tendency",
        n,
        || ask(&asked, |m| a.tendency(m).map_or(0, |t| sum(of_tendency(t)))),
        || ask(&asked, |m| b.tendency(m).map_or(0, |t| t.change + t.absent)),
    );
    row(
        "wind",
        n,
        || ask(&asked, |m| a.wind(m).map_or(0, |w| sum(of_wind(w)))),
        || ask(&asked, |m| b.wind(m).map_or(0, |w| w.speed + w.direction)),
    );
    for (name, bulbs) in [
        ("humidity", WATER),
        ("humidity, ice", ICE),
        ("humidity, state unknown", UNKNOWN),
    ] {
        let (a, b) = kept(&HPA, &bulbs, &asked);
        row(
            name,
            n,
            || {
                ask(&asked, |m| {
                    a.humidity(m).map_or(0, |h| {
                        let (e, relative, dew) = of_humidity(h);
                        e + relative + dew
                    })
                })
            },
            || {
                ask(&asked, |m| {
                    b.humidity(m).map_or(0, |h| h.e + h.relative + h.dew)
                })
            },
        );
    }
    humidity_refused(11, &HPA, &WATER, &asked, 300);
    humidity_refused(12, &NARROW, &WATER, &asked, 0);
    humidity_refused(13, &HPA, &CROSSED, &asked, 0);
    row(
        "pressure, refused 11",
        n,
        || ask(&asked, |m| a.pressure(m - 300).map_or(0, of_pressure)),
        || ask(&asked, |m| b.pressure(m - 300).unwrap_or(0)),
    );
    let (a, b) = kept(&MM_HG, &WATER, &asked);
    row(
        "pressure, from mm Hg",
        n,
        || ask(&asked, |m| a.pressure(m).map_or(0, of_pressure)),
        || ask(&asked, |m| b.pressure(m).unwrap_or(0)),
    );
}

const CALLS: usize = 500;

fn times(mut call: impl FnMut() -> usize) -> u64 {
    (0..CALLS).map(|_| call() as u64).sum()
}

fn files(count: usize) {
    let (mine, theirs) = inputs::records(count);
    let (mut a, mut b) = ([0; proved::MAX_BYTES], [0; proved::MAX_BYTES]);
    let length = proved::write(&mine, &mut a).expect("the records are good");
    same(
        "write",
        Some(length),
        independent::write(&theirs, &mut b).ok(),
    );
    same("write", a, b);
    let file = &a[..length];
    let mut room = [independent::Record::BLANK; independent::MOST_RECORDS];
    let read = independent::read(file, &mut room).map(|r| r.len()).ok();
    same("read", proved::read(file).map(|r| r.len()).ok(), read);
    let mut text = [0; proved::LISTING_MAX_BYTES];
    let mut their_text = [0; listing::LONGEST_LISTING];
    let listed = listing::list(file, &mut their_text);
    let text_listed = proved::list(file, &mut text).expect("there is room");
    same("list", text_listed, &their_text[..listed]);

    row(
        &format!("read, {count} records"),
        CALLS,
        || {
            times(|| {
                proved::read(black_box(file)).map_or(0, |records| {
                    records
                        .iter()
                        .map(|r| black_box(&r).minute() as usize)
                        .sum()
                })
            })
        },
        || {
            times(|| {
                independent::read(black_box(file), &mut room).map_or(0, |records| {
                    records.iter().map(|r| black_box(r).minute as usize).sum()
                })
            })
        },
    );
    row(
        &format!("read, verdict alone, {count} records"),
        CALLS,
        || times(|| proved::read(black_box(file)).map_or(0, |r| r.len())),
        || {
            times(|| {
                independent::read(black_box(file), &mut room).map_or(0, |r| black_box(r).len())
            })
        },
    );
    let (mut a, mut b) = ([0; proved::MAX_BYTES], [0; proved::MAX_BYTES]);
    row(
        &format!("write, {count} records"),
        CALLS,
        || times(|| proved::write(black_box(&mine), black_box(&mut a)).unwrap_or(0)),
        || times(|| independent::write(black_box(&theirs), black_box(&mut b)).unwrap_or(0)),
    );
    row(
        &format!("list, {count} records"),
        CALLS,
        || times(|| proved::list(black_box(file), black_box(&mut text)).map_or(0, |t| t.len())),
        || times(|| listing::list(black_box(file), black_box(&mut their_text))),
    );
}

fn main() {
    println!(
        "{:42} {:>9} {:>9} {:>9}",
        "ns a call", "proved", "plain", "ratio"
    );
    let gaps: Vec<u32> = std::env::args()
        .skip(1)
        .map(|gap| gap.parse().expect("usage: bench [GAP...]"))
        .collect();
    if !gaps.is_empty() {
        return after_gaps(&gaps);
    }
    let sent = inputs::watch(&HPA, &WATER, 20_000, 1);
    hearing("hear, each minute", &sent);
    let (before, newest) = sent.split_at(sent.len() - 6);
    not_later(8, &sent, &newest.repeat(20_000));
    not_later(19, &sent, before);
    after_gaps(&[2, 4, 16, 64, 256, 300, 1000]);
    for count in [1, 16, 256, 2048] {
        stores(count);
    }
    noting("note", 0, (60, 1_200));
    noting("note, refused 24", 24, (1_201, 9_999));
    questions();
    for count in [0, 1, 4, 16, 48] {
        files(count);
    }
    besides::measure(&sent);
    println!(
        "store, bytes: {} proved, {} plain",
        8 * Store::WORDS,
        std::mem::size_of::<station::Store>()
    );
}
