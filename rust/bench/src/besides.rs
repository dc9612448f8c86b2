//! What is called besides: many messages at once, what is kept, records put into a file and taken out, and sentences.

use std::hint::black_box;

use reference::{log, sentence, station};
use zhitomrak::{raw, watchfile as proved, Channel, Counts, Kind, PressureChange, Tendency};

use crate::inputs::{self, Message, HPA};
use crate::{row, same};

/// All messages at once, a message's time.
fn hear_all(sent: &[Message]) {
    let bytes = sent.concat();
    let (fresh_a, fresh_b) = (inputs::open_proved(&HPA), inputs::open_independent(&HPA));
    let (mut a, mut b) = (fresh_a.clone(), fresh_b.clone());
    let mut counts = [0; station::COUNTS];
    b.hear_all(&bytes, &mut counts);
    let mut told = Counts::default();
    a.hear_all(&bytes, &mut told);
    same("hear all", told.heard(), counts[0]);
    row(
        "hear all",
        sent.len(),
        || {
            a.clone_from(&fresh_a);
            let mut told = Counts::default();
            a.hear_all(black_box(&bytes), &mut told);
            told.heard()
        },
        || {
            b.clone_from(&fresh_b);
            let mut counts = [0; station::COUNTS];
            b.hear_all(black_box(&bytes), &mut counts);
            counts[0]
        },
    );
    let newest = b.newest(0).expect("it was heard");
    let asked: Vec<u32> = (0..20_000).map(|i| newest - i * 7 % 300).collect();
    row(
        "a reading",
        asked.len(),
        || {
            let one = |&m| u64::from(a.reading(Channel::DryBulb, black_box(m)).is_ok());
            asked.iter().map(one).sum()
        },
        || {
            let one = |&m| u64::from(b.reading(4, black_box(m)).is_ok());
            asked.iter().map(one).sum()
        },
    );
    const MINUTES: usize = 256;
    let first = newest - MINUTES as u32 + 1;
    row(
        "a stretch, a minute",
        100 * MINUTES,
        || {
            let mut minutes = [0; MINUTES];
            for _ in 0..100 {
                a.stretch(Channel::DryBulb, black_box(first), &mut minutes)
                    .expect("it is a store");
            }
            minutes.iter().map(|&there| u64::from(there)).sum()
        },
        || {
            let mut there = Vec::new();
            for _ in 0..100 {
                there = b.stretch(4, black_box(first), MINUTES).expect("a channel");
            }
            there.iter().map(|&there| u64::from(there)).sum()
        },
    );
}

const CALLS: usize = 200;

/// A record put into a file of so many, and taken out again.
fn log_of(count: usize) {
    let (mine, theirs) = inputs::records(count + 1);
    let middle = count / 2;
    let (record, their_record) = (mine[middle], theirs[middle]);
    let kind = raw::Record::from(record).kind;
    let there: Vec<proved::Record> = [&mine[..middle], &mine[middle + 1..]].concat();
    let (mut a, mut b) = ([0; proved::MAX_BYTES], [0; proved::MAX_BYTES]);
    let size = proved::write(&there, &mut a).expect("the records are good");
    b.copy_from_slice(&a);
    let kind_named = Kind::ALL[kind as usize - 1];
    row(
        &format!("place and take out, {count} records"),
        2 * CALLS,
        || {
            let mut bytes = 0;
            for _ in 0..CALLS {
                let longer = proved::place(&mut a, black_box(size), &record).unwrap_or(0);
                let left = proved::take_out(&mut a, longer, kind_named, record.minute());
                bytes += left.unwrap_or(0) as u64;
            }
            bytes
        },
        || {
            let mut bytes = 0;
            for _ in 0..CALLS {
                let longer = log::place(&mut b, black_box(size), &their_record).unwrap_or(0);
                let left = log::take_out(&mut b, longer, kind, their_record.minute);
                bytes += left.unwrap_or(0) as u64;
            }
            bytes
        },
    );
    same("place and take out", &a[..size], &b[..size]);
}

/// A tendency as a sentence.
fn sentences() {
    let changes: Vec<i64> = (0..2_000).map(|i| i * 7 % 601 - 300).collect();
    let mine = |&change: &i64| {
        let tendency = Tendency {
            change: PressureChange::from_tenths(black_box(change)),
            absent: 11,
        };
        tendency.to_string()
    };
    for change in &changes {
        same("a sentence", mine(change), sentence::tendency(*change, 11));
    }
    row(
        "a sentence",
        changes.len(),
        || changes.iter().map(|change| mine(change).len() as u64).sum(),
        || {
            let one = |&change: &i64| sentence::tendency(black_box(change), 11).len() as u64;
            changes.iter().map(one).sum()
        },
    );
}

pub fn measure(sent: &[Message]) {
    hear_all(sent);
    for count in [0, 4, 24, 47] {
        log_of(count);
    }
    sentences();
}
