//! What a caller of the library asks besides the four questions: what is kept, settings read back, answers as records, many messages at
//! once, records put into a file in a buffer and taken out, and every answer, reading and refusal as a sentence.

use reference::refusal::Refused;
use reference::{log, sentence, settings, station};
use zhitomrak::raw;
use zhitomrak::watchfile::Record as ProvedRecord;

use crate::files::{bytes_of, right_body, right_records, some, to_independent, to_proved, Record};
use crate::pair::{independent, independent_refusal};
use crate::random::Random;
use crate::tally::{Answer, Tally};

/// What was refused by the proved side, as the independent side would have it: 11 with channel and minute, 12 with its minute.
fn refused(why: raw::Refusal) -> Option<Answer> {
    match (why.number, why.channel as usize, why.minute as usize) {
        (0, 0, 0) => None,
        (11, channel, minute) => Some(Answer::Refused(11, channel, minute)),
        (number, channel, minute) => Some(Answer::Refused(number, minute, channel)),
    }
}

/// Newest minute, a reading and a stretch of each channel, and of channels that are none.
pub fn kept(
    tally: &mut Tally,
    block: &raw::Block,
    memory: &station::Memory,
    minute: u32,
    told: &str,
) {
    for channel in [0, 1, 2, 3, 4, 5, 6, u32::MAX] {
        let input = || format!("{told}of channel {channel}, minute {minute}");
        let a = raw::newest(block, channel);
        let a = match a.number {
            0 => Answer::Given([a.minute as i32, 0, 0, 0, 0]),
            number => Answer::Refused(number, a.minute as usize, 0),
        };
        let b = match memory.newest(channel) {
            Ok(minute) => Answer::Given([minute as i32, 0, 0, 0, 0]),
            Err(refused) => Answer::Refused(refused.number().into(), 0, 0),
        };
        tally.answers("library, newest", a, b, input);

        let a = raw::reading(block, channel, minute);
        let figures = [a.channel as i32, a.unit as i32, a.first, a.second as i32, 0];
        let b = independent(memory.reading(channel, minute), |k| {
            [k.channel as i32, k.unit as i32, k.first, k.second as i32, 0]
        });
        let a = refused(a.refusal).unwrap_or(Answer::Given(figures));
        tally.answers("library, a reading", a, b, input);

        let first = minute.wrapping_sub(3);
        let mut minutes = [7; 8];
        let number = raw::stretch(block, channel, first, &mut minutes);
        let b = match memory.stretch(channel, first, minutes.len()) {
            Ok(there) => (0, there.iter().map(|&there| u8::from(there)).collect()),
            Err(refused) => (u32::from(refused.number()), vec![7; minutes.len()]),
        };
        tally.same(
            "library, a stretch",
            b.0 != 0,
            &(number, minutes.to_vec()),
            &b,
            input,
        );
    }
}

/// The answer to each question as a record.
pub fn recorded(
    tally: &mut Tally,
    block: &raw::Block,
    memory: &station::Memory,
    minute: u32,
    told: &str,
) {
    let store = memory.store();
    let nothing = raw::Record {
        kind: 77,
        minute: 78,
        figures: [79; 5],
    };
    for kind in 0..6 {
        let mut record = nothing;
        let a = raw::record_of(block, kind, minute, &mut record);
        let a = match refused(a) {
            Some(refused) => {
                let stays = record == nothing;
                tally.same("library, a record", true, &stays, &true, || {
                    format!("{told}record {kind} {minute}")
                });
                refused
            }
            None => {
                let named = (record.kind, record.minute) == (kind, minute);
                tally.same("library, a record", false, &named, &true, || {
                    format!("{told}record {kind} {minute}")
                });
                Answer::Given(record.figures)
            }
        };
        let b = match kind {
            1 => independent(store.and_then(|s| s.pressure(minute)), |p| [p, 0, 0, 0, 0]),
            2 => independent(store.and_then(|s| s.tendency(minute)), |t| {
                [t.change, t.absent, 0, 0, 0]
            }),
            3 => independent(store.and_then(|s| s.wind(minute)), |w| {
                [w.speed, w.direction, 0, 0, 0]
            }),
            4 => independent(store.and_then(|s| s.humidity(minute)), |h| {
                [h.e, h.saturation, h.deficit, h.relative, h.dew]
            }),
            _ => Answer::Refused(16, 0, 0),
        };
        tally.answers("library, a record", a, b, || {
            format!("{told}record {kind} {minute}")
        });
    }
}

/// The settings of a store, read back.
pub fn settings_read(tally: &mut Tally, block: &raw::Block, memory: &station::Memory, told: &str) {
    let mut sheet = zhitomrak::Settings::default();
    sheet.certificate = [(7, 7); 16].into();
    sheet.anemometer = [(7, 7); 20].into();
    let mut a = raw::Settings {
        unit: 7,
        height: 7,
        difference: 7,
        coefficient: 7,
        psychrometer: 7,
        certificate: sheet.certificate,
        anemometer: sheet.anemometer,
    };
    let number = raw::settings_of(block, &mut a);
    let plain = |s: &raw::Settings| {
        (
            [
                s.unit as i32,
                s.height,
                s.difference,
                s.coefficient,
                s.psychrometer,
            ],
            s.certificate
                .as_slice()
                .iter()
                .map(|p| (p.reading, p.correction))
                .collect::<Vec<_>>(),
            s.anemometer
                .as_slice()
                .iter()
                .map(|p| (p.rate, p.speed))
                .collect::<Vec<_>>(),
        )
    };
    let b = match memory.settings() {
        Ok(s) => {
            let unit = match s.unit {
                settings::Unit::HPa => 0,
                settings::Unit::MmHg => 1,
            };
            let figures = (
                [unit, s.height, s.difference, s.coefficient, s.psychrometer],
                s.certificate
                    .iter()
                    .map(|p| (p.reading, p.correction))
                    .collect(),
                s.anemometer.iter().map(|p| (p.rate, p.speed)).collect(),
            );
            (0, figures)
        }
        Err(refused) => (
            u32::from(refused.number()),
            ([7; 5], vec![(7, 7); 16], vec![(7, 7); 20]),
        ),
    };
    tally.same(
        "library, settings",
        b.0 != 0,
        &(number, plain(&a)),
        &b,
        || told.to_string(),
    );
}

/// The counts of many messages at once.
pub fn heard_all(
    tally: &mut Tally,
    block: &mut raw::Block,
    memory: &mut station::Memory,
    bytes: &[u8],
    told: &str,
) {
    let (mut a, mut b) = ([0; raw::COUNTS], [0; station::COUNTS]);
    (a[0], b[0]) = (u64::MAX - 1, u64::MAX - 1);
    raw::hear_all(block, bytes, &mut a);
    memory.hear_all(bytes, &mut b);
    tally.same("library, many messages", false, &a[..], &b[..], || {
        told.to_string()
    });
}

fn placed(told: raw::Placed) -> Answer {
    match (told.number, told.index, told.place, told.bytes) {
        (0, 0, 0, bytes) => Answer::Given([bytes as i32, 0, 0, 0, 0]),
        (16, index, 0, 0) => Answer::Refused(16, index, 0),
        (17, 0, 0, bytes) => Answer::Refused(17, bytes, 0),
        (18, 0, place, 0) => Answer::Refused(18, place, 0),
        (number, 0, 0, 0) => Answer::Refused(number, 0, 0),
        (number, ..) => Answer::Refused(number, usize::MAX, usize::MAX),
    }
}

fn bytes_or(answer: Result<usize, Refused>) -> Answer {
    answer.map_or_else(independent_refusal, |n| {
        Answer::Given([n as i32, 0, 0, 0, 0])
    })
}

/// Records put into files in buffers of any room, and taken out, one after the other: answers and every byte.
pub fn placing(tally: &mut Tally, r: &mut Random, rounds: u64) {
    for _ in 0..rounds {
        let count = some(r);
        let mut records = right_records(r, count);
        let mut file = bytes_of(&records);
        if r.once_in(8) && !file.is_empty() {
            let at = r.below(file.len() as u64) as usize;
            file[at] ^= 1 << r.below(8);
        }
        let room = match r.below(3) {
            0 => file.len() + r.below(30) as usize,
            _ => 820 + r.below(3) as usize,
        };
        let mut a = vec![0xa5; room.max(file.len())];
        a[..file.len()].copy_from_slice(&file);
        let mut b = a.clone();
        let mut size = file.len();
        for _ in 0..6 {
            let near = match records.len() {
                0 => 200,
                n => records[r.below(n as u64) as usize].0,
            };
            let minute = r.pick(&[near, near, near + 1, near.saturating_sub(1), 0, u32::MAX]);
            let input = |what: &str, size: usize, a: &[u8]| {
                let hex: String = a.iter().map(|b| format!("{b:02x}")).collect();
                format!("{what} {minute} into the first {size} bytes of {hex}")
            };
            let (told, theirs) = if r.once_in(3) {
                let kind = r.pick(&[1, 2, 3, 4, 0, 5, 256, 257, u32::MAX]);
                let told = placed(raw::take_out(&mut a, size, kind, minute));
                (told, bytes_or(log::take_out(&mut b, size, kind, minute)))
            } else {
                let mut body = right_body(r);
                if r.once_in(10) {
                    body.1[r.below(5) as usize] = r.pick(&[-1, 0, 255, 256, 65_536, 40_000]);
                }
                let record: Record = (minute, body);
                records.push(record);
                let mine =
                    raw::Record::from(ProvedRecord::from(raw::Record::from(to_proved(&record))));
                let told = placed(raw::place(&mut a, size, &mine));
                (
                    told,
                    bytes_or(log::place(&mut b, size, &to_independent(&record))),
                )
            };
            tally.answers("library, placing", told, theirs, || {
                input("record", size, &a)
            });
            tally.same("library, placing", false, &a, &b, || {
                input("record", size, &a)
            });
            if let Answer::Given([bytes, ..]) = theirs {
                size = r.pick(&[bytes as usize, bytes as usize, bytes as usize, 900]);
                if size > a.len() && bytes as usize != a.len() {
                    size = bytes as usize;
                }
            }
        }
    }
}

/// A sentence's text, where its bytes are right: as long as told, and zeros behind.
fn said(put: impl FnOnce(&mut raw::Sentence) -> usize) -> String {
    let mut bytes = [0xa5; raw::SENTENCE_MAX_BYTES];
    let length = put(&mut bytes);
    match bytes.get(..length) {
        Some(text) if bytes[length..].iter().all(|&b| b == 0) && length < bytes.len() => {
            String::from_utf8_lossy(text).into_owned()
        }
        _ => format!("{length} bytes: {bytes:?}"),
    }
}

/// Numbers of every size, with both signs, often beside a border.
fn any(r: &mut Random) -> i64 {
    let bits = r.below(64);
    let n = (r.next() >> bits) as i64;
    let n = r.pick(&[
        n,
        n,
        n,
        0,
        1,
        -1,
        9,
        10,
        11,
        99,
        100,
        101,
        i64::MAX,
        i64::MIN,
    ]);
    if r.once_in(2) {
        n
    } else {
        n.wrapping_neg()
    }
}

/// Answers, readings and refusals as sentences.
pub fn sentences(tally: &mut Tally, r: &mut Random, rounds: u64) {
    let none = raw::Refusal::default();
    for _ in 0..rounds {
        let (a, b, c, d, e) = (any(r), any(r), any(r), any(r), any(r));
        let input = || format!("of {a} {b} {c} {d} {e}");
        let kind = "library, sentences";
        let pressure = raw::Pressure {
            refusal: none,
            pressure: a,
        };
        let mine = said(|text| raw::say_pressure(pressure, text));
        tally.same(kind, false, &mine, &sentence::pressure(a), input);
        let tendency = raw::Tendency {
            refusal: none,
            change: a,
            absent: b as u64,
        };
        let mine = said(|text| raw::say_tendency(tendency, text));
        tally.same(kind, false, &mine, &sentence::tendency(a, b as u64), input);
        let wind = raw::Wind {
            refusal: none,
            speed: a as u32,
            direction: b as u32,
        };
        let mine = said(|text| raw::say_wind(wind, text));
        let theirs = sentence::wind(a as u32, b as u32);
        tally.same(kind, false, &mine, &theirs, input);
        let humidity = raw::Humidity {
            refusal: none,
            vapour_pressure: a as u32,
            saturation: b as u32,
            deficit: c as u32,
            relative_humidity: d as u32,
            dew_point: e as i32,
        };
        let mine = said(|text| raw::say_humidity(humidity, text));
        let theirs = sentence::humidity(a as u32, b as u32, c as u32, d as u32, e as i32);
        tally.same(kind, false, &mine, &theirs, input);
        let channel = r.below(6) as u32;
        let unit = [r.below(2) as u32, 2, 3, 4, 2, 2][channel as usize];
        let second = if channel == 5 {
            r.below(3) as u32
        } else {
            b as u32
        };
        let reading = raw::Reading {
            refusal: none,
            channel,
            unit,
            first: a as i32,
            second,
        };
        let mine = said(|text| raw::say_reading(reading, text));
        if let Some(theirs) = sentence::reading(channel, unit, a as i32, second) {
            tally.same(kind, false, &mine, &theirs, input);
        }
        let listed = r.below(30) as u32;
        let number = r.pick(&[listed, listed, 254, 255, a as u32]);
        let first = if number == 11 { r.below(6) } else { b as u64 };
        let mine = said(|text| raw::say_refusal(number, first, c as u64, text));
        if let Some(theirs) = sentence::refusal(number, first, c as u64) {
            tally.same(kind, true, &mine, &theirs, || {
                format!("of {number} {first} {c}")
            });
        }
        // the same beside a refusal of each answer, whatever stands there
        let why = raw::Refusal {
            number,
            channel: r.below(6) as u32,
            minute: d as u32,
        };
        let (first, second) = match number {
            11 => (u64::from(why.channel), u64::from(why.minute)),
            _ => (u64::from(why.minute), 0),
        };
        if let (Some(theirs), true) = (sentence::refusal(number, first, second), number != 0) {
            for mine in [
                said(|t| {
                    raw::say_pressure(
                        raw::Pressure {
                            refusal: why,
                            ..pressure
                        },
                        t,
                    )
                }),
                said(|t| {
                    raw::say_tendency(
                        raw::Tendency {
                            refusal: why,
                            ..tendency
                        },
                        t,
                    )
                }),
                said(|t| {
                    raw::say_wind(
                        raw::Wind {
                            refusal: why,
                            ..wind
                        },
                        t,
                    )
                }),
                said(|t| {
                    raw::say_humidity(
                        raw::Humidity {
                            refusal: why,
                            ..humidity
                        },
                        t,
                    )
                }),
                said(|t| {
                    raw::say_reading(
                        raw::Reading {
                            refusal: why,
                            ..reading
                        },
                        t,
                    )
                }),
            ] {
                tally.same(kind, true, &mine, &theirs, || format!("of {why:?}"));
            }
        }
    }
}
