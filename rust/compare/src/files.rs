//! Watch files: random records written by both, and good, damaged, cut and extended files read and listed by both, and single records of
//! them by the proved side beside what stands there.

use reference::{humidity, listing, pressure, vapour, watchfile as independent, wind};
use zhitomrak::raw;
use zhitomrak::watchfile as proved;

use crate::pair::{independent_refusal, of_humidity, of_tendency, of_wind, proved_refusal};
use crate::random::Random;
use crate::tally::{Answer, Tally};

/// A record's kind, 1 to 4, and its figures in the file's order.
pub type Body = (u8, [i32; 5]);
pub type Record = (u32, Body);

/// A humidity whose deficit and relative humidity follow from e and saturation.
pub fn humidity_body(e: i32, saturation: i32, dew: i32) -> Body {
    let relative = (200 * e + saturation) / (2 * saturation);
    (4, [e, saturation, saturation - e, relative, dew])
}

pub fn to_proved(&(minute, (kind, figures)): &Record) -> proved::Record {
    let told = raw::Record {
        kind: kind.into(),
        minute,
        figures,
    };
    told.into()
}

pub fn to_independent(&(minute, (kind, f)): &Record) -> independent::Record {
    let body = match kind {
        1 => independent::Body::Pressure(f[0]),
        2 => independent::Body::Tendency(pressure::Tendency {
            change: f[0],
            absent: f[1],
        }),
        3 => independent::Body::Wind(wind::Wind {
            speed: f[0],
            direction: f[1],
        }),
        _ => independent::Body::Humidity(humidity::Humidity {
            e: f[0],
            saturation: f[1],
            deficit: f[2],
            relative: f[3],
            dew: f[4],
        }),
    };
    independent::Record { minute, body }
}

fn from_proved(r: proved::Record) -> Record {
    let told = raw::Record::from(r);
    let figures = match r.body() {
        Some(proved::Body::Pressure(p)) => [p.tenths() as i32, 0, 0, 0, 0],
        Some(proved::Body::Tendency(t)) => of_tendency(t),
        Some(proved::Body::Wind(w)) => of_wind(w),
        Some(proved::Body::Humidity(h)) => of_humidity(h),
        // where nothing stands all is 0
        _ => told.figures,
    };
    (r.minute(), (told.kind as u8, figures))
}

fn from_independent(r: &independent::Record) -> Record {
    let body = match r.body {
        independent::Body::Pressure(p) => (1, [p, 0, 0, 0, 0]),
        independent::Body::Tendency(t) => (2, [t.change, t.absent, 0, 0, 0]),
        independent::Body::Wind(w) => (3, [w.speed, w.direction, 0, 0, 0]),
        independent::Body::Humidity(h) => (4, [h.e, h.saturation, h.deficit, h.relative, h.dew]),
    };
    (r.minute, body)
}

fn hex(bytes: &[u8]) -> String {
    bytes.iter().map(|b| format!("{b:02x}")).collect()
}

/// The bytes of each field of a body.
fn sizes(kind: u8) -> &'static [usize] {
    match kind {
        1 => &[2],
        2 => &[2, 1],
        3 => &[2, 2],
        _ => &[2, 2, 2, 1, 2],
    }
}

/// The bytes of records, right or wrong, laid out here and by neither side: figures are cut to their bytes.
pub fn bytes_of(records: &[Record]) -> Vec<u8> {
    let mut file = vec![0x57, 0x54, 1, records.len() as u8];
    let mut offset = 4 + 8 * records.len();
    for &(minute, (kind, _)) in records {
        file.extend([kind, 0]);
        file.extend((offset as u16).to_le_bytes());
        file.extend(minute.to_le_bytes());
        offset += sizes(kind).iter().sum::<usize>();
    }
    for (_, (kind, figures)) in records {
        for (figure, &size) in figures.iter().zip(sizes(*kind)) {
            file.extend(&figure.to_le_bytes()[..size]);
        }
    }
    file
}

/// What stands in any bytes as the record with an index, read here and by neither side, if contents, kind, row and body are there.
fn standing(file: &[u8], index: usize) -> Option<Record> {
    let row = file.get(4 + 8 * index..12 + 8 * index)?;
    let kind = row[0];
    if index >= usize::from(file[3]) || !(1..=4).contains(&kind) {
        return None;
    }
    let mut at = usize::from(u16::from_le_bytes([row[2], row[3]]));
    let mut figures = [0; 5];
    for (place, &size) in sizes(kind).iter().enumerate() {
        let field = file.get(at..at + size)?;
        let signed = (kind, place) == (2, 0) || (kind, place) == (4, 4);
        figures[place] = match *field {
            [low, high] if signed => i32::from(i16::from_le_bytes([low, high])),
            [low, high] => i32::from(u16::from_le_bytes([low, high])),
            _ => i32::from(field[0]),
        };
        at += size;
    }
    let minute = u32::from_le_bytes([row[4], row[5], row[6], row[7]]);
    Some((minute, (kind, figures)))
}

/// So many bytes were laid.
fn given(bytes: usize) -> Answer {
    Answer::Given([bytes as i32, 0, 0, 0, 0])
}

/// Both write the first `count` records into room of so many bytes that are not zero: the answers and every byte.
pub fn both_write(
    tally: &mut Tally,
    kind: &'static str,
    records: &[Record],
    count: usize,
    room: usize,
) {
    let (mut a, mut b) = ([0xa5; 900], [0xa5; 900]);
    let mine: Vec<proved::Record> = records[..count].iter().map(to_proved).collect();
    let theirs: Vec<independent::Record> = records[..count].iter().map(to_independent).collect();
    let told = (
        proved::write(&mine, &mut a[..room]).map_or_else(proved_refusal, given),
        independent::write(&theirs, &mut b[..room]).map_or_else(independent_refusal, given),
    );
    let input = || format!("room {room}, records {:?}", &records[..count]);
    tally.answers(kind, told.0, told.1, input);
    tally.same(
        kind,
        matches!(told.1, Answer::Refused(..)),
        &a[..],
        &b[..],
        input,
    );
}

/// Both read a file: all its records, or the place.
pub fn both_read(tally: &mut Tally, kind: &'static str, file: &[u8]) {
    let a: Result<Vec<Record>, Answer> = proved::read(file)
        .map(|records| records.into_iter().map(from_proved).collect())
        .map_err(proved_refusal);
    let mut room = [independent::Record::BLANK; independent::MOST_RECORDS];
    let b: Result<Vec<Record>, Answer> = independent::read(file, &mut room)
        .map(|records| records.iter().map(from_independent).collect())
        .map_err(independent_refusal);
    tally.same(kind, b.is_err(), &a, &b, || format!("read {}", hex(file)));
    for index in [0, 1, 6, 47] {
        let a = from_proved(proved::record_at(file, index));
        let there = standing(file, index);
        let b = there.unwrap_or((0, (0, [0; 5])));
        tally.same("files, single records", there.is_none(), &a, &b, || {
            format!("record {index} of {}", hex(file))
        });
    }
}

/// Both list a file, the proved side into room for every listing, into just enough and into a byte less: the text, or the bytes
/// needed, and every other byte stays.
pub fn both_list(tally: &mut Tally, kind: &'static str, file: &[u8]) {
    let mut b = [0; listing::LONGEST_LISTING];
    let theirs = listing::list(file, &mut b);
    for room in [proved::LISTING_MAX_BYTES, theirs, theirs - 1] {
        let input = || format!("list {} into {room} bytes", hex(file));
        let mut a = [0xa5; proved::LISTING_MAX_BYTES];
        let mut left = a;
        let told = if room < theirs {
            Answer::Refused(17, theirs, 0)
        } else {
            left[..theirs].copy_from_slice(&b[..theirs]);
            given(theirs)
        };
        let listed = proved::list(file, &mut a[..room])
            .map_or_else(proved_refusal, |text| given(text.len()));
        tally.answers(kind, listed, told, input);
        tally.same(kind, room < theirs, &a[..], &left[..], input);
    }
}

/// A body that keeps its rules, often at a limit.
pub fn right_body(r: &mut Random) -> Body {
    let value = |r: &mut Random, low: i32, high: i32| match r.below(4) {
        0 => low,
        1 => high,
        _ => r.within(low, high),
    };
    match r.below(4) {
        0 => (1, [value(r, 8000, 11500), 0, 0, 0, 0]),
        1 => (2, [value(r, -3000, 3000), value(r, 0, 179), 0, 0, 0]),
        2 => {
            let speed = value(r, 0, 956);
            (
                3,
                [
                    speed,
                    if speed == 0 { 0 } else { value(r, 1, 360) },
                    0,
                    0,
                    0,
                ],
            )
        }
        _ => {
            let saturation = value(r, 19, 12345);
            let e = value(r, 19, saturation);
            humidity_body(e, saturation, vapour::dew_point(e).unwrap_or(0))
        }
    }
}

/// Records that rise and keep their rules, as many as asked.
pub fn right_records(r: &mut Random, count: usize) -> Vec<Record> {
    let mut minute = r.pick(&[0, 180, 5000, 16_777_000]);
    let mut records = Vec::new();
    let mut last = (0, 0);
    while records.len() < count {
        let body = right_body(r);
        if (minute, body.0) <= last || (body.0 == 2 && minute < 180) {
            minute += 1 + r.below(4) as u32;
            continue;
        }
        last = (minute, body.0);
        records.push((minute, body));
        if minute > 16_777_215 {
            return right_records(r, count);
        }
    }
    records
}

/// The same with one thing wrong: a figure beside its limit or far off, a minute, the order.
fn wrong_records(r: &mut Random, count: usize) -> Vec<Record> {
    let mut records = right_records(r, count.max(1));
    let at = r.below(records.len() as u64) as usize;
    match r.below(6) {
        0 => records[at].0 = r.pick(&[0, 179, 180, 16_777_215, 16_777_216, u32::MAX, 1 << 31]),
        1 => {
            let other = r.below(records.len() as u64) as usize;
            records.swap(at, other);
        }
        2 => {
            let figure = r.below(5) as usize;
            records[at].1 .1[figure] = r.next() as i32;
        }
        3 => {
            let figure = r.below(5) as usize;
            records[at].1 .1[figure] = r.pick(&[
                -1,
                0,
                18,
                19,
                179,
                180,
                255,
                256,
                360,
                361,
                956,
                957,
                3000,
                3001,
                -3000,
                -3001,
                7999,
                8000,
                11500,
                11501,
                12345,
                12346,
                32767,
                32768,
                65535,
                65536,
                65537,
                -32768,
                -32769,
                i32::MAX,
                i32::MIN,
            ]);
        }
        _ => {
            let figure = r.below(5) as usize;
            let old = records[at].1 .1[figure];
            records[at].1 .1[figure] = old.wrapping_add(r.pick(&[-1, 1, 256, -256, 65536, -65536]));
        }
    }
    records
}

pub fn some(r: &mut Random) -> usize {
    match r.below(6) {
        0 => 0,
        1 => 48,
        2 => r.below(49) as usize,
        _ => r.below(8) as usize,
    }
}

/// Records written with too little, just enough and more room; files of them read and listed.
pub fn compare(tally: &mut Tally, r: &mut Random, rounds: u64) {
    for _ in 0..rounds {
        let count = if r.once_in(20) {
            49 + r.below(3) as usize
        } else {
            some(r)
        };
        let records = if r.once_in(2) {
            right_records(r, count)
        } else {
            wrong_records(r, count)
        };
        let count = records.len();
        let file = bytes_of(&records);
        let room = (file.len() + r.below(40) as usize)
            .saturating_sub(r.below(40) as usize)
            .min(900);
        both_write(tally, "files, written", &records, count, room);
        both_write(tally, "files, written", &records, count, 900);
        both_read(tally, "files, read", &file);
        both_list(tally, "files, listed", &file);
    }
}

/// Every single-byte damage, every cut and some extensions of a sample of files; and bytes with no file in them.
pub fn damage(tally: &mut Tally, r: &mut Random, files: u64) {
    for _ in 0..files {
        let count = r.pick(&[0, 1, 2, 4, 5, 8, 48]);
        let file = bytes_of(&right_records(r, count));
        for at in 0..file.len() {
            let mut bad = file.clone();
            for value in 0..=255 {
                bad[at] = value;
                both_read(tally, "files, damaged", &bad);
            }
            bad[at] = file[at] ^ (1 << r.below(8));
            both_list(tally, "files, damaged and listed", &bad);
            both_read(tally, "files, cut", &file[..at]);
            both_list(tally, "files, cut", &file[..at]);
            // two damages, or a damage and a cut
            let other = r.below(file.len() as u64) as usize;
            bad[other] ^= 1 << r.below(8);
            both_read(tally, "files, damaged twice", &bad);
            both_read(tally, "files, damaged twice", &bad[..other]);
        }
        for extra in 1..20 {
            let mut long = file.clone();
            long.extend((0..extra).map(|_| r.next() as u8));
            both_read(tally, "files, extended", &long);
            both_list(tally, "files, extended", &long);
        }
        let noise: Vec<u8> = (0..r.below(900)).map(|_| r.next() as u8).collect();
        both_read(tally, "files, noise", &noise);
        let mut begun = file.clone();
        for byte in begun.iter_mut().skip(4) {
            if r.once_in(12) {
                *byte = r.next() as u8;
            }
        }
        both_read(tally, "files, noise", &begun);
    }
}
