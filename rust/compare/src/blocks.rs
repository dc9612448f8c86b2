//! One block of memory on each side, from its first zeros on: openings, right and wrong, messages, entries and questions come in any
//! order, so also before any opening and after those that were refused. What is refused leaves every word as it was. And blocks that no
//! hearing made: a word of the wet bulb's window says any state, a word of the ship's motion any course, and the words of the hand
//! anemometer's certificate anything at all.

use reference::anemometer::{from_bow, TABLE_1};
use reference::rounding::nearest;
use reference::station;
use zhitomrak::raw;

use crate::dial;
use crate::library;
use crate::pair::{
    hear_line, independent, message, my_entry, not_later, note_line, tenths, their_entry, Chosen,
    Noted,
};
use crate::random::Random;
use crate::tally::{Answer, Tally, To};
use crate::watches::chosen;

fn opened(number: u32) -> Answer {
    match number {
        0 => Answer::Given([0; 5]),
        _ => Answer::Refused(number, 0, 0),
    }
}

/// What a message came to; minutes beside any number are compared.
fn heard(told: raw::Heard) -> Answer {
    match (told.number, told.late) {
        (0, 0) => Answer::Given([0; 5]),
        (number, late) => Answer::Refused(number, late as usize, 0),
    }
}

/// What an entry came to; channel, minute and minutes beside any number are compared.
fn noted(told: raw::Noted) -> Answer {
    let (channel, minute, late) = (
        told.channel as usize,
        told.minute as usize,
        told.late as usize,
    );
    match (told.number, channel, minute, late) {
        (0, 0, 0, 0) => Answer::Given([0; 5]),
        (11, channel, minute, 0) => Answer::Refused(11, channel, minute),
        (number, 0, 0, late) => Answer::Refused(number, late, 0),
        (number, ..) => Answer::Refused(number, usize::MAX, usize::MAX),
    }
}

/// Opens a store in the block, and gives the number that this came to.
pub fn open(block: &mut raw::Block, chosen: &Chosen) -> u32 {
    let settings = chosen.proved();
    let told = raw::Settings {
        unit: chosen.mm_hg.into(),
        height: settings.height,
        difference: settings.difference,
        coefficient: settings.coefficient,
        psychrometer: settings.psychrometer,
        certificate: settings.certificate,
        anemometer: settings.anemometer,
    };
    raw::open(block, &told)
}

/// What a question came to: figures, each of which fits 32 bits, or the refusal with its channel and minute.
fn asked(why: raw::Refusal, figures: [i64; 5]) -> Answer {
    match (why.number, why.channel as usize, why.minute as usize) {
        (0, _, _) => Answer::Given(figures.map(|n| n as i32)),
        (11, channel, minute) => Answer::Refused(11, channel, minute),
        (number, channel, minute) => Answer::Refused(number, minute, channel),
    }
}

struct Both {
    proved: Box<raw::Block>,
    independent: station::Memory,
    told: String,
}

impl Both {
    fn new() -> Both {
        Both {
            proved: Box::new([0; raw::STORE_WORDS]),
            independent: station::Memory::default(),
            told: String::new(),
        }
    }

    /// Compares what a question came to; one that was refused has changed no word.
    fn same(&self, tally: &mut Tally, kind: &'static str, a: Answer, b: Answer, was: &[u64]) {
        tally.answers_to(To::Question, kind, a, b, || self.told.clone());
        self.left_alone(tally, b, was);
    }

    fn left_alone(&self, tally: &mut Tally, b: Answer, was: &[u64]) {
        if let Answer::Refused(..) = b {
            let stays = self.proved[..] == *was;
            tally.same("blocks, left alone", true, &stays, &true, || {
                self.told.clone()
            });
        }
    }

    fn open(&mut self, tally: &mut Tally, chosen: &Chosen) {
        self.told += &format!("{}\n", chosen.line());
        let was = self.proved.clone();
        let a = open(&mut self.proved, chosen);
        let b = chosen.independent(|settings| self.independent.open(settings));
        let b = independent(b, |()| [0; 5]);
        tally.answers_to(To::Opening, "blocks, opened", opened(a), b, || {
            self.told.clone()
        });
        self.left_alone(tally, b, &was[..]);
    }

    fn hear(&mut self, tally: &mut Tally, message: &[u8]) {
        self.told += &hear_line(message);
        let was = self.proved.clone();
        let a = raw::hear(&mut self.proved, message);
        let b = independent(self.independent.hear(message), |()| [0; 5]);
        tally.answers_to(To::Message, "blocks, heard", heard(a), b, || {
            self.told.clone()
        });
        self.left_alone(tally, b, &was[..]);
    }

    fn note(&mut self, tally: &mut Tally, entry: Noted) {
        self.told += &note_line(entry);
        let was = self.proved.clone();
        let a = raw::note(&mut self.proved, my_entry(entry));
        let b = independent(self.independent.note(&their_entry(entry)), |()| [0; 5]);
        tally.answers_to(To::Entry, "blocks, noted", noted(a), b, || {
            self.told.clone()
        });
        self.left_alone(tally, b, &was[..]);
    }

    fn ask(&mut self, tally: &mut Tally, minute: u32) {
        self.told += &format!("pressure, tendency, wind, humidity {minute}\n");
        let kind = "blocks, asked";
        let was = self.proved.clone();
        let store = self.independent.store();

        let p = raw::pressure(&self.proved, minute);
        let a = asked(p.refusal, [p.pressure, 0, 0, 0, 0]);
        let b = store.and_then(|store| store.pressure(minute));
        self.same(
            tally,
            kind,
            a,
            independent(b, |p| [p, 0, 0, 0, 0]),
            &was[..],
        );

        let t = raw::tendency(&self.proved, minute);
        let a = asked(t.refusal, [t.change, t.absent as i64, 0, 0, 0]);
        let b = store.and_then(|store| store.tendency(minute));
        let b = independent(b, |t| [t.change, t.absent, 0, 0, 0]);
        self.same(tally, kind, a, b, &was[..]);

        let w = raw::wind(&self.proved, minute);
        let a = asked(w.refusal, [w.speed.into(), w.direction.into(), 0, 0, 0]);
        let b = store.and_then(|store| store.wind(minute));
        let b = independent(b, |w| [w.speed, w.direction, 0, 0, 0]);
        self.same(tally, kind, a, b, &was[..]);

        let h = raw::humidity(&self.proved, minute);
        let figures = [
            h.vapour_pressure.into(),
            h.saturation.into(),
            h.deficit.into(),
            h.relative_humidity.into(),
            h.dew_point.into(),
        ];
        let a = asked(h.refusal, figures);
        let b = store.and_then(|store| store.humidity(minute));
        let b = independent(b, |h| [h.e, h.saturation, h.deficit, h.relative, h.dew]);
        self.same(tally, kind, a, b, &was[..]);
    }

    /// The same, and what else a caller asks.
    fn ask_all(&mut self, tally: &mut Tally, minute: u32) {
        self.ask(tally, minute);
        let was = self.proved.clone();
        library::kept(tally, &self.proved, &self.independent, minute, &self.told);
        library::recorded(tally, &self.proved, &self.independent, minute, &self.told);
        library::settings_read(tally, &self.proved, &self.independent, &self.told);
        let stays = self.proved[..] == was[..];
        tally.same("blocks, left alone", false, &stays, &true, || {
            self.told.clone()
        });
    }

    fn hear_all(&mut self, tally: &mut Tally, bytes: &[u8]) {
        self.told += &bytes.chunks(16).map(hear_line).collect::<String>();
        let (block, memory) = (&mut self.proved, &mut self.independent);
        library::heard_all(tally, block, memory, bytes, &self.told);
    }
}

/// Readings that instruments could have, in either unit of the barometer.
fn reading(r: &mut Random, channel: u8, minute: u32) -> [u8; 16] {
    let (first, second) = match channel {
        0 => (r.pick(&[740.0, 750.0, 990.0, 1000.0]), 0.0),
        1 => (12.4, 0.0),
        2 => (8.0, 40.0),
        3 => (10.0, 90.0),
        4 => (r.pick(&[20.0, -5.0]), 0.0),
        _ => (r.pick(&[15.0, -5.2, -4.9]), r.pick(&[0.0, 1.0, 2.0, 3.0])),
    };
    message(channel, minute, first, second)
}

/// The block's words (docs/FORMAT.md, "The block of a store"): how many points the anemometer's certificate has, and the first of them.
const RATES: usize = 22;
const FIRST_RATE: usize = RATES + 1;

/// The word of a minute in a channel's window.
fn cell(channel: usize, minute: u32) -> usize {
    FIRST_RATE + raw::ANEMOMETER_MAX_POINTS + 261 * channel + 5 + minute as usize % 256
}

/// Blocks whose word of a wet bulb was written over with any state in its second 16 bits: one that there is counts as if a message had
/// said it, and with one that there is not no wet bulb was heard.
pub fn other_origin(tally: &mut Tally, r: &mut Random, rounds: u64) {
    for _ in 0..rounds {
        let mut both = Both::new();
        both.open(tally, &chosen(r));
        let minute = r.pick(&[0, 63, 180, 255, 256, 1_000]);
        for channel in 0..5 {
            if !r.once_in(8) {
                both.hear(tally, &reading(r, channel, minute));
            }
        }
        let any = r.next() as u16;
        let state = r.pick(&[0, 1, 2, 3, 4, 5, 255, 256, 257, 1 << 15, u16::MAX, any]);
        let wet = r.pick(&[15.0, -5.2, -4.9]);
        let water = raw::hear(&mut both.proved, &message(5, minute, wet, 0.0));
        if water.number == 0 {
            both.proved[cell(5, minute)] |= u64::from(state) << 16;
        }
        if state <= 2 {
            let said = message(5, minute, wet, f32::from(state));
            // not heard where no store was opened
            let _ = both.independent.hear(&said);
        }
        both.told += &format!("wet bulb {wet}, its word with state {state}\n");
        both.ask(tally, minute);
    }
}

/// The speed that words of an anemometer's certificate give for so many divisions in so many seconds, whatever the words are: by the
/// first two neighbours, the lower first, that stand round the rate. None where there are none, or where it leaves channel 2's limits.
fn speed_by(words: &[u64], turns: i64, seconds: i64) -> Option<i64> {
    let half = |word: u64| (word & 0xffff) as i64 - 32_768;
    let count = words[0].min(raw::ANEMOMETER_MAX_POINTS as u64) as usize;
    let points: Vec<(i64, i64)> = words[1..=count]
        .iter()
        .map(|&word| (half(word) * seconds, half(word >> 16)))
        .collect();
    points
        .windows(2)
        .map(|two| (two[0], two[1]))
        .find(|(low, high)| low.0 < high.0 && (low.0..=high.0).contains(&turns))
        .map(|(low, high)| {
            let span = high.0 - low.0;
            nearest(low.1 * span + (high.1 - low.1) * (turns - low.0), span)
        })
        .filter(|speed| (0..=750).contains(speed))
}

/// Words of a certificate: rates that rise or that do not, with speeds within their limits, near them and far from them; how many
/// points there are said to be is any number.
fn rate_words(r: &mut Random) -> [u64; 1 + raw::ANEMOMETER_MAX_POINTS] {
    let rising = r.once_in(2);
    let (most_rate, most_speed) = (
        r.pick(&[20, 200, 9_999, 32_767]),
        r.pick(&[750, 900, 32_767]),
    );
    let least_speed = r.pick(&[0, 0, -100, -32_768]);
    let mut rates: Vec<i32> = (0..raw::ANEMOMETER_MAX_POINTS)
        .map(|_| r.within(if rising { 0 } else { -most_rate }, most_rate))
        .collect();
    if rising {
        rates.sort_unstable();
    }
    let any = r.next();
    let mut words = [r.pick(&[2, 3, 11, 19, 20, 20, 21, 255, 1 << 32, u64::MAX, 0, 1, any]); 21];
    for (word, rate) in words[1..].iter_mut().zip(rates) {
        let half = |n: i32| (n + 32_768) as u64;
        *word = half(rate) | half(r.within(least_speed, most_speed)) << 16;
        if r.once_in(8) {
            *word |= r.next() << 32;
        }
    }
    if r.once_in(8) {
        words[1..].fill_with(|| r.next());
    }
    words
}

/// Blocks whose words of the anemometer's certificate were written over, and whose word of the ship's motion says any course: one above
/// 360 is missing. What is kept of an entry is looked at in its word, and asked for.
pub fn other_anemometers(tally: &mut Tally, r: &mut Random, rounds: u64) {
    for _ in 0..rounds {
        let mut both = Both::new();
        both.open(tally, &chosen(r));
        let minute = r.pick(&[0, 63, 180, 255, 256, 1_000]);
        let any = r.next() as u16;
        let course = match r.below(4) {
            0 => r.pick(&[0, 359, 360, 361, 720, 1 << 15, u16::MAX, any]),
            _ => r.below(360) as u16,
        };
        let still = raw::hear(&mut both.proved, &tenths(3, minute, 100, 0));
        let open = still.number == 0;
        if open {
            both.proved[cell(3, minute)] |= u64::from(course) << 16;
            both.proved[RATES..FIRST_RATE + raw::ANEMOMETER_MAX_POINTS]
                .copy_from_slice(&rate_words(r));
        }
        let seen = course <= 360;
        if seen {
            // not heard where no store was opened
            let _ = both
                .independent
                .hear(&tenths(3, minute, 100, course.into()));
        }
        let rates: Vec<(i32, i32)> = both.proved[FIRST_RATE..][..raw::ANEMOMETER_MAX_POINTS]
            .iter()
            .map(|&word| ((word & 0xffff) as i32 - 32_768, 0))
            .collect();
        let [_, _, first, second, seconds] = dial::entry(r, &rates, minute);
        let direction = r.pick(&[0, 1, 180, 359, 360, course.min(360).into()]);
        let entry = [
            minute,
            direction,
            first.min(9_999),
            second.min(9_999),
            seconds.clamp(1, 600),
        ];
        let turns = (entry[3] + 10_000 - entry[2]) % 10_000;
        let words = both.proved[RATES..FIRST_RATE + raw::ANEMOMETER_MAX_POINTS].to_vec();
        let speed = speed_by(&words, turns.into(), entry[4].into());
        both.told += &format!(
            "course {course}, the anemometer's words {words:x?}\n{}",
            note_line(entry)
        );
        let expected = match speed {
            _ if !open => Answer::Refused(raw::NO_STORE, 0, 0),
            _ if !seen => Answer::Refused(11, 3, minute as usize),
            None => Answer::Refused(24, 0, 0),
            Some(_) => Answer::Given([0; 5]),
        };
        let was = both.proved.clone();
        let a = raw::note(&mut both.proved, my_entry(entry));
        let kind = "blocks, other anemometers";
        tally.answers_to(To::Entry, kind, noted(a), expected, || both.told.clone());
        both.left_alone(tally, expected, &was[..]);
        if let (Answer::Given(_), Some(speed)) = (expected, speed) {
            let ahead = from_bow(direction as i32, course as i16);
            let kept = both.proved[cell(2, minute)];
            let wanted = speed as u64 | (ahead as u64) << 16;
            tally.same(kind, false, &kept, &wanted, || both.told.clone());
            let _ = both
                .independent
                .hear(&tenths(2, minute, speed as i32, ahead.into()));
        }
        both.ask(tally, minute);
    }
}

/// The word that is kept of an entry, for every compass direction with every course.
pub fn directions(tally: &mut Tally) {
    let mut both = Both::new();
    both.open(tally, &Chosen::with_rates(&TABLE_1));
    let mut minute = 0;
    for course in 0..=360 {
        for direction in 0..=360 {
            minute += 1;
            // 5 divisions a second are 4.9 m/s
            let entry = [minute, direction, 9_900, 200, 60];
            let heard = raw::hear(&mut both.proved, &tenths(3, minute, 0, course));
            let told = raw::note(&mut both.proved, my_entry(entry));
            let ahead = (direction as i32 - course + 720) % 360;
            let kept = (heard.number, told.number, both.proved[cell(2, minute)]);
            let wanted = (0, 0, 49 | (ahead as u64) << 16);
            tally.same("blocks, directions", false, &kept, &wanted, || {
                format!("course {course}, {}", note_line(entry))
            });
        }
    }
}

pub fn compare(tally: &mut Tally, r: &mut Random, rounds: u64) {
    for _ in 0..rounds {
        let mut both = Both::new();
        let mut minute = r.pick(&[0, 179, 180, 1_000]);
        let mut rates = Vec::new();
        for _ in 0..12 {
            match r.below(6) {
                0 => {
                    let wanted = chosen(r);
                    rates.clone_from(&wanted.rates);
                    both.open(tally, &wanted);
                }
                1 | 2 => {
                    minute += r.below(2) as u32;
                    let late = r.once_in(4);
                    for channel in 0..6 {
                        let sent = if late { not_later(r, minute) } else { minute };
                        both.hear(tally, &reading(r, channel, sent));
                    }
                }
                3 => {
                    let mut many = Vec::new();
                    for channel in 0..6 {
                        minute += r.below(2) as u32;
                        many.extend(reading(r, channel, minute));
                    }
                    many.truncate(many.len() - r.below(18) as usize);
                    both.hear_all(tally, &many);
                    let length = r.pick(&[0, 15, 16, 17]);
                    let wrong: Vec<u8> = (0..length).map(|_| r.next() as u8).collect();
                    both.hear(tally, &wrong);
                }
                4 => {
                    minute += r.below(2) as u32;
                    if !r.once_in(3) {
                        both.hear(tally, &reading(r, 3, minute));
                    }
                    let noted_for = if r.once_in(6) {
                        not_later(r, minute)
                    } else {
                        minute
                    };
                    both.note(tally, dial::entry(r, &rates, noted_for));
                }
                _ => both.ask_all(tally, r.pick(&[minute, minute, 0, 180, u32::MAX])),
            }
        }
    }
}
