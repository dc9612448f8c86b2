//! The hand anemometer: certificates that keep their rules and that break each of them; rates at every point, on lines between them and
//! one part beside; the dial and the seconds at their limits and beyond; every compass direction with every course; and silences that
//! an entry ends.

use reference::anemometer::TABLE_1;

use crate::pair::{tenths, Chosen, Noted, Pair, LAST};
use crate::random::Random;
use crate::tally::Tally;

/// What the documents allow.
const MOST_POINTS: usize = 20;
const MOST_RATE: i32 = 9999;
const MOST_SPEED: i32 = 750;
const LONGEST: u32 = 600;
const DIVISIONS: u32 = 10_000;

/// So many numbers from 0 to most, strictly rising, fewer where they would be the same.
fn rising(r: &mut Random, count: usize, most: i32) -> Vec<i32> {
    let mut numbers: Vec<i32> = (0..count)
        .map(|_| match r.below(12) {
            0 => 0,
            1 => most,
            _ => r.within(0, most),
        })
        .collect();
    numbers.sort_unstable();
    numbers.dedup();
    numbers
}

/// A certificate that keeps its rules: at times none, and rates that a mate's hand can meet, or any.
pub fn rates(r: &mut Random) -> Vec<(i32, i32)> {
    if r.once_in(5) {
        return Vec::new();
    }
    let count = r.pick(&[2, 3, 5, 11, 19, MOST_POINTS]);
    let most = r.pick(&[20, 20, 40, 200, MOST_RATE]);
    let points: Vec<(i32, i32)> = rising(r, count, most)
        .into_iter()
        .zip(rising(r, count, MOST_SPEED))
        .collect();
    if points.len() < 2 {
        return TABLE_1.to_vec();
    }
    points
}

/// Breaks one of the rules, or comes to their edge.
pub fn spoil(r: &mut Random, points: &mut Vec<(i32, i32)>) {
    if points.len() < 2 {
        *points = TABLE_1.to_vec();
    }
    let at = r.below(points.len() as u64) as usize;
    let before = points[at.saturating_sub(1)];
    let last = points[points.len() - 1];
    match r.below(9) {
        0 => points.truncate(1),
        1 => points[at].0 = r.pick(&[-1, MOST_RATE, MOST_RATE + 1, i32::MIN, i32::MAX]),
        2 => points[at].1 = r.pick(&[-1, MOST_SPEED, MOST_SPEED + 1, i32::MIN, i32::MAX]),
        3 => points[at].0 = before.0,
        4 => points[at].1 = before.1,
        5 => points.swap(0, at),
        6 => points.push((last.0 + 1, last.1 + 1)),
        7 => points.resize(MOST_POINTS + 1, last),
        _ => points.extend(TABLE_1),
    }
}

/// An entry of this minute: a rate at a point of the certificate or one part beside it, between two, or any; now and then a figure that
/// is none.
pub fn entry(r: &mut Random, points: &[(i32, i32)], minute: u32) -> Noted {
    let any = r.within(1, LONGEST as i32);
    let seconds = r.pick(&[1, 2, 30, 60, 100, 599, 600, any]);
    let rate = |r: &mut Random| match points {
        [] => r.within(0, 20),
        _ => r.pick(points).0,
    };
    let turns = match r.below(8) {
        0 | 1 => rate(r) * seconds,
        2 => rate(r) * seconds + r.pick(&[-1, 1]),
        3 => r.within(0, MOST_RATE),
        _ => {
            let (one, other) = (rate(r) * seconds, rate(r) * seconds);
            r.within(one.min(other), one.max(other))
        }
    };
    let turns = turns.clamp(0, MOST_RATE) as u32;
    let anywhere = r.below(DIVISIONS.into()) as u32;
    let first = r.pick(&[0, 1, 9_998, 9_999, anywhere, anywhere]);
    let direction = match r.below(16) {
        0 => r.pick(&[0, 359, 360]),
        1 => r.pick(&[361, 362, 719, u32::MAX]),
        _ => r.within(0, 360) as u32,
    };
    let mut entry = [
        minute,
        direction,
        first,
        (first + turns) % DIVISIONS,
        seconds as u32,
    ];
    match r.below(24) {
        0 => entry[r.pick(&[2, 3])] = r.pick(&[DIVISIONS, DIVISIONS + 1, 1 << 16, u32::MAX]),
        1 => entry[4] = r.pick(&[0, LONGEST + 1, 1 << 16, u32::MAX]),
        2 => entry[0] = r.pick(&[LAST, LAST + 1, u32::MAX]),
        _ => {}
    }
    entry
}

/// Certificates with each rule kept to its edge and broken by one, at every place of every length, beside settings that are right and
/// beside those that 9 and 10 refuse first.
pub fn certificates(tally: &mut Tally) {
    let mut tried = |rates: Vec<(i32, i32)>| {
        for (height, points) in [(0, 2), (601, 2), (0, 1), (601, 1)] {
            let mut chosen = Chosen::with_rates(&rates);
            chosen.height = height;
            chosen.points.truncate(points);
            Pair::open(tally, &chosen);
        }
    };
    for count in 0..=40 {
        tried((0..count).map(|i| (i, i)).collect());
    }
    tried(vec![(0, 0); 300]);
    for count in 2..=MOST_POINTS {
        // up to the last rate and the last speed, and from the first
        let low: Vec<(i32, i32)> = (0..count as i32).map(|i| (i, i)).collect();
        let high: Vec<(i32, i32)> = low
            .iter()
            .map(|&(i, _)| {
                (
                    MOST_RATE - count as i32 + 1 + i,
                    MOST_SPEED - count as i32 + 1 + i,
                )
            })
            .collect();
        for (good, at) in [&low, &high]
            .into_iter()
            .flat_map(|good| (0..count).map(move |at| (good, at)))
        {
            tried(good.clone());
            for off in [-2, -1, 1, 2, i32::MIN, i32::MAX] {
                let mut rate = good.clone();
                rate[at].0 = rate[at].0.saturating_add(off);
                tried(rate);
                let mut speed = good.clone();
                speed[at].1 = speed[at].1.saturating_add(off);
                tried(speed);
            }
        }
    }
}

/// The motion of a ship at rest: her true wind is just what was kept of the apparent one, and of the course.
fn at_rest(minute: u32, course: i32) -> [u8; 16] {
    tenths(3, minute, 0, course)
}

/// A ship at rest whose wind is noted, minute after minute.
struct Hand {
    pair: Pair,
    minute: u32,
}

impl Hand {
    fn new(tally: &mut Tally, rates: &[(i32, i32)]) -> Hand {
        Hand {
            pair: Pair::open(tally, &Chosen::with_rates(rates))
                .expect("the rates keep their rules"),
            minute: 0,
        }
    }

    /// The course comes, then the entry; the wind shows what was kept of it.
    fn notes(
        &mut self,
        tally: &mut Tally,
        kind: &'static str,
        course: i32,
        [direction, first, second, seconds]: [u32; 4],
    ) {
        self.minute += 1;
        self.pair
            .hear(tally, "dial, heard", &at_rest(self.minute, course));
        let entry = [self.minute, direction, first, second, seconds];
        if self.pair.note(tally, kind, entry) {
            self.pair.wind(tally, "dial, what was kept", self.minute);
        }
        // an entry that was refused, and those before it, may matter too
        self.pair.forget_but(8);
    }
}

/// Certificates of which an edge or a half is expected.
fn some(r: &mut Random, random: u64) -> Vec<Vec<(i32, i32)>> {
    let steep: Vec<(i32, i32)> = (0..20).map(|i| (i, 39 * i)).collect();
    let flat: Vec<(i32, i32)> = (0..20).map(|i| (500 * i, i)).collect();
    let mut all = vec![
        TABLE_1.to_vec(),
        vec![(0, 0), (MOST_RATE, MOST_SPEED)],
        vec![(0, 0), (1, MOST_SPEED)],
        vec![(MOST_RATE - 1, 0), (MOST_RATE, 1)],
        vec![(0, 3), (2, 4), (16, 5), (17, 750)],
        steep,
        flat,
    ];
    all.extend(
        (0..random)
            .map(|_| rates(r))
            .filter(|points| !points.is_empty()),
    );
    all
}

/// Every point of a certificate, met exactly and one part beside it, for every number of seconds.
pub fn edges(tally: &mut Tally, r: &mut Random, random: u64) {
    for points in some(r, random) {
        let mut hand = Hand::new(tally, &points);
        for seconds in 1..=LONGEST {
            for &(rate, _) in &points {
                let at = rate * seconds as i32;
                for turns in (at - 1..=at + 1).filter(|turns| (0..=MOST_RATE).contains(turns)) {
                    let first = r.below(DIVISIONS.into()) as u32;
                    let second = (first + turns as u32) % DIVISIONS;
                    hand.notes(tally, "dial, at points", 0, [90, first, second, seconds]);
                }
            }
        }
    }
}

/// Every number of divisions in some numbers of seconds: so every half that lies on the lines between points.
pub fn lines(tally: &mut Tally, r: &mut Random, random: u64) {
    for points in some(r, random / 2) {
        let mut hand = Hand::new(tally, &points);
        for seconds in [1, 2, 7, 60, 500, LONGEST] {
            for turns in 0..DIVISIONS {
                let first = r.below(DIVISIONS.into()) as u32;
                let second = (first + turns) % DIVISIONS;
                hand.notes(tally, "dial, along lines", 0, [90, first, second, seconds]);
            }
        }
    }
}

/// Around the dial's ends, and beyond them.
const DIALS: [u32; 17] = [
    0,
    1,
    2,
    4_999,
    5_000,
    5_001,
    9_997,
    9_998,
    9_999,
    10_000,
    10_001,
    19_999,
    20_000,
    65_536,
    1 << 31,
    u32::MAX - 1,
    u32::MAX,
];
const SECONDS: [u32; 11] = [0, 1, 2, 60, 599, 600, 601, 602, 65_536, 65_537, u32::MAX];

/// Dials and seconds at their limits, and every first reading with the ones next to it. Then each figure of an entry right and wrong
/// beside all the others, so that each refusal is met before those that come after it.
pub fn limits(tally: &mut Tally) {
    for points in [&TABLE_1[..], &[(0, 0), (MOST_RATE, MOST_SPEED)], &[]] {
        let mut hand = Hand::new(tally, points);
        for first in DIALS {
            for second in DIALS {
                for seconds in SECONDS {
                    let entry = [90, first, second, seconds];
                    hand.notes(tally, "dial, at limits", 350, entry);
                }
            }
        }
        for first in 0..DIVISIONS {
            for past in [DIVISIONS - 1, 0, 1, 20, 21] {
                let entry = [90, first, (first + past) % DIVISIONS, 1];
                hand.notes(tally, "dial, at limits", 350, entry);
            }
        }
        in_order(tally, points);
    }
}

/// Channel 2's newest is 600, by a message or by an entry; 601 and 700 have a course, and 602 has none.
fn in_order(tally: &mut Tally, points: &[(i32, i32)]) {
    let mut fresh =
        Pair::open(tally, &Chosen::with_rates(points)).expect("the rates keep their rules");
    fresh.hear(tally, "dial, heard", &at_rest(600, 10));
    if !fresh.note(tally, "dial, in order", [600, 0, 0, 5, 1]) {
        fresh.hear(tally, "dial, heard", &tenths(2, 600, 49, 350));
    }
    fresh.hear(tally, "dial, heard", &at_rest(601, 360));
    fresh.hear(tally, "dial, heard", &at_rest(700, 0));
    let mut pair = fresh.clone();
    for minute in [
        0,
        345,
        599,
        600,
        601,
        602,
        700,
        701,
        LAST,
        LAST + 1,
        u32::MAX,
    ] {
        for direction in [0, 359, 360, 361, u32::MAX] {
            for (first, second) in [(0, 5), (9_999, 0), (7, 7), (10_000, 0), (0, 10_000)] {
                for seconds in [0, 1, 5, 600, 601] {
                    let entry = [minute, direction, first, second, seconds];
                    if pair.note(tally, "dial, in order", entry) {
                        pair.wind(tally, "dial, what was kept", minute);
                        pair.back_to(&fresh);
                    }
                }
            }
        }
    }
    // what was refused has left channel 2 as it was
    for asked in [599, 600, 601, 602, 700] {
        pair.wind(tally, "dial, what was kept", asked);
    }
}

/// Every compass direction, and one more, with every course.
pub fn directions(tally: &mut Tally) {
    let mut hand = Hand::new(tally, &TABLE_1);
    for course in 0..=360 {
        for direction in 0..=361 {
            hand.notes(
                tally,
                "dial, directions",
                course,
                [direction, 9_900, 20, 60],
            );
        }
    }
}

/// The minutes that a channel keeps, and the longest silence.
const KEPT: u32 = reference::store::KEPT as u32;
const SILENT: u32 = 600;

/// The wind came each minute, in turns from its head and by hand; after a silence of any length the next comes by hand. Every minute
/// that can still be kept is then asked for.
pub fn silences(tally: &mut Tally) {
    let mut full =
        Pair::open(tally, &Chosen::with_rates(&TABLE_1)).expect("the rates keep their rules");
    let newest = 3 * KEPT + 40;
    for minute in newest - (KEPT - 1)..=newest {
        full.hear(tally, "dial, heard", &at_rest(minute, 90));
        let turns = 60 + minute % 500;
        if minute % 2 == 0 {
            full.note(tally, "dial, silences", [minute, 180, 0, turns, 60]);
        } else {
            let wind = tenths(2, minute, turns as i32 % MOST_SPEED, 45);
            full.hear(tally, "dial, heard", &wind);
        }
    }
    let mut pair = full.clone();
    for silent in 0..=SILENT {
        pair.back_to(&full);
        let minute = newest + silent + 1;
        pair.hear(tally, "dial, heard", &at_rest(minute, 90));
        pair.note(tally, "dial, silences", [minute, 180, 0, 300, 60]);
        for asked in minute - KEPT..=minute + 1 {
            pair.wind(tally, "dial, silences", asked);
        }
    }
}
