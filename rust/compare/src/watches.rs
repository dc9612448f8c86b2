//! Whole watches of several stores, interleaved, and questions at every kind of minute.

use crate::dial;
use crate::pair::{barometer, not_later, tenths, Chosen, Pair, LAST};
use crate::random::Random;
use crate::tally::Tally;

const STORES: usize = 4;

/// Settings, mostly within their limits and often at them; sometimes outside.
pub fn chosen(r: &mut Random) -> Chosen {
    let mm_hg = r.once_in(2);
    let (low, high) = barometer(mm_hg);
    let wrong = r.once_in(4);
    let value = |r: &mut Random, low: i32, high: i32| match r.below(8) {
        0 => low,
        1 => high,
        2 if wrong => r.pick(&[low - 1, high + 1, i32::MIN, i32::MAX]),
        _ => r.within(low, high),
    };
    let height = value(r, 0, 600);
    let difference = value(r, -300, 300);
    let coefficient = value(r, -50, 50);
    let psychrometer = value(r, 500, 1000);
    let count = if wrong { r.below(20) } else { 2 + r.below(15) };
    let mut readings: Vec<i32> = (0..count).map(|_| value(r, low, high)).collect();
    if !(wrong && r.once_in(2)) {
        readings.sort_unstable();
        if !wrong {
            readings.dedup();
            if readings.len() < 2 {
                readings = vec![low, high];
            }
        }
    }
    let points = readings
        .iter()
        .map(|&reading| (reading, value(r, -50, 50)))
        .collect();
    let mut rates = dial::rates(r);
    if r.once_in(8) {
        dial::spoil(r, &mut rates);
    }
    Chosen {
        mm_hg,
        height,
        difference,
        coefficient,
        psychrometer,
        points,
        rates,
    }
}

pub fn openings(tally: &mut Tally, r: &mut Random, rounds: u64) {
    for _ in 0..rounds {
        let wanted = chosen(r);
        Pair::open(tally, &wanted);
    }
}

struct Ship {
    pair: Pair,
    mm_hg: bool,
    points: (i32, i32),
    rates: Vec<(i32, i32)>,
    newest: [u32; 6],
    clock: u32,
}

impl Ship {
    fn launch(tally: &mut Tally, r: &mut Random) -> Ship {
        loop {
            let wanted = chosen(r);
            if let Some(pair) = Pair::open(tally, &wanted) {
                let clock = r.pick(&[0, 0, 100, 10_000, LAST - 2_000]);
                let points = (wanted.points[0].0, wanted.points[wanted.points.len() - 1].0);
                return Ship {
                    pair,
                    mm_hg: wanted.mm_hg,
                    points,
                    rates: wanted.rates,
                    newest: [0; 6],
                    clock,
                };
            }
        }
    }

    /// A reading that the instruments could have; now and then a state that is none.
    fn reading(&self, r: &mut Random, channel: u8) -> (i32, i32) {
        match channel {
            0 if r.once_in(12) => {
                let (low, high) = barometer(self.mm_hg);
                (r.within(low, high), 0)
            }
            0 => (r.within(self.points.0, self.points.1), 0),
            1 => (r.within(-400, 600), 0),
            2 => (r.within(0, 750), r.within(0, 360)),
            3 => (r.within(0, 400), r.within(0, 360)),
            4 => (r.within(-400, 500), 0),
            _ => (r.within(-400, 500), r.within(0, 3)),
        }
    }

    /// Dry and wet bulb mostly go together: the wet one a little lower. In frost it may be iced, or nobody looked, and then it may
    /// stand a little higher.
    fn bulbs(&mut self, tally: &mut Tally, r: &mut Random) {
        let (state, coldest, warmest, higher) = r.pick(&[
            (0, -400, 500, 0),
            (0, -400, 500, 0),
            (1, -400, 5, 5),
            (2, -105, 5, 5),
        ]);
        let dry = r.within(coldest, warmest);
        let wet = (dry + r.within(-59, higher)).max(-400);
        self.send(tally, 4, self.clock, (dry, 0));
        self.send(tally, 5, self.clock, (wet, state));
    }

    fn send(&mut self, tally: &mut Tally, channel: u8, minute: u32, (first, second): (i32, i32)) {
        self.newest[channel as usize] = self.newest[channel as usize].max(minute.min(LAST));
        self.pair.hear(
            tally,
            "watches, heard",
            &tenths(channel, minute, first, second),
        );
    }

    /// The mate notes the wind, mostly for the minute that it is.
    fn note(&mut self, tally: &mut Tally, r: &mut Random) {
        let newest = self.newest[2];
        let minute = match r.below(16) {
            0 => not_later(r, newest),
            1 => self.clock.saturating_sub(r.below(4) as u32),
            2 => self.clock + 1,
            _ => self.clock,
        };
        let entry = dial::entry(r, &self.rates, minute);
        if self.pair.note(tally, "watches, noted", entry) {
            self.newest[2] = minute;
        }
    }

    /// One turn of a watch: time passes, some instruments send, some of what they send comes late or again. The wind comes from its
    /// head, or by hand: mostly after the course, which it needs, and now and then before it, or both.
    fn turn(&mut self, tally: &mut Tally, r: &mut Random) {
        let passes = match r.below(40) {
            0 => 100 + r.below(200) as u32,
            1 => r.pick(&[180, 254, 255, 256, 257, 64, 63, 65]),
            2 => 0,
            _ => r.pick(&[1, 1, 1, 1, 2, 3]),
        };
        self.clock = (self.clock + passes).min(LAST + 1);
        let quiet = r.once_in(6);
        let by_hand = r.once_in(3);
        for channel in 0..4 {
            if channel == 2 && by_hand {
                if r.once_in(8) {
                    self.note(tally, r);
                }
            } else if !(quiet && r.once_in(2)) {
                let minute = if r.once_in(20) {
                    self.clock.saturating_sub(r.below(4) as u32)
                } else {
                    self.clock
                };
                let reading = self.reading(r, channel);
                self.send(tally, channel, minute, reading);
            }
        }
        if by_hand || r.once_in(20) {
            self.note(tally, r);
        }
        if !quiet {
            self.bulbs(tally, r);
        }
        if r.once_in(12) {
            let channel = r.below(6) as u8;
            let minute = not_later(r, self.newest[channel as usize]);
            let reading = self.reading(r, channel);
            self.send(tally, channel, minute, reading);
        }
        self.ask(tally, r);
    }

    /// Questions at the clock, at every border of what is kept, and where no minute is.
    fn ask(&self, tally: &mut Tally, r: &mut Random) {
        let newest = self.newest[r.below(6) as usize];
        let minute = match r.below(10) {
            0..=2 => self.clock,
            3 => self.clock.saturating_sub(r.below(300) as u32),
            4 => newest.saturating_sub(r.pick(&[
                0, 1, 63, 64, 65, 127, 128, 179, 180, 181, 254, 255, 256, 257,
            ])),
            5 => (newest + 180).saturating_sub(r.below(4) as u32),
            6 => self.clock + r.below(400) as u32,
            7 => r.pick(&[0, 1, 178, 179, 180, 181, 359, 360]),
            8 => r.pick(&[
                LAST - 1,
                LAST,
                LAST + 1,
                u32::MAX,
                u32::MAX - 179,
                1 << 31,
                1 << 24,
            ]),
            _ => r.next() as u32,
        };
        self.pair.ask_all(tally, "watches, asked", minute);
        self.pair.tendency(tally, "watches, asked", self.clock);
    }
}

pub fn compare(tally: &mut Tally, r: &mut Random, rounds: u64) {
    for _ in 0..rounds {
        let mut fleet: Vec<Ship> = (0..STORES).map(|_| Ship::launch(tally, r)).collect();
        for _ in 0..1200 {
            let ship = r.below(STORES as u64) as usize;
            fleet[ship].turn(tally, r);
            fleet[ship].pair.forget_but(6 * 260);
        }
    }
}
