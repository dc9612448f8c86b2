//! The true wind, sampled widely and along lines: with three of the four inputs fixed, every value of the fourth, so that the line
//! crosses every border of speed, angle and direction that lies on it.

use crate::pair::{tenths, Chosen, Pair};
use crate::random::Random;
use crate::tally::Tally;

struct Sea {
    pair: Pair,
    minute: u32,
}

impl Sea {
    fn new(tally: &mut Tally) -> Sea {
        Sea {
            pair: Pair::open(tally, &Chosen::plain(false)).expect("plain settings open"),
            minute: 0,
        }
    }

    fn blow(
        &mut self,
        tally: &mut Tally,
        kind: &'static str,
        [course, ship, apparent, from_bow]: [i32; 4],
    ) {
        self.minute += 1;
        if self.minute > 16_777_215 {
            *self = Sea::new(tally);
        }
        self.pair.hear(
            tally,
            "wind, heard",
            &tenths(2, self.minute, apparent, from_bow),
        );
        self.pair
            .hear(tally, "wind, heard", &tenths(3, self.minute, ship, course));
        self.pair.wind(tally, kind, self.minute);
        self.pair.forget_but(2);
    }
}

/// The largest value of each input.
const MOST: [i32; 4] = [360, 400, 750, 360];

/// Values at which a formula turns: no ship, no wind, ahead, astern, abeam, and the apparent wind that the ship alone makes.
fn turning(r: &mut Random) -> [i32; 4] {
    let (any_course, any_ship) = (r.within(0, 360), r.within(0, 400));
    let ship = r.pick(&[0, 1, 2, 10, 100, 199, 200, 399, 400, any_ship]);
    let made = (f64::from(ship) * 0.5144) as i32;
    let apparent = (made + r.within(-2, 2)).clamp(0, 750);
    [
        r.pick(&[0, 1, 89, 90, 179, 180, 181, 270, 359, 360, any_course]),
        ship,
        r.pick(&[0, 1, apparent, apparent, 749, 750]),
        r.pick(&[
            0, 0, 1, 2, 89, 90, 91, 179, 180, 181, 269, 270, 271, 358, 359, 360,
        ]),
    ]
}

pub fn compare(tally: &mut Tally, r: &mut Random, samples: u64, lines: u64) {
    let mut sea = Sea::new(tally);
    for _ in 0..samples {
        let any = [0, 1, 2, 3].map(|i| r.within(0, MOST[i]));
        sea.blow(tally, "wind, sampled", any);
        let turns = turning(r);
        sea.blow(tally, "wind, turning points", turns);
    }
    for line in 0..lines {
        let mut at = if r.once_in(2) {
            turning(r)
        } else {
            [0, 1, 2, 3].map(|i| r.within(0, MOST[i]))
        };
        let along = (line % 4) as usize;
        for value in 0..=MOST[along] {
            at[along] = value;
            sea.blow(tally, "wind, along lines", at);
        }
    }
}
