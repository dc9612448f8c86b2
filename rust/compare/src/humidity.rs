//! Humidity of every pair of dry and wet bulb at several pressures, for each state of the wet bulb, and the dew point of every vapour
//! pressure.

use reference::vapour;

use crate::files;
use crate::pair::{tenths, Chosen, Pair};
use crate::tally::Tally;

/// Unit, reading in tenths, A in millionths.
const AIRS: [(bool, i32, i32); 6] = [
    (false, 10000, 662),
    (false, 8500, 1000),
    (true, 8250, 501),
    (false, 11000, 500),
    (true, 7600, 662),
    (true, 6400, 999),
];

/// The kind, in how many of these airs it is tried, and up to which wet bulb, by state: above 0.0 ice and the unknown are refused
/// whatever else is so.
const STATES: [(&str, usize, i32); 3] = [
    ("humidity, water", AIRS.len(), 500),
    ("humidity, ice", 3, 2),
    ("humidity, state unknown", 3, 2),
];

pub fn pairs(tally: &mut Tally) {
    for (air, &(mm_hg, reading, psychrometer)) in AIRS.iter().enumerate() {
        let mut chosen = Chosen::plain(mm_hg);
        chosen.psychrometer = psychrometer;
        let mut pair = Pair::open(tally, &chosen).expect("plain settings open");
        let mut minute = 0;
        for (state, &(kind, _, warmest)) in (0..).zip(&STATES).filter(|(_, state)| air < state.1) {
            for dry in -400..=500 {
                for wet in -400..=warmest {
                    minute += 1;
                    pair.hear(tally, "humidity, heard", &tenths(0, minute, reading, 0));
                    pair.hear(tally, "humidity, heard", &tenths(4, minute, dry, 0));
                    pair.hear(tally, "humidity, heard", &tenths(5, minute, wet, state));
                    pair.humidity(tally, kind, minute);
                    pair.forget_but(3);
                }
            }
        }
    }
}

/// Every e that a file may hold, and some that it may not, with its dew point and the tenths beside it: both write alike, and both
/// read alike what was or would have been written.
pub fn dew_points(tally: &mut Tally) {
    for e in 0..12400 {
        let point = vapour::dew_point(e).unwrap_or(0);
        for dew in point - 1..=point + 1 {
            let saturation = e.max(12345);
            let body = files::humidity_body(e, saturation, dew);
            files::both_write(tally, "dew points, written", &[(7, body)], 1, 40);
            let file = files::bytes_of(&[(7, body)]);
            files::both_read(tally, "dew points, read", &file);
        }
    }
}
