//! Sea level pressure at every sum of height and difference, so at every half that a height correction or its sum can come to, in
//! both units: in mm Hg with every reading, in hPa, where no reading changes what is rounded, with some.

use crate::pair::{barometer, tenths, Chosen, Pair};
use crate::tally::Tally;

/// Height and difference that come to so many tenths of a metre: as low over the sea as may be, and as high.
fn ways(sum: i32) -> [(i32, i32); 2] {
    [(sum - 300).max(0), (sum + 300).min(600)].map(|height| (height, sum - height))
}

/// Each way gets every other reading.
fn readings(mm_hg: bool, way: usize) -> impl Iterator<Item = i32> {
    let (low, high) = barometer(mm_hg);
    let step = if mm_hg { 2 } else { 250 };
    (low + step / 2 * way as i32..=high).step_by(step as usize)
}

pub fn compare(tally: &mut Tally) {
    for mm_hg in [false, true] {
        for sum in -300..=900 {
            for (way, (height, difference)) in ways(sum).into_iter().enumerate() {
                let mut chosen = Chosen::plain(mm_hg);
                (chosen.height, chosen.difference) = (height, difference);
                let mut pair = Pair::open(tally, &chosen).expect("heights within their limits");
                for (minute, reading) in (0..).zip(readings(mm_hg, way)) {
                    pair.hear(tally, "heights, heard", &tenths(0, minute, reading, 0));
                    pair.hear(tally, "heights, heard", &tenths(1, minute, 0, 0));
                    pair.pressure(tally, "heights, asked", minute);
                    pair.forget_but(2);
                }
            }
        }
    }
}
