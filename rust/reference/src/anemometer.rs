//! The hand anemometer: its certificate, and the wind that a mate notes by it
//! (004, section 7.2, as document 02 fixes it). Refusals 23, 24 and 25.

use std::ops::RangeInclusive;

use crate::message::{APPARENT_SPEED, DIRECTION};
use crate::refusal::Refused;
use crate::rounding::nearest;

/// "A certificate of 2 to 20 points."
pub const POINTS: RangeInclusive<usize> = 2..=20;
/// "Whole divisions per second, 0 to 9999."
pub const RATE: RangeInclusive<i32> = 0..=9999;
/// "Dial 0 to 9999."
pub const DIAL: RangeInclusive<u32> = 0..=9999;
/// "Seconds 1 to 600."
pub const SECONDS: RangeInclusive<u32> = 1..=600;

/// Table 1 of 004, section 7.2, the sample of a certificate: divisions a second and
/// tenths of m/s.
pub const TABLE_1: [(i32, i32); 11] = [
    (1, 13),
    (2, 22),
    (3, 31),
    (4, 40),
    (5, 49),
    (6, 58),
    (7, 67),
    (8, 76),
    (9, 85),
    (10, 94),
    (20, 188),
];

/// A point of the anemometer's certificate.
#[derive(Clone, Copy, Debug, Default, PartialEq, Eq)]
pub struct RatePoint {
    /// Whole divisions a second.
    pub rate: i32,
    /// Tenths of m/s.
    pub speed: i32,
}

/// What the mate notes, right or wrong.
#[derive(Clone, Copy, Debug, PartialEq, Eq)]
pub struct Entry {
    /// The minute it is for.
    pub minute: u32,
    /// "The compass direction in whole degrees, 0 to 360."
    pub direction: u32,
    /// The dial before.
    pub first: u32,
    /// The dial after.
    pub second: u32,
    /// The seconds between.
    pub seconds: u32,
}

impl Entry {
    /// The compass direction, or refusal 7.
    #[inline]
    pub fn compass(&self) -> Result<i32, Refused> {
        i32::try_from(self.direction)
            .ok()
            .filter(|degrees| DIRECTION.contains(degrees))
            .ok_or(Refused::OutsideLimits)
    }

    /// The rate, or refusal 23. "Dial 0 to 9999, taken to have passed 9999 once if
    /// the second reading is below the first, and otherwise not at all."
    #[inline]
    pub fn rate(&self) -> Result<Rate, Refused> {
        let right = DIAL.contains(&self.first)
            && DIAL.contains(&self.second)
            && SECONDS.contains(&self.seconds);
        if !right {
            return Err(Refused::Dial);
        }
        // Round the dial: its 10,000 divisions are one turn of the hand.
        let divisions = (self.second + 10_000 - self.first) % 10_000;
        Ok(Rate {
            divisions: i64::from(divisions),
            seconds: i64::from(self.seconds),
        })
    }
}

/// "A compass direction has the course taken away, with 360 added when negative",
/// and "360 is kept as 0": degrees from the bow, 0 to 359.
#[inline]
pub fn from_bow(compass: i32, course: i16) -> i16 {
    (compass - i32::from(course)).rem_euclid(360) as i16
}

/// An exact rate: so many divisions in so many seconds.
#[derive(Clone, Copy, Debug, PartialEq, Eq)]
pub struct Rate {
    divisions: i64,
    seconds: i64,
}

impl Rate {
    /// By how many divisions the hand is ahead of one at this whole rate, in the
    /// time measured; below 0 when it is behind.
    #[inline]
    fn ahead_of(self, rate: i32) -> i64 {
        self.divisions - i64::from(rate) * self.seconds
    }
}

/// A certificate that keeps its rules, or none at all.
#[derive(Clone, Copy, Debug, PartialEq, Eq)]
pub struct Anemometer {
    points: [RatePoint; *POINTS.end()],
    count: usize,
}

impl Anemometer {
    /// "A certificate of 2 to 20 points, whole divisions per second, 0 to 9999,
    /// against tenths of m/s, both strictly rising", speeds within "channel 2's
    /// limits", or refusal 25; "0 points means that the store has none".
    pub fn new(points: &[RatePoint]) -> Result<Anemometer, Refused> {
        let right = POINTS.contains(&points.len())
            && points.iter().all(|p| RATE.contains(&p.rate))
            && points.iter().all(|p| APPARENT_SPEED.contains(&p.speed))
            && points.windows(2).all(|p| p[0].rate < p[1].rate)
            && points.windows(2).all(|p| p[0].speed < p[1].speed);
        if !right && !points.is_empty() {
            return Err(Refused::Anemometer);
        }
        let mut kept = [RatePoint::default(); *POINTS.end()];
        kept[..points.len()].copy_from_slice(points);
        Ok(Anemometer {
            points: kept,
            count: points.len(),
        })
    }

    /// The points, rates and speeds strictly rising.
    #[inline]
    pub fn points(&self) -> &[RatePoint] {
        &self.points[..self.count]
    }

    /// "Speed is the straight line between the neighbouring points at the exact
    /// rate, rounded to 0.1": tenths of m/s, or refusal 24 when the rate lies
    /// outside the certificate, or there is none. "At a point, that point's speed."
    ///
    /// The line's whole value is rounded, in parts of which a division more in the
    /// seconds measured is a whole number.
    #[inline]
    pub fn speed(&self, rate: Rate) -> Result<i16, Refused> {
        let points = self.points();
        let reached = |point: &RatePoint| rate.ahead_of(point.rate) <= 0;
        let upper = points.iter().position(reached).ok_or(Refused::Rate)?;
        let above = points[upper];
        if rate.ahead_of(above.rate) == 0 {
            return Ok(above.speed as i16);
        }
        let below = points[upper.checked_sub(1).ok_or(Refused::Rate)?];
        let span = i64::from(above.rate - below.rate) * rate.seconds;
        let rise = i64::from(above.speed - below.speed);
        let line = i64::from(below.speed) * span + rise * rate.ahead_of(below.rate);
        Ok(nearest(line, span) as i16)
    }
}

#[cfg(test)]
mod tests {
    use super::*;

    fn points(points: &[(i32, i32)]) -> Vec<RatePoint> {
        points
            .iter()
            .map(|&(rate, speed)| RatePoint { rate, speed })
            .collect()
    }

    fn certified(given: &[(i32, i32)]) -> Option<u8> {
        Anemometer::new(&points(given)).err().map(Refused::number)
    }

    /// The speed of so many divisions in so many seconds, or the refusal's number.
    fn speed(certificate: &[(i32, i32)], divisions: u32, seconds: u32) -> Result<i16, u8> {
        let anemometer = Anemometer::new(&points(certificate)).expect("a right certificate");
        noted(0, divisions, seconds)
            .rate()
            .and_then(|rate| anemometer.speed(rate))
            .map_err(Refused::number)
    }

    fn noted(first: u32, second: u32, seconds: u32) -> Entry {
        Entry {
            minute: 0,
            direction: 0,
            first,
            second,
            seconds,
        }
    }

    #[test]
    fn a_certificate_keeps_its_rules_or_is_refused() {
        for right in [
            &[][..],
            &TABLE_1,
            &[(0, 0), (9999, 750)],
            &[(9998, 749), (9999, 750)],
            &[(0, 0), (1, 1)],
        ] {
            assert_eq!(certified(right), None, "{right:?}");
        }
        for wrong in [
            &[(5, 50)][..],
            &[(-1, 0), (1, 1)],
            &[(0, 0), (10_000, 1)],
            &[(0, -1), (1, 1)],
            &[(0, 0), (1, 751)],
            &[(5, 50), (5, 51)],
            &[(5, 50), (6, 50)],
            &[(5, 50), (4, 51)],
            &[(5, 50), (6, 49)],
            &[(1, 1), (2, 2), (2, 3)],
            &[(1, 1), (2, 2), (3, 2)],
            &[(i32::MIN, 0), (1, 1)],
            &[(0, 0), (1, i32::MAX)],
        ] {
            assert_eq!(certified(wrong), Some(25), "{wrong:?}");
        }
    }

    #[test]
    fn twenty_points_are_kept_and_twenty_one_refused() {
        let many: Vec<(i32, i32)> = (0..21).map(|i| (i, 2 * i)).collect();
        let twenty = Anemometer::new(&points(&many[..20])).unwrap();
        assert_eq!(twenty.points(), points(&many[..20]));
        assert_eq!(certified(&many), Some(25));
    }

    #[test]
    fn a_point_has_its_own_speed() {
        for (rate, tenths) in TABLE_1 {
            for seconds in [1, 7, 60, 100] {
                let answer = speed(&TABLE_1, rate as u32 * seconds, seconds);
                assert_eq!(answer, Ok(tenths as i16), "{rate} for {seconds} s");
            }
        }
    }

    #[test]
    fn both_ends_belong_and_one_part_beyond_does_not() {
        for seconds in SECONDS {
            assert_eq!(speed(&TABLE_1, seconds, seconds), Ok(13));
            assert_eq!(speed(&TABLE_1, seconds - 1, seconds), Err(24));
        }
        // 20 divisions a second for 499 seconds are 9980, as far as the dial goes.
        for seconds in 1..=499 {
            assert_eq!(speed(&TABLE_1, 20 * seconds, seconds), Ok(188));
            assert_eq!(speed(&TABLE_1, 20 * seconds + 1, seconds), Err(24));
        }
    }

    #[test]
    fn between_points_the_whole_line_is_rounded_once() {
        // 1.5 divisions a second: 1.75, a half, and so 1.8.
        assert_eq!(speed(&TABLE_1, 90, 60), Ok(18));
        // 89 in a minute: 1.735.
        assert_eq!(speed(&TABLE_1, 89, 60), Ok(17));
        // 15 divisions a second, from the line 10 to 20: 14.1.
        assert_eq!(speed(&TABLE_1, 900, 60), Ok(141));
        // 10 1/60: 9.4157; 10.05: 9.447, and 10.054: 9.45076.
        assert_eq!(speed(&TABLE_1, 601, 60), Ok(94));
        assert_eq!(speed(&TABLE_1, 201, 20), Ok(94));
        assert_eq!(speed(&TABLE_1, 5027, 500), Ok(95));
        // A whole rate first would give 2 for 2.99, so 2.2.
        assert_eq!(speed(&TABLE_1, 299, 100), Ok(31));
        // Just under half of a tenth, and half of it.
        let line = [(0, 0), (600, 1)];
        assert_eq!(speed(&line, 299, 1), Ok(0));
        assert_eq!(speed(&line, 300, 1), Ok(1));
        assert_eq!(speed(&[(0, 3), (2, 4)], 599, 600), Ok(3));
        assert_eq!(speed(&[(0, 3), (2, 4)], 600, 600), Ok(4));
    }

    /// The rule said again by the two lines that table 1 lies on, without a
    /// division: 0.9 m/s a division from 0.4 up to 10, then 0.94 from 0.
    #[test]
    fn table_1_is_two_lines() {
        let mut given = 0;
        for (divisions, seconds) in (0..10_000).zip((1..=600).cycle()) {
            let [d, s] = [divisions, seconds].map(i64::from);
            let answer = speed(&TABLE_1, divisions, seconds);
            if d < s || d > 20 * s {
                assert_eq!(answer, Err(24));
                continue;
            }
            // The line in tenths, times ten times the seconds.
            let line = if d < 10 * s { 90 * d + 40 * s } else { 94 * d };
            let off = 10 * s * i64::from(answer.unwrap()) - line;
            assert!(-5 * s < off && off <= 5 * s, "{d} in {s} s");
            given += 1;
        }
        assert!(given > 3_000);
    }

    #[test]
    fn without_a_certificate_there_is_no_rate_within_it() {
        assert_eq!(speed(&[], 0, 1), Err(24));
        assert_eq!(speed(&[], 60, 60), Err(24));
    }

    #[test]
    fn the_dial_passes_9999_once() {
        let divisions = |first, second| noted(first, second, 1).rate().map(|r| r.divisions);
        assert_eq!(divisions(9999, 0), Ok(1));
        assert_eq!(divisions(9970, 30), Ok(60));
        assert_eq!(divisions(1, 0), Ok(9999));
        assert_eq!(divisions(9999, 9998), Ok(9999));
        assert_eq!(divisions(0, 9999), Ok(9999));
        for dial in [0, 5, 9999] {
            assert_eq!(divisions(dial, dial), Ok(0));
        }
    }

    #[test]
    fn dial_and_seconds_have_limits() {
        let right = |first, second, seconds| noted(first, second, seconds).rate().is_ok();
        assert!(right(9999, 9999, 1) && right(0, 0, 600));
        for (first, second, seconds) in [
            (10_000, 0, 1),
            (0, 10_000, 1),
            (0, 0, 0),
            (0, 0, 601),
            (u32::MAX, 0, 1),
            (0, u32::MAX, 1),
            (0, 0, u32::MAX),
        ] {
            let answer = noted(first, second, seconds).rate();
            assert_eq!(answer, Err(Refused::Dial));
        }
    }

    #[test]
    fn the_course_is_taken_from_the_compass_direction() {
        for (compass, course, expected) in [
            (10, 350, 20),
            (350, 10, 340),
            (360, 0, 0),
            (0, 0, 0),
            (0, 359, 1),
            (360, 359, 1),
            (359, 0, 359),
            (90, 90, 0),
            (89, 90, 359),
            (360, 1, 359),
        ] {
            assert_eq!(from_bow(compass, course), expected);
        }
    }
}
