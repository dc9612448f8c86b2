//! True wind from ship motion and apparent wind (004, section 7).

use std::sync::OnceLock;

use crate::sine::{sines, Sines, MILLION};

/// The true wind.
#[derive(Clone, Copy, Debug, PartialEq, Eq)]
pub struct Wind {
    /// Tenths of m/s.
    pub speed: i32,
    /// Degrees it blows from, 1 to 360; 0 is calm.
    pub direction: i32,
}

/// Speeds are counted in 1/12500 m/s: a tenth of a knot is 0.05144 m/s, which is
/// 643 of them, and a tenth of m/s is 1250. Both are whole, so nothing is lost.
const TENTH_OF_A_KNOT: i64 = 643;
/// See [`TENTH_OF_A_KNOT`].
const TENTH_OF_A_METRE: i64 = 1250;

/// Sine and cosine of one direction, millionths.
#[derive(Clone, Copy, Debug, Default)]
struct Ray {
    sine: i32,
    cosine: i32,
}

/// The compass rose: the sine table turned round the circle once, so that an
/// answer looks up what it needs.
#[derive(Clone, Debug)]
pub struct Rose {
    /// Each whole degree, with "the size of sin r".
    degrees: [Ray; 360],
    /// The marks 0.5, 1.5, .. 179.5 degrees.
    marks: [Ray; 180],
}

impl Rose {
    fn draw(sines: &Sines) -> Rose {
        let ray = |half_degrees: i32| Ray {
            sine: sines.sine(half_degrees).abs(),
            cosine: sines.cosine(half_degrees),
        };
        Rose {
            degrees: std::array::from_fn(|degree| ray(2 * degree as i32)),
            marks: std::array::from_fn(|mark| ray(2 * mark as i32 + 1)),
        }
    }

    /// True wind; see [`true_wind`].
    #[inline]
    pub fn true_wind(&self, course: i32, ship: i32, apparent: i32, from_bow: i32) -> Wind {
        let s = TENTH_OF_A_KNOT * i64::from(ship);
        let k = TENTH_OF_A_METRE * i64::from(apparent);
        let r = self.degrees[from_bow as usize];
        let speed = speed(s, k, r);
        if speed == 0 {
            return Wind {
                speed,
                direction: 0,
            };
        }
        let angle = self.angle(s, k, r);
        let turned = if from_bow < 180 { angle } else { -angle };
        let direction = (course + from_bow + turned - 1).rem_euclid(360) + 1;
        Wind { speed, direction }
    }

    /// "The number of marks 0.5, 1.5, .. 179.5 degrees, h, at which M cos h ≥ N
    /// sin h", where "N = k - s cos r and M = s times the size of sin r".
    ///
    /// M is not below 0 and cos h / sin h falls from mark to mark, so the marks
    /// that count come first and their number is the point where they end.
    #[inline]
    fn angle(&self, s: i64, k: i64, r: Ray) -> i32 {
        let n = k * i64::from(MILLION) - s * i64::from(r.cosine);
        let m = s * i64::from(r.sine);
        self.marks
            .partition_point(|h| m * i64::from(h.cosine) >= n * i64::from(h.sine)) as i32
    }
}

/// "Nearest 0.1 m/s to the root of s² + k² - 2sk cos r. Said in squares: (v -
/// 0.05)² ≤ that sum < (v + 0.05)², the left part only for v > 0."
///
/// The sum is in millionths of squares, so its root is in thousandths of the
/// speed unit. Dropping the root's fraction loses nothing, as v - 0.05 is whole
/// in those thousandths.
#[inline]
fn speed(s: i64, k: i64, r: Ray) -> i32 {
    let sum = (s * s + k * k) * i64::from(MILLION) - 2 * s * k * i64::from(r.cosine);
    let root = (sum as u64).isqrt();
    let tenth = 1000 * TENTH_OF_A_METRE as u64;
    ((root + tenth / 2) / tenth) as i32
}

/// The rose, drawn at the first call.
pub fn rose() -> &'static Rose {
    static ROSE: OnceLock<Rose> = OnceLock::new();
    ROSE.get_or_init(|| Rose::draw(sines()))
}

/// True wind from course (degrees, 0 to 359), ship speed (tenths of a knot, 0 to
/// 400), apparent speed (tenths of m/s, 0 to 750) and apparent direction (degrees
/// from the bow, 0 to 359), as channels 2 and 3 keep them.
///
/// "Direction: course + r + angle if r < 180, course + r - angle otherwise,
/// brought into 1 to 360. If the rounded speed is 0 the direction is 0 (calm)."
///
/// # Panics
/// If `from_bow` is not 0 to 359.
pub fn true_wind(course: i32, ship: i32, apparent: i32, from_bow: i32) -> Wind {
    rose().true_wind(course, ship, apparent, from_bow)
}

#[cfg(test)]
mod tests {
    use super::*;

    /// Document 01's rules, word for word, in hundred-thousandths of m/s.
    fn by_the_paper(course: i32, ship: i32, apparent: i32, from_bow: i32) -> Wind {
        let table = sines();
        let (s, k) = (5144 * ship as i128, 10_000 * apparent as i128);
        let (sine, cosine) = (
            table.sine(2 * from_bow).abs() as i128,
            table.cosine(2 * from_bow) as i128,
        );
        // Squares of hundred-thousandths, in millionths; 0.05 m/s is 5000.
        let sum = (s * s + k * k) * 1_000_000 - 2 * s * k * cosine;
        let square = |halves: i128| (5000 * halves).pow(2) * 1_000_000;
        let speed = (0..=956)
            .find(|&v| (v == 0 || square(2 * v - 1) <= sum) && sum < square(2 * v + 1))
            .unwrap();
        let (n, m) = (k * 1_000_000 - s * cosine, s * sine);
        let angle = (0..180)
            .filter(|mark| {
                let h = 2 * mark + 1;
                m * table.cosine(h) as i128 >= n * table.sine(h) as i128
            })
            .count() as i32;
        let mut direction = course + from_bow + if from_bow < 180 { angle } else { -angle };
        while direction < 1 {
            direction += 360;
        }
        while direction > 360 {
            direction -= 360;
        }
        Wind {
            speed: speed as i32,
            direction: if speed == 0 { 0 } else { direction },
        }
    }

    #[test]
    fn agrees_with_the_paper() {
        for from_bow in 0..360 {
            for (ship, apparent) in [
                (0, 0),
                (0, 1),
                (1, 0),
                (1, 1),
                (2, 1),
                (100, 50),
                (100, 51),
                (175, 90),
                (400, 750),
                (400, 206),
                (125, 25),
                (37, 412),
            ] {
                let course = (from_bow * 7 + ship) % 360;
                assert_eq!(
                    true_wind(course, ship, apparent, from_bow),
                    by_the_paper(course, ship, apparent, from_bow),
                    "{course} {ship} {apparent} {from_bow}"
                );
            }
        }
    }

    #[test]
    fn the_greatest_speed_is_95_6() {
        let wind = true_wind(0, 400, 750, 180);
        assert_eq!(wind.speed, 956);
    }

    #[test]
    fn calm_is_by_the_rounded_speed() {
        // 0.1 knots is 0.05144 m/s; against 0.1 m/s from ahead 0.04856 is left.
        assert_eq!(
            true_wind(90, 1, 1, 0),
            Wind {
                speed: 0,
                direction: 0
            }
        );
        assert_eq!(
            true_wind(90, 1, 0, 0),
            Wind {
                speed: 1,
                direction: 270
            }
        );
    }

    #[test]
    fn right_astern_takes_minus_and_north_is_360() {
        // From astern at no ship speed: angle 0, so course + 180.
        assert_eq!(true_wind(180, 0, 100, 180).direction, 360);
        assert_eq!(true_wind(0, 0, 100, 0).direction, 360);
        // A ship that outruns nothing: r = 180 and N > 0, the angle is 0.
        assert_eq!(true_wind(10, 100, 20, 180).direction, 190);
    }
}
