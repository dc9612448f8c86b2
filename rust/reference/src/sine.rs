//! The sine at each half degree, in millionths.
//!
//! Each entry is decided by an interval of fixed-point fractions that encloses
//! the true sine: pi by Machin's formula, then the sine's own series, every step
//! rounded down at the low end and up at the high end. Both ends must round to
//! the same millionth.

use std::sync::OnceLock;

/// A million, the sine of 90 degrees.
pub const MILLION: i32 = 1_000_000;

/// The fixed-point one. Products of two numbers below 4 stay within a u128.
const ONE: u128 = 1_000_000_000_000_000_000;
/// Terms summed of each series; the next one is far below 1 / ONE.
const TERMS: u128 = 20;

/// A number not below 0 that lies between `low / ONE` and `high / ONE`.
#[derive(Clone, Copy)]
struct Between {
    low: u128,
    high: u128,
}

impl Between {
    const ZERO: Between = Between { low: 0, high: 0 };

    fn plus(self, other: Between) -> Between {
        Between {
            low: self.low + other.low,
            high: self.high + other.high,
        }
    }

    /// The difference, which is known not to lie below 0.
    fn minus(self, other: Between) -> Between {
        Between {
            low: self.low.saturating_sub(other.high),
            high: self.high - other.low,
        }
    }

    fn times(self, other: Between) -> Between {
        Between {
            low: self.low * other.low / ONE,
            high: (self.high * other.high).div_ceil(ONE),
        }
    }

    fn scaled(self, times: u128, over: u128) -> Between {
        Between {
            low: self.low * times / over,
            high: (self.high * times).div_ceil(over),
        }
    }
}

/// The sum of a series of falling terms with changing signs, plus first: it lies
/// between any partial sum and the next. `term` gives the term of each number.
fn alternating(mut term: impl FnMut(u128) -> Between) -> Between {
    let (mut plus, mut minus) = (Between::ZERO, Between::ZERO);
    for number in 0..TERMS {
        if number % 2 == 0 {
            plus = plus.plus(term(number));
        } else {
            minus = minus.plus(term(number));
        }
    }
    let sum = plus.minus(minus);
    Between {
        low: sum.low,
        high: sum.high + term(TERMS).high,
    }
}

/// The arc tangent of 1 / q: 1/q - 1/(3 q^3) + 1/(5 q^5) - ..
fn arc_tangent_of_one_over(q: u128) -> Between {
    let mut power = Between {
        low: ONE,
        high: ONE,
    }
    .scaled(1, q);
    alternating(|number| {
        let term = power.scaled(1, 2 * number + 1);
        power = power.scaled(1, q * q);
        term
    })
}

/// Machin: pi = 16 arc tangent of 1/5 less 4 arc tangent of 1/239.
fn pi() -> Between {
    let fifth = arc_tangent_of_one_over(5).scaled(16, 1);
    fifth.minus(arc_tangent_of_one_over(239).scaled(4, 1))
}

/// The sine of x from 0 to pi/2: x - x^3/3! + x^5/5! - ..
fn sine_of(x: Between) -> Between {
    let square = x.times(x);
    let mut power = x;
    alternating(|number| {
        let term = power;
        power = power
            .times(square)
            .scaled(1, (2 * number + 2) * (2 * number + 3));
        term
    })
}

/// The millionth nearest to a number, which both ends must agree on.
fn nearest_millionth(number: Between) -> i32 {
    let millionth = ONE / MILLION as u128;
    let low = (number.low + millionth / 2) / millionth;
    let high = (number.high + millionth / 2) / millionth;
    assert_eq!(low, high, "a sine lies too near a rounding border");
    low as i32
}

/// "One table gives the sine at each half degree from 0 to 90 in millionths, 181
/// entries; other angles follow by symmetry."
#[derive(Clone, Debug)]
pub struct Sines {
    quarter: [i32; 181],
}

impl Sines {
    fn work_out() -> Sines {
        let pi = pi();
        Sines {
            quarter: std::array::from_fn(|half| {
                nearest_millionth(sine_of(pi.scaled(half as u128, 360)))
            }),
        }
    }

    /// The 181 entries.
    pub fn quarter(&self) -> &[i32; 181] {
        &self.quarter
    }

    /// The sine of this many half degrees, millionths.
    pub fn sine(&self, half_degrees: i32) -> i32 {
        let turned = half_degrees.rem_euclid(720);
        match turned {
            0..=180 => self.quarter[turned as usize],
            181..=360 => self.quarter[(360 - turned) as usize],
            _ => -self.sine(turned - 360),
        }
    }

    /// The cosine of this many half degrees, millionths.
    pub fn cosine(&self, half_degrees: i32) -> i32 {
        self.sine(half_degrees + 180)
    }
}

/// The table, worked out at the first call.
pub fn sines() -> &'static Sines {
    static SINES: OnceLock<Sines> = OnceLock::new();
    SINES.get_or_init(Sines::work_out)
}

#[cfg(test)]
mod tests {
    use super::*;

    #[test]
    fn pi_is_narrow_and_in_its_place() {
        let pi = pi();
        assert!(pi.low <= 3_141_592_653_589_793_238);
        assert!(pi.high >= 3_141_592_653_589_793_239);
        assert!(pi.high - pi.low < 2_000);
    }

    /// No entry's interval is wider than a hundred-millionth of a millionth.
    #[test]
    fn every_interval_is_narrow() {
        for half in 0..=180 {
            let sine = sine_of(pi().scaled(half, 360));
            assert!(sine.high - sine.low < 10_000, "{half}");
        }
    }

    #[test]
    fn what_is_proved_over_the_table() {
        let quarter = sines().quarter();
        assert_eq!(quarter[0], 0);
        assert_eq!(quarter[180], MILLION);
        assert!(quarter.windows(2).all(|pair| pair[0] < pair[1]));
        for half in 0..=180 {
            let (sine, cosine) = (quarter[half] as i64, quarter[180 - half] as i64);
            let off = sine * sine + cosine * cosine - 1_000_000_000_000;
            assert!(off.abs() <= 1_500_000, "{half}: {off}");
        }
    }

    /// Binary64's own sine, to a hundredth of a millionth, as a second way.
    #[test]
    fn agrees_with_binary64() {
        for (half, entry) in sines().quarter().iter().enumerate() {
            let sine = (half as f64 / 2.0).to_radians().sin() * 1e6;
            assert!((sine - f64::from(*entry)).abs() < 0.500_001, "{half}");
        }
        assert_eq!(sines().quarter()[60], 500_000);
        assert_eq!(sines().quarter()[90], 707_107);
    }

    #[test]
    fn other_angles_follow_by_symmetry() {
        let table = sines();
        for half in -720..720 {
            let angle = (f64::from(half) / 2.0).to_radians();
            assert!((angle.sin() * 1e6 - f64::from(table.sine(half))).abs() < 0.51);
            assert!((angle.cos() * 1e6 - f64::from(table.cosine(half))).abs() < 0.51);
        }
    }
}
