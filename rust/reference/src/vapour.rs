//! Saturation pressure over water and over ice, and the dew point.
//!
//! Saturation at t °C is 6.1121 exp(17.5043 t / (241.2 + t)) hPa over water and
//! 6.1121 exp(22.4893 t / (272.881 + t)) hPa over ice. All tables come from one
//! enclosure of both, by the series of the exponential with every term rounded
//! down for the low end and up for the high end.

use std::sync::OnceLock;

/// The lowest temperature of the tables, tenths °C.
pub const COLDEST: i32 = -400;
/// The highest temperature of the tables over water, tenths °C.
pub const WARMEST: i32 = 500;
/// The highest temperature of the table over ice, tenths °C.
pub const WARMEST_ICE: i32 = 0;
/// "e below 0.19 hPa" is refused: the least e, hundredths of hPa.
pub const LEAST_VAPOUR: i32 = 19;
/// Saturation at 50.0 °C, the greatest e there can be, hundredths of hPa.
pub const MOST_VAPOUR: i32 = 12345;

/// "One table for -40.0 to 50.0 °C by tenths, 901 entries."
const ENTRIES: usize = (WARMEST - COLDEST) as usize + 1;
/// "The ice table has 401 entries, -40.0 to 0.0."
const ICE_ENTRIES: usize = (WARMEST_ICE - COLDEST) as usize + 1;

/// A fraction.
#[derive(Clone, Copy, Debug)]
struct Fraction {
    over: u128,
    under: u128,
}

impl Fraction {
    /// The whole number nearest to it, a half taken up.
    fn nearest(self) -> u128 {
        (2 * self.over + self.under) / (2 * self.under)
    }

    /// The least whole number not below it.
    fn ceiling(self) -> u128 {
        self.over.div_ceil(self.under)
    }
}

/// Two fractions with the exact value between them, ends included.
#[derive(Clone, Copy, Debug)]
struct Enclosure {
    low: Fraction,
    high: Fraction,
}

impl Enclosure {
    /// What a rounding gives for the exact value: both ends must agree, and then
    /// all between them do.
    fn decided(self, rounding: fn(Fraction) -> u128) -> u16 {
        let (low, high) = (rounding(self.low), rounding(self.high));
        assert_eq!(low, high, "a saturation lies too near a rounding border");
        u16::try_from(low).expect("saturation up to 50.05 °C fits")
    }
}

/// The fixed-point one of the exponential.
const ONE: u128 = 10u128.pow(24);
/// Terms of its series that are summed.
const TERMS: u128 = 60;

/// The exponential of y ≥ 0, times ONE, from below and from above.
///
/// "A fraction lies below it exactly when some partial sum exceeds that
/// fraction": a partial sum is the low end. Behind the last term each term is
/// less than half of the one before, so together they are less than the last.
fn exponential(y: Fraction) -> (u128, u128) {
    assert!(2 * y.over < TERMS * y.under);
    let (mut low, mut high) = (ONE, ONE);
    let (mut low_sum, mut high_sum) = (ONE, ONE);
    for number in 1..TERMS {
        low = low * y.over / (y.under * number);
        high = (high * y.over).div_ceil(y.under * number);
        low_sum += low;
        high_sum += high;
    }
    (low_sum, high_sum + high)
}

/// A formula of saturation: 6.1121 exp(alpha t / (beta + t)) hPa at t °C.
#[derive(Clone, Copy, Debug)]
struct Formula {
    /// In ten-thousandths.
    alpha: u128,
    /// In thousandths of a degree.
    beta: i32,
}

/// "17.5043 t / (241.2 + t)" (004, formula 14).
const OVER_WATER: Formula = Formula {
    alpha: 175_043,
    beta: 241_200,
};
/// "22.4893, 272.881" (004, formula 14a).
const OVER_ICE: Formula = Formula {
    alpha: 224_893,
    beta: 272_881,
};

impl Formula {
    /// Saturation in hundredths of hPa at a temperature in thousandths of a degree.
    /// "For negative exponents it is the reciprocal."
    fn exact(self, thousandths: i32) -> Enclosure {
        let y = Fraction {
            over: self.alpha * u128::from(thousandths.unsigned_abs()),
            under: 10_000 * u128::from((self.beta + thousandths).unsigned_abs()),
        };
        let (low, high) = exponential(y);
        // 6.1121 hPa is 61121 / 100 hundredths.
        let grown = |by: u128| Fraction {
            over: 61_121 * by,
            under: 100 * ONE,
        };
        let shrunk = |by: u128| Fraction {
            over: 61_121 * ONE,
            under: 100 * by,
        };
        if thousandths >= 0 {
            Enclosure {
                low: grown(low),
                high: grown(high),
            }
        } else {
            Enclosure {
                low: shrunk(high),
                high: shrunk(low),
            }
        }
    }

    /// So many entries by tenths of a degree from the coldest on, so many thousandths
    /// beside each tenth.
    fn by_tenths<const N: usize>(self, beside: i32, rounding: fn(Fraction) -> u128) -> [u16; N] {
        std::array::from_fn(|entry| {
            let tenths = COLDEST + entry as i32;
            self.exact(100 * tenths + beside).decided(rounding)
        })
    }
}

/// The saturation tables and the dew point of every e.
#[derive(Clone, Debug)]
pub struct Vapour {
    over_water: [u16; ENTRIES],
    over_ice: [u16; ICE_ENTRIES],
    dew: [i16; MOST_VAPOUR as usize + 1],
}

impl Vapour {
    fn work_out() -> Vapour {
        // The least e at or above exact saturation at T - 0.05, for each tenth T,
        // and for the tenth behind the last.
        let least: [u16; ENTRIES + 1] = OVER_WATER.by_tenths(-50, Fraction::ceiling);
        assert!(i32::from(least[0]) <= LEAST_VAPOUR && MOST_VAPOUR < i32::from(least[ENTRIES]));
        let dew = std::array::from_fn(|e| {
            let reached = least.partition_point(|least| usize::from(*least) <= e);
            (COLDEST - 1 + reached as i32) as i16
        });
        Vapour {
            over_water: OVER_WATER.by_tenths(0, Fraction::nearest),
            over_ice: OVER_ICE.by_tenths(0, Fraction::nearest),
            dew,
        }
    }

    /// Saturation pressure over water, hundredths of hPa, at tenths °C from -40.0 to
    /// 50.0: "each entry lies within half a hundredth of the exact value".
    ///
    /// # Panics
    /// Outside the table.
    #[inline]
    pub fn over_water(&self, temperature: i32) -> i32 {
        i32::from(self.over_water[(temperature - COLDEST) as usize])
    }

    /// The same over ice, from -40.0 to 0.0.
    ///
    /// # Panics
    /// Outside the table.
    #[inline]
    pub fn over_ice(&self, temperature: i32) -> i32 {
        i32::from(self.over_ice[(temperature - COLDEST) as usize])
    }

    /// "Dew point: the tenth T with exact saturation at T - 0.05 ≤ e < exact
    /// saturation at T + 0.05", for e of 19 to 12345 hundredths of hPa.
    #[inline]
    pub fn dew_point(&self, e: i32) -> Option<i32> {
        if !(LEAST_VAPOUR..=MOST_VAPOUR).contains(&e) {
            return None;
        }
        Some(i32::from(self.dew[e as usize]))
    }
}

/// The tables, worked out at the first call.
pub fn vapour() -> &'static Vapour {
    static VAPOUR: OnceLock<Vapour> = OnceLock::new();
    VAPOUR.get_or_init(Vapour::work_out)
}

/// The dew point of an e; see [`Vapour::dew_point`].
pub fn dew_point(e: i32) -> Option<i32> {
    vapour().dew_point(e)
}

#[cfg(test)]
mod tests {
    use super::*;

    /// Alpha, beta in °C.
    const WATER: (f64, f64) = (17.5043, 241.2);
    const ICE: (f64, f64) = (22.4893, 272.881);

    fn by_binary64((alpha, beta): (f64, f64), celsius: f64) -> f64 {
        611.21 * (alpha * celsius / (beta + celsius)).exp()
    }

    #[test]
    fn every_enclosure_is_narrow_and_in_its_place() {
        for (formula, constants, twentieths) in
            [(OVER_WATER, WATER, -801..=1001), (OVER_ICE, ICE, -800..=0)]
        {
            for twentieths in twentieths {
                let Enclosure { low, high } = formula.exact(50 * twentieths);
                let value = |f: Fraction| f.over as f64 / f.under as f64;
                let exact = by_binary64(constants, f64::from(twentieths) / 20.0);
                assert!((value(low) / exact - 1.0).abs() < 1e-12, "{twentieths}");
                assert!((value(high) / exact - 1.0).abs() < 1e-12, "{twentieths}");
                let (low_end, high_end) = if twentieths < 0 {
                    (high.under, low.under)
                } else {
                    (low.over, high.over)
                };
                assert!(low_end <= high_end);
                assert!(
                    high_end - low_end < ONE / 1_000_000_000_000_000,
                    "{twentieths}"
                );
            }
        }
    }

    #[test]
    fn the_exponential_of_one_and_of_nothing() {
        let (low, high) = exponential(Fraction { over: 1, under: 1 });
        assert!(low < 2_718_281_828_459_045_235_360_288);
        assert!(high > 2_718_281_828_459_045_235_360_287);
        let (low, _) = exponential(Fraction { over: 0, under: 1 });
        assert_eq!(low, ONE);
    }

    /// A table never falls, and each entry is the nearest hundredth.
    fn is_saturation(table: &[u16], constants: (f64, f64)) {
        assert!(table.windows(2).all(|pair| pair[0] <= pair[1]));
        for (entry, tenths) in table.iter().zip(COLDEST..) {
            let exact = by_binary64(constants, f64::from(tenths) / 10.0);
            assert!((f64::from(*entry) - exact).abs() < 0.500_001, "{tenths}");
        }
    }

    #[test]
    fn the_table_over_water_rises_from_0_19_to_123_45() {
        let tables = vapour();
        is_saturation(&tables.over_water, WATER);
        for (tenths, entry) in [(-400, 19), (-100, 287), (0, 611), (150, 1703), (200, 2335)] {
            assert_eq!(tables.over_water(tenths), entry);
        }
        assert_eq!(tables.over_water(WARMEST), MOST_VAPOUR);
    }

    #[test]
    fn the_table_over_ice_rises_from_0_13_to_6_11() {
        let tables = vapour();
        is_saturation(&tables.over_ice, ICE);
        assert_eq!(tables.over_ice.len(), 401);
        for (tenths, entry) in [(-400, 13), (-100, 260), (-1, 606), (0, 611)] {
            assert_eq!(tables.over_ice(tenths), entry);
        }
        // Ice holds no more vapour than water of the same cold.
        for tenths in COLDEST..=WARMEST_ICE {
            assert!(tables.over_ice(tenths) <= tables.over_water(tenths));
        }
    }

    #[test]
    fn every_dew_point_keeps_its_rule() {
        for e in LEAST_VAPOUR..=MOST_VAPOUR {
            let tenths = f64::from(dew_point(e).unwrap());
            let at = |tenths: f64| by_binary64(WATER, tenths / 10.0);
            assert!(at(tenths - 0.5) <= f64::from(e), "{e}");
            assert!(f64::from(e) < at(tenths + 0.5), "{e}");
        }
        assert_eq!(dew_point(LEAST_VAPOUR - 1), None);
        assert_eq!(dew_point(MOST_VAPOUR + 1), None);
    }

    /// Turning the rounded table round would give -40.0.
    #[test]
    fn the_dew_point_of_0_19_is_above_the_coldest() {
        assert_eq!(dew_point(19), Some(-399));
    }
}
