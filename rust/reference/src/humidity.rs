//! Humidity from the psychrometer (004, section 9 and formula 43), with water or ice
//! on the wet bulb.

use std::ops::RangeInclusive;

use crate::message::BulbState;
use crate::refusal::Refused;
use crate::rounding::nearest;
use crate::vapour::{Vapour, LEAST_VAPOUR, WARMEST_ICE};

/// The five figures of the air's moisture.
#[derive(Clone, Copy, Debug, PartialEq, Eq)]
pub struct Humidity {
    /// Vapour pressure e, hundredths of hPa.
    pub e: i32,
    /// Saturation pressure over water at the dry bulb, hundredths of hPa.
    pub saturation: i32,
    /// "Deficit: table(dry) - e", hundredths of hPa.
    pub deficit: i32,
    /// Relative humidity, per cent.
    pub relative: i32,
    /// Dew point, tenths °C.
    pub dew: i32,
}

/// A trillion: an exact e is so many trillionths of a hundredth of hPa.
const TRILLION: i64 = 1_000_000_000_000;

/// The air in which a state may be unknown, tenths °C: 21 is for "dry not in -9.9 to
/// 0.0".
const UNKNOWN_AIR: RangeInclusive<i32> = -99..=0;

/// "Relative humidity: 100 e / table(dry), rounded to 1 %", for a saturation above 0.
#[inline]
pub fn relative(e: i32, saturation: i32) -> i32 {
    nearest(100 * i64::from(e), i64::from(saturation)) as i32
}

/// What humidity is worked from.
#[derive(Clone, Copy, Debug)]
pub struct Psychrometer {
    /// Dry bulb, tenths °C within channel 4's limits.
    pub dry: i32,
    /// Wet bulb, tenths °C within channel 5's limits.
    pub wet: i32,
    /// What is on the wet bulb.
    pub state: BulbState,
    /// Station pressure, tenths hPa, not below 0.
    pub pressure: i32,
    /// Coefficient A, millionths, not below 0.
    pub coefficient: i32,
}

impl Psychrometer {
    /// e before it is rounded, in trillionths of a hundredth: a table at the wet bulb
    /// less factor × A × pressure × (dry - wet), the factor in millionths.
    ///
    /// A is in millionths, pressure, dry and wet in tenths, so the product is in
    /// 10^-14 hPa.
    #[inline]
    fn exact(&self, saturation_at_wet: i32, factor: i64) -> i64 {
        let [a, pressure, fall] =
            [self.coefficient, self.pressure, self.dry - self.wet].map(i64::from);
        i64::from(saturation_at_wet) * TRILLION - a * pressure * fall * factor
    }

    /// e over water: the factor is "(1 + 0.00115 wet)" (004, formula 11).
    #[inline]
    fn over_water(&self, tables: &Vapour) -> i64 {
        let factor = 1_000_000 + 115 * i64::from(self.wet);
        self.exact(tables.over_water(self.wet), factor)
    }

    /// e over ice: the factor is "0.8822" (004, formula 12).
    #[inline]
    fn over_ice(&self, tables: &Vapour) -> i64 {
        self.exact(tables.over_ice(self.wet), 882_200)
    }

    /// e, "rounded once to 0.01 hPa", in hundredths. Unknown: "wet not below dry, ice;
    /// else half the sum of the two exact values, rounded once".
    #[inline]
    fn vapour_pressure(&self, tables: &Vapour) -> i32 {
        let e = match self.state {
            BulbState::Water => nearest(self.over_water(tables), TRILLION),
            BulbState::Unknown if self.wet < self.dry => nearest(
                self.over_water(tables) + self.over_ice(tables),
                2 * TRILLION,
            ),
            BulbState::Ice | BulbState::Unknown => nearest(self.over_ice(tables), TRILLION),
        };
        e as i32
    }

    /// Refusals 13, 20 and 21, which the bulbs alone decide.
    #[inline]
    fn can_be(&self) -> Result<(), Refused> {
        match self.state {
            BulbState::Water if self.wet > self.dry => Err(Refused::WetAboveDry),
            BulbState::Water => Ok(()),
            _ if self.wet > WARMEST_ICE => Err(Refused::TooWarmForIce),
            BulbState::Unknown if !UNKNOWN_AIR.contains(&self.dry) => {
                Err(Refused::UnknownOutsideRange)
            }
            _ => Ok(()),
        }
    }

    /// Humidity; or refusal 13, 20 or 21, then 22 when the rounded e is above
    /// saturation over water at the dry bulb, then 15 when it is below 0.19 hPa.
    /// "Saturation, relative humidity, deficit and dew point are over water whatever
    /// the state."
    ///
    /// # Panics
    /// If a temperature is not -40.0 to 50.0.
    #[inline]
    pub fn humidity(&self, tables: &Vapour) -> Result<Humidity, Refused> {
        self.can_be()?;
        let e = self.vapour_pressure(tables);
        let saturation = tables.over_water(self.dry);
        if e > saturation {
            return Err(Refused::AboveSaturation);
        }
        if e < LEAST_VAPOUR {
            return Err(Refused::TooDry);
        }
        Ok(Humidity {
            e,
            saturation,
            deficit: saturation - e,
            relative: relative(e, saturation),
            dew: tables.dew_point(e).ok_or(Refused::TooDry)?,
        })
    }
}

#[cfg(test)]
mod tests {
    use super::BulbState::{Ice, Unknown, Water};
    use super::*;
    use crate::vapour::{vapour, COLDEST, WARMEST};

    /// At 1000.0 hPa, with the usual A.
    fn bulbs(state: BulbState, dry: i32, wet: i32) -> Psychrometer {
        Psychrometer {
            dry,
            wet,
            state,
            pressure: 10000,
            coefficient: 662,
        }
    }

    fn humidity(state: BulbState, dry: i32, wet: i32) -> Result<Humidity, Refused> {
        bulbs(state, dry, wet).humidity(vapour())
    }

    fn e(state: BulbState, dry: i32, wet: i32) -> Result<i32, Refused> {
        humidity(state, dry, wet).map(|h| h.e)
    }

    #[test]
    fn e_is_rounded_once() {
        let e = |state, dry, wet, pressure, coefficient| {
            let air = Psychrometer {
                pressure,
                coefficient,
                ..bulbs(state, dry, wet)
            };
            air.vapour_pressure(vapour())
        };
        // 6.11 less 662e-6 × 1000.0 × 0.5 × 1 is 5.779, and with 0.8822 5.81799.
        assert_eq!(e(Water, 5, 0, 10000, 662), 578);
        assert_eq!(e(Ice, 5, 0, 10000, 662), 582);
        // 42.38 less 1000e-6 × 1100.0 × 20.0 × 1.0345 is 19.621.
        assert_eq!(e(Water, 500, 300, 11000, 1000), 1962);
        // 0.13 less 0.8822 × 500e-6 × 1000.0 × 12.5 is -5.38375.
        assert_eq!(e(Ice, -275, -400, 10000, 500), -538);
        // A half goes away from zero on both sides: 6.11 - 0.005 and 0.00 - 0.005.
        assert_eq!(e(Water, 1, 0, 1000, 500), 611);
        assert_eq!(e(Water, 1, 0, 1001, 500), 610);
        let air = Psychrometer {
            pressure: 1000,
            coefficient: 500,
            ..bulbs(Water, 1, 0)
        };
        assert_eq!(nearest(air.exact(0, 1_000_000), TRILLION), -1);
        // So does the half of a mean: with no air 2.87 and 2.60.
        assert_eq!(e(Unknown, -99, -100, 0, 500), 274);
    }

    #[test]
    fn the_marked_case_over_ice() {
        let marked = Humidity {
            e: 260,
            saturation: 287,
            deficit: 27,
            relative: 91,
            dew: -112,
        };
        assert_eq!(humidity(Ice, -100, -100), Ok(marked));
        assert_eq!(humidity(Water, -100, -100).unwrap().relative, 100);
    }

    #[test]
    fn thirteen_is_for_water_only() {
        assert_eq!(e(Water, -100, -99), Err(Refused::WetAboveDry));
        assert_eq!(e(Water, 0, 1), Err(Refused::WetAboveDry));
        assert_eq!(e(Water, -400, 500), Err(Refused::WetAboveDry));
        // 2.62 and 0.058 more, since the wet bulb stands above the dry.
        assert_eq!(e(Ice, -100, -99), Ok(268));
        assert_eq!(e(Unknown, -99, -98), Ok(270));
    }

    #[test]
    fn twenty_is_for_a_wet_bulb_above_zero() {
        for state in [Ice, Unknown] {
            assert_eq!(e(state, 0, 0), Ok(611));
            // Before 21, which the unknown has too, and where water has 13.
            for (dry, wet) in [(0, 1), (1, 1), (500, 1), (-400, 1), (500, 500)] {
                assert_eq!(e(state, dry, wet), Err(Refused::TooWarmForIce));
            }
        }
        assert_eq!(e(Water, 1, 1), Ok(616));
    }

    #[test]
    fn twenty_one_is_for_the_unknown_in_other_air() {
        let outside = Err(Refused::UnknownOutsideRange);
        assert_eq!(e(Unknown, -99, -99), Ok(262));
        assert_eq!(e(Unknown, -100, -100), outside);
        assert_eq!(e(Unknown, 0, -1), Ok(600));
        assert_eq!(e(Unknown, 1, 0), outside);
        // Before 22 and before 15.
        assert_eq!(e(Unknown, -100, 0), outside);
        assert_eq!(e(Unknown, -400, -400), outside);
        assert_eq!(e(Ice, -100, -100), Ok(260));
        assert_eq!(e(Ice, 1, 0), Ok(605));
    }

    #[test]
    fn twenty_two_goes_by_the_rounded_e() {
        let at = |state, pressure| {
            let air = Psychrometer {
                pressure,
                ..bulbs(state, -80, -77)
            };
            air.humidity(vapour()).map(|h| (h.e, h.deficit, h.relative))
        };
        for state in [Ice, Unknown] {
            // 3.35499 is 3.35, saturation; 3.35501 is 3.36.
            assert_eq!(at(state, 9988), Ok((335, 0, 100)));
            assert_eq!(at(state, 9989), Err(Refused::AboveSaturation));
        }
        assert_eq!(e(Ice, -100, -97), Ok(285));
        assert_eq!(e(Ice, -100, -96), Err(Refused::AboveSaturation));
        assert_eq!(e(Ice, -400, 0), Err(Refused::AboveSaturation));
    }

    #[test]
    fn the_unknown_is_ice_or_the_mean() {
        for wet in [-99, -98] {
            assert_eq!(humidity(Unknown, -99, wet), humidity(Ice, -99, wet));
        }
        // One tenth below: 2.8046 and 2.5416, so 2.6731.
        assert_eq!(e(Water, -99, -100), Ok(280));
        assert_eq!(e(Ice, -99, -100), Ok(254));
        assert_eq!(e(Unknown, -99, -100), Ok(267));
    }

    #[test]
    fn the_mean_is_of_the_exact_values() {
        // 2.3676 and 2.1396, so 2.2536; of 2.37 and 2.14 it would be 2.255, so 2.26.
        assert_eq!(e(Water, -99, -105), Ok(237));
        assert_eq!(e(Ice, -99, -105), Ok(214));
        assert_eq!(e(Unknown, -99, -105), Ok(225));
    }

    #[test]
    fn fifteen_comes_last_and_goes_by_the_rounded_e() {
        assert_eq!(e(Water, 300, 50), Err(Refused::TooDry));
        // 0.1866 and 0.1849.
        assert_eq!(e(Water, 40, -31), Ok(19));
        assert_eq!(e(Water, -40, -86), Err(Refused::TooDry));
        // 0.13 over ice, and 0.1884 with the wet bulb above.
        assert_eq!(e(Water, -400, -400), Ok(19));
        assert_eq!(e(Ice, -400, -400), Err(Refused::TooDry));
        assert_eq!(e(Ice, -400, -399), Ok(19));
        assert_eq!(e(Unknown, 0, -400), Err(Refused::TooDry));
    }

    /// "State 0 never comes to 22."
    #[test]
    fn water_is_never_above_saturation() {
        for dry in COLDEST..=WARMEST {
            for wet in COLDEST..=dry {
                let above = Err(Refused::AboveSaturation);
                assert_ne!(humidity(Water, dry, wet), above, "{dry} {wet}");
            }
        }
    }

    #[test]
    fn relative_takes_halves_up() {
        assert_eq!(relative(1, 200), 1);
        assert_eq!(relative(99, 19900), 0);
        assert_eq!(relative(19, 19), 100);
    }
}
