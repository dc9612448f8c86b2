//! What is fixed when a store is opened: unit, heights, coefficients, the
//! barometer's certificate and the hand anemometer's. Refusals 9, 10 and 25.

use std::ops::RangeInclusive;

use crate::anemometer::{Anemometer, RatePoint};
use crate::message;
use crate::refusal::Refused;

/// "Height H 0 to 60.0 m", tenths.
pub const HEIGHT: RangeInclusive<i32> = 0..=600;
/// "Sea level difference -30.0 to 30.0 m (negative when the closed sea lies lower)", tenths.
pub const DIFFERENCE: RangeInclusive<i32> = -300..=300;
/// "Temperature coefficient -50 to 50 thousandths of the unit per °C."
pub const COEFFICIENT: RangeInclusive<i32> = -50..=50;
/// "Psychrometer coefficient A 500 to 1000 millionths."
pub const PSYCHROMETER: RangeInclusive<i32> = 500..=1000;
/// A "662 when the passport gives none".
pub const USUAL_PSYCHROMETER: i32 = 662;
/// "Corrections -5.0 to 5.0", tenths.
pub const CORRECTION: RangeInclusive<i32> = -50..=50;
/// "A certificate of 2 to 16 points."
pub const POINTS: RangeInclusive<usize> = 2..=16;

/// "Barometer unit": hPa or mm Hg.
#[derive(Clone, Copy, Debug, PartialEq, Eq)]
pub enum Unit {
    /// Hectopascals.
    HPa,
    /// Millimetres of mercury.
    MmHg,
}

/// A point of the certificate: a reading and its correction, tenths of the unit.
#[derive(Clone, Copy, Debug, Default, PartialEq, Eq)]
pub struct Point {
    /// The reading.
    pub reading: i32,
    /// What is added to it.
    pub correction: i32,
}

/// Settings as a caller gives them, right or wrong: "whole numbers of the last
/// place shown".
#[derive(Clone, Copy, Debug, PartialEq, Eq)]
pub struct Settings<'points> {
    /// Barometer unit.
    pub unit: Unit,
    /// Height H, tenths of a metre.
    pub height: i32,
    /// Sea level difference, tenths of a metre.
    pub difference: i32,
    /// Temperature coefficient, thousandths of the unit per °C.
    pub coefficient: i32,
    /// Psychrometer coefficient A, millionths.
    pub psychrometer: i32,
    /// The certificate's points.
    pub certificate: &'points [Point],
    /// The points of the hand anemometer's; none where the ship has no such
    /// instrument.
    pub anemometer: &'points [RatePoint],
}

/// A certificate that keeps its rules.
#[derive(Clone, Copy, Debug, PartialEq, Eq)]
pub struct Certificate {
    points: [Point; *POINTS.end()],
    count: usize,
}

impl Certificate {
    /// "A certificate of 2 to 16 points, readings within channel 0's limits and
    /// strictly rising, corrections -5.0 to 5.0", or refusal 10.
    pub fn new(points: &[Point], unit: Unit) -> Result<Certificate, Refused> {
        let limits = message::barometer(unit);
        let right = POINTS.contains(&points.len())
            && points.iter().all(|p| limits.contains(&p.reading))
            && points.iter().all(|p| CORRECTION.contains(&p.correction))
            && points.windows(2).all(|p| p[0].reading < p[1].reading);
        if !right {
            return Err(Refused::Certificate);
        }
        let mut kept = [Point::default(); *POINTS.end()];
        kept[..points.len()].copy_from_slice(points);
        Ok(Certificate {
            points: kept,
            count: points.len(),
        })
    }

    /// The points, readings strictly rising.
    #[inline]
    pub fn points(&self) -> &[Point] {
        &self.points[..self.count]
    }
}

/// Settings that were tested: what a store works by.
#[derive(Clone, Copy, Debug, PartialEq, Eq)]
pub struct Instruments {
    /// Barometer unit.
    pub unit: Unit,
    /// Height H, tenths of a metre.
    pub height: i32,
    /// Sea level difference, tenths of a metre.
    pub difference: i32,
    /// Temperature coefficient, thousandths of the unit per °C.
    pub coefficient: i32,
    /// Psychrometer coefficient A, millionths.
    pub psychrometer: i32,
    /// The barometer's certificate.
    pub certificate: Certificate,
    /// The hand anemometer's.
    pub anemometer: Anemometer,
}

impl Instruments {
    /// "Settings test in number order": 9, then 10, then 25.
    pub fn new(settings: &Settings) -> Result<Instruments, Refused> {
        let right = HEIGHT.contains(&settings.height)
            && DIFFERENCE.contains(&settings.difference)
            && COEFFICIENT.contains(&settings.coefficient)
            && PSYCHROMETER.contains(&settings.psychrometer);
        if !right {
            return Err(Refused::Setting);
        }
        Ok(Instruments {
            unit: settings.unit,
            height: settings.height,
            difference: settings.difference,
            coefficient: settings.coefficient,
            psychrometer: settings.psychrometer,
            certificate: Certificate::new(settings.certificate, settings.unit)?,
            anemometer: Anemometer::new(settings.anemometer)?,
        })
    }

    /// The settings that were tested, each certificate with its own points only.
    pub fn settings(&self) -> Settings<'_> {
        Settings {
            unit: self.unit,
            height: self.height,
            difference: self.difference,
            coefficient: self.coefficient,
            psychrometer: self.psychrometer,
            certificate: self.certificate.points(),
            anemometer: self.anemometer.points(),
        }
    }
}

#[cfg(test)]
mod tests {
    use super::*;

    fn point(reading: i32, correction: i32) -> Point {
        Point {
            reading,
            correction,
        }
    }

    const PLAIN: [Point; 2] = [
        Point {
            reading: 8500,
            correction: -50,
        },
        Point {
            reading: 11000,
            correction: 50,
        },
    ];

    fn opened(height: i32, difference: i32, coefficient: i32, psychrometer: i32) -> Option<u8> {
        let settings = Settings {
            unit: Unit::HPa,
            height,
            difference,
            coefficient,
            psychrometer,
            certificate: &PLAIN,
            anemometer: &[],
        };
        Instruments::new(&settings).err().map(Refused::number)
    }

    #[test]
    fn each_setting_is_refused_just_outside_its_limits() {
        for inside in [[0, -300, -50, 500], [600, 300, 50, 1000], [0, 0, 0, 662]] {
            let [h, d, c, a] = inside;
            assert_eq!(opened(h, d, c, a), None);
        }
        for outside in [
            [-1, 0, 0, 662],
            [601, 0, 0, 662],
            [0, -301, 0, 662],
            [0, 301, 0, 662],
            [0, 0, -51, 662],
            [0, 0, 51, 662],
            [0, 0, 0, 499],
            [0, 0, 0, 1001],
        ] {
            let [h, d, c, a] = outside;
            assert_eq!(opened(h, d, c, a), Some(9), "{outside:?}");
        }
    }

    fn certified(unit: Unit, points: &[Point]) -> Option<u8> {
        Certificate::new(points, unit).err().map(Refused::number)
    }

    #[test]
    fn a_certificate_keeps_its_rules_or_is_refused() {
        assert_eq!(certified(Unit::HPa, &PLAIN), None);
        assert_eq!(certified(Unit::HPa, &PLAIN[..1]), Some(10));
        assert_eq!(certified(Unit::HPa, &[]), Some(10));
        assert_eq!(
            certified(Unit::HPa, &[point(8499, 0), point(11000, 0)]),
            Some(10)
        );
        assert_eq!(
            certified(Unit::HPa, &[point(8500, 0), point(11001, 0)]),
            Some(10)
        );
        assert_eq!(
            certified(Unit::HPa, &[point(9000, 0), point(9000, 0)]),
            Some(10)
        );
        assert_eq!(
            certified(Unit::HPa, &[point(9000, 51), point(9001, 0)]),
            Some(10)
        );
        assert_eq!(
            certified(Unit::HPa, &[point(9000, 0), point(9001, -51)]),
            Some(10)
        );
        assert_eq!(
            certified(Unit::MmHg, &[point(6400, 0), point(8250, 0)]),
            None
        );
        assert_eq!(
            certified(Unit::MmHg, &[point(6399, 0), point(8250, 0)]),
            Some(10)
        );
        assert_eq!(
            certified(Unit::MmHg, &[point(6400, 0), point(8251, 0)]),
            Some(10)
        );
    }

    #[test]
    fn sixteen_points_are_kept_and_seventeen_refused() {
        let points: Vec<Point> = (0..17).map(|i| point(9000 + i, 0)).collect();
        let sixteen = Certificate::new(&points[..16], Unit::HPa).unwrap();
        assert_eq!(sixteen.points(), &points[..16]);
        assert_eq!(certified(Unit::HPa, &points), Some(10));
    }

    #[test]
    fn nine_is_tested_before_ten_and_ten_before_twenty_five() {
        let one_point = [RatePoint::default()];
        let mut settings = Settings {
            unit: Unit::HPa,
            height: 601,
            difference: 0,
            coefficient: 0,
            psychrometer: USUAL_PSYCHROMETER,
            certificate: &[],
            anemometer: &one_point,
        };
        assert_eq!(Instruments::new(&settings), Err(Refused::Setting));
        settings.height = 600;
        assert_eq!(Instruments::new(&settings), Err(Refused::Certificate));
        settings.certificate = &PLAIN;
        assert_eq!(Instruments::new(&settings), Err(Refused::Anemometer));
        settings.anemometer = &[];
        assert!(Instruments::new(&settings).is_ok());
    }
}
