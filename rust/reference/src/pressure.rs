//! Barometer corrections, sea level pressure and station pressure (004, section 6).

use crate::rounding::nearest;
use crate::settings::{Certificate, Instruments, Unit};

/// Sea level pressure at a minute less that three hours before.
#[derive(Clone, Copy, Debug, PartialEq, Eq)]
pub struct Tendency {
    /// Tenths hPa, signed.
    pub change: i32,
    /// "The number of absent barometer minutes among the 179 strictly between."
    pub absent: i32,
}

/// "Scale correction: the straight line between the two certificate points round
/// the reading, rounded to 0.1; at a point, that point's correction." Nothing
/// when the reading lies outside the certificate.
///
/// The line's whole value is rounded, not the part above the lower point.
#[inline]
pub fn scale(certificate: &Certificate, reading: i32) -> Option<i32> {
    let points = certificate.points();
    let upper = points.iter().position(|point| reading <= point.reading)?;
    let above = points[upper];
    if above.reading == reading {
        return Some(above.correction);
    }
    let below = points[upper.checked_sub(1)?];
    let span = i64::from(above.reading - below.reading);
    let rise = i64::from(above.correction - below.correction);
    let along = i64::from(reading - below.reading);
    Some(nearest(i64::from(below.correction) * span + rise * along, span) as i32)
}

/// "Temperature correction: coefficient times wheelhouse temperature, rounded to
/// 0.1": thousandths times tenths are ten-thousandths.
#[inline]
pub fn temperature(coefficient: i32, wheelhouse: i32) -> i32 {
    nearest(i64::from(coefficient) * i64::from(wheelhouse), 1000) as i32
}

/// 1 mm Hg is 1.3332 hPa: ten-thousandths.
const MM_HG: i64 = 13_332;

/// Tenths of the unit as tenths hPa: "times 1.3332 if in mm Hg, rounded to 0.1 hPa".
#[inline]
pub fn hectopascals(unit: Unit, tenths: i32) -> i32 {
    match unit {
        Unit::HPa => tenths,
        Unit::MmHg => nearest(i64::from(tenths) * MM_HG, 10_000) as i32,
    }
}

/// "Sea level pressure: reading plus the three, times 1.3332 if in mm Hg, rounded
/// to 0.1 hPa." Nothing when the reading lies outside the certificate.
///
/// "Height correction: (H + difference) times 0.133 hPa or 0.1 mm Hg", and by
/// document 02 "the height correction is exact and only the final pressure is
/// rounded": the sum is in parts of which a tenth of a metre is a whole number.
#[inline]
pub fn sea_level(instruments: &Instruments, reading: i32, wheelhouse: i32) -> Option<i32> {
    let tenths = i64::from(
        reading
            + scale(&instruments.certificate, reading)?
            + temperature(instruments.coefficient, wheelhouse),
    );
    let decimetres = i64::from(instruments.height) + i64::from(instruments.difference);
    let pressure = match instruments.unit {
        // 0.0133 hPa each, and a tenth of hPa is 1000 ten-thousandths.
        Unit::HPa => nearest(1000 * tenths + 133 * decimetres, 1000),
        // 0.01 mm Hg each: hundredths times ten-thousandths are millionths of hPa.
        Unit::MmHg => nearest((10 * tenths + decimetres) * MM_HG, 100_000),
    };
    Some(pressure as i32)
}

/// "Station pressure: reading plus scale correction, times 1.3332 and rounded to
/// 0.1 if in mm Hg." Nothing when the reading lies outside the certificate.
#[inline]
pub fn station(instruments: &Instruments, reading: i32) -> Option<i32> {
    let corrected = reading + scale(&instruments.certificate, reading)?;
    Some(hectopascals(instruments.unit, corrected))
}

#[cfg(test)]
mod tests {
    use super::*;
    use crate::message;
    use crate::settings::{Point, Settings};

    fn certificate(unit: Unit, points: &[(i32, i32)]) -> Certificate {
        let points: Vec<Point> = points
            .iter()
            .map(|&(reading, correction)| Point {
                reading,
                correction,
            })
            .collect();
        Certificate::new(&points, unit).unwrap()
    }

    #[test]
    fn the_whole_line_is_rounded() {
        let line = certificate(Unit::HPa, &[(9500, -1), (9510, 0)]);
        assert_eq!(scale(&line, 9505), Some(-1));
        assert_eq!(scale(&line, 9506), Some(0));
        let rising = certificate(Unit::HPa, &[(9500, 0), (9510, 1)]);
        assert_eq!(scale(&rising, 9504), Some(0));
        assert_eq!(scale(&rising, 9505), Some(1));
    }

    #[test]
    fn a_point_has_its_own_correction_and_outside_there_is_none() {
        let three = certificate(Unit::HPa, &[(9000, -50), (9001, 50), (9100, 7)]);
        assert_eq!(scale(&three, 8999), None);
        assert_eq!(scale(&three, 9000), Some(-50));
        assert_eq!(scale(&three, 9001), Some(50));
        assert_eq!(scale(&three, 9100), Some(7));
        assert_eq!(scale(&three, 9101), None);
        // 50 - 43 * 49 / 99 = 28.7
        assert_eq!(scale(&three, 9050), Some(29));
    }

    #[test]
    fn temperature_corrections_take_halves_away_from_zero() {
        assert_eq!(temperature(25, 20), 1);
        assert_eq!(temperature(-25, 20), -1);
        assert_eq!(temperature(24, 20), 0);
    }

    /// Sea level pressure of a reading whose other corrections are 0.
    fn raised(unit: Unit, reading: i32, height: i32, difference: i32) -> i32 {
        let limits = message::barometer(unit);
        let ends = [*limits.start(), *limits.end()];
        let settings = Settings {
            unit,
            height,
            difference,
            coefficient: 0,
            psychrometer: 662,
            certificate: &ends.map(|reading| Point {
                reading,
                correction: 0,
            }),
            anemometer: &[],
        };
        sea_level(&Instruments::new(&settings).unwrap(), reading, 0).unwrap()
    }

    #[test]
    fn the_height_correction_keeps_every_place() {
        let hectopascals = |height, difference| raised(Unit::HPa, 10000, height, difference);
        assert_eq!(hectopascals(101, 0), 10013);
        // 1.8487; a tenth of a metre more of 0.1333 would give 19.
        assert_eq!(hectopascals(139, 0), 10018);
        // 6.65, the only height that comes to a half of a tenth.
        assert_eq!(hectopascals(500, 0), 10067);
        assert_eq!(hectopascals(0, -300), 9960);
        // 0.1463: rounded to 0.01 first it would be 0.15, and then 0.2.
        assert_eq!(hectopascals(11, 0), 10001);
        let millimetres = |height, difference| raised(Unit::MmHg, 7400, height, difference);
        // 739.95 times 1.3332 is 986.501. With -0.05 as -0.1 it would be 986.43, with 739.95 as 740.0 986.57.
        assert_eq!(millimetres(0, -5), 9865);
        // 740.05 times 1.3332 is 986.635; 740.1 would give 986.70.
        assert_eq!(millimetres(5, 0), 9866);
        // 740.14 times 1.3332 is 986.755; 740.1 would give 986.70.
        assert_eq!(millimetres(300, -286), 9868);
    }

    #[test]
    fn station_pressure_leaves_temperature_and_height_out() {
        let points = [(7300, -4), (7500, -8)].map(|(reading, correction)| Point {
            reading,
            correction,
        });
        let settings = Settings {
            unit: Unit::MmHg,
            height: 101,
            difference: 0,
            coefficient: 24,
            psychrometer: 662,
            certificate: &points,
            anemometer: &[],
        };
        let instruments = Instruments::new(&settings).unwrap();
        assert_eq!(sea_level(&instruments, 7419, 124), Some(9900));
        // (741.9 - 0.6) times 1.3332 is 988.301
        assert_eq!(station(&instruments, 7419), Some(9883));
        assert_eq!(station(&instruments, 7299), None);
        assert_eq!(sea_level(&instruments, 7501, 124), None);
    }
}
