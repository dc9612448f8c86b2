//! The settings of a store.

use crate::ffi;

pub use crate::ffi::{AnemometerPoint, Point, Points};

/// The barometer's unit.
#[derive(Clone, Copy, Debug, Default, PartialEq, Eq, Hash)]
pub enum Unit {
    /// Hectopascals.
    #[default]
    Hectopascals,
    /// Millimetres of mercury.
    MillimetresOfMercury,
}

/// The barometer's certificate: 2 to 16 points.
pub type Certificate = Points<Point, 16>;

/// The hand anemometer's: 2 to 20 points, or none.
pub type AnemometerCertificate = Points<AnemometerPoint, 20>;

// The numbers are C's. (By their names, in the types, they stop rustc 1.95 at a closure that holds a part of some settings.)
const _: () = assert!(
    Certificate::MAX == ffi::CERTIFICATE_MAX_POINTS
        && AnemometerCertificate::MAX == ffi::ANEMOMETER_MAX_POINTS
);

impl<P: Copy + Default, const ROOM: usize> Points<P, ROOM> {
    /// The most points that a certificate of this kind can have.
    pub const MAX: usize = ROOM;

    /// A certificate of these points, right or wrong. Of too many those that there is room for are kept, and how many there were.
    pub fn new(points: &[P]) -> Self {
        let mut kept = [P::default(); ROOM];
        for (to, &point) in kept.iter_mut().zip(points) {
            *to = point;
        }
        Points {
            count: points.len().try_into().unwrap_or(u32::MAX),
            points: kept,
        }
    }

    /// Its points, as many as there is room for.
    pub fn as_slice(&self) -> &[P] {
        &self.points[..ROOM.min(self.count as usize)]
    }
}

impl<P: Copy + Default, const ROOM: usize> Default for Points<P, ROOM> {
    fn default() -> Self {
        Points::new(&[])
    }
}

impl<P: Copy + Default, const ROOM: usize> From<&[P]> for Points<P, ROOM> {
    fn from(points: &[P]) -> Self {
        Points::new(points)
    }
}

/// A barometer's point: the reading and what is added to it, in tenths of its unit.
impl From<(i32, i32)> for Point {
    fn from((reading, correction): (i32, i32)) -> Self {
        Point {
            reading,
            correction,
        }
    }
}

/// An anemometer's point: divisions a second, and tenths of m/s.
impl From<(i32, i32)> for AnemometerPoint {
    fn from((rate, speed): (i32, i32)) -> Self {
        AnemometerPoint { rate, speed }
    }
}

/// Points by pairs: `[(8500, 0), (11000, 0)].into()`.
impl<P: Copy + Default + From<(i32, i32)>, const N: usize, const ROOM: usize> From<[(i32, i32); N]>
    for Points<P, ROOM>
{
    fn from(pairs: [(i32, i32); N]) -> Self {
        Points::new(&pairs.map(P::from))
    }
}

/// The settings of a store, right or wrong.
#[derive(Clone, Copy, Debug, PartialEq, Eq, Hash)]
pub struct Settings {
    /// The barometer's unit.
    pub unit: Unit,
    /// Its height, 0 to 600 tenths of a metre.
    pub height: i32,
    /// The sea level's difference, -300 to 300 tenths of a metre, negative when the closed sea lies lower.
    pub difference: i32,
    /// The temperature coefficient, -50 to 50 thousandths of the unit per °C.
    pub coefficient: i32,
    /// The psychrometer's coefficient A, 500 to 1000 millionths; 662 when the passport gives none.
    pub psychrometer: i32,
    /// 2 to 16 points, readings within the barometer's limits and strictly rising, corrections -50 to 50.
    pub certificate: Certificate,
    /// The hand anemometer's: 2 to 20 points, rates 0 to 9999, speeds 0 to 750, both strictly rising; or none, where the ship has
    /// no such instrument.
    pub anemometer: AnemometerCertificate,
}

/// A barometer in hPa at sea level without corrections or a certificate, which is still to be given; A is 662; no anemometer.
impl Default for Settings {
    fn default() -> Self {
        Settings {
            unit: Unit::default(),
            height: 0,
            difference: 0,
            coefficient: 0,
            psychrometer: 662,
            certificate: Certificate::default(),
            anemometer: AnemometerCertificate::default(),
        }
    }
}

impl Settings {
    pub(crate) fn told(&self) -> ffi::Settings {
        ffi::Settings {
            unit: match self.unit {
                Unit::Hectopascals => 0,
                Unit::MillimetresOfMercury => 1,
            },
            height: self.height,
            difference: self.difference,
            coefficient: self.coefficient,
            psychrometer: self.psychrometer,
            certificate: self.certificate,
            anemometer: self.anemometer,
        }
    }

    /// The settings that the library told; a unit that is not known is none.
    pub(crate) fn of(told: &ffi::Settings) -> Option<Settings> {
        let unit = match told.unit {
            0 => Unit::Hectopascals,
            1 => Unit::MillimetresOfMercury,
            _ => return None,
        };
        Some(Settings {
            unit,
            height: told.height,
            difference: told.difference,
            coefficient: told.coefficient,
            psychrometer: told.psychrometer,
            certificate: told.certificate,
            anemometer: told.anemometer,
        })
    }
}
