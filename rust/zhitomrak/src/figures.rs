//! Figures: whole numbers of the last place that the documents show, by their units.

use core::fmt;

use crate::ffi;

/// Writes the sentence that the library puts into the lent bytes. It is UTF-8, as the library's promise has it.
pub(crate) fn say(
    line: &mut fmt::Formatter<'_>,
    put: impl FnOnce(&mut ffi::Sentence) -> usize,
) -> fmt::Result {
    let mut sentence = [0; ffi::SENTENCE_MAX_BYTES];
    let length = put(&mut sentence);
    let text = sentence.get(..length).ok_or(fmt::Error)?;
    let text = core::str::from_utf8(text).map_err(|_| fmt::Error)?;
    // a width is kept; a precision would cut the sentence
    match line.precision() {
        None => line.pad(text),
        Some(_) => line.write_str(text),
    }
}

macro_rules! figure {
    ($(#[$about:meta])* $name:ident, $whole:ty, $places:literal, $unit:ident, $from:ident, $parts:ident) => {
        $(#[$about])*
        #[derive(Clone, Copy, Debug, Default, PartialEq, Eq, PartialOrd, Ord, Hash)]
        pub struct $name($whole);

        impl $name {
            #[doc = concat!("The figure of so many ", stringify!($parts), " of ", stringify!($unit), ".")]
            #[inline]
            pub const fn $from($parts: $whole) -> Self {
                Self($parts)
            }

            #[doc = concat!("How many ", stringify!($parts), " of ", stringify!($unit), " it is, exactly.")]
            #[inline]
            pub const fn $parts(self) -> $whole {
                self.0
            }

            #[doc = concat!("In ", stringify!($unit), ", as near as a float is.")]
            #[inline]
            pub fn $unit(self) -> f64 {
                self.0 as f64 / $places
            }
        }
    };
}

figure!(
    /// A pressure at sea level.
    Pressure, i64, 10.0, hectopascals, from_tenths, tenths
);
figure!(
    /// A change of pressure.
    PressureChange, i64, 10.0, hectopascals, from_tenths, tenths
);
figure!(
    /// A pressure of water vapour.
    VapourPressure, u32, 100.0, hectopascals, from_hundredths, hundredths
);
figure!(
    /// A temperature.
    Temperature, i32, 10.0, celsius, from_tenths, tenths
);
figure!(
    /// A speed of the wind.
    Speed, u32, 10.0, metres_per_second, from_tenths, tenths
);
figure!(
    /// A speed of the ship.
    ShipSpeed, u32, 10.0, knots, from_tenths, tenths
);

/// Whole degrees of a direction or a course.
#[derive(Clone, Copy, Debug, Default, PartialEq, Eq, PartialOrd, Ord, Hash)]
pub struct Direction(u32);

impl Direction {
    /// The direction of so many degrees.
    #[inline]
    pub const fn from_degrees(degrees: u32) -> Self {
        Self(degrees)
    }

    /// How many degrees it is.
    #[inline]
    pub const fn degrees(self) -> u32 {
        self.0
    }
}

/// A change of pressure in three hours.
#[derive(Clone, Copy, Debug, Default, PartialEq, Eq, Hash)]
pub struct Tendency {
    /// By how much the pressure at sea level has changed.
    pub change: PressureChange,
    /// How many of the 179 minutes strictly between have no barometer reading.
    pub absent: u64,
}

/// The true wind.
#[derive(Clone, Copy, Debug, Default, PartialEq, Eq, Hash)]
pub struct Wind {
    /// How fast it blows.
    pub speed: Speed,
    /// Where it comes from: 1 to 360 degrees, or 0 in a calm.
    pub direction: Direction,
}

/// Humidity by the psychrometer.
#[derive(Clone, Copy, Debug, Default, PartialEq, Eq, Hash)]
pub struct Humidity {
    /// The pressure of the air's water vapour.
    pub vapour_pressure: VapourPressure,
    /// Saturation over water at the dry bulb.
    pub saturation: VapourPressure,
    /// Saturation less vapour pressure.
    pub deficit: VapourPressure,
    /// Percent.
    pub relative_humidity: u32,
    /// The dew point.
    pub dew_point: Temperature,
}

impl fmt::Display for Pressure {
    /// `1005.7 hPa at sea level`
    fn fmt(&self, line: &mut fmt::Formatter<'_>) -> fmt::Result {
        let told = ffi::Pressure {
            pressure: self.0,
            ..Default::default()
        };
        say(line, |sentence| ffi::say_pressure(told, sentence))
    }
}

impl fmt::Display for Tendency {
    /// `-0.1 hPa in three hours, 11 minutes without a reading`
    fn fmt(&self, line: &mut fmt::Formatter<'_>) -> fmt::Result {
        let told = ffi::Tendency {
            change: self.change.0,
            absent: self.absent,
            ..Default::default()
        };
        say(line, |sentence| ffi::say_tendency(told, sentence))
    }
}

impl fmt::Display for Wind {
    /// `4.5 m/s from 166°`, or `calm`
    fn fmt(&self, line: &mut fmt::Formatter<'_>) -> fmt::Result {
        let told = ffi::Wind {
            speed: self.speed.0,
            direction: self.direction.0,
            ..Default::default()
        };
        say(line, |sentence| ffi::say_wind(told, sentence))
    }
}

impl fmt::Display for Humidity {
    /// `vapour pressure 9.10 hPa, saturation 12.00 hPa, deficit 2.90 hPa, relative humidity 76 %, dew point 5.5 °C`
    fn fmt(&self, line: &mut fmt::Formatter<'_>) -> fmt::Result {
        let told = ffi::Humidity {
            vapour_pressure: self.vapour_pressure.0,
            saturation: self.saturation.0,
            deficit: self.deficit.0,
            relative_humidity: self.relative_humidity,
            dew_point: self.dew_point.0,
            ..Default::default()
        };
        say(line, |sentence| ffi::say_humidity(told, sentence))
    }
}
