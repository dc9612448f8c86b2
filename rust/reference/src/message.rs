//! Sixteen bytes to a reading, or refusals 1 to 7.

use std::ops::RangeInclusive;

use crate::refusal::Refused;
use crate::settings::Unit;

/// The last minute there is: refusal 5 is a "minute above 16,777,215, sent or asked".
pub const LAST_MINUTE: u32 = 16_777_215;

/// "A message is 16 bytes."
pub const LENGTH: usize = 16;

/// Channel 0: "850.0 to 1100.0 hPa; 640.0 to 825.0 mm Hg", tenths.
pub const fn barometer(unit: Unit) -> RangeInclusive<i32> {
    match unit {
        Unit::HPa => 8500..=11000,
        Unit::MmHg => 6400..=8250,
    }
}

/// Channel 1, wheelhouse thermometer: "-40.0 to 60.0" °C, tenths.
pub const WHEELHOUSE: RangeInclusive<i32> = -400..=600;
/// Channel 2, speed of the apparent wind: "0 to 75.0" m/s, tenths.
pub const APPARENT_SPEED: RangeInclusive<i32> = 0..=750;
/// Channel 3, speed of the ship: "0 to 40.0" knots, tenths.
pub const SHIP_SPEED: RangeInclusive<i32> = 0..=400;
/// Channels 2 and 3, a direction: "0 to 360" whole degrees.
pub const DIRECTION: RangeInclusive<i32> = 0..=360;
/// Channels 4 and 5, dry and wet bulb: "-40.0 to 50.0" °C, tenths.
pub const BULB: RangeInclusive<i32> = -400..=500;

/// Apparent wind as kept.
#[derive(Clone, Copy, Debug, Default, PartialEq, Eq)]
pub struct ApparentWind {
    /// Tenths of m/s.
    pub speed: i16,
    /// Whole degrees from the bow, clockwise, 0 to 359.
    pub from_bow: i16,
}

/// Ship motion as kept.
#[derive(Clone, Copy, Debug, Default, PartialEq, Eq)]
pub struct ShipMotion {
    /// Tenths of a knot.
    pub speed: i16,
    /// Whole degrees of course, 0 to 359.
    pub course: i16,
}

/// What is on the wet bulb: a message's state.
#[derive(Clone, Copy, Debug, Default, PartialEq, Eq)]
pub enum BulbState {
    /// 0.
    #[default]
    Water,
    /// 1.
    Ice,
    /// 2: nobody looked.
    Unknown,
}

impl BulbState {
    /// The state that a message's byte says, or nothing for one above 2.
    #[inline]
    pub const fn of(byte: u8) -> Option<BulbState> {
        Some(match byte {
            0 => BulbState::Water,
            1 => BulbState::Ice,
            2 => BulbState::Unknown,
            _ => return None,
        })
    }

    /// The byte that says it.
    #[inline]
    pub const fn byte(self) -> u8 {
        match self {
            BulbState::Water => 0,
            BulbState::Ice => 1,
            BulbState::Unknown => 2,
        }
    }
}

/// Wet bulb as kept: "the state belongs to the wet bulb's reading and is kept with
/// it".
#[derive(Clone, Copy, Debug, Default, PartialEq, Eq)]
pub struct WetBulb {
    /// Tenths °C.
    pub temperature: i16,
    /// What is on it.
    pub state: BulbState,
}

/// "A message is one of six kinds": the values kept, by channel.
#[derive(Clone, Copy, Debug, PartialEq, Eq)]
pub enum Reading {
    /// Channel 0, tenths of hPa or mm Hg.
    Barometer(i16),
    /// Channel 1, tenths °C.
    Wheelhouse(i16),
    /// Channel 2.
    ApparentWind(ApparentWind),
    /// Channel 3.
    ShipMotion(ShipMotion),
    /// Channel 4, tenths °C.
    DryBulb(i16),
    /// Channel 5.
    WetBulb(WetBulb),
}

/// A message that passed tests 1 to 7.
#[derive(Clone, Copy, Debug, PartialEq, Eq)]
pub struct Message {
    /// The minute it was sent for, at most [`LAST_MINUTE`].
    pub minute: u32,
    /// Its rounded values, within limits.
    pub reading: Reading,
}

/// The message in these bytes, or the first of refusals 1 to 7 whose reason holds.
///
/// "A message is 16 bytes, little endian: channel (1), state (1), two zero bytes,
/// minute (4), first value (4), second value (4)."
#[inline]
pub fn receive(bytes: &[u8], unit: Unit) -> Result<Message, Refused> {
    let Ok(bytes) = <&[u8; LENGTH]>::try_from(bytes) else {
        return Err(Refused::MessageLength);
    };
    let [channel, state, ..] = *bytes;
    let word = |at: usize| u32::from_le_bytes([0, 1, 2, 3].map(|i| bytes[at + i]));
    let (minute, first, second) = (word(4), word(8), word(12));
    if channel > 5 {
        return Err(Refused::UnknownChannel);
    }
    let pair = channel == 2 || channel == 3;
    let state_wrong = channel != 5 && state != 0;
    if state_wrong || bytes[2] != 0 || bytes[3] != 0 || (!pair && second != 0) {
        return Err(Refused::NotZero);
    }
    // On the other channels the state is 0 here.
    let state = BulbState::of(state).ok_or(Refused::NoSuchState)?;
    if minute > LAST_MINUTE {
        return Err(Refused::MinuteTooLate);
    }
    if !finite(first) || !finite(second) {
        return Err(Refused::NotFinite);
    }
    let reading =
        within_limits(channel, state, first, second, unit).ok_or(Refused::OutsideLimits)?;
    Ok(Message { minute, reading })
}

/// The reading of a channel from 0 to 5 with its limits tested after rounding. They
/// are the same for every state.
fn within_limits(
    channel: u8,
    state: BulbState,
    first: u32,
    second: u32,
    unit: Unit,
) -> Option<Reading> {
    Some(match channel {
        0 => Reading::Barometer(inside(barometer(unit), tenths(first))?),
        1 => Reading::Wheelhouse(inside(WHEELHOUSE, tenths(first))?),
        2 => Reading::ApparentWind(ApparentWind {
            speed: inside(APPARENT_SPEED, tenths(first))?,
            from_bow: direction(second)?,
        }),
        3 => Reading::ShipMotion(ShipMotion {
            speed: inside(SHIP_SPEED, tenths(first))?,
            course: direction(second)?,
        }),
        4 => Reading::DryBulb(inside(BULB, tenths(first))?),
        _ => Reading::WetBulb(WetBulb {
            temperature: inside(BULB, tenths(first))?,
            state,
        }),
    })
}

/// The value, if it was not beyond every limit and lies within these.
#[inline]
fn inside(limits: RangeInclusive<i32>, value: Option<i32>) -> Option<i16> {
    let value = value.filter(|value| limits.contains(value))?;
    i16::try_from(value).ok()
}

/// "Degrees are rounded as they come"; "a direction of 360 is kept as 0".
#[inline]
fn direction(bits: u32) -> Option<i16> {
    let degrees = inside(DIRECTION, rounded(bits, 1))?;
    Some(if degrees == 360 { 0 } else { degrees })
}

/// "Ten times a binary32 value is taken exactly before it is rounded to tenths."
#[inline]
fn tenths(bits: u32) -> Option<i32> {
    rounded(bits, 10)
}

/// Whether the binary32 with these bits is neither infinite nor not a number.
#[inline]
const fn finite(bits: u32) -> bool {
    bits >> 23 & 0xff != 0xff
}

/// A finite binary32, times 1 or 10, rounded; nothing if it is 2^23 or more in
/// size, which lies beyond every limit. "Rounding of a message's value goes to the
/// even tenth or degree on an exact half."
///
/// The value is its significand over a power of two, so the product is exact and
/// the rounding is one on whole numbers: the power is taken out of the size with
/// half of it added, or one less than half where the whole part is even, which
/// keeps a half from reaching the next.
#[inline]
fn rounded(bits: u32, times: u64) -> Option<i32> {
    let exponent = bits >> 23 & 0xff;
    let fraction = u64::from(bits & 0x7f_ffff);
    let significand = if exponent == 0 {
        fraction
    } else {
        fraction | 1 << 23
    };
    // The value is significand / 2^power; a subnormal has the least exponent, 1.
    let power = 150u32.checked_sub(exponent.max(1)).filter(|p| *p > 0)?;
    let product = times * significand;
    let size = if power > 40 {
        0 // the product is below 2^28, far less than half of 2^power
    } else {
        let odd = product >> power & 1;
        (product + (1 << (power - 1)) - 1 + odd) >> power
    };
    let size = i32::try_from(size).ok()?;
    Some(if bits >> 31 == 1 { -size } else { size })
}

#[cfg(test)]
mod tests {
    use super::*;

    fn bytes(channel: u8, minute: u32, first: f32, second: f32) -> [u8; 16] {
        let mut message = [0; 16];
        message[0] = channel;
        message[4..8].copy_from_slice(&minute.to_le_bytes());
        message[8..12].copy_from_slice(&first.to_le_bytes());
        message[12..16].copy_from_slice(&second.to_le_bytes());
        message
    }

    fn heard(channel: u8, first: f32, second: f32) -> Result<Reading, u8> {
        receive(&bytes(channel, 7, first, second), Unit::HPa)
            .map(|message| message.reading)
            .map_err(Refused::number)
    }

    #[test]
    fn tenths_take_halves_to_the_even_one() {
        assert_eq!(tenths(0.25f32.to_bits()), Some(2));
        assert_eq!(tenths((-0.25f32).to_bits()), Some(-2));
        assert_eq!(tenths(0.75f32.to_bits()), Some(8));
        assert_eq!(tenths((-0.75f32).to_bits()), Some(-8));
        // Next to a half it is the nearest, whichever is even.
        assert_eq!(tenths(0.25f32.to_bits() + 1), Some(3));
        assert_eq!(tenths(0.75f32.to_bits() - 1), Some(7));
        assert_eq!(tenths((-0.0f32).to_bits()), Some(0));
        // 0.35 in binary32 is a little less than 0.35.
        assert_eq!(tenths(0.35f32.to_bits()), Some(3));
        assert_eq!(tenths(1013.25f32.to_bits()), Some(10132));
        assert_eq!(tenths(f32::from_bits(1).to_bits()), Some(0));
        assert_eq!(tenths(0.05f32.to_bits()), Some(1));
        assert_eq!(tenths(0.05f32.to_bits() - 1), Some(0));
        assert_eq!(tenths(8_388_607.5f32.to_bits()), Some(83_886_075));
        assert_eq!(rounded(8_388_607.5f32.to_bits(), 1), Some(8_388_608));
        assert_eq!(tenths(8_388_608f32.to_bits()), None);
    }

    /// A binary64 holds ten times any binary32 exactly, and has a rounding that
    /// takes ties to the even number: a second way to the same figure.
    fn agrees_with_binary64(value: f32) {
        let (bits, wide) = (value.to_bits(), f64::from(value));
        let even = |x: f64| Some(x.round_ties_even() as i32);
        assert_eq!(rounded(bits, 10), even(wide * 10.0), "{value}");
        assert_eq!(rounded(bits, 1), even(wide), "{value}");
    }

    #[test]
    fn agrees_with_binary64_over_the_whole_line() {
        for bits in (0..=u32::MAX).step_by(10_007) {
            let value = f32::from_bits(bits);
            if value.is_finite() && value.abs() < 8_388_608.0 {
                agrees_with_binary64(value);
            }
        }
    }

    /// Each quarter is a half of a tenth or of a degree, or neither.
    #[test]
    fn agrees_with_binary64_on_every_half() {
        for quarters in -8_000..=8_000 {
            agrees_with_binary64(quarters as f32 / 4.0);
        }
    }

    #[test]
    fn a_direction_is_rounded_from_the_value_itself() {
        let from_bow = |degrees: f32| match heard(2, 1.0, degrees) {
            Ok(Reading::ApparentWind(wind)) => Ok(wind.from_bow),
            Ok(other) => panic!("{other:?}"),
            Err(number) => Err(number),
        };
        assert_eq!(from_bow(10.46), Ok(10));
        assert_eq!(from_bow(-0.4999), Ok(0));
        assert_eq!(from_bow(-0.5), Ok(0));
        assert_eq!(from_bow(-0.500_000_06), Err(7));
        assert_eq!(from_bow(-1.5), Err(7));
        assert_eq!(from_bow(10.5), Ok(10));
        assert_eq!(from_bow(11.5), Ok(12));
        assert_eq!(from_bow(360.0), Ok(0));
        assert_eq!(from_bow(360.4), Ok(0));
        assert_eq!(from_bow(359.5), Ok(0));
        assert_eq!(from_bow(360.5), Ok(0));
        assert_eq!(from_bow(360.500_03), Err(7));
        assert_eq!(from_bow(361.5), Err(7));
        assert_eq!(from_bow(359.4), Ok(359));
    }

    #[test]
    fn each_channel_has_its_own_limits() {
        for (channel, low, high) in [
            (0, 850.0, 1100.0),
            (1, -40.0, 60.0),
            (2, 0.0, 75.0),
            (3, 0.0, 40.0),
            (4, -40.0, 50.0),
            (5, -40.0, 50.0),
        ] {
            assert!(heard(channel, low, 0.0).is_ok());
            assert!(heard(channel, high, 0.0).is_ok());
            assert!(heard(channel, high + 0.04, 0.0).is_ok());
            assert_eq!(heard(channel, low - 0.1, 0.0), Err(7));
            assert_eq!(heard(channel, high + 0.1, 0.0), Err(7));
            assert_eq!(heard(channel, f32::MAX, 0.0), Err(7));
        }
    }

    #[test]
    fn the_barometer_has_limits_for_each_unit() {
        let ask = |value: f32| {
            receive(&bytes(0, 7, value, 0.0), Unit::MmHg)
                .map(|message| message.reading)
                .map_err(Refused::number)
        };
        assert_eq!(ask(640.0), Ok(Reading::Barometer(6400)));
        assert_eq!(ask(825.0), Ok(Reading::Barometer(8250)));
        assert_eq!(ask(639.9), Err(7));
        assert_eq!(ask(825.1), Err(7));
    }

    /// A good message of the channel with these bytes put in.
    fn damaged(channel: u8, changes: &[(usize, u8)]) -> Result<Message, u8> {
        let mut message = bytes(channel, 7, if channel == 0 { 1000.0 } else { 5.0 }, 0.0);
        for &(at, byte) in changes {
            message[at] = byte;
        }
        receive(&message, Unit::HPa).map_err(Refused::number)
    }

    #[test]
    fn each_refusal_in_its_place() {
        let good = bytes(4, 7, 5.0, 0.0);
        assert_eq!(receive(&good[..15], Unit::HPa), Err(Refused::MessageLength));
        assert_eq!(receive(&[], Unit::HPa), Err(Refused::MessageLength));
        assert_eq!(receive(&[9; 17], Unit::HPa), Err(Refused::MessageLength));
        for channel in 0..6 {
            assert!(damaged(channel, &[]).is_ok());
            for at in [2, 3] {
                assert_eq!(damaged(channel, &[(at, 1)]), Err(3));
            }
            for state in 1..=255 {
                let refused = match (channel, state) {
                    (5, 1 | 2) => None,
                    (5, _) => Some(4),
                    _ => Some(3),
                };
                assert_eq!(damaged(channel, &[(1, state)]).err(), refused);
            }
            let pair = channel == 2 || channel == 3;
            for at in 12..15 {
                // The least significant bytes of a direction only make it tiny.
                assert_eq!(damaged(channel, &[(at, 1)]).err(), (!pair).then_some(3));
            }
            assert_eq!(damaged(channel, &[(7, 1)]), Err(5));
            assert_eq!(damaged(channel, &[(10, 0x80), (11, 0x7f)]), Err(6));
            assert_eq!(damaged(channel, &[(10, 0x80), (11, 0xff)]), Err(6));
            assert_eq!(damaged(channel, &[(10, 0xc0), (11, 0x7f)]), Err(6));
        }
        assert_eq!(damaged(6, &[(2, 1)]), Err(2));
        assert_eq!(damaged(255, &[]), Err(2));
    }

    #[test]
    fn the_earlier_test_refuses() {
        assert_eq!(damaged(5, &[(1, 3), (2, 1)]), Err(3));
        assert_eq!(damaged(5, &[(1, 3), (7, 1)]), Err(4));
        assert_eq!(damaged(5, &[(1, 1), (7, 1)]), Err(5));
        assert_eq!(damaged(5, &[(7, 1), (10, 0x80), (11, 0x7f)]), Err(5));
        assert_eq!(heard(2, -1.0, f32::NAN), Err(6));
        assert_eq!(heard(3, f32::NAN, 400.0), Err(6));
        // Zero bytes mean bytes: negative zero is not four of them.
        assert_eq!(heard(4, 5.0, -0.0), Err(3));
    }

    #[test]
    fn a_state_is_kept_whatever_the_temperature() {
        let states = [BulbState::Water, BulbState::Ice, BulbState::Unknown];
        for (byte, state) in (0..).zip(states) {
            for (value, temperature) in [(-40.0, -400), (0.0, 0), (0.1, 1), (50.0, 500)] {
                let mut message = bytes(5, 7, value, 0.0);
                message[1] = byte;
                let reading = Reading::WetBulb(WetBulb { temperature, state });
                let kept = receive(&message, Unit::HPa).map(|message| message.reading);
                assert_eq!(kept, Ok(reading));
            }
            let outside = [(1, byte), (10, 0x49), (11, 0x42)]; // 50.25 °C
            assert_eq!(damaged(5, &outside), Err(7));
        }
    }

    #[test]
    fn the_last_minute_is_heard() {
        let last = receive(&bytes(1, LAST_MINUTE, -0.04, 0.0), Unit::HPa).unwrap();
        assert_eq!(last.minute, LAST_MINUTE);
        assert_eq!(last.reading, Reading::Wheelhouse(0));
        let later = receive(&bytes(1, LAST_MINUTE + 1, 0.0, 0.0), Unit::HPa);
        assert_eq!(later, Err(Refused::MinuteTooLate));
        let unsigned = receive(&bytes(1, u32::MAX, 0.0, 0.0), Unit::HPa);
        assert_eq!(unsigned, Err(Refused::MinuteTooLate));
    }
}
