//! Messages of instruments, ready to be heard.

use crate::store::BulbState;

/// A message of instruments: 16 bytes, as document 01 lays them out.
///
/// ```
/// use zhitomrak::Message;
/// let message = Message::barometer(820, 1004.2);
/// assert_eq!(message.as_bytes()[..8], [0, 0, 0, 0, 0x34, 3, 0, 0]);
/// ```
#[derive(Clone, Copy, Debug, PartialEq, Eq, Hash)]
pub struct Message([u8; Message::BYTES]);

impl Message {
    /// The bytes of a message.
    pub const BYTES: usize = 16;

    fn new(channel: u8, state: u8, minute: u32, first: f32, second: f32) -> Message {
        let mut bytes = [0; Message::BYTES];
        bytes[0] = channel;
        bytes[1] = state;
        bytes[4..8].copy_from_slice(&minute.to_le_bytes());
        bytes[8..12].copy_from_slice(&first.to_le_bytes());
        bytes[12..].copy_from_slice(&second.to_le_bytes());
        Message(bytes)
    }

    /// The barometer's reading, in its unit.
    pub fn barometer(minute: u32, pressure: f32) -> Message {
        Message::new(0, 0, minute, pressure, 0.0)
    }

    /// The wheelhouse thermometer, in °C.
    pub fn wheelhouse(minute: u32, celsius: f32) -> Message {
        Message::new(1, 0, minute, celsius, 0.0)
    }

    /// The apparent wind: m/s, and the degrees clockwise from the bow that it comes from.
    pub fn apparent_wind(minute: u32, metres_per_second: f32, degrees_from_bow: f32) -> Message {
        Message::new(2, 0, minute, metres_per_second, degrees_from_bow)
    }

    /// The ship's motion: knots, and the course in degrees.
    pub fn ship_motion(minute: u32, knots: f32, degrees: f32) -> Message {
        Message::new(3, 0, minute, knots, degrees)
    }

    /// The dry bulb, in °C.
    pub fn dry_bulb(minute: u32, celsius: f32) -> Message {
        Message::new(4, 0, minute, celsius, 0.0)
    }

    /// The wet bulb, in °C, and what is on it.
    pub fn wet_bulb(minute: u32, celsius: f32, state: BulbState) -> Message {
        Message::new(5, state as u8, minute, celsius, 0.0)
    }

    /// Its bytes.
    pub const fn as_bytes(&self) -> &[u8; Message::BYTES] {
        &self.0
    }
}

impl AsRef<[u8]> for Message {
    fn as_ref(&self) -> &[u8] {
        &self.0
    }
}
