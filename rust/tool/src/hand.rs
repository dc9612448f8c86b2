//! Readings that a person enters, by the instruments' names.

use zhitomrak::{BulbState, Channel, Message};

use crate::fault::{unclear, Result};

/// An instrument as a person names it.
pub struct Instrument {
    pub name: &'static str,
    /// Its name in a table.
    pub title: &'static str,
    pub channel: Channel,
}

/// All six, in the order of their channels.
pub const INSTRUMENTS: [Instrument; 6] = [
    Instrument {
        name: "barometer",
        title: "barometer",
        channel: Channel::Barometer,
    },
    Instrument {
        name: "wheelhouse",
        title: "wheelhouse thermometer",
        channel: Channel::Wheelhouse,
    },
    Instrument {
        name: "wind",
        title: "apparent wind",
        channel: Channel::ApparentWind,
    },
    Instrument {
        name: "motion",
        title: "ship's motion",
        channel: Channel::ShipMotion,
    },
    Instrument {
        name: "dry",
        title: "dry bulb",
        channel: Channel::DryBulb,
    },
    Instrument {
        name: "wet",
        title: "wet bulb",
        channel: Channel::WetBulb,
    },
];

/// The instrument of a channel's number; none above 5.
pub fn instrument(number: u32) -> Option<&'static Instrument> {
    INSTRUMENTS.get(number as usize)
}

/// The instrument that a person names.
pub fn named(name: &str) -> Option<&'static Instrument> {
    INSTRUMENTS.iter().find(|known| known.name == name)
}

/// The name of a channel's instrument in a table.
pub fn title(channel: Channel) -> &'static str {
    INSTRUMENTS[channel.number() as usize].title
}

/// A value as an instrument sends it.
fn value(text: &str) -> Result<f32> {
    let plain = !text.is_empty()
        && text
            .bytes()
            .all(|b| b.is_ascii_digit() || b"+-.".contains(&b));
    let number = text.parse::<f32>().ok().filter(|_| plain);
    number.ok_or_else(|| {
        unclear!("`{text}` is no number: it is to be written with digits and a point, as 1004.2")
    })
}

/// The message that an instrument would have sent.
pub fn message(
    name: &str,
    minute: u32,
    first: &str,
    second: Option<&str>,
) -> Result<(&'static Instrument, Message)> {
    let instrument = named(name).ok_or_else(|| unclear!("`{name}` is no instrument"))?;
    let shows = value(first)?;
    let degrees = || match second {
        Some(text) => value(text),
        None => Err(unclear!("{name}: the degrees are missing behind {first}")),
    };
    let message = match instrument.channel {
        Channel::ApparentWind => Message::apparent_wind(minute, shows, degrees()?),
        Channel::ShipMotion => Message::ship_motion(minute, shows, degrees()?),
        Channel::WetBulb => Message::wet_bulb(minute, shows, state(second)?),
        _ if second.is_some() => {
            return Err(unclear!("{name}: there is a word too many behind {first}"))
        }
        Channel::Barometer => Message::barometer(minute, shows),
        Channel::Wheelhouse => Message::wheelhouse(minute, shows),
        Channel::DryBulb => Message::dry_bulb(minute, shows),
    };
    Ok((instrument, message))
}

/// What is on the wet bulb.
fn state(word: Option<&str>) -> Result<BulbState> {
    match word {
        None | Some("water") => Ok(BulbState::Water),
        Some("ice") => Ok(BulbState::Ice),
        Some("unknown") => Ok(BulbState::Unknown),
        Some(other) => Err(unclear!("`{other}` is neither water, ice nor unknown")),
    }
}

#[cfg(test)]
mod tests {
    use super::*;

    #[test]
    fn a_reading_by_hand_is_the_instrument_s_message() {
        for (words, wanted) in [
            (("barometer", "1004.2", None), Message::barometer(7, 1004.2)),
            (("wheelhouse", "-3", None), Message::wheelhouse(7, -3.0)),
            (
                ("wind", "8.4", Some("29")),
                Message::apparent_wind(7, 8.4, 29.0),
            ),
            (
                ("motion", "12.5", Some("260")),
                Message::ship_motion(7, 12.5, 260.0),
            ),
            (("dry", "+15.0", None), Message::dry_bulb(7, 15.0)),
            (
                ("wet", "13", None),
                Message::wet_bulb(7, 13.0, BulbState::Water),
            ),
            (
                ("wet", "-3.2", Some("ice")),
                Message::wet_bulb(7, -3.2, BulbState::Ice),
            ),
        ] {
            let (name, first, second) = words;
            let (instrument, told) = message(name, 7, first, second).unwrap();
            assert_eq!(told, wanted);
            assert_eq!(u32::from(told.as_bytes()[0]), instrument.channel.number());
        }
        for (name, first, second) in [
            ("barometer", "x", None),
            ("barometer", "", None),
            ("barometer", "inf", None),
            ("barometer", "1e3", None),
            ("barometer", "1004.2", Some("5")),
            ("wind", "8.4", None),
            ("wind", "8.4", Some("north")),
            ("wet", "3", Some("snow")),
            ("rain", "3", None),
        ] {
            assert!(message(name, 7, first, second).is_err(), "{name} {first}");
        }
    }
}
