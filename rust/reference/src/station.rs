//! What a ship calls: open a store, hear messages, note entries of the hand
//! anemometer, ask the four questions, and ask what is kept.

use crate::anemometer::{from_bow, Entry};
use crate::humidity::{Humidity, Psychrometer};
use crate::message::{self, ApparentWind, Reading, ShipMotion, WetBulb, LAST_MINUTE};
use crate::pressure::{self, Tendency};
use crate::refusal::Refused;
use crate::settings::{Instruments, Settings, Unit};
use crate::store::{Window, THREE_HOURS};
use crate::vapour::{vapour, Vapour};
use crate::wind::{rose, Rose, Wind};

/// One count for each number that a message can come to.
pub const COUNTS: usize = 256;

/// A reading as it is kept: its channel, and its figures as numbers.
#[derive(Clone, Copy, Debug, PartialEq, Eq)]
pub struct Kept {
    /// The channel, 0 to 5.
    pub channel: u32,
    /// The unit of the first figure: 0 hPa, 1 mm Hg, 2 °C, 3 m/s, 4 knots.
    pub unit: u32,
    /// Tenths of that unit.
    pub first: i32,
    /// "Of channels 2 and 3 whole degrees, of channel 5 the state, else 0."
    pub second: u32,
}

impl Kept {
    /// A reading's figures, the barometer's in this unit.
    fn new(reading: Reading, barometer: Unit) -> Kept {
        const CELSIUS: u32 = 2;
        let (channel, unit, first, second) = match reading {
            Reading::Barometer(pressure) => match barometer {
                Unit::HPa => (0, 0, pressure, 0),
                Unit::MmHg => (0, 1, pressure, 0),
            },
            Reading::Wheelhouse(temperature) => (1, CELSIUS, temperature, 0),
            // A direction is kept as 0 to 359.
            Reading::ApparentWind(wind) => (2, 3, wind.speed, wind.from_bow as u32),
            Reading::ShipMotion(ship) => (3, 4, ship.speed, ship.course as u32),
            Reading::DryBulb(temperature) => (4, CELSIUS, temperature, 0),
            Reading::WetBulb(wet) => (5, CELSIUS, wet.temperature, u32::from(wet.state.byte())),
        };
        Kept {
            channel,
            unit,
            first: i32::from(first),
            second,
        }
    }
}

/// The station's memory: its instruments and one window for each channel.
/// "Channels share no window, clock or room."
#[derive(Clone, Debug)]
pub struct Store {
    instruments: Instruments,
    barometer: Window<i16>,
    wheelhouse: Window<i16>,
    apparent_wind: Window<ApparentWind>,
    ship_motion: Window<ShipMotion>,
    dry_bulb: Window<i16>,
    wet_bulb: Window<WetBulb>,
    rose: &'static Rose,
    vapour: &'static Vapour,
}

impl Store {
    /// An empty store with these settings, or refusal 9, 10 or 25: "a refused opening
    /// gives no store".
    pub fn open(settings: &Settings) -> Result<Store, Refused> {
        Ok(Store {
            instruments: Instruments::new(settings)?,
            barometer: Window::new(),
            wheelhouse: Window::new(),
            apparent_wind: Window::new(),
            ship_motion: Window::new(),
            dry_bulb: Window::new(),
            wet_bulb: Window::new(),
            rose: rose(),
            vapour: vapour(),
        })
    }

    /// "The settings that a store was opened with": "opening with them gives the same
    /// empty store".
    pub fn settings(&self) -> Settings<'_> {
        self.instruments.settings()
    }

    /// Keeps the message's reading, or the first of refusals 1 to 8 and 19 whose
    /// reason holds, and then nothing has changed.
    #[inline]
    pub fn hear(&mut self, message: &[u8]) -> Result<(), Refused> {
        let message::Message { minute, reading } =
            message::receive(message, self.instruments.unit)?;
        match reading {
            Reading::Barometer(value) => self.barometer.accept(minute, value),
            Reading::Wheelhouse(value) => self.wheelhouse.accept(minute, value),
            Reading::ApparentWind(value) => self.apparent_wind.accept(minute, value),
            Reading::ShipMotion(value) => self.ship_motion.accept(minute, value),
            Reading::DryBulb(value) => self.dry_bulb.accept(minute, value),
            Reading::WetBulb(value) => self.wet_bulb.accept(minute, value),
        }
    }

    /// "Cuts the bytes into messages of 16, hears each in order [..], and adds one to the
    /// count of the number that it came to (a count at its largest stays)", 0 where it is
    /// heard. "Bytes at the end that are too few for a message are heard too, and refused
    /// 1."
    pub fn hear_all(&mut self, bytes: &[u8], counts: &mut [u64; COUNTS]) {
        count_all(bytes, counts, |message| self.hear(message));
    }

    /// Keeps the apparent wind of an entry, "a second way to feed channel 2", or the
    /// first refusal whose reason holds, and then nothing has changed: "an entry tests
    /// 5, 7 for the direction, 8, 19, 23, then 11 for the course, then 24".
    #[inline]
    pub fn note(&mut self, entry: &Entry) -> Result<(), Refused> {
        let minute = entry.minute;
        asked(minute)?;
        let compass = entry.compass()?;
        self.apparent_wind.passed(minute)?;
        let rate = entry.rate()?;
        let ship = heard(&self.ship_motion, 3, minute)?;
        let wind = ApparentWind {
            speed: self.instruments.anemometer.speed(rate)?,
            from_bow: from_bow(compass, ship.course),
        };
        self.apparent_wind.accept(minute, wind)
    }

    /// Sea level pressure at a minute, tenths hPa; refusals 5, 11, 12.
    #[inline]
    pub fn pressure(&self, minute: u32) -> Result<i32, Refused> {
        asked(minute)?;
        let reading = self.barometer_and_wheelhouse(minute)?;
        self.sea_level(minute, reading)
    }

    /// "Tendency at minute m: sea level pressure at m less that at m - 180", with
    /// the absent barometer minutes between; refusals 5, 14, 11, 12.
    #[inline]
    pub fn tendency(&self, minute: u32) -> Result<Tendency, Refused> {
        asked(minute)?;
        let before = minute
            .checked_sub(THREE_HOURS)
            .ok_or(Refused::NoThreeHours)?;
        let reading_before = self.barometer_and_wheelhouse(before)?;
        let reading = self.barometer_and_wheelhouse(minute)?;
        let pressure_before = self.sea_level(before, reading_before)?;
        let pressure = self.sea_level(minute, reading)?;
        Ok(Tendency {
            change: pressure - pressure_before,
            absent: self.barometer.absent_before(minute) as i32,
        })
    }

    /// True wind at a minute; refusals 5, 11.
    #[inline]
    pub fn wind(&self, minute: u32) -> Result<Wind, Refused> {
        asked(minute)?;
        let apparent = heard(&self.apparent_wind, 2, minute)?;
        let ship = heard(&self.ship_motion, 3, minute)?;
        Ok(self.rose.true_wind(
            i32::from(ship.course),
            i32::from(ship.speed),
            i32::from(apparent.speed),
            i32::from(apparent.from_bow),
        ))
    }

    /// Humidity at a minute; refusals 5, 11, 12, 13, 20, 21, 22, 15.
    #[inline]
    pub fn humidity(&self, minute: u32) -> Result<Humidity, Refused> {
        asked(minute)?;
        let barometer = heard(&self.barometer, 0, minute)?;
        let dry = heard(&self.dry_bulb, 4, minute)?;
        let wet = heard(&self.wet_bulb, 5, minute)?;
        let pressure = pressure::station(&self.instruments, i32::from(barometer))
            .ok_or(Refused::OutsideCertificate { minute })?;
        Psychrometer {
            dry: i32::from(dry),
            wet: i32::from(wet.temperature),
            state: wet.state,
            pressure,
            coefficient: self.instruments.psychrometer,
        }
        .humidity(self.vapour)
    }

    /// The newest minute of a channel; or 2, channel above 5; 11, "nothing is heard of
    /// it yet". No minute lacks a reading then: 11 tells the channel and minute 0.
    pub fn newest(&self, channel: u32) -> Result<u32, Refused> {
        let channel = known(channel)?;
        let newest = match channel {
            0 => self.barometer.newest(),
            1 => self.wheelhouse.newest(),
            2 => self.apparent_wind.newest(),
            3 => self.ship_motion.newest(),
            4 => self.dry_bulb.newest(),
            _ => self.wet_bulb.newest(),
        };
        newest.ok_or(Refused::Absent { channel, minute: 0 })
    }

    /// "The reading of a channel's minute as it is kept; or 2, channel above 5; 5,
    /// minute above 16777215; 11, there is none, or none any more."
    pub fn reading(&self, channel: u32, minute: u32) -> Result<Kept, Refused> {
        let channel = known(channel)?;
        asked(minute)?;
        self.kept(channel, minute)
            .map(|reading| Kept::new(reading, self.instruments.unit))
            .ok_or(Refused::Absent { channel, minute })
    }

    /// Which of so many minutes from the first on have a reading; or 2, channel above
    /// 5. A minute that cannot be has none.
    pub fn stretch(&self, channel: u32, first: u32, count: usize) -> Result<Vec<bool>, Refused> {
        let channel = known(channel)?;
        let heard = |after: usize| {
            u32::try_from(after)
                .ok()
                .and_then(|after| first.checked_add(after))
                .is_some_and(|minute| self.kept(channel, minute).is_some())
        };
        Ok((0..count).map(heard).collect())
    }

    /// What a channel from 0 to 5 keeps of a minute.
    fn kept(&self, channel: u8, minute: u32) -> Option<Reading> {
        match channel {
            0 => self.barometer.at(minute).map(Reading::Barometer),
            1 => self.wheelhouse.at(minute).map(Reading::Wheelhouse),
            2 => self.apparent_wind.at(minute).map(Reading::ApparentWind),
            3 => self.ship_motion.at(minute).map(Reading::ShipMotion),
            4 => self.dry_bulb.at(minute).map(Reading::DryBulb),
            _ => self.wet_bulb.at(minute).map(Reading::WetBulb),
        }
    }

    /// Barometer and wheelhouse temperature of a minute, or refusal 11.
    #[inline]
    fn barometer_and_wheelhouse(&self, minute: u32) -> Result<(i32, i32), Refused> {
        let barometer = heard(&self.barometer, 0, minute)?;
        let wheelhouse = heard(&self.wheelhouse, 1, minute)?;
        Ok((i32::from(barometer), i32::from(wheelhouse)))
    }

    /// Sea level pressure of a minute's readings, or refusal 12.
    #[inline]
    fn sea_level(&self, minute: u32, reading: (i32, i32)) -> Result<i32, Refused> {
        let (barometer, wheelhouse) = reading;
        pressure::sea_level(&self.instruments, barometer, wheelhouse)
            .ok_or(Refused::OutsideCertificate { minute })
    }
}

/// Memory in which a store can be opened. "A refused opening gives no store", and
/// leaves the one that is there.
#[derive(Clone, Debug, Default)]
pub struct Memory {
    store: Option<Store>,
}

impl Memory {
    /// An empty store with these settings in place of what was there, or refusal 9,
    /// 10 or 25, and then nothing has changed.
    pub fn open(&mut self, settings: &Settings) -> Result<(), Refused> {
        self.store = Some(Store::open(settings)?);
        Ok(())
    }

    /// What its store says to a message; where none was opened, [`Refused::NoStore`]
    /// whatever the message is.
    pub fn hear(&mut self, message: &[u8]) -> Result<(), Refused> {
        self.store
            .as_mut()
            .ok_or(Refused::NoStore)
            .and_then(|store| store.hear(message))
    }

    /// [`Store::hear_all`]; where none was opened, each message counts as 255, and so do
    /// bytes at the end that are too few for one.
    pub fn hear_all(&mut self, bytes: &[u8], counts: &mut [u64; COUNTS]) {
        count_all(bytes, counts, |message| self.hear(message));
    }

    /// What its store says to an entry; where none was opened, [`Refused::NoStore`]
    /// whatever the entry is.
    pub fn note(&mut self, entry: &Entry) -> Result<(), Refused> {
        self.store
            .as_mut()
            .ok_or(Refused::NoStore)
            .and_then(|store| store.note(entry))
    }

    /// Its store, to be asked; where none was opened, [`Refused::NoStore`] is the
    /// answer to every question.
    pub fn store(&self) -> Result<&Store, Refused> {
        self.store.as_ref().ok_or(Refused::NoStore)
    }

    /// [`Store::settings`], or 255.
    pub fn settings(&self) -> Result<Settings<'_>, Refused> {
        self.store().map(Store::settings)
    }

    /// [`Store::newest`], and 255 before its refusals.
    pub fn newest(&self, channel: u32) -> Result<u32, Refused> {
        self.store()?.newest(channel)
    }

    /// [`Store::reading`], and 255 before its refusals.
    pub fn reading(&self, channel: u32, minute: u32) -> Result<Kept, Refused> {
        self.store()?.reading(channel, minute)
    }

    /// [`Store::stretch`], and 255 before its refusal.
    pub fn stretch(&self, channel: u32, first: u32, count: usize) -> Result<Vec<bool>, Refused> {
        self.store()?.stretch(channel, first, count)
    }
}

/// Lets each message of 16 bytes be heard, and what is left behind the last, and
/// counts what they came to.
fn count_all(
    bytes: &[u8],
    counts: &mut [u64; COUNTS],
    mut hear: impl FnMut(&[u8]) -> Result<(), Refused>,
) {
    for message in bytes.chunks(message::LENGTH) {
        let number = hear(message).map_or_else(Refused::number, |()| 0);
        let count = &mut counts[usize::from(number)];
        *count = count.saturating_add(1);
    }
}

/// A channel from 0 to 5, or refusal 2.
#[inline]
fn known(channel: u32) -> Result<u8, Refused> {
    u8::try_from(channel)
        .ok()
        .filter(|channel| *channel <= 5)
        .ok_or(Refused::UnknownChannel)
}

/// Refusal 5: a question or an entry about a minute that cannot be.
#[inline]
fn asked(minute: u32) -> Result<(), Refused> {
    if minute > LAST_MINUTE {
        return Err(Refused::MinuteTooLate);
    }
    Ok(())
}

/// The channel's reading of a minute, or refusal 11.
#[inline]
fn heard<T: Copy + Default>(window: &Window<T>, channel: u8, minute: u32) -> Result<T, Refused> {
    window.at(minute).ok_or(Refused::Absent { channel, minute })
}
