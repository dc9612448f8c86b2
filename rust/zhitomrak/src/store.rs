//! A store: opened with settings, it hears messages, notes entries and is asked.

use core::fmt;

use crate::ffi;
use crate::figures::{
    say, Direction, Humidity, Pressure, PressureChange, ShipSpeed, Speed, Temperature, Tendency,
    VapourPressure, Wind,
};
use crate::refusal::{asked, heard, noted, opened, recorded, Refused};
use crate::settings::{Settings, Unit};
use crate::watchfile::Record;
use crate::Version;

pub use crate::ffi::Entry;

/// The last minute there is.
pub const LAST_MINUTE: u32 = 16_777_215;

/// An instrument's channel.
#[derive(Clone, Copy, Debug, PartialEq, Eq, PartialOrd, Ord, Hash)]
#[repr(u32)]
pub enum Channel {
    /// The barometer.
    Barometer = 0,
    /// The thermometer in the wheelhouse.
    Wheelhouse = 1,
    /// The apparent wind.
    ApparentWind = 2,
    /// The ship's motion.
    ShipMotion = 3,
    /// The dry bulb.
    DryBulb = 4,
    /// The wet bulb.
    WetBulb = 5,
}

impl Channel {
    /// All six, in their order.
    pub const ALL: [Channel; 6] = [
        Channel::Barometer,
        Channel::Wheelhouse,
        Channel::ApparentWind,
        Channel::ShipMotion,
        Channel::DryBulb,
        Channel::WetBulb,
    ];

    /// Its number, 0 to 5.
    #[inline]
    pub const fn number(self) -> u32 {
        self as u32
    }

    /// The channel of a number; none above 5.
    pub fn numbered(number: u32) -> Option<Channel> {
        Channel::ALL.get(number as usize).copied()
    }
}

/// A kind of question, and of record.
#[derive(Clone, Copy, Debug, PartialEq, Eq, PartialOrd, Ord, Hash)]
#[repr(u32)]
pub enum Kind {
    /// The pressure at sea level.
    Pressure = 1,
    /// Its change in three hours.
    Tendency = 2,
    /// The true wind.
    Wind = 3,
    /// Humidity.
    Humidity = 4,
}

impl Kind {
    /// All four, in their order.
    pub const ALL: [Kind; 4] = [Kind::Pressure, Kind::Tendency, Kind::Wind, Kind::Humidity];

    /// Its number in a watch file, 1 to 4.
    #[inline]
    pub const fn number(self) -> u32 {
        self as u32
    }

    /// The kind of a number; none but of 1 to 4.
    pub fn numbered(number: u32) -> Option<Kind> {
        Kind::ALL.into_iter().find(|kind| kind.number() == number)
    }
}

/// What is on the wet bulb.
#[derive(Clone, Copy, Debug, Default, PartialEq, Eq, Hash)]
#[repr(u8)]
pub enum BulbState {
    /// Water.
    #[default]
    Water = 0,
    /// Ice.
    Ice = 1,
    /// Not known.
    Unknown = 2,
}

/// A reading as it is kept. As text it has its unit: `1004.2 hPa`.
#[derive(Clone, Copy, Debug, PartialEq, Eq, Hash)]
#[non_exhaustive]
pub enum Reading {
    /// The barometer's.
    Barometer {
        /// Tenths of the barometer's unit.
        tenths: i32,
        /// That unit.
        unit: Unit,
    },
    /// The wheelhouse thermometer's.
    Wheelhouse(Temperature),
    /// The apparent wind.
    ApparentWind {
        /// How fast it blows.
        speed: Speed,
        /// Where it comes from, clockwise from the bow.
        from_bow: Direction,
    },
    /// The ship's motion.
    ShipMotion {
        /// How fast she goes.
        speed: ShipSpeed,
        /// Her course.
        course: Direction,
    },
    /// The dry bulb's.
    DryBulb(Temperature),
    /// The wet bulb's.
    WetBulb {
        /// What it shows.
        temperature: Temperature,
        /// What is on it.
        state: BulbState,
    },
}

impl Reading {
    /// Its channel.
    pub const fn channel(&self) -> Channel {
        match self {
            Reading::Barometer { .. } => Channel::Barometer,
            Reading::Wheelhouse(_) => Channel::Wheelhouse,
            Reading::ApparentWind { .. } => Channel::ApparentWind,
            Reading::ShipMotion { .. } => Channel::ShipMotion,
            Reading::DryBulb(_) => Channel::DryBulb,
            Reading::WetBulb { .. } => Channel::WetBulb,
        }
    }

    /// The reading that the library told; none where it is not one of a channel, or its state is not known.
    fn of(told: &ffi::Reading) -> Option<Reading> {
        let temperature = Temperature::from_tenths(told.first);
        let speed = || told.first.try_into().ok();
        let direction = Direction::from_degrees(told.second);
        Some(match (told.channel, told.unit) {
            (0, 0) => Reading::Barometer {
                tenths: told.first,
                unit: Unit::Hectopascals,
            },
            (0, 1) => Reading::Barometer {
                tenths: told.first,
                unit: Unit::MillimetresOfMercury,
            },
            (1, 2) => Reading::Wheelhouse(temperature),
            (2, 3) => Reading::ApparentWind {
                speed: Speed::from_tenths(speed()?),
                from_bow: direction,
            },
            (3, 4) => Reading::ShipMotion {
                speed: ShipSpeed::from_tenths(speed()?),
                course: direction,
            },
            (4, 2) => Reading::DryBulb(temperature),
            (5, 2) => Reading::WetBulb {
                temperature,
                state: match told.second {
                    0 => BulbState::Water,
                    1 => BulbState::Ice,
                    2 => BulbState::Unknown,
                    _ => return None,
                },
            },
            _ => return None,
        })
    }

    fn told(&self) -> ffi::Reading {
        let (unit, first, second) = match *self {
            Reading::Barometer { tenths, unit } => (unit as u32, tenths, 0),
            Reading::Wheelhouse(t) | Reading::DryBulb(t) => (2, t.tenths(), 0),
            Reading::ApparentWind { speed, from_bow } => {
                (3, whole(speed.tenths()), from_bow.degrees())
            }
            Reading::ShipMotion { speed, course } => (4, whole(speed.tenths()), course.degrees()),
            Reading::WetBulb { temperature, state } => (2, temperature.tenths(), state as u32),
        };
        ffi::Reading {
            refusal: ffi::Refusal::default(),
            channel: self.channel().number(),
            unit,
            first,
            second,
        }
    }
}

/// A number as four bytes with a sign hold it; of one that they do not the nearest that they do.
pub(crate) fn whole(n: impl Into<i128>) -> i32 {
    let n = n.into().clamp(i32::MIN.into(), i32::MAX.into());
    n as i32
}

impl fmt::Display for Reading {
    fn fmt(&self, line: &mut fmt::Formatter<'_>) -> fmt::Result {
        let told = self.told();
        say(line, |sentence| ffi::say_reading(told, sentence))
    }
}

/// How many messages came to what, by the numbers of refusals.
#[derive(Clone, Copy, Debug, PartialEq, Eq, Hash)]
pub struct Counts {
    of: [u64; ffi::COUNTS],
}

impl Default for Counts {
    fn default() -> Self {
        Counts {
            of: [0; ffi::COUNTS],
        }
    }
}

impl Counts {
    /// How many were heard.
    pub const fn heard(&self) -> u64 {
        self.of[0]
    }

    /// How many were refused by a number, 1 to 255.
    pub fn refused_by(&self, number: u32) -> u64 {
        match number {
            0 => 0,
            _ => self.of.get(number as usize).copied().unwrap_or(0),
        }
    }

    /// The numbers that refused any, with how many each.
    pub fn refused(&self) -> impl Iterator<Item = (u32, u64)> + '_ {
        (1..)
            .zip(self.of[1..].iter().copied())
            .filter(|&(_, count)| count != 0)
    }
}

/// A store. It owns its block of 1609 words, 13 kB, and shares nothing with another; box it where that is too much for a stack.
#[derive(Clone, PartialEq, Eq, Hash)]
pub struct Store {
    block: ffi::Block,
}

impl fmt::Debug for Store {
    fn fmt(&self, line: &mut fmt::Formatter<'_>) -> fmt::Result {
        line.debug_struct("Store")
            .field("settings", &self.settings())
            .finish_non_exhaustive()
    }
}

impl Store {
    /// How many words a store has.
    pub const WORDS: usize = ffi::STORE_WORDS;

    /// An empty store with these settings; or [`Refused::Setting`], else [`Refused::Certificate`], else
    /// [`Refused::AnemometerCertificate`], and no store. Before all of them [`Refused::OtherVersion`], where the library is not this
    /// crate's: no answer of such a library is to be trusted.
    pub fn open(settings: &Settings) -> Result<Store, Refused> {
        let library = Version::library();
        if library != Version::CRATE {
            return Err(Refused::OtherVersion { library });
        }
        let mut store = Store::from_words([0; Store::WORDS]);
        opened(ffi::open(&mut store.block, &settings.told()))?;
        Ok(store)
    }

    /// A store of words that were taken from one by [`Store::words`], or of any: words that no opening made are no store, and
    /// answer [`Refused::NoStore`].
    pub const fn from_words(words: [u64; Store::WORDS]) -> Store {
        Store { block: words }
    }

    /// Its words, to be kept elsewhere.
    pub const fn words(&self) -> &[u64; Store::WORDS] {
        &self.block
    }

    /// The settings that it was opened with; or [`Refused::NoStore`].
    pub fn settings(&self) -> Result<Settings, Refused> {
        let mut told = Settings::default().told();
        match ffi::settings_of(&self.block, &mut told) {
            0 => Settings::of(&told).ok_or(Refused::Damaged),
            ffi::NO_STORE => Err(Refused::NoStore),
            number => Err(Refused::Unknown { number }),
        }
    }

    /// Hears a message of instruments, 16 bytes, and keeps its reading; or the first of refusals 1 to 8 and 19 whose reason holds,
    /// and nothing has changed. What is kept are tenths and whole degrees, of an exact half the even one, and limits are those of what
    /// is kept. Byte 1 of the wet bulb's message is its state, kept with the reading: 0 water, 1 ice, 2 unknown.
    ///
    /// ```
    /// # use zhitomrak::{Channel, Message, Refused, Settings, Store};
    /// # let certificate = [(8500, 0), (11000, 0)].into();
    /// # let mut store = Store::open(&Settings { certificate, ..Settings::default() })?;
    /// store.hear(Message::barometer(820, 1004.2))?;
    /// assert_eq!(store.reading(Channel::Barometer, 820)?.to_string(), "1004.2 hPa");
    /// assert_eq!(store.hear(Message::barometer(817, 1004.1)), Err(Refused::Late { minutes: 3 }));
    /// # Ok::<(), Refused>(())
    /// ```
    #[inline]
    pub fn hear(&mut self, message: impl AsRef<[u8]>) -> Result<(), Refused> {
        heard(ffi::hear(&mut self.block, message.as_ref()))
    }

    /// Cuts the bytes into messages of 16 and hears each, in order; how many came to what is added to the counts. Bytes at the end
    /// that are too few for a message are heard too, and refused.
    #[inline]
    pub fn hear_all(&mut self, bytes: &[u8], counts: &mut Counts) {
        ffi::hear_all(&mut self.block, bytes, &mut counts.of);
    }

    /// Notes an entry of the hand anemometer and keeps its wind as channel 2's of that minute; or the first of refusals 5, 7, 8, 19,
    /// 23, 11 for the course, 24 whose reason holds, and nothing has changed.
    #[inline]
    pub fn note(&mut self, entry: Entry) -> Result<(), Refused> {
        noted(ffi::note(&mut self.block, entry))
    }

    /// The pressure at sea level at a minute; refusals 5, 11, 12.
    #[inline]
    pub fn pressure(&self, minute: u32) -> Result<Pressure, Refused> {
        let told = ffi::pressure(&self.block, minute);
        asked(told.refusal)?;
        Ok(Pressure::from_tenths(told.pressure))
    }

    /// That pressure less the one 180 minutes before, and the absent minutes between; refusals 5, 14, 11, 12.
    #[inline]
    pub fn tendency(&self, minute: u32) -> Result<Tendency, Refused> {
        let told = ffi::tendency(&self.block, minute);
        asked(told.refusal)?;
        Ok(Tendency {
            change: PressureChange::from_tenths(told.change),
            absent: told.absent,
        })
    }

    /// The true wind at a minute; refusals 5, 11.
    #[inline]
    pub fn wind(&self, minute: u32) -> Result<Wind, Refused> {
        let told = ffi::wind(&self.block, minute);
        asked(told.refusal)?;
        Ok(Wind {
            speed: Speed::from_tenths(told.speed),
            direction: Direction::from_degrees(told.direction),
        })
    }

    /// Humidity at a minute, by what is on the wet bulb; refusals 5, 11, 12, 13, 20, 21, 22, 15. Saturation, relative humidity,
    /// deficit and dew point are over water whatever is on it.
    #[inline]
    pub fn humidity(&self, minute: u32) -> Result<Humidity, Refused> {
        let told = ffi::humidity(&self.block, minute);
        asked(told.refusal)?;
        Ok(Humidity {
            vapour_pressure: VapourPressure::from_hundredths(told.vapour_pressure),
            saturation: VapourPressure::from_hundredths(told.saturation),
            deficit: VapourPressure::from_hundredths(told.deficit),
            relative_humidity: told.relative_humidity,
            dew_point: Temperature::from_tenths(told.dew_point),
        })
    }

    /// The answer to the question of a kind as a record of a watch file; or the question's refusal.
    pub fn record(&self, kind: Kind, minute: u32) -> Result<Record, Refused> {
        let mut record = Record::default();
        recorded(ffi::record_of(
            &self.block,
            kind.number(),
            minute,
            &mut record.0,
        ))?;
        Ok(record)
    }

    /// The newest minute of a channel; none where nothing is heard of it yet. Or [`Refused::NoStore`]; or [`Refused::Damaged`], of words
    /// that no opening made.
    pub fn newest(&self, channel: Channel) -> Result<Option<u32>, Refused> {
        let told = ffi::newest(&self.block, channel.number());
        match (told.number, u32::try_from(told.minute)) {
            (0, Ok(minute)) => Ok(Some(minute)),
            (0, Err(_)) => Err(Refused::Damaged),
            (11, _) => Ok(None),
            (ffi::NO_STORE, _) => Err(Refused::NoStore),
            (number, _) => Err(Refused::Unknown { number }),
        }
    }

    /// What is kept of a channel's minute; refusals 5, 11.
    pub fn reading(&self, channel: Channel, minute: u32) -> Result<Reading, Refused> {
        let told = ffi::reading(&self.block, channel.number(), minute);
        asked(told.refusal)?;
        Reading::of(&told).ok_or(Refused::Damaged)
    }

    /// Which minutes from the first on have a reading of a channel: 1, else 0, in a byte for each. Or [`Refused::NoStore`], and every
    /// byte stays.
    pub fn stretch(&self, channel: Channel, first: u32, minutes: &mut [u8]) -> Result<(), Refused> {
        match ffi::stretch(&self.block, channel.number(), first, minutes) {
            0 => Ok(()),
            ffi::NO_STORE => Err(Refused::NoStore),
            number => Err(Refused::Unknown { number }),
        }
    }
}

#[cfg(test)]
mod tests {
    use super::*;
    use crate::settings::{AnemometerCertificate, AnemometerPoint, Point};
    use crate::Message;
    use std::string::ToString;
    use std::vec::Vec;

    /// A message of a channel with one value.
    fn message(channel: u8, state: u8, minute: u32, value: f32) -> [u8; 16] {
        let mut message = [0; 16];
        message[..2].copy_from_slice(&[channel, state]);
        message[4..8].copy_from_slice(&minute.to_le_bytes());
        message[8..12].copy_from_slice(&value.to_le_bytes());
        message
    }

    /// The ship's motion at a minute: 10.0 knots, and this course.
    fn motion(minute: u32, course: f32) -> [u8; 16] {
        let mut motion = message(3, 0, minute, 10.0);
        motion[12..].copy_from_slice(&course.to_le_bytes());
        motion
    }

    /// 300 divisions in a minute, of a wind by the compass from 10 degrees.
    const ENTRY: Entry = Entry {
        minute: 1000,
        direction: 10,
        first: 9900,
        second: 200,
        seconds: 60,
    };

    /// Whether a message, an entry and each question are answered as by no store, and the block stays all zeros.
    fn is_no_store(block: ffi::Block) {
        let mut store = Store::from_words(block);
        let none = Some(Refused::NoStore);
        let message = message(0, 0, 0, 1000.0);
        // neither a good message nor a wrong one is heard, and no minute is asked for first
        assert_eq!(store.hear(message).err(), none);
        assert_eq!(store.hear(&message[..15]).err(), none);
        assert_eq!(store.note(ENTRY).err(), none);
        let wrong = Entry {
            minute: u32::MAX,
            ..ENTRY
        };
        assert_eq!(store.note(wrong).err(), none);
        for minute in [0, 179, 180, 16_777_215, 16_777_216, u32::MAX] {
            assert_eq!(store.pressure(minute).err(), none);
            assert_eq!(store.tendency(minute).err(), none);
            assert_eq!(store.wind(minute).err(), none);
            assert_eq!(store.humidity(minute).err(), none);
        }
        for channel in Channel::ALL {
            assert_eq!(store.newest(channel).err(), none);
            assert_eq!(store.reading(channel, 0).err(), none);
            let mut minutes = [7; 3];
            assert_eq!(store.stretch(channel, 0, &mut minutes).err(), none);
            assert_eq!(minutes, [7; 3]);
        }
        for kind in Kind::ALL {
            assert_eq!(store.record(kind, 0).err(), none);
        }
        assert_eq!(store.settings().err(), none);
        let mut counts = Counts::default();
        store.hear_all(&[0; 40], &mut counts);
        assert_eq!(counts.refused().collect::<Vec<_>>(), [(255, 3)]);
        assert!(store.block.iter().all(|&word| word == 0));
    }

    fn opened(anemometer: &[AnemometerPoint]) -> Result<Store, Refused> {
        Store::open(&Settings {
            unit: Unit::Hectopascals,
            height: 0,
            difference: 0,
            coefficient: 0,
            psychrometer: 662,
            certificate: [(8500, 0), (11000, 0)].into(),
            anemometer: AnemometerCertificate::new(anemometer),
        })
    }

    fn opened_store() -> Store {
        let rate = |rate, speed| AnemometerPoint { rate, speed };
        opened(&[rate(1, 13), rate(5, 49), rate(20, 188)]).expect("the settings are good")
    }

    #[test]
    fn halves_of_a_message_go_to_the_even_tenth_or_degree() {
        let mut store = opened_store();
        for (minute, sent, kept) in [(1, 1013.25, 10_132), (2, 1013.75, 10_138)] {
            assert_eq!(store.hear(message(0, 0, minute, sent)), Ok(()));
            assert_eq!(store.hear(message(1, 0, minute, 0.0)), Ok(()));
            assert_eq!(store.pressure(minute), Ok(Pressure::from_tenths(kept)));
        }
        // -0.5 is 0 and 360.5 is 360, within limits; -1.5 is -2 and 361.5 is 362
        for (minute, course) in [(1, -0.5), (2, 360.5)] {
            assert_eq!(store.hear(motion(minute, course)), Ok(()));
        }
        for course in [-1.5, 361.5] {
            assert_eq!(store.hear(motion(3, course)), Err(Refused::OutsideLimits));
        }
    }

    #[test]
    fn the_wet_bulb_s_state_is_kept_with_it() {
        let mut store = opened_store();
        let mut asked = |minute, state, dry, wet| {
            store.hear(message(0, 0, minute, 1000.0))?;
            store.hear(message(4, 0, minute, dry))?;
            store.hear(message(5, state, minute, wet))?;
            store
                .humidity(minute)
                .map(|h| (h.vapour_pressure.hundredths(), h.relative_humidity))
        };
        assert_eq!(asked(1, 0, -10.0, -10.0), Ok((287, 100)));
        assert_eq!(asked(2, 1, -10.0, -10.0), Ok((260, 91)));
        // ice, and the wet bulb above the dry
        assert_eq!(asked(3, 1, -10.0, -9.8), Ok((276, 96)));
        // unknown: the mean, and ice
        assert_eq!(asked(4, 2, -9.9, -10.0), Ok((267, 92)));
        assert_eq!(asked(5, 2, -9.9, -9.9), Ok((262, 91)));
        assert_eq!(asked(6, 3, -10.0, -10.0), Err(Refused::NoSuchState));
        assert_eq!(asked(7, 0, -10.0, -9.9), Err(Refused::WetAboveDry));
        assert_eq!(asked(8, 1, 0.0, 0.1), Err(Refused::TooWarmForIce));
        let outside = Err(Refused::UnknownOutsideRange);
        assert_eq!(asked(9, 2, -10.0, -10.0), outside);
        assert_eq!(asked(10, 1, -10.0, 0.0), Err(Refused::AboveSaturation));
        // no other channel has a state
        let dry = store.hear(message(4, 1, 11, 15.0));
        assert_eq!(dry, Err(Refused::ByteNotZero));
    }

    #[test]
    fn a_repeated_minute_and_a_late_one_are_told_apart() {
        let mut store = opened_store();
        let bulb = |channel, minute| message(channel, 0, minute, 15.0);
        assert_eq!(store.hear(bulb(4, 300)), Ok(()));
        let was = store.block;
        assert_eq!(store.hear(bulb(4, 300)), Err(Refused::Repeated));
        for minutes in [1, 60, 255, 256, 300] {
            let late = Err(Refused::Late { minutes });
            assert_eq!(store.hear(bulb(4, 300 - minutes as u32)), late);
        }
        assert!(store.block == was);
        // another channel's first
        assert_eq!(store.hear(bulb(5, 0)), Ok(()));
        assert_eq!(store.hear(bulb(5, 0)), Err(Refused::Repeated));
    }

    #[test]
    fn an_entry_is_kept_as_channel_2_s_wind() {
        let mut store = opened_store();
        let noted = |store: &mut Store, change: fn(&mut Entry)| {
            let mut entry = ENTRY;
            change(&mut entry);
            store.note(entry)
        };
        let was = store.block;
        let missing = Refused::MissingReading {
            channel: 3,
            minute: 1000,
        };
        let late_minute = noted(&mut store, |e| e.minute = 16_777_216);
        assert_eq!(late_minute, Err(Refused::MinuteAboveLast));
        let direction = noted(&mut store, |e| e.direction = 361);
        assert_eq!(direction, Err(Refused::OutsideLimits));
        for change in [
            (|e| e.first = 10_000) as fn(&mut Entry),
            |e| e.second = 10_000,
            |e| e.seconds = 0,
            |e| e.seconds = 601,
        ] {
            assert_eq!(noted(&mut store, change), Err(Refused::OutsideDial));
        }
        assert_eq!(store.note(ENTRY), Err(missing));
        assert!(store.block == was);
        assert_eq!(store.hear(motion(1000, 350.0)), Ok(()));
        let was = store.block;
        let slow = noted(&mut store, |e| e.second = 9959);
        assert_eq!(slow, Err(Refused::OutsideRates));
        assert!(store.block == was);
        assert_eq!(store.note(ENTRY), Ok(()));
        // as if the wind head had said 4.9 m/s from 20 degrees
        let by_hand = store.wind(1000);
        let mut other = opened_store();
        let mut head = message(2, 0, 1000, 4.9);
        head[12..].copy_from_slice(&20f32.to_le_bytes());
        assert_eq!(other.hear(head), Ok(()));
        assert_eq!(other.hear(motion(1000, 350.0)), Ok(()));
        assert!(by_hand.is_ok());
        assert_eq!(by_hand, other.wind(1000));
        assert_eq!(store.note(ENTRY), Err(Refused::Repeated));
        let late = noted(&mut store, |e| e.minute = 940);
        assert_eq!(late, Err(Refused::Late { minutes: 60 }));
    }

    #[test]
    fn an_anemometer_s_certificate_keeps_its_rules() {
        let points: Vec<AnemometerPoint> = (0..21)
            .map(|i| AnemometerPoint { rate: i, speed: i })
            .collect();
        let broken = Some(Refused::AnemometerCertificate);
        assert_eq!(opened(&points).err(), broken);
        assert_eq!(opened(&points[..1]).err(), broken);
        assert_eq!(opened(&[points[1], points[0]]).err(), broken);
        assert!(opened(&points[..20]).is_ok());
        // none: no entry has a rate within it
        let mut store = opened(&[]).expect("the settings are good");
        assert_eq!(store.hear(motion(1000, 0.0)), Ok(()));
        assert_eq!(store.note(ENTRY), Err(Refused::OutsideRates));
    }

    #[test]
    fn zeroed_memory_is_no_store() {
        is_no_store([0; Store::WORDS]);
    }

    #[test]
    fn a_refused_opening_gives_no_store() {
        let settings = |unit, psychrometer, points| ffi::Settings {
            unit,
            psychrometer,
            certificate: crate::settings::Certificate::new(
                &[Point::from((8500, 0)), Point::from((11_000, 0))][..points],
            ),
            anemometer: [(1, 13)].into(),
            ..Settings::default().told()
        };
        let mut block = [0; Store::WORDS];
        assert_eq!(ffi::open(&mut block, &settings(2, 662, 2)), 9);
        assert_eq!(ffi::open(&mut block, &settings(0, 499, 2)), 9);
        assert_eq!(ffi::open(&mut block, &settings(0, 662, 1)), 10);
        assert_eq!(ffi::open(&mut block, &settings(0, 662, 2)), 25);
        is_no_store(block);
    }

    #[test]
    fn settings_are_read_back() {
        let settings = Settings {
            unit: Unit::MillimetresOfMercury,
            height: 101,
            difference: -268,
            coefficient: 24,
            psychrometer: 700,
            certificate: [(7300, -4), (7400, 3), (7500, -8)].into(),
            anemometer: [(1, 13), (20, 188)].into(),
        };
        let store = Store::open(&settings).expect("the settings are good");
        assert_eq!(store.settings(), Ok(settings));
        assert_eq!(settings.certificate.as_slice().len(), 3);
        // and open the same store
        assert_eq!(Store::open(&settings).as_ref(), Ok(&store));
        // too many points are refused, however many there are
        let many = [Point::from((7300, 0)); 17];
        let wrong = Settings {
            certificate: (&many[..]).into(),
            ..settings
        };
        assert_eq!(Store::open(&wrong).err(), Some(Refused::Certificate));
    }

    #[test]
    fn what_is_kept_is_told_by_channel() {
        let mut store = opened_store();
        assert_eq!(store.newest(Channel::Barometer), Ok(None));
        for message in [
            Message::barometer(1000, 1004.2),
            Message::wheelhouse(1000, -3.4),
            Message::apparent_wind(1000, 8.5, 30.0),
            Message::ship_motion(1000, 10.2, 45.0),
            Message::dry_bulb(1000, 12.4),
            Message::wet_bulb(1000, 9.8, BulbState::Unknown),
            Message::barometer(1003, 1004.0),
        ] {
            assert_eq!(store.hear(message.as_ref()), Ok(()));
        }
        assert_eq!(store.newest(Channel::Barometer), Ok(Some(1003)));
        assert_eq!(store.newest(Channel::WetBulb), Ok(Some(1000)));
        let said: Vec<_> = Channel::ALL
            .iter()
            .map(|&channel| store.reading(channel, 1000).map(|r| r.to_string()))
            .collect();
        let texts = [
            "1004.2 hPa",
            "-3.4 °C",
            "8.5 m/s, 30° from the bow",
            "10.2 knots, course 45°",
            "12.4 °C",
            "9.8 °C, state unknown",
        ];
        assert_eq!(said, texts.map(|text| Ok(text.to_string())));
        assert_eq!(
            store.reading(Channel::DryBulb, 1001),
            Err(Refused::MissingReading {
                channel: 4,
                minute: 1001
            })
        );
        let late = store.reading(Channel::DryBulb, LAST_MINUTE + 1);
        assert_eq!(late, Err(Refused::MinuteAboveLast));
        let mut minutes = [7; 6];
        assert_eq!(store.stretch(Channel::Barometer, 999, &mut minutes), Ok(()));
        assert_eq!(minutes, [0, 1, 0, 0, 1, 0]);
    }

    #[test]
    fn many_messages_are_heard_as_one_by_one() {
        let mut bytes = Vec::new();
        for message in [
            Message::dry_bulb(5, 12.4),
            Message::dry_bulb(5, 12.4),
            Message::dry_bulb(4, 12.4),
            Message::dry_bulb(6, 99.0),
            Message::barometer(6, f32::NAN),
        ] {
            bytes.extend_from_slice(message.as_ref());
        }
        let (mut one, mut all) = (opened_store(), opened_store());
        for message in bytes.chunks(16) {
            let _ = one.hear(message);
        }
        bytes.extend_from_slice(&[4, 0, 0]);
        let mut counts = Counts::default();
        all.hear_all(&bytes, &mut counts);
        assert_eq!(one, all);
        assert_eq!(counts.heard(), 1);
        let refused = [(1, 1), (6, 1), (7, 1), (8, 1), (19, 1)];
        assert_eq!(counts.refused().collect::<Vec<_>>(), refused);
        assert_eq!(counts.refused_by(8), 1);
        assert_eq!(counts.refused_by(300), 0);
    }

    #[test]
    fn an_answer_is_a_record_and_a_sentence() {
        let mut store = opened_store();
        for minute in (0..=180).filter(|minute| minute % 16 != 7) {
            let falls = minute as f32 * 0.01;
            store
                .hear(Message::barometer(minute, 1005.7 - falls).as_ref())
                .expect("it is heard");
            store
                .hear(Message::wheelhouse(minute, 0.0).as_ref())
                .expect("it is heard");
        }
        let tendency = store.tendency(180).expect("both ends are there");
        assert_eq!(
            tendency.to_string(),
            "-1.8 hPa in three hours, 11 minutes without a reading"
        );
        let pressure = store.pressure(0).expect("it is there");
        assert_eq!(pressure.to_string(), "1005.7 hPa at sea level");
        assert_eq!(pressure.hectopascals(), 1005.7);
        let record = store.record(Kind::Tendency, 180).expect("it is recorded");
        assert_eq!(
            record.to_string(),
            "minute 180: -1.8 hPa in three hours, 11 minutes without a reading"
        );
        assert_eq!(
            store.record(Kind::Tendency, 181),
            Err(store.tendency(181).unwrap_err())
        );
    }

    #[test]
    fn words_that_no_opening_made_are_told_so() {
        let mut words = *opened_store().words();
        assert_eq!(Store::from_words(words), opened_store());
        // the minute after the barometer's newest
        words[43] = 1 << 40;
        let damaged = Store::from_words(words);
        assert_eq!(damaged.newest(Channel::Barometer), Err(Refused::Damaged));
        assert_eq!(Refused::Damaged.number(), 0);
        assert_eq!(
            Refused::Damaged.to_string(),
            "the words are those of no store that was opened"
        );
    }

    #[test]
    fn a_sentence_is_never_cut() {
        let calm = Wind::default();
        assert_eq!(
            std::format!("{calm:.1}|{calm:6}|{calm:>6}"),
            "calm|calm  |  calm"
        );
    }

    #[test]
    fn numbers_name_channels_and_kinds() {
        for number in 0..8 {
            let channel = Channel::numbered(number).map(Channel::number);
            assert_eq!(channel, (number < 6).then_some(number));
            let kind = Kind::numbered(number).map(Kind::number);
            assert_eq!(kind, (1..=4).contains(&number).then_some(number));
        }
    }
}
