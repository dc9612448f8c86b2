//! The documents' numbered refusals, each with what it also returns, and the answer of a block that was never opened.

use core::fmt;

use crate::ffi;
use crate::figures::say;
use crate::Version;

/// Why something was refused. A refusal gives no figure. As text it is a sentence: `the barometer has no reading at minute 820`.
#[derive(Clone, Copy, Debug, PartialEq, Eq, Hash)]
#[non_exhaustive]
pub enum Refused {
    /// 1: a message that is not 16 bytes.
    NotSixteenBytes,
    /// 2: a channel above 5.
    NoSuchChannel,
    /// 3: a byte that must be zero isn't.
    ByteNotZero,
    /// 4: the wet bulb's state is above 2.
    NoSuchState,
    /// 5: a minute above 16,777,215, sent or asked.
    MinuteAboveLast,
    /// 6: infinite or not a number.
    NotFinite,
    /// 7: outside limits.
    OutsideLimits,
    /// 8: the minute of the channel's newest.
    Repeated,
    /// 19, tested directly after 8: a minute earlier than the channel's newest reading.
    Late {
        /// How many minutes earlier, at least 1.
        minutes: u64,
    },
    /// 9: a setting other than the certificates outside limits.
    Setting,
    /// 10: the barometer's certificate breaks its rules.
    Certificate,
    /// 11: a reading is absent or no longer kept.
    MissingReading {
        /// The channel that lacks it.
        channel: u32,
        /// The minute that lacks it.
        minute: u32,
    },
    /// 12: a barometer reading outside the certificate.
    OutsideCertificate {
        /// Its minute.
        minute: u32,
    },
    /// 13: wet bulb above dry bulb, with water on it.
    WetAboveDry,
    /// 20, tested after 13: ice, or a state unknown, with the wet bulb above 0.0 °C.
    TooWarmForIce,
    /// 21: state unknown, and the air not within -9.9 to 0.0 °C.
    UnknownOutsideRange,
    /// 22, tested before 15: e above saturation over water at the dry bulb.
    AboveSaturation,
    /// 14: tendency asked for a minute below 180.
    NoThreeHours,
    /// 15: vapour pressure below 0.19 hPa.
    TooDry,
    /// 16: a record to write breaks the file rules, or is the 49th.
    BreaksRules {
        /// The first such record's index, from 0.
        index: usize,
    },
    /// 17: the lent buffer is too short.
    TooShort {
        /// The bytes needed.
        bytes: usize,
    },
    /// 18: the file is broken.
    Broken {
        /// The first byte of the first wrong field, the file's length where a field is cut short, or the first extra byte.
        place: usize,
    },
    /// 23: a dial above 9999, or seconds not within 1 to 600.
    OutsideDial,
    /// 24: a rate outside the hand anemometer's certificate, or the store has none.
    OutsideRates,
    /// 25, tested after 10: the hand anemometer's certificate breaks its rules.
    AnemometerCertificate,
    /// 254, none of the documents' numbers: there is no record of this minute and kind to take out.
    NoRecord,
    /// 255, none of the documents' numbers: the words were never opened, so there is no store to hear or to ask. A
    /// [`Store`](crate::Store) that was opened never answers this; one made of other words does.
    NoStore,
    /// The words hold what no store holds, since no opening made them: a minute, a unit or a state that there is not. It has no number.
    Damaged,
    /// The library that is linked is of another version than this crate, and is not used. It has no number.
    OtherVersion {
        /// The library's.
        library: Version,
    },
    /// A number that this crate does not know: the library that is linked is another than the one it was written for. It is none
    /// of the refusals above.
    Unknown {
        /// The number that the library gave.
        number: u32,
    },
}

impl Refused {
    /// The documents' number, or that of [`Refused::NoRecord`] and [`Refused::NoStore`], or the one that is not known; 0 where there
    /// is none.
    pub const fn number(self) -> u32 {
        match self {
            Refused::NotSixteenBytes => 1,
            Refused::NoSuchChannel => 2,
            Refused::ByteNotZero => 3,
            Refused::NoSuchState => 4,
            Refused::MinuteAboveLast => 5,
            Refused::NotFinite => 6,
            Refused::OutsideLimits => 7,
            Refused::Repeated => 8,
            Refused::Late { .. } => 19,
            Refused::Setting => 9,
            Refused::Certificate => 10,
            Refused::MissingReading { .. } => 11,
            Refused::OutsideCertificate { .. } => 12,
            Refused::WetAboveDry => 13,
            Refused::TooWarmForIce => 20,
            Refused::UnknownOutsideRange => 21,
            Refused::AboveSaturation => 22,
            Refused::NoThreeHours => 14,
            Refused::TooDry => 15,
            Refused::BreaksRules { .. } => 16,
            Refused::TooShort { .. } => 17,
            Refused::Broken { .. } => 18,
            Refused::OutsideDial => 23,
            Refused::OutsideRates => 24,
            Refused::AnemometerCertificate => 25,
            Refused::NoRecord => ffi::NO_RECORD,
            Refused::NoStore => ffi::NO_STORE,
            Refused::Unknown { number } => number,
            Refused::Damaged | Refused::OtherVersion { .. } => 0,
        }
    }

    /// What a number says, without what it also returns (docs/REFUSALS.md); none where no refusal has it.
    ///
    /// ```
    /// # use zhitomrak::Refused;
    /// assert_eq!(Refused::text_of(18), Some("the file is broken"));
    /// assert_eq!(Refused::text_of(26), None);
    /// ```
    pub const fn text_of(number: u32) -> Option<&'static str> {
        Some(match number {
            1 => "the message is not 16 bytes",
            2 => "the channel is above 5",
            3 => "a byte of the message that must be zero is not",
            4 => "the state of the wet bulb is above 2",
            5 => "the minute is above 16777215",
            6 => "a value is infinite or not a number",
            7 => "a value is outside its limits",
            8 => "the minute is that of the channel's newest reading",
            9 => "a setting is outside its limits",
            10 => "the barometer's certificate breaks its rules",
            11 => "a reading is absent or no longer kept",
            12 => "a reading of the barometer is outside its certificate",
            13 => "the wet bulb is above the dry bulb, with water on it",
            14 => "there are no three hours before the minute",
            15 => "the vapour pressure is below 0.19 hPa",
            16 => "a record breaks the rules of the file, or is one too many",
            17 => "the buffer is too short",
            18 => "the file is broken",
            19 => "the minute is earlier than the channel's newest reading",
            20 => "the wet bulb is above 0.0 °C, and not with water on it",
            21 => "the wet bulb's state is unknown, and the dry bulb not within -9.9 to 0.0 °C",
            22 => "the vapour pressure is above saturation over water at the dry bulb",
            23 => "a dial is above 9999, or the seconds are not 1 to 600",
            24 => "the rate is outside the anemometer's certificate, or there is none",
            25 => "the anemometer's certificate breaks its rules",
            254 => "there is no such record",
            255 => "the store was never opened",
            _ => return None,
        })
    }

    /// What it also returns, in the order of the documents, and 0 where there is nothing.
    const fn extras(self) -> (u64, u64) {
        match self {
            Refused::Late { minutes } => (minutes, 0),
            Refused::MissingReading { channel, minute } => (channel as u64, minute as u64),
            Refused::OutsideCertificate { minute } => (minute as u64, 0),
            Refused::BreaksRules { index } => (index as u64, 0),
            Refused::TooShort { bytes } => (bytes as u64, 0),
            Refused::Broken { place } => (place as u64, 0),
            _ => (0, 0),
        }
    }
}

impl fmt::Display for Refused {
    fn fmt(&self, line: &mut fmt::Formatter<'_>) -> fmt::Result {
        match self {
            Refused::Damaged => line.write_str("the words are those of no store that was opened"),
            Refused::OtherVersion { library } => write!(
                line,
                "the library is version {library}, and this crate {}",
                Version::CRATE
            ),
            _ => {
                let (first, second) = self.extras();
                let number = self.number();
                say(line, |sentence| {
                    ffi::say_refusal(number, first, second, sentence)
                })
            }
        }
    }
}

#[cfg(feature = "std")]
impl std::error::Error for Refused {}

/// The refusal of this number that returns nothing else; any other number is [`Refused::Unknown`].
#[inline]
const fn bare(number: u32) -> Refused {
    match number {
        1 => Refused::NotSixteenBytes,
        2 => Refused::NoSuchChannel,
        3 => Refused::ByteNotZero,
        4 => Refused::NoSuchState,
        5 => Refused::MinuteAboveLast,
        6 => Refused::NotFinite,
        7 => Refused::OutsideLimits,
        8 => Refused::Repeated,
        9 => Refused::Setting,
        10 => Refused::Certificate,
        13 => Refused::WetAboveDry,
        14 => Refused::NoThreeHours,
        15 => Refused::TooDry,
        20 => Refused::TooWarmForIce,
        21 => Refused::UnknownOutsideRange,
        22 => Refused::AboveSaturation,
        23 => Refused::OutsideDial,
        24 => Refused::OutsideRates,
        25 => Refused::AnemometerCertificate,
        ffi::NO_STORE => Refused::NoStore,
        _ => Refused::Unknown { number },
    }
}

/// What an opening of this number came to: numbers are 0, 9, 10 and 25, by the contract.
#[inline]
pub(crate) fn opened(number: u32) -> Result<(), Refused> {
    match number {
        0 => Ok(()),
        _ => Err(bare(number)),
    }
}

/// What a hearing came to: numbers are 0 to 8, 19 and 255, by the contract.
#[inline]
pub(crate) fn heard(told: ffi::Heard) -> Result<(), Refused> {
    Err(match told.number {
        0 => return Ok(()),
        19 => Refused::Late { minutes: told.late },
        number => bare(number),
    })
}

/// What an entry came to: numbers are 0, 5, 7, 8, 11, 19, 23, 24 and 255, by the contract.
#[inline]
pub(crate) fn noted(told: ffi::Noted) -> Result<(), Refused> {
    let ffi::Noted {
        number,
        channel,
        minute,
        late,
    } = told;
    Err(match number {
        0 => return Ok(()),
        11 => Refused::MissingReading { channel, minute },
        19 => Refused::Late { minutes: late },
        number => bare(number),
    })
}

/// What a question of this refusal came to: numbers are 0, 5, 7, 11 to 15, 20 to 22 and 255, by the contracts.
#[inline]
pub(crate) fn asked(why: ffi::Refusal) -> Result<(), Refused> {
    let ffi::Refusal {
        number,
        channel,
        minute,
    } = why;
    Err(match number {
        0 => return Ok(()),
        11 => Refused::MissingReading { channel, minute },
        12 => Refused::OutsideCertificate { minute },
        number => bare(number),
    })
}

/// What placing a record, or taking one out, came to: numbers are 0, 16, 17, 18 and 254, by the contracts. The new file's length.
#[inline]
pub(crate) fn placed(told: ffi::Placed) -> Result<usize, Refused> {
    Err(match told.number {
        0 => return Ok(told.bytes),
        16 => Refused::BreaksRules { index: told.index },
        17 => Refused::TooShort { bytes: told.bytes },
        18 => Refused::Broken { place: told.place },
        ffi::NO_RECORD => Refused::NoRecord,
        number => Refused::Unknown { number },
    })
}

/// What laying an answer's record came to: a question's numbers, and 16 for a figure that does not fit its field.
#[inline]
pub(crate) fn recorded(why: ffi::Refusal) -> Result<(), Refused> {
    match why.number {
        16 => Err(Refused::BreaksRules { index: 0 }),
        _ => asked(why),
    }
}

#[cfg(test)]
mod tests {
    use super::*;
    use std::string::ToString;

    #[test]
    fn what_is_told_by_a_number_has_that_number() {
        let late = 60;
        for number in (1..=8).chain([19, ffi::NO_STORE, 26, 1000]) {
            let refused = heard(ffi::Heard { number, late }).unwrap_err();
            assert_eq!(refused.number(), number);
        }
        for number in [9, 10, 25] {
            assert_eq!(opened(number).unwrap_err().number(), number);
        }
        let (channel, minute) = (4, 220);
        for number in [5, 7, 8, 11, 19, 23, 24, ffi::NO_STORE] {
            let told = ffi::Noted {
                number,
                channel,
                minute,
                late,
            };
            assert_eq!(noted(told).unwrap_err().number(), number);
        }
        for number in (1..=25).chain([ffi::NO_STORE, 26, 254, u32::MAX]) {
            let why = ffi::Refusal {
                number,
                channel,
                minute,
            };
            assert_eq!(asked(why).unwrap_err().number(), number);
            assert_eq!(recorded(why).unwrap_err().number(), number);
        }
        for number in [16, 17, 18, ffi::NO_RECORD, 19] {
            let told = ffi::Placed {
                number,
                index: 1,
                place: 2,
                bytes: 3,
            };
            assert_eq!(placed(told).unwrap_err().number(), number);
        }
    }

    #[test]
    fn a_number_that_is_not_known_is_no_refusal() {
        let late = 0;
        for number in [26, 253, 1000, u32::MAX] {
            let unknown = Err(Refused::Unknown { number });
            assert_eq!(heard(ffi::Heard { number, late }), unknown);
            assert_eq!(opened(number), unknown);
            let why = ffi::Refusal {
                number,
                ..Default::default()
            };
            assert_eq!(asked(why), unknown);
        }
    }

    #[test]
    fn a_refusal_is_a_sentence() {
        let missing = Refused::MissingReading {
            channel: 0,
            minute: 820,
        };
        for (refused, sentence) in [
            (missing, "the barometer has no reading at minute 820"),
            (
                Refused::Late { minutes: 1 },
                "the minute is 1 minute earlier than the channel's newest reading",
            ),
            (
                Refused::Late { minutes: u64::MAX },
                "the minute is 18446744073709551615 minutes earlier than the channel's newest reading",
            ),
            (
                Refused::OutsideCertificate { minute: 7 },
                "the barometer at minute 7 is outside its certificate",
            ),
            (
                Refused::BreaksRules { index: 3 },
                "record 3, counted from 0, breaks the rules of the file, or is one too many",
            ),
            (
                Refused::TooShort { bytes: 54 },
                "the buffer is too short: 54 bytes are needed",
            ),
            (
                Refused::Broken { place: 41 },
                "the file is broken at byte 41",
            ),
            (Refused::NoStore, "the store was never opened"),
            (Refused::NoRecord, "there is no such record"),
            (
                Refused::Unknown { number: 77 },
                "no refusal has the number 77",
            ),
        ] {
            assert_eq!(refused.to_string(), sentence);
        }
    }
}
