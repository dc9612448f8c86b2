//! The numbered refusals, each with what it also returns.

use std::fmt;

/// A refusal "returns its number, the extra shown, and no figure".
#[derive(Clone, Copy, Debug, PartialEq, Eq)]
pub enum Refused {
    /// 1: message not 16 bytes.
    MessageLength,
    /// 2: channel above 5.
    UnknownChannel,
    /// 3: a byte that must be zero isn't (state too, except on channel 5).
    NotZero,
    /// 4: "a state above 2".
    NoSuchState,
    /// 5: minute above 16,777,215, sent or asked.
    MinuteTooLate,
    /// 6: infinite or not a number.
    NotFinite,
    /// 7: outside limits.
    OutsideLimits,
    /// 8: "minute equal to the newest" of its channel.
    Repeated,
    /// 19: "minute earlier", and "19 stands directly after 8".
    Late {
        /// The minutes from the message's to the channel's newest, at least 1.
        minutes: u32,
    },
    /// 9: a setting other than the certificate outside limits.
    Setting,
    /// 10: certificate breaks its rules.
    Certificate,
    /// 11: reading absent or no longer kept.
    Absent {
        /// The channel that lacks the reading.
        channel: u8,
        /// The minute that lacks it.
        minute: u32,
    },
    /// 12: barometer reading outside the certificate.
    OutsideCertificate {
        /// The minute of that reading.
        minute: u32,
    },
    /// 13: wet bulb above dry bulb; "13 is for water only".
    WetAboveDry,
    /// 20: "state 1 or 2 with wet bulb above 0.0".
    TooWarmForIce,
    /// 21: "unknown outside its air range".
    UnknownOutsideRange,
    /// 22: "e above saturation over water at dry".
    AboveSaturation,
    /// 14: tendency asked for a minute below 180.
    NoThreeHours,
    /// 15: e below 0.19 hPa.
    TooDry,
    /// 16: record to write breaks the file rules, or is the 49th.
    Record {
        /// "The first such record's index; indices count from 0."
        index: usize,
    },
    /// 17: lent buffer too short.
    Room {
        /// The bytes needed.
        needed: usize,
    },
    /// 18: file broken.
    Broken {
        /// "The first byte of the first wrong field, the file's length where a
        /// field is cut short, or the first extra byte."
        place: usize,
    },
    /// 23: "seconds or dial outside limits".
    Dial,
    /// 24: "rate outside the certificate, or the store has none".
    Rate,
    /// 25: the anemometer's certificate "breaks its rules, or its speeds leave channel
    /// 2's limits", "tested at opening after 10".
    Anemometer,
    /// 254, which the documents do not have: a file has no record of that minute and
    /// kind to take out.
    NoRecord,
    /// 255, which the documents do not have: memory that was never opened is
    /// asked or told something.
    NoStore,
}

impl Refused {
    /// The number that the documents give this refusal; 254 and 255 for the two that
    /// they do not have.
    pub const fn number(self) -> u8 {
        match self {
            Refused::MessageLength => 1,
            Refused::UnknownChannel => 2,
            Refused::NotZero => 3,
            Refused::NoSuchState => 4,
            Refused::MinuteTooLate => 5,
            Refused::NotFinite => 6,
            Refused::OutsideLimits => 7,
            Refused::Repeated => 8,
            Refused::Late { .. } => 19,
            Refused::Setting => 9,
            Refused::Certificate => 10,
            Refused::Absent { .. } => 11,
            Refused::OutsideCertificate { .. } => 12,
            Refused::WetAboveDry => 13,
            Refused::TooWarmForIce => 20,
            Refused::UnknownOutsideRange => 21,
            Refused::AboveSaturation => 22,
            Refused::NoThreeHours => 14,
            Refused::TooDry => 15,
            Refused::Record { .. } => 16,
            Refused::Room { .. } => 17,
            Refused::Broken { .. } => 18,
            Refused::Dial => 23,
            Refused::Rate => 24,
            Refused::Anemometer => 25,
            Refused::NoRecord => 254,
            Refused::NoStore => 255,
        }
    }
}

/// The refusal as a line: `refused 8`, `refused 19 60`, `refused 11 0 220`,
/// `refused 18 at 41`.
impl fmt::Display for Refused {
    fn fmt(&self, line: &mut fmt::Formatter<'_>) -> fmt::Result {
        write!(line, "refused {}", self.number())?;
        match self {
            Refused::Late { minutes } => write!(line, " {minutes}"),
            Refused::Absent { channel, minute } => write!(line, " {channel} {minute}"),
            Refused::OutsideCertificate { minute } => write!(line, " {minute}"),
            Refused::Record { index } => write!(line, " {index}"),
            Refused::Room { needed } => write!(line, " {needed}"),
            Refused::Broken { place } => write!(line, " at {place}"),
            _ => Ok(()),
        }
    }
}

#[cfg(test)]
mod tests {
    use super::Refused;

    #[test]
    fn each_number_and_its_extra() {
        let (channel, minute) = (4, 220);
        let lines = [
            (Refused::MessageLength, "refused 1"),
            (Refused::UnknownChannel, "refused 2"),
            (Refused::NotZero, "refused 3"),
            (Refused::NoSuchState, "refused 4"),
            (Refused::MinuteTooLate, "refused 5"),
            (Refused::NotFinite, "refused 6"),
            (Refused::OutsideLimits, "refused 7"),
            (Refused::Repeated, "refused 8"),
            (Refused::Late { minutes: 60 }, "refused 19 60"),
            (Refused::Setting, "refused 9"),
            (Refused::Certificate, "refused 10"),
            (Refused::Absent { channel, minute }, "refused 11 4 220"),
            (Refused::OutsideCertificate { minute }, "refused 12 220"),
            (Refused::WetAboveDry, "refused 13"),
            (Refused::TooWarmForIce, "refused 20"),
            (Refused::UnknownOutsideRange, "refused 21"),
            (Refused::AboveSaturation, "refused 22"),
            (Refused::NoThreeHours, "refused 14"),
            (Refused::TooDry, "refused 15"),
            (Refused::Record { index: 48 }, "refused 16 48"),
            (Refused::Room { needed: 4 }, "refused 17 4"),
            (Refused::Broken { place: 41 }, "refused 18 at 41"),
            (Refused::Dial, "refused 23"),
            (Refused::Rate, "refused 24"),
            (Refused::Anemometer, "refused 25"),
            (Refused::NoRecord, "refused 254"),
            (Refused::NoStore, "refused 255"),
        ];
        for (refused, line) in lines {
            assert_eq!(refused.to_string(), line);
        }
    }
}
