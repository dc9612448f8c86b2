//! Minutes and times. The station counts minutes; where `epoch` says when minute 0 was, they are shown, and may be given, as date and
//! time, always in UTC.

use chrono::{DateTime, Duration, NaiveDateTime, NaiveTime, Timelike, Utc};
use zhitomrak::LAST_MINUTE;

use crate::fault::{fault, unclear, Result};

/// When minute 0 was, where that is known.
#[derive(Clone, Copy, Debug, Default)]
pub struct Clock {
    epoch: Option<DateTime<Utc>>,
}

/// Minutes that are asked for: from the first to the last, both included.
#[derive(Clone, Copy, Debug, PartialEq, Eq)]
pub struct Stretch {
    pub first: u32,
    pub last: u32,
}

impl Clock {
    pub fn new(epoch: Option<DateTime<Utc>>) -> Clock {
        Clock { epoch }
    }

    /// The time of a minute; none where the epoch is not known, or the time beyond every calendar.
    pub fn time(&self, minute: u32) -> Option<DateTime<Utc>> {
        self.epoch?
            .checked_add_signed(Duration::minutes(minute.into()))
    }

    /// `minute 1081 (2026-11-16 18:01 UTC)`, or `minute 1081`.
    pub fn name(&self, minute: u32) -> String {
        match self.time(minute) {
            Some(time) => format!("minute {minute} ({})", time.format("%Y-%m-%d %H:%M UTC")),
            None => format!("minute {minute}"),
        }
    }

    /// `2026-11-16 18:01 UTC`, or `minute 1081`.
    pub fn full(&self, minute: u32) -> String {
        match self.time(minute) {
            Some(time) => time.format("%Y-%m-%d %H:%M UTC").to_string(),
            None => format!("minute {minute}"),
        }
    }

    /// `18:01`, or `1081`.
    pub fn label(&self, minute: u32) -> String {
        match self.time(minute) {
            Some(time) => time.format("%H:%M").to_string(),
            None => minute.to_string(),
        }
    }

    /// Whether a minute is a whole hour of the clock; of minutes alone, a multiple of 60.
    pub fn on_the_hour(&self, minute: u32) -> bool {
        match self.time(minute) {
            Some(time) => time.minute() == 0,
            None => minute % 60 == 0,
        }
    }

    /// The minute of a time.
    fn minute_of(&self, text: &str, time: DateTime<Utc>) -> Result<u32> {
        let epoch = self.epoch.ok_or_else(|| {
            fault!("`{text}` is a time, and this watch has no epoch: say the minute, or put epoch into its station.toml")
        })?;
        let minutes = time.signed_duration_since(epoch).num_minutes();
        match u32::try_from(minutes) {
            Ok(minute) if time >= epoch && minute <= LAST_MINUTE => Ok(minute),
            _ if time < epoch => Err(unclear!(
                "`{text}` is before minute 0, {}",
                epoch.format("%Y-%m-%d %H:%M UTC")
            )),
            _ => Err(unclear!("`{text}` is after the last minute, {LAST_MINUTE}")),
        }
    }

    /// The minute that the clock shows now; none where the epoch is not known, or lies ahead.
    pub fn now(&self) -> Option<u32> {
        self.epoch?;
        self.minute_of("now", Utc::now()).ok()
    }

    /// The minute that a person wrote: a whole number; a date and time; `now`; or a time, which is the last such one that is no more
    /// than an hour after the newest minute heard.
    pub fn minute(&self, text: &str, newest: Option<u32>) -> Result<u32> {
        self.minute_before(text, newest.map(|newest| newest.saturating_add(AHEAD)))
    }

    /// The same, where a time without its day is the last such one up to a minute.
    fn minute_before(&self, text: &str, latest: Option<u32>) -> Result<u32> {
        if !text.is_empty() && text.bytes().all(|b| b.is_ascii_digit()) {
            return text
                .parse()
                .map_err(|_| unclear!("`{text}` is too large for a minute"));
        }
        if text == "now" {
            return self.minute_of(text, Utc::now());
        }
        let bare = text
            .strip_suffix('Z')
            .or_else(|| text.strip_suffix(" UTC"))
            .unwrap_or(text);
        for form in [
            "%Y-%m-%dT%H:%M",
            "%Y-%m-%d %H:%M",
            "%Y-%m-%dT%H:%M:00",
            "%Y-%m-%d %H:%M:00",
        ] {
            if let Ok(time) = NaiveDateTime::parse_from_str(bare, form) {
                return self.minute_of(text, DateTime::from_utc(time, Utc));
            }
        }
        if let Ok(time) = NaiveTime::parse_from_str(bare, "%H:%M") {
            if self.epoch.is_none() {
                return self.minute_of(text, Utc::now());
            }
            let latest = latest.and_then(|minute| self.time(minute)).ok_or_else(|| {
                unclear!(
                    "`{text}` is a time without its day, and nothing is heard yet: say the day too"
                )
            })?;
            let mut day = DateTime::<Utc>::from_utc(latest.date_naive().and_time(time), Utc);
            if day > latest {
                day = day - Duration::days(1);
            }
            return self.minute_of(text, day);
        }
        Err(unclear!(
            "`{text}` is neither a minute, as 1081, nor a time, as 18:01 or 2026-11-16T18:01"
        ))
    }

    /// One minute, or a stretch of them: `1081`, `18:01`, `900..1081`, `15:00..18:01`, and `900..` up to the newest. A time that ends
    /// a stretch is the first such one from its beginning on.
    pub fn stretch(&self, text: &str, newest: Option<u32>) -> Result<Stretch> {
        let Some((first, last)) = text.split_once("..") else {
            let minute = self.minute(text, newest)?;
            return Ok(Stretch {
                first: minute,
                last: minute,
            });
        };
        let first = self.minute(first, newest)?;
        let last = match newest {
            Some(newest) if last.is_empty() => newest,
            // the last such time within a day
            _ => self.minute_before(last, Some(first.saturating_add(24 * 60 - 1)))?,
        };
        if first > last {
            return Err(unclear!("`{text}` ends before it begins"));
        }
        Ok(Stretch { first, last })
    }
}

/// How many minutes after the newest a time without its day may be.
const AHEAD: u32 = 60;

#[cfg(test)]
mod tests {
    use super::*;

    fn clock() -> Clock {
        Clock::new("2026-11-16T00:00:00Z".parse().ok())
    }

    #[test]
    fn a_minute_is_a_number_or_a_time() {
        let newest = Some(1081);
        for (text, minute) in [
            ("1081", 1081),
            ("0", 0),
            ("18:01", 1081),
            ("18:02", 1082),
            ("19:01", 1141),
            ("00:00", 0),
            ("2026-11-16T18:01:00Z", 1081),
            ("2026-11-16T18:01", 1081),
            ("2026-11-16 18:01", 1081),
            ("2026-11-16T18:01Z", 1081),
            ("2026-11-17 00:00 UTC", 1440),
            ("4294967295", u32::MAX),
        ] {
            assert_eq!(clock().minute(text, newest).unwrap(), minute, "{text}");
        }
        assert_eq!(clock().minute("18:02", Some(1440)).unwrap(), 1082);
        let before = clock().minute("23:00", Some(5)).unwrap_err();
        assert_eq!(
            (before.0.as_str(), before.1),
            ("`23:00` is before minute 0, 2026-11-16 00:00 UTC", 2)
        );
        for wrong in [
            "",
            "-1",
            "+5",
            "1.5",
            "4294967296",
            "25:00",
            "18:60",
            "2026-02-30T00:00",
            "soon",
            "1e3",
            "2058-12-01 00:00",
        ] {
            assert!(clock().minute(wrong, newest).is_err(), "{wrong}");
        }
        assert!(clock().minute("18:01", None).is_err());
        assert!(Clock::default()
            .minute("18:01", newest)
            .unwrap_err()
            .0
            .contains("epoch"));
        assert_eq!(Clock::default().minute("5", None).unwrap(), 5);
    }

    #[test]
    fn a_stretch_has_both_ends() {
        let stretch = |text| clock().stretch(text, Some(1081));
        assert_eq!(
            stretch("900..1081").unwrap(),
            Stretch {
                first: 900,
                last: 1081
            }
        );
        assert_eq!(
            stretch("15:00..18:01").unwrap(),
            Stretch {
                first: 900,
                last: 1081
            }
        );
        assert_eq!(stretch("7").unwrap(), Stretch { first: 7, last: 7 });
        let across = |text| clock().stretch(text, Some(2000)).unwrap();
        assert_eq!(
            across("23:00..01:00"),
            Stretch {
                first: 1380,
                last: 1500
            }
        );
        assert_eq!(
            across("10:21..10:20"),
            Stretch {
                first: 621,
                last: 2060
            }
        );
        assert_eq!(
            across("900.."),
            Stretch {
                first: 900,
                last: 2000
            }
        );
        for wrong in ["1081..900", "..", "..900", "900...901"] {
            assert!(stretch(wrong).is_err(), "{wrong}");
        }
    }

    #[test]
    fn a_minute_is_shown_with_its_time() {
        assert_eq!(clock().name(1081), "minute 1081 (2026-11-16 18:01 UTC)");
        assert_eq!(Clock::default().name(1081), "minute 1081");
        assert_eq!(clock().label(61), "01:01");
        assert!(clock().on_the_hour(1080) && !clock().on_the_hour(1081));
        // the last minute of all is still in the calendar
        assert_eq!(clock().full(LAST_MINUTE), "2058-10-09 20:15 UTC");
    }
}
