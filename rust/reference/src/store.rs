//! One channel's window: its newest accepted minute and the 255 before it.

use crate::refusal::Refused;

/// "Each channel keeps its newest accepted minute and the 255 minutes before it."
pub const KEPT: usize = 256;
/// The minutes from a tendency's first pressure to its second.
pub const THREE_HOURS: u32 = 180;
/// "The 179 strictly between" them.
pub const BETWEEN: u32 = THREE_HOURS - 1;

/// One presence bit a minute, by age: bit 0 of `near` is the newest minute, bit 0
/// of `far` the one 128 minutes before it.
#[derive(Clone, Copy, Debug, Default)]
struct Presence {
    near: u128,
    far: u128,
}

impl Presence {
    /// Every minute grown older by this many; those past the last bit are gone.
    #[inline]
    fn older_by(self, minutes: u32) -> Presence {
        match minutes {
            0 => self,
            1..=127 => Presence {
                near: self.near << minutes,
                far: self.far << minutes | self.near >> (128 - minutes),
            },
            128..=255 => Presence {
                near: 0,
                far: self.near << (minutes - 128),
            },
            _ => Presence::default(),
        }
    }

    /// The ages from this one on, counted from 0 again.
    #[inline]
    fn ages_from(self, age: u32) -> Presence {
        match age {
            0 => self,
            1..=127 => Presence {
                near: self.near >> age | self.far << (128 - age),
                far: self.far >> age,
            },
            128..=255 => Presence {
                near: self.far >> (age - 128),
                far: 0,
            },
            _ => Presence::default(),
        }
    }

    /// Whether the minute of this age is present.
    #[inline]
    fn has(self, age: u32) -> bool {
        let bits = match age {
            0..=127 => self.near >> age,
            128..=255 => self.far >> (age - 128),
            _ => 0,
        };
        bits & 1 == 1
    }

    /// How many of the first 179 ages are present.
    #[inline]
    fn heard_between(self) -> u32 {
        const FAR: u128 = (1 << (BETWEEN - 128)) - 1;
        self.near.count_ones() + (self.far & FAR).count_ones()
    }
}

/// What a channel has heard. A minute's cell is the minute's remainder by 256, so
/// the 256 minutes kept never share one. Minutes are those of messages, at most
/// 16,777,215.
#[derive(Clone, Debug)]
pub struct Window<T> {
    newest: Option<u32>,
    present: Presence,
    cells: [T; KEPT],
}

impl<T: Copy + Default> Default for Window<T> {
    fn default() -> Self {
        Window::new()
    }
}

impl<T: Copy + Default> Window<T> {
    /// A channel that has heard nothing: every minute is absent.
    pub fn new() -> Window<T> {
        Window {
            newest: None,
            present: Presence::default(),
            cells: [T::default(); KEPT],
        }
    }

    /// The channel's newest minute, or nothing where it has heard nothing.
    #[inline]
    pub fn newest(&self) -> Option<u32> {
        self.newest
    }

    /// The minutes from the channel's newest to this one, 0 for its first; or refusal
    /// 8 or 19: "a message must be later than its channel's newest". The first message
    /// of a channel gets neither.
    #[inline]
    pub fn passed(&self, minute: u32) -> Result<u32, Refused> {
        match self.newest {
            Some(newest) if minute <= newest => Err(not_later(newest - minute)),
            Some(newest) => Ok(minute - newest),
            None => Ok(0),
        }
    }

    /// Keeps the reading of this minute, or refusal 8 or 19 and nothing changed.
    ///
    /// A minute "jumped over, or before the channel's first, stays" absent.
    #[inline]
    pub fn accept(&mut self, minute: u32, reading: T) -> Result<(), Refused> {
        let passed = self.passed(minute)?;
        self.present = self.present.older_by(passed);
        self.present.near |= 1;
        self.newest = Some(minute);
        self.cells[minute as usize % KEPT] = reading;
        Ok(())
    }

    /// The reading of this minute, or nothing: "a minute without an accepted
    /// message is absent", and so is one no longer kept.
    #[inline]
    pub fn at(&self, minute: u32) -> Option<T> {
        let age = self.newest?.checked_sub(minute)?;
        let heard = self.present.has(age);
        heard.then(|| self.cells[minute as usize % KEPT])
    }

    /// "The number of absent minutes among the 179 strictly between" this minute
    /// and the one three hours before it. Minutes not yet reached are absent.
    #[inline]
    pub fn absent_before(&self, minute: u32) -> u32 {
        let Some(newest) = self.newest else {
            return BETWEEN;
        };
        // The minute before `minute` is the first of the 179.
        let heard = match (newest + 1).checked_sub(minute) {
            Some(age) => self.present.ages_from(age),
            None => self.present.older_by(minute - 1 - newest),
        };
        BETWEEN - heard.heard_between()
    }
}

/// The refusal of a message so many minutes before its channel's newest: "8, minute
/// equal to the newest, and 19, minute earlier, which returns the difference".
#[inline]
fn not_later(minutes: u32) -> Refused {
    match minutes {
        0 => Refused::Repeated,
        _ => Refused::Late { minutes },
    }
}

#[cfg(test)]
mod tests {
    use super::*;
    use crate::message::LAST_MINUTE;
    use std::collections::{BTreeMap, BTreeSet};

    /// The same rules said with a map of all that was ever accepted.
    #[derive(Default)]
    struct Log(BTreeMap<u32, i16>);

    impl Log {
        fn accept(&mut self, minute: u32, reading: i16) -> Result<(), Refused> {
            match self.0.last_key_value() {
                Some((newest, _)) if minute == *newest => Err(Refused::Repeated),
                Some((newest, _)) if minute < *newest => Err(Refused::Late {
                    minutes: newest - minute,
                }),
                _ => {
                    self.0.insert(minute, reading);
                    Ok(())
                }
            }
        }

        fn at(&self, minute: u32) -> Option<i16> {
            let (newest, _) = self.0.last_key_value()?;
            let kept = u64::from(minute) + 255 >= u64::from(*newest);
            self.0.get(&minute).copied().filter(|_| kept)
        }

        fn absent_before(&self, minute: u32) -> u32 {
            let between = i64::from(minute) - 179..i64::from(minute);
            let absent = |m: &i64| u32::try_from(*m).map_or(true, |m| self.at(m).is_none());
            between.filter(absent).count() as u32
        }
    }

    /// A fixed run of numbers with no pattern to lean on.
    fn draw(seed: &mut u64, below: u64) -> u64 {
        *seed = seed
            .wrapping_mul(6_364_136_223_846_793_005)
            .wrapping_add(1_442_695_040_888_963_407);
        (*seed >> 33) % below
    }

    #[test]
    fn agrees_with_a_log_of_everything() {
        let mut seed = 1;
        let mut met = BTreeSet::new();
        for _ in 0..20 {
            let (mut window, mut log) = (Window::new(), Log::default());
            let mut minute = draw(&mut seed, 400) as u32;
            for _ in 0..80 {
                let reading = draw(&mut seed, 1000) as i16;
                let answer = window.accept(minute, reading);
                assert_eq!(answer, log.accept(minute, reading));
                met.insert(answer.map_or_else(Refused::number, |()| 0));
                for asked in minute.saturating_sub(300)..minute + 200 {
                    assert_eq!(window.at(asked), log.at(asked));
                }
                for _ in 0..8 {
                    let asked = (minute + 190).saturating_sub(draw(&mut seed, 500) as u32);
                    assert_eq!(window.absent_before(asked), log.absent_before(asked));
                }
                minute = match draw(&mut seed, 12) {
                    0 => minute + 100 + draw(&mut seed, 200) as u32,
                    1 => minute.saturating_sub(draw(&mut seed, 3) as u32),
                    2 if draw(&mut seed, 4) == 0 => {
                        minute.saturating_sub(draw(&mut seed, 600) as u32)
                    }
                    2 => minute + 120 + draw(&mut seed, 16) as u32,
                    _ => minute + 1 + draw(&mut seed, 3) as u32,
                };
            }
        }
        assert_eq!(met, BTreeSet::from([0, 8, 19]));
    }

    #[test]
    fn minute_100_is_kept_at_355_and_gone_at_356() {
        let mut window = Window::new();
        window.accept(100, 7i16).unwrap();
        window.accept(355, 8).unwrap();
        assert_eq!(window.at(100), Some(7));
        window.accept(356, 9).unwrap();
        assert_eq!(window.at(100), None);
        assert_eq!(window.at(355), Some(8));
        assert_eq!(window.at(356), Some(9));
    }

    fn late(minutes: u32) -> Result<(), Refused> {
        Err(Refused::Late { minutes })
    }

    #[test]
    fn not_later_is_refused_and_changes_nothing() {
        let mut window = Window::new();
        window.accept(5, 7i16).unwrap();
        assert_eq!(window.accept(5, 8), Err(Refused::Repeated));
        assert_eq!(window.accept(4, 8), late(1));
        assert_eq!(window.accept(0, 8), late(5));
        // A late one is not the newest: the same minute is still the same.
        assert_eq!(window.accept(5, 8), Err(Refused::Repeated));
        assert_eq!(window.at(5), Some(7));
        assert_eq!(window.at(4), None);
        assert_eq!(window.at(0), None);
        assert_eq!(window.at(6), None);
    }

    #[test]
    fn the_first_message_is_neither_repeated_nor_late() {
        for minute in [0, 1, 255, LAST_MINUTE] {
            let mut window = Window::new();
            assert_eq!(window.accept(minute, 7i16), Ok(()));
            assert_eq!(window.at(minute), Some(7));
        }
    }

    #[test]
    fn minute_0_can_be_the_newest() {
        let mut window = Window::new();
        window.accept(0, 7i16).unwrap();
        assert_eq!(window.newest(), Some(0));
        assert_eq!(window.accept(0, 8), Err(Refused::Repeated));
        assert_eq!(window.accept(1, 9), Ok(()));
        assert_eq!(window.newest(), Some(1));
        assert_eq!(window.accept(0, 8), late(1));
        assert_eq!(window.at(0), Some(7));
    }

    #[test]
    fn how_late_is_told_whether_or_not_the_minute_is_kept() {
        let mut window = Window::new();
        window.accept(1000, 7i16).unwrap();
        for minutes in [1, 2, 60, 254, 255, 256, 257, 512, 1000] {
            assert_eq!(window.accept(1000 - minutes, 8), late(minutes));
        }
        window.accept(LAST_MINUTE, 9).unwrap();
        for minutes in [1, 65_535, 65_536, LAST_MINUTE - 1000, LAST_MINUTE] {
            assert_eq!(window.accept(LAST_MINUTE - minutes, 8), late(minutes));
        }
        assert_eq!(window.accept(LAST_MINUTE, 8), Err(Refused::Repeated));
        assert_eq!(window.at(LAST_MINUTE), Some(9));
    }

    #[test]
    fn an_old_cell_does_not_come_back() {
        let mut window = Window::new();
        window.accept(10, 1i16).unwrap();
        window.accept(300, 2).unwrap();
        // 266 falls on the cell of 10, and was never heard.
        assert_eq!(window.at(266), None);
        assert_eq!(window.at(10), None);
    }
}
