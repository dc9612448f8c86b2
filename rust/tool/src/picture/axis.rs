//! The two axes of a picture: round values at the left, hours of the clock below.

use super::{Panel, Picture, LARGEST_VALUE};

/// The fewest and the most ticks of a value axis.
pub(super) const FEWEST_TICKS: i64 = 3;
pub(super) const MOST_TICKS: i64 = 6;

/// More decimals than these no instrument on board has.
const MOST_DECIMALS: usize = 6;

/// The least span, in units of the panel, of an axis that the readings alone decide.
const LEAST_SPAN: f64 = 2.0;

/// The room above and below the readings, as a part of their span.
const ROOM: f64 = 0.08;

/// The steps of the time axis, in minutes. Those below an hour are for stretches under three hours.
const STEPS: [usize; 18] = [
    1, 2, 5, 10, 15, 30, 60, 120, 180, 360, 720, 1440, 2880, 7200, 14_400, 28_800, 57_600, 144_000,
];
const AN_HOUR: usize = 60;
const THREE_HOURS: usize = 180;
const A_DAY: usize = 1440;

/// A value axis: ticks at the multiples `lowest` to `highest` of `step`; it ends on ticks.
pub(super) struct Scale {
    lowest: i64,
    highest: i64,
    step: f64,
    decimals: usize,
}

impl Scale {
    /// The axis of a panel with 3 to `most` ticks (`most` from 3 to 6), or None where there is
    /// nothing to measure: no value, and no limits that are always shown.
    pub(super) fn of(panel: &Panel, minutes: usize, most: i64) -> Option<Scale> {
        let decimals = panel.decimals.min(MOST_DECIMALS);
        let finest = -(decimals as i32);
        let (low, high) = limits(panel, minutes, 10f64.powi(finest))?;
        let steps = (finest..=12).flat_map(|power| [1, 2, 5].map(|of| (of, power)));
        let mut scales = steps.map(|(of, power)| {
            let step = f64::from(of) * 10f64.powi(power);
            let lowest = (low / step + 1e-6).floor() as i64;
            let highest = (high / step - 1e-6).ceil() as i64;
            let highest = highest.max(lowest + FEWEST_TICKS - 1);
            Scale {
                lowest,
                highest,
                step,
                decimals,
            }
        });
        scales.find(|scale| scale.highest - scale.lowest < most)
    }

    /// The ticks from below, each with its text.
    pub(super) fn ticks(&self) -> Vec<(f64, String)> {
        (self.lowest..=self.highest)
            .map(|tick| tick as f64 * self.step)
            .map(|value| (value, format!("{value:.*}", self.decimals)))
            .collect()
    }

    /// From the lowest tick to the highest, in units of the panel.
    pub(super) fn span(&self) -> f64 {
        (self.highest - self.lowest) as f64 * self.step
    }

    /// Where a value stands on the axis: 0 at its foot, 1 at its head.
    pub(super) fn part(&self, value: f64) -> f64 {
        let span = (self.highest - self.lowest) as f64;
        ((value / self.step - self.lowest as f64) / span).clamp(0.0, 1.0)
    }
}

/// What the value axis has to include; `finest` is one unit of its last decimal.
fn limits(panel: &Panel, minutes: usize, finest: f64) -> Option<(f64, f64)> {
    let fixed = panel.at_least.map(|(one, other)| {
        let (one, other) = (within(one), within(other));
        (one.min(other), one.max(other))
    });
    match (extent(panel, minutes), fixed) {
        (None, None) => None,
        (None, Some((low, high))) => Some((low, high.max(low + 2.0 * finest))),
        (Some((low, high)), None) => Some(with_room(low, high)),
        (Some((low, high)), Some((least, most))) => {
            let room = ROOM * (high.max(most) - low.min(least));
            let low = if low < least { low - room } else { least };
            let high = if high > most { high + room } else { most };
            Some((low, high.max(low + 2.0 * finest)))
        }
    }
}

/// The lowest and the highest value of the panel.
fn extent(panel: &Panel, minutes: usize) -> Option<(f64, f64)> {
    let values = panel
        .lines
        .iter()
        .flat_map(|line| (0..minutes).filter_map(|offset| line.at(offset)));
    values.fold(None, |extent, value| match extent {
        None => Some((value, value)),
        Some((low, high)) => Some((low.min(value), high.max(value))),
    })
}

/// The readings' limits with room on both sides and the least span. What is never negative, such
/// as a speed, gets no room below zero.
fn with_room(low: f64, high: f64) -> (f64, f64) {
    let span = ((high - low) * (1.0 + 2.0 * ROOM)).max(LEAST_SPAN);
    let middle = (low + high) / 2.0;
    let (from, to) = (middle - span / 2.0, middle + span / 2.0);
    if low >= 0.0 && from < 0.0 {
        (0.0, to.max(LEAST_SPAN))
    } else {
        (from, to)
    }
}

/// The value, or the largest that an axis may have.
fn within(value: f64) -> f64 {
    value.clamp(-LARGEST_VALUE, LARGEST_VALUE)
}

/// A tick of the time axis.
pub(super) struct Tick {
    /// Minutes after the picture's first.
    pub(super) offset: usize,
    pub(super) text: String,
    /// The date that begins there, where the texts are hours and dates are known.
    pub(super) date: Option<String>,
}

/// The ticks of the time axis: the closest step of the clock that leaves each label its room.
/// `per_minute` and `room` are in the same measure; `room` is what a text takes with its distance.
pub(super) fn time_ticks(
    picture: &Picture,
    per_minute: f64,
    room: impl Fn(&str) -> f64,
) -> Vec<Tick> {
    let labels = [
        (picture.label)(picture.first),
        (picture.label)(picture.last),
    ];
    let needed = labels.iter().map(|text| room(text)).fold(0.0, f64::max);
    let hours_do = picture.minutes() >= THREE_HOURS;
    let step = STEPS
        .into_iter()
        .filter(|step| !hours_do || *step >= AN_HOUR)
        .find(|step| *step as f64 * per_minute >= needed)
        .unwrap_or(STEPS[STEPS.len() - 1]);
    let offsets = marks(picture, step).into_iter();
    offsets.map(|offset| tick(picture, step, offset)).collect()
}

/// The hours between the ticks, which get a mark without a text.
pub(super) fn hours(picture: &Picture) -> Vec<usize> {
    marks(picture, AN_HOUR)
}

/// The offsets at which the clock shows a multiple of `step`.
fn marks(picture: &Picture, step: usize) -> Vec<usize> {
    let clock = i64::from(picture.first) + ahead(picture);
    let until_first = (-clock).rem_euclid(step as i64) as usize;
    (until_first..picture.minutes()).step_by(step).collect()
}

/// What to add to a minute to get the minutes since a midnight; a multiple of 60 of that is a
/// whole hour. The hours are the caller's; which of them is midnight, the label of a time tells.
fn ahead(picture: &Picture) -> i64 {
    let first = picture.first;
    let mut hour_from_first = first..=first.saturating_add(59);
    let Some(hour) = hour_from_first.find(|minute| (picture.on_the_hour)(*minute)) else {
        return 0;
    };
    let (first, hour) = (i64::from(first), i64::from(hour));
    let at_hour = match time_of_day(&(picture.label)(picture.first)) {
        Some(at_first) => at_first + (hour - first),
        None => hour,
    };
    at_hour - at_hour.rem_euclid(AN_HOUR as i64) - hour
}

/// One tick of the given step: of a day or more it shows the date, if that is known.
fn tick(picture: &Picture, step: usize, offset: usize) -> Tick {
    let minute = picture.minute(offset);
    let text = (picture.label)(minute);
    let Some(date) = date(&(picture.full)(minute)).map(str::to_string) else {
        return Tick {
            offset,
            text,
            date: None,
        };
    };
    if step >= A_DAY {
        return Tick {
            offset,
            text: date[5..].to_string(),
            date: None,
        };
    }
    let midnight = time_of_day(&text) == Some(0);
    Tick {
        offset,
        text,
        date: Some(date).filter(|_| midnight),
    }
}

/// The minutes since midnight in a text such as "18:01".
fn time_of_day(text: &str) -> Option<i64> {
    let (hours, minutes) = text.split_once(':')?;
    let two = |digits: &str| (digits.len() == 2).then(|| digits.parse::<u8>().ok())?;
    let (hours, minutes) = (two(hours)?, two(minutes)?);
    (hours < 24 && minutes < 60).then_some(i64::from(hours) * 60 + i64::from(minutes))
}

/// The date that a full time such as "2026-11-16 18:01 UTC" begins with.
fn date(full: &str) -> Option<&str> {
    let date = full.get(..10)?;
    let is_date = date.bytes().enumerate().all(|(place, byte)| match place {
        4 | 7 => byte == b'-',
        _ => byte.is_ascii_digit(),
    });
    is_date.then_some(date)
}

/// "11-16" of "2026-11-16 18:01 UTC".
pub(super) fn month_and_day(full: &str) -> Option<&str> {
    date(full).map(|date| &date[5..])
}
