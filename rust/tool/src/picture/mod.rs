//! Pictures of the watch: curves over minutes, in which a missing minute is seen to be missing.
//! `svg` draws a picture for print, `terminal` one of characters; both from the same `Picture`.

mod axis;
mod sheet;
mod svg;
mod terminal;
#[cfg(test)]
mod tests;

pub use svg::svg;
pub use terminal::terminal;

use std::ops::Range;

/// No instrument on board reads beyond this, either way; what does is drawn as missing.
const LARGEST_VALUE: f64 = 1e9;

/// From this many minutes on, a gap is named with the dates of its ends: the hours alone repeat.
const A_DAY: usize = 1440;

/// What a picture shows: panels one below the other over the same minutes.
pub struct Picture {
    pub title: String,
    /// The first minute shown.
    pub first: u32,
    /// The last minute shown, at least `first`.
    pub last: u32,
    /// One to three.
    pub panels: Vec<Panel>,
    /// The text of a minute on the axis: "18:01" where times are known, else "1081".
    pub label: Box<dyn Fn(u32) -> String>,
    /// The same in full: "2026-11-16 18:01 UTC", or "minute 1081".
    pub full: Box<dyn Fn(u32) -> String>,
    /// Whether the axis may have a tick there: the whole hours of the clock, else multiples of 60.
    pub on_the_hour: Box<dyn Fn(u32) -> bool>,
}

/// One or two curves over one value axis.
pub struct Panel {
    pub name: String,
    /// "hPa", "%", "m/s", "°C", "mm Hg".
    pub unit: &'static str,
    /// Of the values on the axis.
    pub decimals: usize,
    /// One or two.
    pub lines: Vec<Line>,
    /// Drawn above the curve, each at its minute.
    pub arrows: Vec<Arrow>,
    /// What the value axis includes at least; None: what the readings need, and at least 2 units,
    /// so that a level line looks level.
    pub at_least: Option<(f64, f64)>,
    /// How many minutes most readings are apart: 1 where there is one each minute.
    pub apart: usize,
}

/// A curve: one value, or none, for each minute of the picture.
pub struct Line {
    pub name: String,
    pub values: Vec<Option<f64>>,
}

/// A direction at a minute.
pub struct Arrow {
    pub minute: u32,
    /// Where the head points, degrees clockwise from up.
    pub turn: f64,
    /// "-0.1 hPa", "29°".
    pub text: String,
}

impl Picture {
    /// How many minutes are shown, at least one.
    fn minutes(&self) -> usize {
        self.last.saturating_sub(self.first) as usize + 1
    }

    /// The minute that stands `offset` minutes after the first.
    fn minute(&self, offset: usize) -> u32 {
        self.first
            .saturating_add(u32::try_from(offset).unwrap_or(u32::MAX))
    }

    /// The second line of the title: from when to when.
    fn stretch(&self) -> String {
        if self.minutes() == 1 {
            return (self.full)(self.first);
        }
        format!("{} to {}", (self.full)(self.first), (self.full)(self.last))
    }

    /// The stretches of minutes, counted from the first, in which no line of the panel has a value; but for those that stand between
    /// readings which are as far apart as most are.
    fn gaps(&self, panel: &Panel) -> Vec<Range<usize>> {
        let mut gaps = stretches(self.minutes(), |offset| {
            panel.lines.iter().all(|line| line.at(offset).is_none())
        });
        gaps.retain(|gap| gap.len() >= panel.apart);
        gaps
    }

    /// The arrows that point somewhere in the stretch shown, the newest first, with their offsets.
    fn arrows<'a>(&self, panel: &'a Panel) -> Vec<(usize, &'a Arrow)> {
        let shown = |arrow: &&Arrow| {
            arrow.turn.is_finite() && (self.first..=self.last).contains(&arrow.minute)
        };
        let mut arrows: Vec<(usize, &Arrow)> = panel
            .arrows
            .iter()
            .filter(shown)
            .map(|arrow| ((arrow.minute - self.first) as usize, arrow))
            .collect();
        arrows.sort_by_key(|(offset, _)| std::cmp::Reverse(*offset));
        arrows
    }

    /// The gap in full: "no reading from minute 461 to minute 900 (440 minutes)".
    fn gap_in_full(&self, gap: &Range<usize>) -> String {
        let first = (self.full)(self.minute(gap.start));
        if gap.len() == 1 {
            return format!("no reading at {first} (1 minute)");
        }
        let last = (self.full)(self.minute(gap.end - 1));
        format!("no reading from {first} to {last} ({} minutes)", gap.len())
    }

    /// The ends of the gap on the axis: "07:41 to 15:00"; with dates if it lasts a day or longer.
    fn gap_ends(&self, gap: &Range<usize>) -> (String, String) {
        let end = |offset: usize| {
            let minute = self.minute(offset);
            let label = (self.label)(minute);
            match axis::month_and_day(&(self.full)(minute)) {
                Some(day) if gap.len() >= A_DAY => format!("{day} {label}"),
                _ => label,
            }
        };
        (end(gap.start), end(gap.end - 1))
    }
}

impl Panel {
    /// How far most readings are apart, where that is more than a minute.
    fn spacing(&self) -> Option<String> {
        (self.apart > 1).then(|| format!("most readings {} minutes apart", self.apart))
    }
}

impl Line {
    /// The value at a minute, counted from the picture's first.
    fn at(&self, offset: usize) -> Option<f64> {
        let value = self.values.get(offset).copied().flatten();
        value.filter(|v| v.abs() <= LARGEST_VALUE)
    }

    /// The stretches of neighbouring minutes that all have a value: what a curve may join.
    fn runs(&self, minutes: usize) -> Vec<Range<usize>> {
        stretches(minutes, |offset| self.at(offset).is_some())
    }
}

/// The longest stretches of 0..minutes in which all minutes hold, in order.
fn stretches(minutes: usize, holds: impl Fn(usize) -> bool) -> Vec<Range<usize>> {
    let mut found: Vec<Range<usize>> = Vec::new();
    for offset in (0..minutes).filter(|offset| holds(*offset)) {
        match found.last_mut() {
            Some(last) if last.end == offset => last.end += 1,
            _ => found.push(offset..offset + 1),
        }
    }
    found
}

/// "12 gaps", "1 minute": the number with its noun.
fn counted(number: usize, noun: &str) -> String {
    let plural = if number == 1 { "" } else { "s" };
    format!("{number} {noun}{plural}")
}

/// How many minutes the gaps have in all.
fn minutes_in(gaps: &[Range<usize>]) -> usize {
    gaps.iter().map(Range::len).sum()
}
