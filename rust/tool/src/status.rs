//! What a watch has: of each instrument the newest minute, the last value, what is kept, and the gaps.

use std::collections::BTreeMap;

use serde_json::{json, Value};
use unicode_width::UnicodeWidthStr;
use zhitomrak::{BulbState, Reading, Refused, Unit};

use crate::answers::time;
use crate::fault::counted;
use crate::hand::{Instrument, INSTRUMENTS};
use crate::minutes::{Clock, Stretch};
use crate::watch::Watch;

/// The minutes that a channel keeps: its newest and the 255 before it.
pub const KEPT: usize = 256;

/// How many gaps are shown where not all are.
const SHOWN: usize = 6;

/// What is there of an instrument.
pub struct State {
    pub newest: u32,
    /// The first minute that could be kept.
    pub from: u32,
    pub present: usize,
    /// How many minutes most readings are apart, where that is more than one.
    pub apart: Option<u32>,
    /// Stretches without a reading from there to the newest.
    pub gaps: Vec<Stretch>,
}

/// Stretches of minutes that are not there, the first minute being `from`.
pub fn gaps(from: u32, there: impl IntoIterator<Item = bool>) -> Vec<Stretch> {
    let mut gaps: Vec<Stretch> = Vec::new();
    for (minute, there) in (from..).zip(there) {
        match gaps.last_mut() {
            _ if there => {}
            Some(gap) if gap.last + 1 == minute => gap.last = minute,
            _ => gaps.push(Stretch {
                first: minute,
                last: minute,
            }),
        }
    }
    gaps
}

/// How many minutes most readings are apart, each being there or not; none where that is one, or they are not.
pub fn apart(there: impl IntoIterator<Item = bool>) -> Option<u32> {
    let minutes: Vec<u32> = (0..)
        .zip(there)
        .filter_map(|(minute, there)| there.then_some(minute))
        .collect();
    let mut counts = BTreeMap::new();
    for pair in minutes.windows(2) {
        *counts.entry(pair[1] - pair[0]).or_insert(0) += 1;
    }
    let (&apart, &count) = counts.iter().rev().max_by_key(|&(_, count)| count)?;
    (apart > 1 && 2 * count > minutes.len()).then_some(apart)
}

/// What is there of an instrument; none where nothing was heard of it.
pub fn state(watch: &Watch, instrument: &Instrument) -> Result<Option<State>, Refused> {
    let Some(newest) = watch.newest(instrument.channel) else {
        return Ok(None);
    };
    let from = newest.saturating_sub(KEPT as u32 - 1);
    let mut minutes = vec![0; (newest - from) as usize + 1];
    watch
        .store()
        .stretch(instrument.channel, from, &mut minutes)?;
    let present = minutes.iter().filter(|&&there| there != 0).count();
    let apart = apart(minutes.iter().map(|&there| there != 0));
    let gaps = gaps(from, minutes.iter().map(|&there| there != 0));
    Ok(Some(State {
        newest,
        from,
        present,
        apart,
        gaps,
    }))
}

fn total(gaps: &[Stretch]) -> u32 {
    gaps.iter().map(|gap| gap.last - gap.first + 1).sum()
}

/// The last value as the library says it.
fn last(watch: &Watch, instrument: &Instrument, newest: u32) -> String {
    match watch.store().reading(instrument.channel, newest) {
        Ok(reading) => reading.to_string(),
        Err(why) => why.to_string(),
    }
}

/// The gaps that are longer than those between readings so many minutes apart.
fn longer(gaps: &[Stretch], apart: u32) -> Vec<Stretch> {
    let is_longer = |gap: &&Stretch| gap.last - gap.first + 1 >= apart;
    gaps.iter().filter(is_longer).copied().collect()
}

/// Gaps by their minutes, and times where they are known, `826 to 900 (13:46 to 15:00), 1003 (16:43)`: all of them, or the newest, and
/// how many there are before.
fn named(gaps: &[Stretch], all: bool, clock: &Clock) -> String {
    let shown = if all {
        gaps.len()
    } else {
        gaps.len().min(SHOWN)
    };
    let (before, shown) = gaps.split_at(gaps.len() - shown);
    let mut words: Vec<String> = Vec::new();
    if !before.is_empty() {
        let count = counted(before.len(), "gap");
        words.push(format!(
            "{count} before, {} in all (--gaps)",
            counted(total(before), "minute")
        ));
    }
    let stretch = |gap: &Stretch, of: &dyn Fn(u32) -> String| match gap.last - gap.first {
        0 => of(gap.first),
        _ => format!("{} to {}", of(gap.first), of(gap.last)),
    };
    words.extend(shown.iter().map(|gap| {
        let minutes = stretch(gap, &|minute| minute.to_string());
        match clock.time(gap.first) {
            Some(_) => format!(
                "{minutes} ({})",
                stretch(gap, &|minute| clock.label(minute))
            ),
            None => minutes,
        }
    }));
    words.join(", ")
}

/// Where the second column begins.
const COLUMN: usize = 24;

/// Words in lines of a width, from the second column on.
fn wrapped(text: &str, width: usize) -> String {
    let mut lines = vec![String::new()];
    for word in text.split(' ') {
        let last = lines.last().map_or(0, |line| line.width());
        match lines.last_mut() {
            Some(line) if line.is_empty() => line.push_str(word),
            Some(line) if COLUMN + last + 1 + word.width() <= width => *line += &format!(" {word}"),
            _ => lines.push(word.to_string()),
        }
    }
    let lines: Vec<String> = lines
        .iter()
        .map(|line| format!("{:COLUMN$}{line}\n", ""))
        .collect();
    lines.concat()
}

/// As a person reads it, in lines of a width.
pub fn in_words(watch: &Watch, all_gaps: bool, width: usize) -> Result<String, Refused> {
    let clock = watch.clock();
    let [heard, refused] = watch.tally();
    let struck = match watch.struck().len() {
        0 => String::new(),
        count => format!(", {count} struck out"),
    };
    let mut text = format!(
        "{} messages and entries came: {heard} heard, {refused} refused{struck}.\n",
        watch.count()
    );
    for instrument in &INSTRUMENTS {
        let Some(state) = state(watch, instrument)? else {
            text += &format!("{:COLUMN$}nothing heard yet\n", instrument.title);
            continue;
        };
        let newest = state.newest;
        let behind = watch.newest_of_all().map_or(0, |last| last - newest);
        let behind = match behind {
            0 => String::new(),
            _ => format!(", {} before the newest of all", counted(behind, "minute")),
        };
        let value = last(watch, instrument, newest);
        let first = wrapped(&format!("{value} at {}{behind}", clock.name(newest)), width);
        text += &format!("{:COLUMN$}{}", instrument.title, &first[COLUMN..]);
        let apart = state.apart.map_or(String::new(), |apart| {
            format!(", most {apart} minutes apart")
        });
        let mut more = format!(
            "{} of {} minutes kept, {} to {newest}{apart}",
            state.present,
            newest - state.from + 1,
            state.from
        );
        let (what, gaps) = match state.apart {
            Some(apart) if !all_gaps => ("longer gaps", longer(&state.gaps, apart)),
            _ => ("no reading", state.gaps),
        };
        if !gaps.is_empty() {
            more += &format!("; {what}: {}", named(&gaps, all_gaps, &clock));
        }
        text += &wrapped(&more, width);
    }
    Ok(text)
}

/// A reading for programs: its text, and its figures with their units in the names.
fn figures(reading: Reading) -> Value {
    let mut object = json!({ "text": reading.to_string() });
    match reading {
        Reading::Barometer { tenths, unit } => {
            let name = match unit {
                Unit::Hectopascals => "pressure_hPa",
                Unit::MillimetresOfMercury => "pressure_mmHg",
            };
            object[name] = json!(f64::from(tenths) / 10.0);
        }
        Reading::Wheelhouse(t) | Reading::DryBulb(t) => {
            object["temperature_C"] = json!(t.celsius())
        }
        Reading::ApparentWind { speed, from_bow } => {
            object["speed_m_s"] = json!(speed.metres_per_second());
            object["from_bow_degrees"] = json!(from_bow.degrees());
        }
        Reading::ShipMotion { speed, course } => {
            object["speed_knots"] = json!(speed.knots());
            object["course_degrees"] = json!(course.degrees());
        }
        Reading::WetBulb { temperature, state } => {
            object["temperature_C"] = json!(temperature.celsius());
            object["state"] = json!(match state {
                BulbState::Water => "water",
                BulbState::Ice => "ice",
                BulbState::Unknown => "unknown",
            });
        }
        _ => {}
    }
    object
}

/// For programs.
pub fn for_programs(watch: &Watch) -> Result<Value, Refused> {
    let clock = watch.clock();
    let mut instruments = Vec::new();
    for instrument in &INSTRUMENTS {
        let mut object = json!({
            "instrument": instrument.name,
            "channel": instrument.channel.number(),
            "newest": null,
            "time": null,
            "last": null,
            "kept_from": null,
            "present": 0,
            "gaps": [],
        });
        if let Some(state) = state(watch, instrument)? {
            object["newest"] = json!(state.newest);
            object["time"] = time(&clock, state.newest);
            object["last"] = figures(watch.store().reading(instrument.channel, state.newest)?);
            object["kept_from"] = json!(state.from);
            object["present"] = json!(state.present);
            object["gaps"] = state
                .gaps
                .iter()
                .map(|gap| json!([gap.first, gap.last]))
                .collect();
        }
        instruments.push(object);
    }
    let [heard, refused] = watch.tally();
    Ok(
        json!({ "messages_and_entries": watch.count(), "heard": heard, "refused": refused, "struck_out": watch.struck().len(), "instruments": instruments }),
    )
}

#[cfg(test)]
mod tests {
    use super::*;

    #[test]
    fn readings_are_apart_by_what_most_of_them_are() {
        let at = |minutes: &[u32]| apart((0..300).map(|minute| minutes.contains(&minute)));
        assert_eq!(at(&[0, 5, 10, 15, 17]), Some(5));
        assert_eq!(at(&[0, 1, 2, 9]), None);
        assert_eq!(at(&[0, 3, 10, 12]), None);
        assert_eq!(at(&[7]), None);
        assert_eq!(at(&[]), None);
        let gaps = gaps(0, [true, false, false, true, false, false, false, true]);
        assert_eq!(longer(&gaps, 3), [Stretch { first: 4, last: 6 }]);
        assert_eq!(named(&gaps, true, &Clock::default()), "1 to 2, 4 to 6");
    }

    #[test]
    fn gaps_are_the_stretches_between() {
        let told = gaps(10, [true, false, false, true, false, true]);
        assert_eq!(
            told,
            [
                Stretch {
                    first: 11,
                    last: 12
                },
                Stretch {
                    first: 14,
                    last: 14
                }
            ]
        );
        assert_eq!(gaps(0, [false, false]), [Stretch { first: 0, last: 1 }]);
        assert!(gaps(5, [true]).is_empty() && gaps(5, []).is_empty());
    }
}
