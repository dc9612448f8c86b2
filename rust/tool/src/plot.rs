//! What the pictures show: the barometer, the true wind, humidity, each minute as it was when it was heard.

use std::collections::BTreeMap;
use std::path::Path;

use zhitomrak::{Channel, Reading, Store, Unit};

use crate::fault::{fault, Result};
use crate::journal::{Access, Sent};
use crate::minutes::{Clock, Stretch};
use crate::picture::{Arrow, Line, Panel, Picture};
use crate::status::{apart, KEPT};
use crate::watch::Watch;

/// What can be drawn, with the channels that feed it, the first of which says up to when.
pub const SUBJECTS: [(&str, &[Channel]); 4] = [
    ("barometer", &[Channel::Barometer, Channel::Wheelhouse]),
    ("pressure", &[Channel::Barometer, Channel::Wheelhouse]),
    ("wind", &[Channel::ApparentWind, Channel::ShipMotion]),
    (
        "humidity",
        &[Channel::DryBulb, Channel::WetBulb, Channel::Barometer],
    ),
];

/// The longest stretch that is drawn, some seventy days.
const LONGEST: u32 = 100_000;

/// What is drawn of a minute: a value for each line, and an arrow's turn and text.
#[derive(Clone, Default)]
struct Drawn {
    values: [Option<f64>; 3],
    arrow: Option<(f64, String)>,
}

/// What a store says of a minute.
fn drawn(store: &Store, subject: &str, minute: u32) -> Drawn {
    let mut drawn = Drawn::default();
    match subject {
        "barometer" | "pressure" => {
            drawn.values[0] = match subject {
                "pressure" => store
                    .pressure(minute)
                    .ok()
                    .map(|pressure| pressure.hectopascals()),
                _ => match store.reading(Channel::Barometer, minute) {
                    Ok(Reading::Barometer { tenths, .. }) => Some(f64::from(tenths) / 10.0),
                    _ => None,
                },
            };
            if let Ok(tendency) = store.tendency(minute) {
                let change = tendency.change.hectopascals();
                // level for none, steep for 4 hPa and more
                let turn = 90.0 - (change * 15.0).clamp(-60.0, 60.0);
                drawn.arrow = Some((turn, format!("{change:+.1} hPa")));
            }
        }
        "wind" => {
            if let Ok(wind) = store.wind(minute) {
                drawn.values[0] = Some(wind.speed.metres_per_second());
                let from = wind.direction.degrees();
                // a wind is named for where it comes from, and blows the other way
                drawn.arrow =
                    (from > 0).then(|| (f64::from((from + 180) % 360), format!("{from}°")));
            }
        }
        _ => {
            if let Ok(humidity) = store.humidity(minute) {
                drawn.values[0] = Some(f64::from(humidity.relative_humidity));
                drawn.values[2] = Some(humidity.dew_point.celsius());
            }
            if let Ok(Reading::DryBulb(temperature)) = store.reading(Channel::DryBulb, minute) {
                drawn.values[1] = Some(temperature.celsius());
            }
        }
    }
    drawn
}

/// The minutes of a watch, as they were when they were heard, and those that are still kept as they are.
struct Minutes {
    watch: Watch,
    of: BTreeMap<u32, Drawn>,
}

impl Minutes {
    fn read(folder: &Path, subject: &str, channels: &[Channel]) -> Result<Minutes> {
        let mut of = BTreeMap::new();
        let mut heard =
            |store: &Store, sent: &Sent, came_to: std::result::Result<(), zhitomrak::Refused>| {
                let minute = match (sent, came_to) {
                    (Sent::Message { bytes, .. }, Ok(()))
                        if channels.iter().any(|c| c.number() == u32::from(bytes[0])) =>
                    {
                        u32::from_le_bytes([bytes[4], bytes[5], bytes[6], bytes[7]])
                    }
                    (Sent::Entry(entry), Ok(())) => entry.minute,
                    _ => return,
                };
                of.insert(minute, drawn(store, subject, minute));
            };
        let watch = Watch::open_with(folder, Access::Read, &mut heard)?;
        if let Some(newest) = watch.newest(channels[0]) {
            for minute in newest.saturating_sub(KEPT as u32 - 1)..=newest {
                of.insert(minute, drawn(watch.store(), subject, minute));
            }
        }
        Ok(Minutes { watch, of })
    }
}

/// The picture of a subject: over a stretch, or over what is kept.
pub fn picture(folder: &Path, subject: &str, when: Option<&str>) -> Result<Picture> {
    let &(_, channels) = SUBJECTS
        .iter()
        .find(|(name, _)| *name == subject)
        .ok_or_else(|| fault!("`{subject}` cannot be drawn"))?;
    let Minutes { watch, of } = Minutes::read(folder, subject, channels)?;
    let clock = watch.clock();
    let stretch = match (when, watch.newest(channels[0])) {
        (Some(when), _) => clock.stretch(when, watch.newest_of_all())?,
        (None, Some(newest)) => Stretch {
            first: newest.saturating_sub(KEPT as u32 - 1),
            last: newest,
        },
        (None, None) => return Err(fault!("nothing is heard yet that could be drawn")),
    };
    if stretch.last - stretch.first > LONGEST {
        return Err(fault!(
            "that is too long a stretch for a picture: {LONGEST} minutes at the most"
        ));
    }
    let unit = watch
        .store()
        .settings()
        .map(|settings| settings.unit)
        .unwrap_or_default();
    let name = folder
        .file_name()
        .unwrap_or(folder.as_os_str())
        .to_string_lossy()
        .into_owned();
    Ok(drawing(&name, subject, unit, stretch, &of, clock))
}

/// The panels of a subject over a stretch, of the watch of a name.
fn drawing(
    watch: &str,
    subject: &str,
    unit: Unit,
    stretch: Stretch,
    of: &BTreeMap<u32, Drawn>,
    clock: Clock,
) -> Picture {
    let Stretch { first, last } = stretch;
    let line = |name: &str, index: usize| Line {
        name: name.to_string(),
        values: (first..=last)
            .map(|minute| of.get(&minute).and_then(|drawn| drawn.values[index]))
            .collect(),
    };
    let arrows = of
        .range(first..=last)
        .filter(|&(&minute, _)| clock.on_the_hour(minute) || minute == last)
        .filter_map(|(&minute, drawn)| {
            let arrow = drawn.arrow.clone();
            arrow.map(|(turn, text)| Arrow { minute, turn, text })
        })
        .collect();
    let panel = |name: &str, unit, decimals, lines: Vec<Line>, arrows, at_least| {
        let there = |at: usize| lines.iter().any(|line| line.values[at].is_some());
        let apart = apart((0..lines[0].values.len()).map(there));
        Panel {
            name: name.to_string(),
            unit,
            decimals,
            lines,
            arrows,
            at_least,
            apart: apart.unwrap_or(1) as usize,
        }
    };
    let (title, panels) = match subject {
        "barometer" => {
            let unit = match unit {
                Unit::Hectopascals => "hPa",
                Unit::MillimetresOfMercury => "mm Hg",
            };
            let panel = panel("as read", unit, 1, vec![line("barometer", 0)], arrows, None);
            ("barometer", vec![panel])
        }
        "pressure" => {
            let panel = panel(
                "pressure",
                "hPa",
                1,
                vec![line("pressure", 0)],
                arrows,
                None,
            );
            ("pressure at sea level", vec![panel])
        }
        "wind" => {
            let panel = panel(
                "speed",
                "m/s",
                1,
                vec![line("speed", 0)],
                arrows,
                Some((0.0, 5.0)),
            );
            ("true wind", vec![panel])
        }
        _ => {
            let relative = line("relative humidity", 0);
            let relative = panel(
                "relative humidity",
                "%",
                0,
                vec![relative],
                vec![],
                Some((0.0, 100.0)),
            );
            let degrees = vec![line("dry bulb", 1), line("dew point", 2)];
            (
                "humidity",
                vec![
                    relative,
                    panel("temperature", "°C", 1, degrees, vec![], None),
                ],
            )
        }
    };
    Picture {
        title: format!("{watch}: {title}"),
        first,
        last,
        panels,
        label: Box::new(move |minute| clock.label(minute)),
        full: Box::new(move |minute| clock.full(minute)),
        on_the_hour: Box::new(move |minute| clock.on_the_hour(minute)),
    }
}
