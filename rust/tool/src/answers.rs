//! Questions and their answers: in words, as the console's line, or for programs.

use serde_json::{json, Value};
use zhitomrak::watchfile::Body;
use zhitomrak::{Channel, Kind, Refused, Speed, Store, Wind};

use crate::minutes::{Clock, Stretch};
use crate::sheet::refusal;

/// What a question came to.
pub type Answer = std::result::Result<Body, Refused>;

/// How an answer is shown.
#[derive(Clone, Copy, Debug, PartialEq, Eq)]
pub enum Form {
    Words,
    Raw,
    Json,
}

/// The questions by their names.
pub const QUESTIONS: [(&str, Kind); 4] = [
    ("pressure", Kind::Pressure),
    ("tendency", Kind::Tendency),
    ("wind", Kind::Wind),
    ("humidity", Kind::Humidity),
];

/// The word for all of them.
pub const ALL: &str = "all";

pub fn question(name: &str) -> Option<Kind> {
    QUESTIONS
        .iter()
        .find(|(known, _)| *known == name)
        .map(|&(_, kind)| kind)
}

fn name(kind: Kind) -> &'static str {
    QUESTIONS[kind.number() as usize - 1].0
}

/// The channel whose newest minute is asked for where no minute is said.
pub fn channel(kind: Kind) -> Channel {
    match kind {
        Kind::Pressure | Kind::Tendency => Channel::Barometer,
        Kind::Wind => Channel::ApparentWind,
        Kind::Humidity => Channel::DryBulb,
    }
}

/// Asks a question.
pub fn ask(store: &Store, kind: Kind, minute: u32) -> Answer {
    Ok(match kind {
        Kind::Pressure => store.pressure(minute)?.into(),
        Kind::Tendency => store.tendency(minute)?.into(),
        Kind::Wind => store.wind(minute)?.into(),
        Kind::Humidity => store.humidity(minute)?.into(),
    })
}

/// The minutes that a channel keeps, by its number.
pub type Kept<'a> = &'a dyn Fn(u32) -> Option<Stretch>;

/// The answer in the form that is wanted, a line.
pub fn show(
    form: Form,
    clock: &Clock,
    kept: Kept,
    kind: Kind,
    minute: u32,
    answer: &Answer,
) -> String {
    match (form, answer) {
        (Form::Words, Ok(body)) => format!("{}: {}", clock.name(minute), in_words(body)),
        (Form::Words, Err(why)) => format!(
            "{}: {}",
            clock.name(minute),
            refused_in_words(clock, kept, minute, *why)
        ),
        (Form::Raw, _) => raw(minute, answer),
        (Form::Json, _) => for_programs(clock, kind, minute, answer).to_string(),
    }
}

/// The library's sentence; of a wind knots and Beaufort too.
pub fn in_words(body: &Body) -> String {
    match body {
        Body::Wind(wind) => wind_in_words(wind),
        body => body.to_string(),
    }
}

/// A refusal's number and the library's sentence, and what helps to see it: the time of another minute than the one asked, what is kept where that minute is
/// not kept any more, where the limits stand.
pub fn refused_in_words(clock: &Clock, kept: Kept, asked: u32, why: Refused) -> String {
    let mut notes = Vec::new();
    if let Refused::MissingReading { minute, .. } | Refused::OutsideCertificate { minute } = why {
        let other = clock.time(minute).filter(|_| minute != asked);
        notes.extend(other.map(|_| clock.full(minute)));
    }
    match why {
        Refused::MissingReading { channel, minute } => {
            let gone = kept(channel).filter(|kept| minute < kept.first);
            notes.extend(gone.map(|kept| format!("kept are {} to {}", kept.first, kept.last)));
        }
        Refused::OutsideLimits => notes.push("`why 7` tells them".into()),
        _ => {}
    }
    match notes[..] {
        [] => refusal(why),
        _ => format!("{} ({})", refusal(why), notes.join("; ")),
    }
}

/// `8.4 m/s from 29° (16.3 knots, Beaufort 5, fresh breeze)`; a calm has nothing beside it.
pub fn wind_in_words(wind: &Wind) -> String {
    if wind.speed.tenths() == 0 {
        return wind.to_string();
    }
    let knots = knots_tenths(wind.speed);
    let (force, name) = beaufort(wind.speed);
    format!(
        "{wind} ({}.{} knots, Beaufort {force}, {name})",
        knots / 10,
        knots % 10
    )
}

/// Tenths of a knot, 1852 metres an hour, to the nearest.
pub fn knots_tenths(speed: Speed) -> u64 {
    (u64::from(speed.tenths()) * 3600 + 926) / 1852
}

/// The Beaufort scale: where each force but the last ends, in tenths of m/s.
const BEAUFORT: [(u32, &str); 13] = [
    (2, "calm"),
    (15, "light air"),
    (33, "light breeze"),
    (54, "gentle breeze"),
    (79, "moderate breeze"),
    (107, "fresh breeze"),
    (138, "strong breeze"),
    (171, "near gale"),
    (207, "gale"),
    (244, "strong gale"),
    (284, "storm"),
    (326, "violent storm"),
    (u32::MAX, "hurricane"),
];

/// The force of a wind by its speed, and its name.
pub fn beaufort(speed: Speed) -> (usize, &'static str) {
    let force = BEAUFORT
        .iter()
        .take_while(|&&(last, _)| last < speed.tenths())
        .count();
    (force, BEAUFORT[force].1)
}

/// The console's line: `T 1081 -1 11`, `refused 11 0 820`.
pub fn raw(minute: u32, answer: &Answer) -> String {
    match answer {
        Ok(Body::Pressure(p)) => format!("P {minute} {}", p.tenths()),
        Ok(Body::Tendency(t)) => format!("T {minute} {} {}", t.change.tenths(), t.absent),
        Ok(Body::Wind(w)) => format!("W {minute} {} {}", w.speed.tenths(), w.direction.degrees()),
        Ok(Body::Humidity(h)) => format!(
            "H {minute} {} {} {} {} {}",
            h.vapour_pressure.hundredths(),
            h.saturation.hundredths(),
            h.deficit.hundredths(),
            h.relative_humidity,
            h.dew_point.tenths()
        ),
        Ok(other) => other.to_string(),
        Err(why) => raw_refusal(*why),
    }
}

/// The console's line of a refusal: its number, and what it also returns.
pub fn raw_refusal(why: Refused) -> String {
    let number = why.number();
    match why {
        Refused::MissingReading { channel, minute } => {
            format!("refused {number} {channel} {minute}")
        }
        Refused::OutsideCertificate { minute } => format!("refused {number} {minute}"),
        Refused::Late { minutes } => format!("refused {number} {minutes}"),
        Refused::BreaksRules { index } => format!("refused {number} {index}"),
        Refused::TooShort { bytes } => format!("refused {number} {bytes}"),
        Refused::Broken { place } => format!("refused {number} at {place}"),
        _ => format!("refused {number}"),
    }
}

/// `2026-11-16T18:01:00Z`, or nothing.
pub fn time(clock: &Clock, minute: u32) -> Value {
    clock.time(minute).map_or(Value::Null, |time| {
        json!(time.format("%Y-%m-%dT%H:%M:%SZ").to_string())
    })
}

/// One object: question, minute, time, and the answer with its units in the names or the refusal with what it also returns; the
/// sentence besides.
pub fn for_programs(clock: &Clock, kind: Kind, minute: u32, answer: &Answer) -> Value {
    let mut object = json!({
        "question": name(kind),
        "minute": minute,
        "time": time(clock, minute),
        "sentence": match answer {
            Ok(body) => body.to_string(),
            Err(why) => why.to_string(),
        },
    });
    match answer {
        Ok(body) => object["answer"] = figures(body),
        Err(why) => object["refused"] = refused(*why),
    }
    object
}

/// The figures of an answer, their units in the names.
fn figures(body: &Body) -> Value {
    match body {
        Body::Pressure(p) => json!({ "pressure_hPa": p.hectopascals() }),
        Body::Tendency(t) => {
            json!({ "change_hPa": t.change.hectopascals(), "absent_minutes": t.absent })
        }
        Body::Wind(w) => json!({
            "speed_m_s": w.speed.metres_per_second(),
            "direction_degrees": w.direction.degrees(),
            "speed_knots": knots_tenths(w.speed) as f64 / 10.0,
            "beaufort": beaufort(w.speed).0,
        }),
        Body::Humidity(h) => json!({
            "vapour_pressure_hPa": h.vapour_pressure.hectopascals(),
            "saturation_hPa": h.saturation.hectopascals(),
            "deficit_hPa": h.deficit.hectopascals(),
            "relative_humidity_percent": h.relative_humidity,
            "dew_point_C": h.dew_point.celsius(),
        }),
        other => json!({ "text": other.to_string() }),
    }
}

/// A refusal's number, with what it also returns.
pub fn refused(why: Refused) -> Value {
    let mut object = json!({ "number": why.number() });
    match why {
        Refused::MissingReading { channel, minute } => {
            object["channel"] = json!(channel);
            object["minute"] = json!(minute);
        }
        Refused::OutsideCertificate { minute } => object["minute"] = json!(minute),
        Refused::Late { minutes } => object["minutes_late"] = json!(minutes),
        Refused::Broken { place } => object["place"] = json!(place),
        _ => {}
    }
    object
}

#[cfg(test)]
mod tests {
    use super::*;
    use zhitomrak::{Direction, Pressure};

    fn wind(tenths: u32, degrees: u32) -> Wind {
        Wind {
            speed: Speed::from_tenths(tenths),
            direction: Direction::from_degrees(degrees),
        }
    }

    #[test]
    fn a_force_begins_where_the_one_before_ends() {
        // the scale of the World Meteorological Organization, in tenths of m/s
        let begins = [0, 3, 16, 34, 55, 80, 108, 139, 172, 208, 245, 285, 327];
        for (force, &first) in begins.iter().enumerate() {
            assert_eq!(beaufort(Speed::from_tenths(first)).0, force);
            if first > 0 {
                assert_eq!(beaufort(Speed::from_tenths(first - 1)).0, force - 1);
            }
        }
        assert_eq!(beaufort(Speed::from_tenths(956)), (12, "hurricane"));
    }

    #[test]
    fn knots_are_the_nearest_tenth() {
        for tenths in 0..=956 {
            let exact = f64::from(tenths) * 360.0 / 185.2;
            let told = knots_tenths(Speed::from_tenths(tenths)) as f64;
            assert!((told - exact).abs() <= 0.5 + 1e-9, "{tenths}");
        }
        assert_eq!(knots_tenths(Speed::from_tenths(84)), 163);
    }

    #[test]
    fn an_answer_has_three_forms() {
        let clock = Clock::new("2026-11-16T00:00:00Z".parse().ok());
        let answer: Answer = Ok(wind(84, 29).into());
        let none = |_| None;
        let words = show(Form::Words, &clock, &none, Kind::Wind, 1080, &answer);
        assert_eq!(words, "minute 1080 (2026-11-16 18:00 UTC): 8.4 m/s from 29° (16.3 knots, Beaufort 5, fresh breeze)");
        assert_eq!(
            show(Form::Raw, &clock, &none, Kind::Wind, 1080, &answer),
            "W 1080 84 29"
        );
        let told: Value =
            serde_json::from_str(&show(Form::Json, &clock, &none, Kind::Wind, 1080, &answer))
                .unwrap();
        assert_eq!(told["answer"]["speed_m_s"], json!(8.4));
        assert_eq!(told["answer"]["beaufort"], json!(5));
        assert_eq!(told["time"], json!("2026-11-16T18:00:00Z"));
        assert_eq!(in_words(&wind(0, 0).into()), "calm");
        let refused: Answer = Err(Refused::MissingReading {
            channel: 0,
            minute: 820,
        });
        let Err(why) = refused else {
            panic!("it is refused")
        };
        let told = "refused 11: the barometer has no reading at minute 820";
        assert_eq!(refused_in_words(&Clock::default(), &none, 1000, why), told);
        let kept = |_| {
            Some(Stretch {
                first: 826,
                last: 1081,
            })
        };
        let told = format!("{told} (2026-11-16 13:40 UTC; kept are 826 to 1081)");
        assert_eq!(refused_in_words(&clock, &kept, 1000, why), told);
        assert_eq!(raw(1000, &refused), "refused 11 0 820");
        let told = for_programs(&Clock::default(), Kind::Tendency, 1000, &refused);
        assert_eq!(
            told["refused"],
            json!({ "number": 11, "channel": 0, "minute": 820 })
        );
        assert_eq!(told["time"], Value::Null);
        assert_eq!(told.get("answer"), None);
        assert_eq!(
            raw(7, &Ok(Pressure::from_tenths(10057).into())),
            "P 7 10057"
        );
    }
}
