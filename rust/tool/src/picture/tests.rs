//! Tests of both forms: golden pictures, the rules of gaps, and random pictures that must not panic.

use super::axis::{self, Scale};
use super::*;
use unicode_width::UnicodeWidthStr;

fn time(minute: u32) -> String {
    format!("{:02}:{:02}", minute / 60 % 24, minute % 60)
}

fn time_in_full(minute: u32) -> String {
    format!("2026-11-{:02} {} UTC", 16 + minute / 1440, time(minute))
}

/// A picture with times, minute 0 at midnight.
fn timed(title: &str, first: u32, last: u32, panels: Vec<Panel>) -> Picture {
    Picture {
        title: title.to_string(),
        first,
        last,
        panels,
        label: Box::new(time),
        full: Box::new(time_in_full),
        on_the_hour: Box::new(|minute| minute % 60 == 0),
    }
}

/// The same without times.
fn untimed(title: &str, first: u32, last: u32, panels: Vec<Panel>) -> Picture {
    Picture {
        label: Box::new(|minute| minute.to_string()),
        full: Box::new(|minute| format!("minute {minute}")),
        ..timed(title, first, last, panels)
    }
}

fn line(name: &str, minutes: Range<u32>, value: impl Fn(u32) -> Option<f64>) -> Line {
    let values = minutes.map(value).collect();
    let name = name.to_string();
    Line { name, values }
}

fn panel(name: &str, unit: &'static str, decimals: usize, lines: Vec<Line>) -> Panel {
    Panel {
        name: name.to_string(),
        unit,
        decimals,
        lines,
        arrows: Vec::new(),
        at_least: None,
        apart: 1,
    }
}

fn barometer(minutes: Range<u32>, value: impl Fn(u32) -> Option<f64>) -> Panel {
    let sea_level = line("sea level", minutes, value);
    panel("barometer", "hPa", 1, vec![sea_level])
}

/// The night of the demands: a level line, and no reading from minute 461 to 900.
fn night() -> Picture {
    let heard = |minute: u32| !(461..=900).contains(&minute);
    let level = |minute: u32| heard(minute).then(|| 1004.2 + f64::from(minute - 400) / 400.0);
    let mut panel = barometer(400..1082, level);
    for minute in (421..=1081).step_by(60).filter(|minute| heard(*minute)) {
        let text = "+0.1 hPa".to_string();
        let turn = 80.0;
        panel.arrows.push(Arrow { minute, turn, text });
    }
    timed("Barometer", 400, 1081, vec![panel])
}

fn golden(text: &str) -> String {
    let lines = text.trim_matches('\n').lines();
    lines
        .map(|line| format!("{}\n", line.strip_prefix("    ").unwrap_or(line)))
        .collect()
}

#[test]
fn the_night_is_a_level_line_with_a_gap() {
    let expected = golden(
        "
    Barometer
    2026-11-16 06:40 UTC to 2026-11-16 18:01 UTC
    barometer, hPa
             → +0.1 hPa                                   +0.1 hPa →
    1006.5 ┤
           │
    1006.0 ┤                                                     ⢀⣀⡠
           │                                              ⣀⣠⠤⠴⠒⠚⠉⠉
    1005.5 ┤                                         ⠤⠖⠒⠋⠉
           │                  no reading
    1005.0 ┤
           │
    1004.5 ┤
           │⣀⣀⡤⠴⠒
    1004.0 ┤⠁     ░░░░░░░░░░░░░░░░░░░░░░░░░░░░░░░░░░░
           └──────┬─────────┬─────────┬─────────┬─────────┬────────┬
                08:00     10:00     12:00     14:00     16:00  18:00
    no reading from 2026-11-16 07:41 UTC to 2026-11-16 15:00 UTC
      (440 minutes)
",
    );
    assert_eq!(terminal(&night(), 64, 17, true), expected);
}

#[test]
fn the_night_in_ascii() {
    let expected = golden(
        "
    Barometer
    2026-11-16 06:40 UTC to 2026-11-16 18:01 UTC
    barometer, hPa
             > +0.1 hPa                                   +0.1 hPa >
    1006.5 +
           |
    1006.0 +                                                       *
           |                                              **********
    1005.5 +                                         ******
           |                  no reading
    1005.0 +
           |
    1004.5 +
           |*****
    1004.0 +      ...................................
           +------+---------+---------+---------+---------+--------+
                08:00     10:00     12:00     14:00     16:00  18:00
    no reading from 2026-11-16 07:41 UTC to 2026-11-16 15:00 UTC
      (440 minutes)
",
    );
    assert_eq!(terminal(&night(), 64, 17, false), expected);
}

#[test]
fn two_curves_have_two_marks() {
    let dry = line("dry bulb", 0..120, |m| Some(4.0 + f64::from(m) / 60.0));
    let dew = line("dew point", 0..120, |m| {
        Some(5.0).filter(|_| !(30..50).contains(&m))
    });
    let picture = untimed(
        "Humidity",
        0,
        119,
        vec![panel("air", "°C", 1, vec![dry, dew])],
    );
    let expected = golden(
        "
    Humidity
    minute 0 to minute 119
    air, °C:  ⠒⠒ dry bulb   o dew point   # both
    7.0 ┤
        │
    6.0 ┤                                      ⣀⣀⣀⠤⠤⠒⠒
        │                           ⢀⣀⣀⡠⠤⠤⠒⠒⠊⠉⠉⠁
    5.0 ┤oooooooooooo     ⢀##########ooooooooooooooooo
        │       ⣀⣀⣠⠤⠤⠔⠒⠒⠉⠉⠁
    4.0 ┤⠤⠤⠖⠒⠒⠉⠉
        │
    3.0 ┤
        └┬────┬─────┬─────┬────┬─────┬────┬─────┬─────
         0   15    30    45   60    75   90    105
",
    );
    assert_eq!(terminal(&picture, 50, 14, true), expected);
    let heading = "air, deg C:  * dry bulb   o dew point   # both";
    assert_eq!(
        terminal(&picture, 50, 12, false).lines().nth(2),
        Some(heading)
    );
}

#[test]
fn a_panel_without_a_value_says_so() {
    let picture = untimed("Barometer", 100, 399, vec![barometer(100..400, |_| None)]);
    let expected = golden(
        "
    Barometer
    minute 100 to minute 399
    barometer, hPa
     │
     │                no reading
     │
     │░░░░░░░░░░░░░░░░░░░░░░░░░░░░░░░░░░░░░░░░░░
     └──┬────────┬───────┬────────┬───────┬─────
       120      180     240      300     360
    no reading from minute 100 to minute 399
      (300 minutes)
",
    );
    assert_eq!(terminal(&picture, 44, 9, true), expected);
    let texts = texts(&svg(&picture).unwrap());
    assert_eq!(texts.iter().filter(|text| *text == "no reading").count(), 1);
}

#[test]
fn a_single_minute_is_a_dot() {
    let picture = timed(
        "Barometer",
        1081,
        1081,
        vec![barometer(1081..1082, |_| Some(1005.9))],
    );
    let expected = golden(
        "
    Barometer
    2026-11-16 18:01 UTC
    barometer, hPa
    1007.0 ┤
    1006.5 ┤
    1006.0 ┤                  ⠄
    1005.5 ┤
    1005.0 ┤
    1004.5 ┤
           └──────────────────┬─────────────────
                            18:01
",
    );
    assert_eq!(terminal(&picture, 44, 11, true), expected);
    let svg = svg(&picture).unwrap();
    assert_eq!(curves(&svg, BLUE).len(), 0);
    assert_eq!(dots(&svg, BLUE), 1);
}

#[test]
fn a_missing_minute_breaks_the_curve_of_dots() {
    let mut random = Random(5);
    for _ in 0..50 {
        let mut panel = random.panel(0, 40);
        panel.lines.truncate(1);
        panel.arrows.clear();
        let missing = |offset: &usize| panel.lines[0].at(*offset).is_none();
        let missing: Vec<usize> = (0..40).filter(missing).collect();
        let picture = untimed("", 0, 39, vec![panel]);
        let text = terminal(&picture, 200, 20, true);
        for line in text.lines().filter(|line| line.contains(['│', '┤'])) {
            let signs: Vec<char> = line.chars().collect();
            let margin = 1 + signs.iter().position(|c| "│┤".contains(*c)).unwrap();
            for offset in &missing {
                // The middle of the minute: each takes at least four columns.
                let column = margin + (2 * offset + 1) * (200 - margin) / 80;
                let sign = signs.get(column).unwrap_or(&' ');
                assert!(!('\u{2800}'..='\u{28ff}').contains(sign), "{text}");
            }
        }
    }
}

#[test]
fn at_most_six_gaps_are_named_and_the_others_counted() {
    let value = |minute: u32| (minute % 20 >= 8).then_some(1000.0);
    let picture = untimed("Barometer", 0, 199, vec![barometer(0..200, value)]);
    let text = terminal(&picture, 100, 20, true);
    let list: Vec<&str> = text.lines().filter(|l| l.contains("minutes")).collect();
    assert_eq!(list.len(), 7);
    assert_eq!(list[0], "no reading from minute 0 to minute 7 (8 minutes)");
    assert_eq!(list[6], "and 4 more gaps, 32 minutes in all");
    let value = |minute: u32| (minute != 77).then_some(1000.0);
    let picture = untimed("Barometer", 0, 199, vec![barometer(0..200, value)]);
    let text = terminal(&picture, 60, 20, true);
    assert!(text.ends_with("\n1 gap too narrow to draw, 1 minute in all\n"));
}

#[test]
fn panels_with_different_gaps_name_their_own() {
    let early = barometer(0..200, |minute| (minute > 50).then_some(1000.0));
    let mut late = barometer(0..200, |minute| (minute < 150).then_some(1000.0));
    late.name = "second barometer".to_string();
    let picture = untimed("Barometers", 0, 199, vec![early, late]);
    let text = terminal(&picture, 80, 24, true);
    assert!(text.contains("\nbarometer: no reading from minute 0 to minute 50 (51 minutes)\n"));
    assert!(text
        .contains("\nsecond barometer: no reading from minute 150 to minute 199 (50 minutes)\n"));
}

#[test]
fn the_gap_is_named_in_the_svg() {
    let svg = svg(&night()).unwrap();
    let texts = texts(&svg);
    for text in [
        "Barometer",
        "2026-11-16 06:40 UTC to 2026-11-16 18:01 UTC",
        "no reading 07:41 to 15:00",
        "440 minutes",
    ] {
        assert!(texts.iter().any(|drawn| drawn == text), "{text}");
    }
    let hint = "<title>no reading from 2026-11-16 07:41 UTC to 2026-11-16 15:00 UTC (440 minutes)";
    assert!(svg.contains(hint));
    assert!(svg.starts_with("<svg width=\"960\" height=\"380\" "));
    assert!(svg.contains(" viewBox=\"0 0 9600 3800\" "));
}

#[test]
fn no_curve_crosses_a_gap() {
    let svg = svg(&night()).unwrap();
    let curves = curves(&svg, BLUE);
    assert_eq!(curves.len(), 2);
    assert_eq!(dots(&svg, BLUE), 0);
    let ends: Vec<(f64, f64)> = curves
        .iter()
        .map(|points| (points[0].0, points[points.len() - 1].0))
        .collect();
    // 61 and 181 of 682 minutes have a reading; the blank between is 441 minutes wide.
    let per_minute = (ends[1].1 - ends[1].0) / 180.0;
    assert!(((ends[0].1 - ends[0].0) / per_minute - 60.0).abs() < 0.1);
    assert!(((ends[1].0 - ends[0].1) / per_minute - 441.0).abs() < 0.5);
}

#[test]
fn every_second_minute_is_a_dot() {
    let value = |minute: u32| minute.is_multiple_of(2).then_some(1000.0);
    let picture = untimed("Barometer", 400, 1081, vec![barometer(400..1082, value)]);
    let svg = svg(&picture).unwrap();
    assert_eq!(curves(&svg, BLUE).len(), 0);
    assert_eq!(dots(&svg, BLUE), 341);
    assert!(texts(&svg).contains(&"341 gaps too narrow to name, 341 minutes in all".to_string()));
}

#[test]
fn texts_are_escaped() {
    let mut picture = night();
    picture.title = "<a href=\"x\">'&\u{0}\u{ffff}".to_string();
    picture.panels[0].name = "<script>".to_string();
    picture.full = Box::new(|minute| format!("<&\">{minute}"));
    picture.label = Box::new(|minute| format!("<{minute}>"));
    let svg = svg(&picture).unwrap();
    well_formed(&svg);
    assert!(!svg.contains("<a ") && !svg.contains("<script"));
    assert!(svg.contains("&lt;script&gt;"));
}

#[test]
fn the_same_picture_is_the_same_text() {
    assert_eq!(svg(&night()), svg(&night()));
}

#[test]
fn the_newest_arrows_are_kept() {
    let mut picture = night();
    picture.panels[0].arrows = (400..=1081)
        .map(|minute| Arrow {
            minute,
            turn: f64::from(minute),
            text: format!("{minute}°"),
        })
        .collect();
    let texts = texts(&svg(&picture).unwrap());
    assert!(texts.contains(&"1081°".to_string()) && !texts.contains(&"1080°".to_string()));
    let text = terminal(&picture, 60, 20, true);
    assert!(text.lines().nth(3).unwrap().ends_with("1081° ↑"));
}

#[test]
fn axes_have_three_to_six_round_ticks() {
    let mut random = Random(7);
    for _ in 0..2000 {
        let middle = random.below(4_000_000) as f64 / 1000.0 - 2000.0;
        let span = random.below(100_000) as f64 / 1000.0;
        let mut panel = barometer(0..2, |minute| Some(middle + span * f64::from(minute)));
        panel.decimals = random.below(3) as usize;
        let scale = Scale::of(&panel, 2, 6).unwrap();
        let ticks = scale.ticks();
        assert!((3..=6).contains(&ticks.len()));
        assert!(ticks[0].0 <= middle + 1e-3);
        assert!(ticks[ticks.len() - 1].0 >= middle + span - 1e-3);
        for pair in ticks.windows(2) {
            assert_ne!(pair[0].1, pair[1].1);
        }
    }
}

#[test]
fn a_level_line_gets_two_units_and_a_speed_no_negative_values() {
    let level = Scale::of(&barometer(0..9, |_| Some(1005.9)), 9, 6).unwrap();
    let ticks = level.ticks();
    assert!(ticks[ticks.len() - 1].0 - ticks[0].0 >= 2.0);
    let calm = Scale::of(&barometer(0..9, |_| Some(0.1)), 9, 6).unwrap();
    assert_eq!(calm.ticks()[0].1, "0.0");
    let mut percent = barometer(0..9, |_| Some(50.0));
    percent.decimals = 0;
    percent.at_least = Some((0.0, 100.0));
    let texts: Vec<String> = Scale::of(&percent, 9, 6)
        .unwrap()
        .ticks()
        .into_iter()
        .map(|(_, text)| text)
        .collect();
    assert_eq!(texts, ["0", "20", "40", "60", "80", "100"]);
}

#[test]
fn ticks_stand_on_whole_hours_of_the_clock() {
    for (first, minutes, ahead) in [(0, 600, 17), (1234, 3000, 1439), (5, 20_000, 60)] {
        let mut picture = timed("", first, first + minutes, Vec::new());
        picture.label = Box::new(move |minute| time(minute + ahead));
        picture.full = Box::new(move |minute| time_in_full(minute + ahead));
        picture.on_the_hour = Box::new(move |minute| (minute + ahead) % 60 == 0);
        let per_minute = 860.0 / f64::from(minutes);
        let ticks = axis::time_ticks(&picture, per_minute, |_| 50.0);
        assert!(ticks.len() >= 5);
        for tick in ticks {
            let minute = picture.minute(tick.offset);
            assert!((picture.on_the_hour)(minute));
            let step = if minutes >= 20_000 { 1440 } else { 60 };
            assert_eq!((minute + ahead) % step, 0);
        }
    }
}

#[test]
fn random_pictures_keep_the_rules() {
    let mut random = Random(1);
    for _ in 0..300 {
        let picture = random.picture(1500);
        let columns = random.below(230) as usize;
        let rows = random.below(60) as usize;
        let unicode = random.below(2) == 0;
        check_terminal(
            &terminal(&picture, columns, rows, unicode),
            &picture,
            columns,
            rows,
            unicode,
        );
        let svg = svg(&picture).unwrap();
        well_formed(&svg);
        check_curves(&svg, &picture);
    }
}

#[test]
fn long_pictures_are_drawn() {
    let mut random = Random(3);
    for _ in 0..4 {
        let picture = random.picture(100_000);
        let text = terminal(&picture, 120, 40, true);
        check_terminal(&text, &picture, 120, 40, true);
        well_formed(&svg(&picture).unwrap());
    }
}

/// Every line within its columns and without blanks at its end; the charts within their rows.
fn check_terminal(text: &str, picture: &Picture, columns: usize, rows: usize, unicode: bool) {
    let columns = columns.clamp(40, 200);
    let lines: Vec<&str> = text.lines().collect();
    for line in &lines {
        assert!(line.width() <= columns, "{columns}: {line}");
        assert_eq!(line.trim_end(), *line);
        assert!(unicode || line.is_ascii());
    }
    let is_foot = |line: &&str| {
        let line = line.trim_start();
        line.width() >= 20 && line.chars().all(|c| "└─┬+-".contains(c))
    };
    let foot = lines.iter().rposition(is_foot);
    let least = 6 + 5 * picture.panels.len();
    assert!(foot.unwrap() + 2 <= rows.max(least), "{rows}\n{text}");
}

/// As many curves and dots as the panels have runs of minutes, where each minute can be seen.
fn check_curves(svg: &str, picture: &Picture) {
    let minutes = picture.minutes();
    let lines = || {
        picture
            .panels
            .iter()
            .filter_map(|panel| panel.lines.first())
    };
    let runs: Vec<usize> = lines()
        .flat_map(|line| line.runs(minutes))
        .map(|run| run.len())
        .collect();
    if minutes > 700 {
        return;
    }
    let legends = picture.panels.iter().filter(|p| p.lines.len() > 1).count();
    let joined = runs.iter().filter(|run| **run > 1).count();
    let alone = runs.len() - joined;
    assert_eq!(curves(svg, BLUE).len(), joined + legends);
    assert_eq!(dots(svg, BLUE), alone);
}

const BLUE: &str = "#005AA0";

/// The points of each line of a colour.
fn curves(svg: &str, colour: &str) -> Vec<Vec<(f64, f64)>> {
    let stroke = format!("stroke=\"{colour}\"");
    let lines = svg.lines().filter(|line| line.starts_with("<polyline"));
    lines
        .filter(|line| line.contains(&stroke))
        .map(|line| {
            let points = line.split("points=\"").nth(1).unwrap();
            let points = points.split('"').next().unwrap().split_whitespace();
            points
                .map(|point| {
                    let (x, y) = point.split_once(',').unwrap();
                    (x.parse().unwrap(), y.parse().unwrap())
                })
                .collect()
        })
        .collect()
}

/// How many dots of a colour there are.
fn dots(svg: &str, colour: &str) -> usize {
    let fill = format!("fill=\"{colour}\"");
    svg.lines()
        .filter(|line| line.starts_with("<circle") && line.contains(&fill))
        .count()
}

/// The texts that are drawn.
fn texts(svg: &str) -> Vec<String> {
    svg.split("<text ")
        .skip(1)
        .filter_map(|text| text.split_once('>')?.1.split_once("</text>"))
        .map(|(text, _)| text.trim().to_string())
        .collect()
}

/// Each tag is closed by its own name, and no sign stands where XML would not take it.
fn well_formed(svg: &str) {
    let mut open: Vec<&str> = Vec::new();
    for part in svg.split('<').skip(1) {
        let (tag, text) = part.split_once('>').expect("a tag is closed");
        assert_eq!(tag.matches('"').count() % 2, 0, "{tag}");
        let name = tag.split([' ', '/']).find(|name| !name.is_empty()).unwrap();
        if tag.starts_with('/') {
            assert_eq!(open.pop(), Some(name));
        } else if !tag.ends_with('/') {
            open.push(name);
        }
        assert!(!text.contains('>') && (!open.is_empty() || text.trim().is_empty()));
    }
    assert!(open.is_empty());
    for after in svg.split('&').skip(1) {
        let entity = after.split(';').next().unwrap();
        assert!(["amp", "lt", "gt", "quot", "apos"].contains(&entity));
    }
    assert!(!svg.contains(|c: char| c.is_control() && c != '\n' || c == '\u{ffff}'));
}

/// Numbers that are the same on each run.
struct Random(u64);

impl Random {
    fn below(&mut self, limit: u64) -> u64 {
        self.0 = self
            .0
            .wrapping_mul(6_364_136_223_846_793_005)
            .wrapping_add(1_442_695_040_888_963_407);
        (self.0 >> 33) % limit
    }

    fn text(&mut self) -> String {
        const SIGNS: [char; 12] = [
            'a', 'W', '<', '&', '"', ' ', '°', '\n', '風', '\u{301}', '\u{7}', '0',
        ];
        let letters = self.below(30);
        (0..letters)
            .map(|_| SIGNS[self.below(SIGNS.len() as u64) as usize])
            .collect()
    }

    /// Values with runs and gaps of many lengths, now and then beyond what an axis can show.
    fn line(&mut self, minutes: u32) -> Line {
        let (mut values, density, size) = (Vec::new(), self.below(101), self.below(12) as i32 - 3);
        while values.len() < minutes as usize {
            let longest = [1, 3, 100][self.below(3) as usize];
            let run = 1 + self.below(longest);
            let heard = self.below(100) < density;
            for _ in 0..run {
                let value = (self.below(2001) as f64 - 1000.0) * 10f64.powi(size);
                values.push(Some(value).filter(|_| heard));
            }
        }
        values.truncate(minutes as usize);
        let name = self.text();
        Line { name, values }
    }

    fn panel(&mut self, first: u32, minutes: u32) -> Panel {
        let lines = 1 + self.below(2);
        let arrows = self.below(40);
        Panel {
            apart: 1,
            name: self.text(),
            unit: ["hPa", "%", "m/s", "°C", "mm Hg"][self.below(5) as usize],
            decimals: self.below(9) as usize,
            lines: (0..lines).map(|_| self.line(minutes)).collect(),
            arrows: (0..arrows)
                .map(|_| Arrow {
                    minute: first.saturating_add(self.below(u64::from(minutes) + 3) as u32),
                    turn: self.below(2000) as f64 - 1000.0,
                    text: self.text(),
                })
                .collect(),
            at_least: match self.below(4) {
                0 => Some((0.0, 100.0)),
                1 => Some((5.0, 5.0)),
                _ => None,
            },
        }
    }

    fn picture(&mut self, longest: u64) -> Picture {
        let minutes = 1 + [0, self.below(20), self.below(longest)][self.below(3) as usize] as u32;
        let first = [0, 1081, u32::MAX - minutes][self.below(3) as usize];
        let panels = 1 + self.below(3);
        let panels = (0..panels).map(|_| self.panel(first, minutes)).collect();
        let last = first + (minutes - 1);
        match self.below(3) {
            0 => timed(&self.text(), first, last, panels),
            1 => untimed(&self.text(), first, last, panels),
            _ => {
                let label = self.text();
                Picture {
                    label: Box::new(move |_| label.clone()),
                    on_the_hour: Box::new(|_| false),
                    ..timed(&self.text(), first, last, panels)
                }
            }
        }
    }
}
