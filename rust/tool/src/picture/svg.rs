//! A picture for print, as SVG: the same text for the same picture. Curves join neighbouring
//! minutes only; a gap is a hatched band with its name in it.

use super::axis::{self, Scale, Tick, MOST_TICKS};
use super::sheet::{cut, dots, escaped, fine, letters, printable, width_of, Drawn, Point, Sheet};
use super::{counted, minutes_in, Line, Panel, Picture};
use plotters::style::RGBColor;
use std::collections::{BTreeMap, BTreeSet};
use std::ops::Range;

const WIDTH: f64 = 960.0;
const HEADER: f64 = 72.0;
const PANEL: f64 = 260.0;
const FOOTER: f64 = 48.0;
const EDGE: f64 = 24.0;

/// Within a panel: its heading, its arrows and the distance to the next one.
const HEADING: f64 = 30.0;
const ARROWS: f64 = 40.0;
const BELOW: f64 = 14.0;

/// The narrowest gap that is drawn: its name fits in, turned.
const NARROWEST_BAND: f64 = 14.0;

/// What a gap is called.
const NONE: &str = "no reading";

/// The distance of the slanted lines in a band, and of the marks on a second curve.
const HATCH: f64 = 7.0;
const MARKS: f64 = 56.0;

const ARROW: RGBColor = RGBColor(34, 34, 34);
const FRAME: RGBColor = RGBColor(102, 102, 102);
const GRID: RGBColor = RGBColor(224, 224, 224);
const BAND: RGBColor = RGBColor(245, 243, 239);
const SLANT: RGBColor = RGBColor(190, 184, 174);

/// Blue and vermilion: told apart by the colour-blind, and by the marks in black and white.
const CURVES: [RGBColor; 2] = [RGBColor(0, 90, 160), RGBColor(213, 94, 0)];

const STROKES: [f64; 2] = [1.7, 1.4];

/// The picture as the text of an SVG file.
pub fn svg(picture: &Picture) -> Result<String, String> {
    let height = HEADER + PANEL * picture.panels.len() as f64 + FOOTER;
    let left = left_edge(picture);
    let top = |place: usize| HEADER + PANEL * place as f64;
    let panels = picture.panels.iter().enumerate();
    let charts: Vec<Chart> = panels
        .map(|(place, panel)| Chart::of(picture, panel, left, top(place)))
        .collect();
    let mut text = String::new();
    let sheet = Sheet::blank(&mut text, WIDTH, height)?;
    draw_title(&sheet, picture)?;
    charts.iter().try_for_each(|chart| chart.draw(&sheet))?;
    draw_hours(&sheet, picture, left, height - FOOTER - BELOW)?;
    sheet.complete()?;
    drop(sheet);
    let hints: String = charts.iter().flat_map(Chart::hints).collect();
    Ok(finished(&text, picture, height, &hints))
}

/// The file as drawn, measured in pixels, with a name for those who cannot see it and with the
/// name of each band for the pointer that rests on it.
fn finished(text: &str, picture: &Picture, height: f64, hints: &str) -> String {
    let drawn = format!("width=\"{}\" height=\"{}\"", dots(WIDTH), dots(height));
    let name = escaped(&format!("{}, {}", picture.title, picture.stretch()));
    let size = format!("width=\"{WIDTH}\" height=\"{height}\" role=\"img\" aria-label=\"{name}\" stroke-linejoin=\"round\"");
    let text = text.replacen(&drawn, &size, 1);
    let body = text.trim_end().trim_end_matches("</svg>");
    format!("{body}{hints}</svg>\n")
}

/// The title in bold, and below it from when to when.
fn draw_title(sheet: &Sheet, picture: &Picture) -> Drawn {
    let room = WIDTH - 2.0 * EDGE;
    let title = cut(&picture.title, 20.0, room);
    sheet.text(&title, (EDGE, 26.0), &letters(20.0).bold())?;
    let stretch = cut(&picture.stretch(), 13.0, room);
    sheet.text(&stretch, (EDGE, 49.0), &letters(13.0).faint())
}

/// The hours below the last panel, with the date where a day begins.
fn draw_hours(sheet: &Sheet, picture: &Picture, left: f64, foot: f64) -> Drawn {
    let chart = Across::of(picture, left);
    let mut free = f64::NEG_INFINITY;
    for tick in chart.ticks(picture) {
        let x = chart.x(tick.offset);
        let width = width_of(&tick.text, 12.0);
        let middle = x.min(WIDTH - 2.0 - width / 2.0).max(width / 2.0);
        if middle - width / 2.0 < free {
            continue;
        }
        free = middle + width / 2.0 + 4.0;
        sheet.text(&tick.text, (middle, foot + 18.0), &letters(12.0).centred())?;
        if let Some(date) = &tick.date {
            sheet.text(
                date,
                (middle, foot + 34.0),
                &letters(11.0).faint().centred(),
            )?;
        }
    }
    Ok(())
}

/// Where the minutes stand across the sheet: the same for all panels.
#[derive(Clone, Copy)]
struct Across {
    left: f64,
    right: f64,
    per_minute: f64,
}

impl Across {
    fn of(picture: &Picture, left: f64) -> Self {
        let right = WIDTH - EDGE;
        Across {
            left,
            right,
            per_minute: (right - left) / picture.minutes() as f64,
        }
    }

    /// The middle of a minute.
    fn x(&self, offset: usize) -> f64 {
        self.left + (offset as f64 + 0.5) * self.per_minute
    }

    /// From the end of the minute before a gap to the start of the one after it.
    fn band(&self, gap: &Range<usize>) -> (f64, f64) {
        let edge = |offset: usize| self.left + offset as f64 * self.per_minute;
        (edge(gap.start), edge(gap.end))
    }

    fn ticks(&self, picture: &Picture) -> Vec<Tick> {
        axis::time_ticks(picture, self.per_minute, |text| width_of(text, 12.0) + 18.0)
    }
}

/// The left edge of all charts: the values of each panel have room beside it.
fn left_edge(picture: &Picture) -> f64 {
    let scales = picture
        .panels
        .iter()
        .filter_map(|p| Scale::of(p, picture.minutes(), MOST_TICKS));
    let texts = scales.flat_map(|scale| scale.ticks());
    let widest = texts
        .map(|(_, text)| width_of(&text, 12.0))
        .fold(0.0, f64::max);
    (widest + EDGE + 10.0).max(EDGE + 44.0)
}

/// One panel on the sheet.
struct Chart<'a> {
    picture: &'a Picture,
    panel: &'a Panel,
    across: Across,
    scale: Option<Scale>,
    /// The top of the panel, and the top and foot of its frame.
    heading: f64,
    top: f64,
    foot: f64,
}

impl<'a> Chart<'a> {
    fn of(picture: &'a Picture, panel: &'a Panel, left: f64, heading: f64) -> Self {
        let arrows = if picture.arrows(panel).is_empty() {
            0.0
        } else {
            ARROWS
        };
        Chart {
            picture,
            panel,
            across: Across::of(picture, left),
            scale: Scale::of(panel, picture.minutes(), MOST_TICKS),
            heading,
            top: heading + HEADING + arrows,
            foot: heading + PANEL - BELOW,
        }
    }

    /// The panel from the ground upwards: grid, bands, frame, curves, texts. No grid shows through a
    /// band: nothing was measured there.
    fn draw(&self, sheet: &Sheet) -> Drawn {
        self.values(sheet)?;
        self.times(sheet)?;
        self.bands(sheet)?;
        self.frame(sheet)?;
        for (place, line) in self.panel.lines.iter().enumerate() {
            self.curve(sheet, line, place)?;
        }
        self.names(sheet)?;
        self.title(sheet)?;
        self.arrows(sheet)
    }

    /// The height at which a value stands.
    fn y(&self, part: f64) -> f64 {
        self.foot - part * (self.foot - self.top)
    }

    /// The gaps that are wide enough to be drawn, and the others.
    fn gaps(&self) -> (Vec<Range<usize>>, Vec<Range<usize>>) {
        let gaps = self.picture.gaps(self.panel).into_iter();
        gaps.partition(|gap| gap.len() as f64 * self.across.per_minute >= NARROWEST_BAND)
    }

    /// The bands of the gaps: a ground of their own, and slanted lines on it.
    fn bands(&self, sheet: &Sheet) -> Drawn {
        for gap in self.gaps().0 {
            let (from, to) = self.across.band(&gap);
            sheet.block((from, self.top), (to, self.foot), BAND)?;
            for line in slants((from, self.top), (to, self.foot)) {
                sheet.stroke(&line, SLANT, 0.8)?;
            }
            for x in [from, to] {
                sheet.stroke(&[(x, self.top), (x, self.foot)], SLANT, 0.8)?;
            }
        }
        Ok(())
    }

    /// The value axis with its grid.
    fn values(&self, sheet: &Sheet) -> Drawn {
        let Across { left, right, .. } = self.across;
        if let Some(scale) = &self.scale {
            for (value, text) in scale.ticks() {
                let y = self.y(scale.part(value));
                sheet.stroke(&[(left, y), (right, y)], GRID, 1.0)?;
                sheet.stroke(&[(left - 4.0, y), (left, y)], FRAME, 1.0)?;
                sheet.text(&text, (left - 8.0, y), &letters(12.0).ending())?;
            }
        }
        Ok(())
    }

    /// The lines of the hours that have a text, and a mark at each other hour.
    fn times(&self, sheet: &Sheet) -> Drawn {
        let mark = |offset: usize, length: f64| {
            let x = self.across.x(offset);
            sheet.stroke(&[(x, self.foot), (x, self.foot + length)], FRAME, 1.0)
        };
        for tick in self.across.ticks(self.picture) {
            let x = self.across.x(tick.offset);
            sheet.stroke(&[(x, self.top), (x, self.foot)], GRID, 1.0)?;
            mark(tick.offset, 6.0)?;
        }
        if self.across.per_minute * 60.0 >= 5.0 {
            for offset in axis::hours(self.picture) {
                mark(offset, 3.0)?;
            }
        }
        Ok(())
    }

    fn frame(&self, sheet: &Sheet) -> Drawn {
        let Across { left, right, .. } = self.across;
        let (top, foot) = (self.top, self.foot);
        let corners = [
            (left, top),
            (right, top),
            (right, foot),
            (left, foot),
            (left, top),
        ];
        sheet.stroke(&corners, FRAME, 1.0)
    }

    /// A line: through each run of neighbouring minutes, a dot for a minute that stands alone. A
    /// run too short to be seen as a line gets dots as well.
    fn curve(&self, sheet: &Sheet, line: &Line, place: usize) -> Drawn {
        let colour = CURVES[place.min(1)];
        let mut dots = BTreeMap::new();
        for run in line.runs(self.picture.minutes()) {
            let points = self.points(line, run);
            let (wide, high) = extent(&points);
            if wide < 1.0 {
                // Dots that fall on the same pixel are drawn once.
                let pixel = |(x, y): Point| (x.round() as i64, y.round() as i64);
                dots.extend(points.iter().map(|point| (pixel(*point), *point)));
            }
            if wide >= 1.0 || high >= 2.0 {
                sheet.stroke(&points, colour, STROKES[place.min(1)])?;
            }
        }
        let radius = (self.across.per_minute * 0.8).clamp(1.2, 3.0);
        dots.values()
            .try_for_each(|dot| sheet.dot(*dot, radius, colour))?;
        let rings = if place == 0 {
            Vec::new()
        } else {
            self.marks(line)
        };
        rings.iter().try_for_each(|at| sheet.ring(*at, colour))
    }

    /// The points of a run that can be told apart: of the minutes of one pixel the first, the
    /// lowest, the highest and the last.
    fn points(&self, line: &Line, run: Range<usize>) -> Vec<Point> {
        let points: Vec<Point> = run.filter_map(|offset| self.point(line, offset)).collect();
        let pixels = points.chunk_by(|one, other| one.0.floor() == other.0.floor());
        pixels.flat_map(extremes).collect()
    }

    fn point(&self, line: &Line, offset: usize) -> Option<Point> {
        let scale = self.scale.as_ref()?;
        let value = line.at(offset)?;
        Some((self.across.x(offset), self.y(scale.part(value))))
    }

    /// Where the second curve carries its rings: on readings, never closer than `MARKS`.
    fn marks(&self, line: &Line) -> Vec<Point> {
        let mut marks: Vec<Point> = Vec::new();
        let mut next = self.across.left + MARKS / 4.0;
        for point in (0..self.picture.minutes()).filter_map(|offset| self.point(line, offset)) {
            if point.0 >= next {
                next = point.0 + MARKS;
                marks.push(point);
            }
        }
        marks
    }

    /// The name of each band in it, and "no reading" where the panel has no value at all.
    fn names(&self, sheet: &Sheet) -> Drawn {
        for gap in self.gaps().0 {
            let (from, to) = self.across.band(&gap);
            let (wide, high) = (to - from, self.foot - self.top);
            let whole = gap.len() == self.picture.minutes();
            let ways = if whole {
                vec![Way::of(false, 16.0, &[NONE])]
            } else {
                self.ways(&gap)
            };
            if let Some(way) = ways.iter().find(|way| way.fits(wide, high)) {
                way.draw(sheet, ((from + to) / 2.0, (self.top + self.foot) / 2.0))?;
            }
        }
        Ok(())
    }

    /// The ways to write the name of a gap, the best first.
    fn ways(&self, gap: &Range<usize>) -> Vec<Way> {
        let (first, last) = self.picture.gap_ends(gap);
        let minutes = counted(gap.len(), "minute");
        let to_last = format!("to {last}");
        let (ends, narrow) = if gap.len() == 1 {
            (first.clone(), vec![NONE, &first, &minutes])
        } else {
            let narrow = vec![NONE, &first, &to_last, &minutes];
            (format!("{first} {to_last}"), narrow)
        };
        let name = format!("{NONE} {ends}");
        let level = |size: f64, lines: &[&str]| Way::of(false, size, lines);
        let turned = |lines: &[&str]| Way::of(true, 11.0, lines);
        vec![
            level(12.0, &[&name, &minutes]),
            level(12.0, &[NONE, &ends, &minutes]),
            level(11.0, &narrow),
            turned(&[&name, &minutes]),
            turned(&[&name]),
            turned(&[NONE, &ends]),
            turned(&[&ends]),
            turned(&[NONE]),
        ]
    }

    /// The name with its unit, the legend of two curves, and at the right how far readings are apart
    /// and the number of gaps that are too narrow for a band.
    fn title(&self, sheet: &Sheet) -> Drawn {
        let y = self.heading + 9.0;
        let name = format!("{}, {}", self.panel.name, self.panel.unit);
        let name = cut(&name, 13.0, WIDTH / 3.0);
        sheet.text(&name, (EDGE, y), &letters(13.0).bold())?;
        self.legend(sheet, (EDGE + 1.1 * width_of(&name, 13.0) + 24.0, y))?;
        let mut notes = Vec::from_iter(self.panel.spacing());
        let narrow = self.gaps().1;
        if !narrow.is_empty() {
            let gaps = counted(narrow.len(), "gap");
            let minutes = counted(minutes_in(&narrow), "minute");
            notes.push(format!("{gaps} too narrow to name, {minutes} in all"));
        }
        if notes.is_empty() {
            return Ok(());
        }
        sheet.text(
            &notes.join("; "),
            (self.across.right, y),
            &letters(11.0).faint().ending(),
        )
    }

    /// A sample of each curve with its name, if there are two.
    fn legend(&self, sheet: &Sheet, (mut x, y): Point) -> Drawn {
        if self.panel.lines.len() < 2 {
            return Ok(());
        }
        for (place, line) in self.panel.lines.iter().enumerate() {
            let colour = CURVES[place.min(1)];
            sheet.stroke(&[(x, y), (x + 28.0, y)], colour, STROKES[place.min(1)])?;
            if place > 0 {
                sheet.ring((x + 14.0, y), colour)?;
            }
            let name = cut(&line.name, 12.0, WIDTH / 7.0);
            sheet.text(&name, (x + 35.0, y), &letters(12.0))?;
            x += 35.0 + width_of(&name, 12.0) + 20.0;
        }
        Ok(())
    }

    /// The arrows above the frame, the newest first; one whose text has no room is left out.
    fn arrows(&self, sheet: &Sheet) -> Drawn {
        let mut limit = f64::INFINITY;
        for (offset, arrow) in self.picture.arrows(self.panel) {
            let text = cut(&arrow.text, 11.0, WIDTH / 4.0);
            let width = width_of(&text, 11.0).max(18.0);
            let x = self.across.x(offset);
            let least = self.across.left + width / 2.0;
            let middle = x.min(WIDTH - 4.0 - width / 2.0).max(least);
            if middle + width / 2.0 > limit {
                continue;
            }
            limit = middle - width / 2.0 - 8.0;
            draw_arrow(sheet, (x, self.top - 30.0), arrow.turn)?;
            sheet.text(&text, (middle, self.top - 11.0), &letters(11.0).centred())?;
            sheet.stroke(&[(x, self.top - 4.0), (x, self.top)], FRAME, 1.0)?;
        }
        Ok(())
    }

    /// For each band a pane that says its name in full when the pointer rests on it.
    fn hints(&self) -> Vec<String> {
        let hint = |gap: Range<usize>| {
            let (from, to) = self.across.band(&gap);
            let ((x, y), (right, foot)) = (fine((from, self.top)), fine((to, self.foot)));
            let name = escaped(&self.picture.gap_in_full(&gap));
            format!(
                "<rect x=\"{x}\" y=\"{y}\" width=\"{}\" height=\"{}\" fill-opacity=\"0\" stroke=\"none\"><title>{name}</title></rect>\n",
                right - x,
                foot - y
            )
        };
        self.gaps().0.into_iter().map(hint).collect()
    }
}

/// A way to write the name of a gap: lines below each other, or turned and beside each other.
struct Way {
    turned: bool,
    size: f64,
    lines: Vec<String>,
}

impl Way {
    fn of(turned: bool, size: f64, lines: &[&str]) -> Self {
        let lines = lines.iter().map(|line| printable(line)).collect();
        Way {
            turned,
            size,
            lines,
        }
    }

    /// Along the lines and across them.
    fn size(&self) -> (f64, f64) {
        let widths = self.lines.iter().map(|line| width_of(line, self.size));
        let across = self.lines.len() as f64 * self.size * 1.3 - 2.0;
        (widths.fold(0.0, f64::max) + 8.0, across)
    }

    fn fits(&self, wide: f64, high: f64) -> bool {
        let (along, across) = self.size();
        let (needed_wide, needed_high) = if self.turned {
            (across, along)
        } else {
            (along, across)
        };
        needed_wide <= wide && needed_high <= high
    }

    /// The lines on a ground of their own, so that the band does not cross the letters.
    fn draw(&self, sheet: &Sheet, (x, y): Point) -> Drawn {
        let (along, across) = self.size();
        let (wide, high) = if self.turned {
            (across, along)
        } else {
            (along, across + 6.0)
        };
        let (wide, high) = (wide / 2.0, high / 2.0);
        sheet.block((x - wide, y - high), (x + wide, y + high), BAND)?;
        let how = letters(self.size).centred();
        let how = if self.turned { how.upwards() } else { how };
        for (place, line) in self.lines.iter().enumerate() {
            let by = (place as f64 - (self.lines.len() - 1) as f64 / 2.0) * self.size * 1.3;
            let at = if self.turned {
                (x + by, y)
            } else {
                (x, y + by)
            };
            sheet.text(line, at, &how)?;
        }
        Ok(())
    }
}

/// An arrow whose middle is at the point, turned clockwise from up.
fn draw_arrow(sheet: &Sheet, (x, y): Point, turn: f64) -> Drawn {
    let (sine, cosine) = turn.rem_euclid(360.0).to_radians().sin_cos();
    let turned = |(right, down): Point| {
        (
            x + right * cosine - down * sine,
            y + right * sine + down * cosine,
        )
    };
    let head = [(0.0, -9.0), (4.5, 0.5), (0.0, -1.5), (-4.5, 0.5)].map(turned);
    sheet.stroke(&[(0.0, -2.0), (0.0, 9.0)].map(turned), ARROW, 1.6)?;
    sheet.shape(&head, ARROW)
}

/// How far points reach across and down.
fn extent(points: &[Point]) -> Point {
    let reach = |of: fn(&Point) -> f64| {
        let low = points.iter().map(of).fold(f64::INFINITY, f64::min);
        let high = points.iter().map(of).fold(f64::NEG_INFINITY, f64::max);
        high - low
    };
    (reach(|point| point.0), reach(|point| point.1))
}

/// The first, the lowest, the highest and the last of points, in their order, each once.
fn extremes(points: &[Point]) -> Vec<Point> {
    let by_height = |one: &usize, other: &usize| points[*one].1.total_cmp(&points[*other].1);
    let lowest = (0..points.len()).min_by(by_height);
    let highest = (0..points.len()).max_by(by_height);
    let all = [Some(0), lowest, highest, points.len().checked_sub(1)];
    let kept: BTreeSet<usize> = all.into_iter().flatten().collect();
    kept.into_iter().map(|place| points[place]).collect()
}

/// The slanted lines of a band, cut off at its edges; those of neighbouring bands are in line.
fn slants((left, top): Point, (right, foot): Point) -> Vec<[Point; 2]> {
    let first = ((left + top) / HATCH).ceil() as i64;
    let last = ((right + foot) / HATCH).floor() as i64;
    let line = |number: i64| {
        let sum = number as f64 * HATCH;
        let (from, to) = ((sum - foot).max(left), (sum - top).min(right));
        [(from, sum - from), (to, sum - to)]
    };
    (first..=last).map(line).collect()
}
