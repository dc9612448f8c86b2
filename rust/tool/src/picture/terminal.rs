//! A picture of characters, for the terminal: the curve in braille dots or stars, missing minutes
//! as blank columns with a mark at their foot, and below the charts a list that names the gaps.

use super::axis::{self, Scale, Tick, FEWEST_TICKS, MOST_TICKS};
use super::{counted, minutes_in, Line, Panel, Picture};
use std::ops::Range;
use unicode_width::{UnicodeWidthChar, UnicodeWidthStr};

const FEWEST_COLUMNS: usize = 40;
const MOST_COLUMNS: usize = 200;

/// The rows of a chart: with fewer no axis fits, with more a level line is lost in the blank.
const FEWEST_ROWS: usize = 3;
const MOST_ROWS: usize = 20;

/// The most gaps that the list names.
const MOST_NAMED: usize = 6;

/// What stands in the middle of a gap that is wide enough for it.
const NO_READING: &str = "no reading";

/// The characters that a picture is made of.
struct Ink {
    unicode: bool,
    /// The dots of a cell, across and down.
    dots: (usize, usize),
    /// The sample of the first curve in the legend.
    first: &'static str,
    side: char,
    side_tick: char,
    corner: char,
    foot: char,
    foot_tick: char,
    missing: char,
    cut: &'static str,
    /// From up, clockwise.
    arrows: [char; 8],
}

const UNICODE: Ink = Ink {
    unicode: true,
    dots: (2, 4),
    first: "⠒⠒",
    side: '│',
    side_tick: '┤',
    corner: '└',
    foot: '─',
    foot_tick: '┬',
    missing: '░',
    cut: "…",
    arrows: ['↑', '↗', '→', '↘', '↓', '↙', '←', '↖'],
};

const ASCII: Ink = Ink {
    unicode: false,
    dots: (1, 1),
    first: "*",
    side: '|',
    side_tick: '+',
    corner: '+',
    foot: '-',
    foot_tick: '+',
    missing: '.',
    cut: "~",
    arrows: ['^', '/', '>', '\\', 'v', '/', '<', '\\'],
};

/// The second curve of a panel, and a cell in which both curves stand.
const SECOND: char = 'o';
const BOTH: char = '#';

/// The picture in lines of at most `columns` (40 to 200) and, the list of gaps aside, at most
/// `rows`; fewer rows than three for each chart are taken as those. `unicode` false: ASCII only.
pub fn terminal(picture: &Picture, columns: usize, rows: usize, unicode: bool) -> String {
    let ink = if unicode { &UNICODE } else { &ASCII };
    let sheet = Sheet::of(picture, ink, columns, rows);
    let mut lines = sheet.header.clone();
    for (place, panel) in picture.panels.iter().enumerate() {
        let last = place + 1 == picture.panels.len();
        lines.extend(sheet.panel(panel, last));
    }
    lines.extend(sheet.list_of_gaps());
    lines
        .iter()
        .map(|line| format!("{}\n", line.trim_end()))
        .collect()
}

/// How the picture is laid out: all charts have the same width and about the same height.
struct Sheet<'a> {
    picture: &'a Picture,
    ink: &'a Ink,
    columns: usize,
    header: Vec<String>,
    /// Whether there is room for the lines of arrows.
    arrows: bool,
    /// The columns left of the charts, the axis included.
    margin: usize,
    wide: usize,
    high: usize,
    ticks: Vec<Tick>,
}

impl<'a> Sheet<'a> {
    fn of(picture: &'a Picture, ink: &'a Ink, columns: usize, rows: usize) -> Self {
        let columns = columns.clamp(FEWEST_COLUMNS, MOST_COLUMNS);
        let mut header = vec![cut(&plain(&picture.title, ink), columns, ink)];
        header.extend(wrapped(&plain(&picture.stretch(), ink), columns));
        let charts = picture.panels.len().max(1);
        let with_arrows = picture
            .panels
            .iter()
            .filter(|p| !picture.arrows(p).is_empty());
        let arrow_rows = with_arrows.count();
        // Each chart has its heading and its foot; the hours stand below the last one.
        let free = rows.saturating_sub(header.len() + 2 * charts + 1);
        let arrows = free >= arrow_rows + charts * FEWEST_ROWS;
        let free = if arrows { free - arrow_rows } else { free };
        let high = (free / charts).clamp(FEWEST_ROWS, MOST_ROWS);
        let margin = margin(picture, high);
        let wide = columns - margin;
        let per_minute = wide as f64 / picture.minutes() as f64;
        let ticks = axis::time_ticks(picture, per_minute, |text| {
            plain(text, ink).width() as f64 + 2.0
        });
        Sheet {
            picture,
            ink,
            columns,
            header,
            arrows,
            margin,
            wide,
            high,
            ticks,
        }
    }

    /// Heading, arrows, chart and foot of one panel; the last one has the hours below it.
    fn panel(&self, panel: &Panel, last: bool) -> Vec<String> {
        let chart = Chart::of(self, panel);
        let mut lines = vec![self.heading(panel, chart.crossed())];
        if self.arrows && !self.picture.arrows(panel).is_empty() {
            lines.push(self.arrow_line(panel));
        }
        lines.extend(self.rows(panel, &chart));
        lines.push(self.foot());
        if last {
            lines.push(self.hours());
        }
        lines
    }

    /// The name and the unit, and which curve is which where there are two.
    fn heading(&self, panel: &Panel, crossed: bool) -> String {
        let spacing = panel
            .spacing()
            .map_or(String::new(), |far| format!(", {far}"));
        let mut text = plain(
            &format!("{}, {}{spacing}", panel.name, panel.unit),
            self.ink,
        );
        if let [first, second, ..] = panel.lines.as_slice() {
            let (first, second) = (plain(&first.name, self.ink), plain(&second.name, self.ink));
            text.push_str(&format!(
                ":  {} {first}   {SECOND} {second}",
                self.ink.first
            ));
            if crossed {
                text.push_str(&format!("   {BOTH} both"));
            }
        }
        cut(&text, self.columns, self.ink)
    }

    /// The arrows with their texts: each head at its column, the newest kept first.
    fn arrow_line(&self, panel: &Panel) -> String {
        let mut kept: Vec<(usize, String)> = Vec::new();
        let mut limit = self.columns + 2;
        for (offset, arrow) in self.picture.arrows(panel) {
            let head = self.ink.arrows[eighth(arrow.turn)];
            let text = cut(&plain(&arrow.text, self.ink), self.wide / 2, self.ink);
            let at = self.margin + self.column(offset);
            let width = text.width() + 2;
            let (from, text) = if at + width <= self.columns {
                (at, format!("{head} {text}"))
            } else {
                ((at + 1).saturating_sub(width), format!("{text} {head}"))
            };
            if from + width + 2 <= limit {
                limit = from;
                kept.push((from, text));
            }
        }
        kept.reverse();
        spaced(&kept)
    }

    /// The chart between its axis and the right edge, from above.
    fn rows(&self, panel: &Panel, chart: &Chart) -> Vec<String> {
        let ticks = chart.ticks();
        let texts = self.gap_texts(panel, chart);
        let line = |row: usize| {
            let tick = ticks.iter().find(|(at, _)| *at == row);
            let (text, side) = match tick {
                Some((_, text)) => (text.as_str(), self.ink.side_tick),
                None => ("", self.ink.side),
            };
            let mut cells: Vec<char> = (0..self.wide)
                .map(|column| chart.cell(column, row))
                .collect();
            for (_, from, text) in texts.iter().filter(|(at, _, _)| *at == row) {
                cells.splice(*from..*from + text.len(), text.chars());
            }
            let cells: String = cells.into_iter().collect();
            format!("{text:>width$} {side}{cells}", width = self.margin - 2)
        };
        (0..chart.high).map(line).collect()
    }

    /// "no reading" in the middle of each gap that has the columns for it: row, column and text.
    fn gap_texts(&self, panel: &Panel, chart: &Chart) -> Vec<(usize, usize, &'static str)> {
        let gaps = self.picture.gaps(panel).into_iter();
        gaps.map(|gap| chart.columns(&gap))
            .filter(|columns| columns.len() >= NO_READING.len() + 2)
            .map(|columns| columns.start + (columns.len() - NO_READING.len()) / 2)
            .map(|from| ((chart.high - 1) / 2, from, NO_READING))
            .collect()
    }

    /// The line below a chart, with a mark at each tick.
    fn foot(&self) -> String {
        let mut foot = vec![self.ink.foot; self.wide];
        for tick in &self.ticks {
            foot[self.column(tick.offset)] = self.ink.foot_tick;
        }
        let foot: String = foot.into_iter().collect();
        format!("{:>margin$}{foot}", self.ink.corner, margin = self.margin)
    }

    /// The texts of the ticks, each below its mark; one without room is left out.
    fn hours(&self) -> String {
        let mut kept: Vec<(usize, String)> = Vec::new();
        let mut free = 0;
        for tick in &self.ticks {
            let text = plain(&tick.text, self.ink);
            let at = self.margin + self.column(tick.offset);
            let from = at.saturating_sub(text.width() / 2);
            let from = from.min(self.columns.saturating_sub(text.width()));
            if from >= free && text.width() <= self.columns {
                free = from + text.width() + 1;
                kept.push((from, text));
            }
        }
        spaced(&kept)
    }

    /// The column of the chart in which a minute stands.
    fn column(&self, offset: usize) -> usize {
        place(offset, self.picture.minutes(), self.wide)
    }

    /// The gaps of each panel by name; once, if all panels miss the same minutes.
    fn list_of_gaps(&self) -> Vec<String> {
        let panels = &self.picture.panels;
        let gaps: Vec<_> = panels
            .iter()
            .map(|panel| self.picture.gaps(panel))
            .collect();
        let alike = gaps.windows(2).all(|pair| pair[0] == pair[1]);
        let shown = if alike { 1 } else { panels.len() };
        let mut lines = Vec::new();
        for (panel, gaps) in panels.iter().zip(&gaps).take(shown) {
            let whose = if alike {
                String::new()
            } else {
                format!("{}: ", panel.name)
            };
            for text in self.named(gaps) {
                lines.extend(wrapped(
                    &plain(&format!("{whose}{text}"), self.ink),
                    self.columns,
                ));
            }
        }
        lines
    }

    /// The six longest gaps that are drawn, in order of time, and the number of the others.
    fn named(&self, gaps: &[Range<usize>]) -> Vec<String> {
        let drawn =
            |gap: &Range<usize>| !columns_of(gap, self.picture.minutes(), self.wide).is_empty();
        let mut named: Vec<_> = gaps.iter().filter(|gap| drawn(gap)).cloned().collect();
        named.sort_by_key(|gap| std::cmp::Reverse(gap.len()));
        named.truncate(MOST_NAMED);
        named.sort_by_key(|gap| gap.start);
        let mut texts: Vec<_> = named
            .iter()
            .map(|gap| self.picture.gap_in_full(gap))
            .collect();
        let others = gaps.len() - named.len();
        if others > 0 {
            let minutes = minutes_in(gaps) - minutes_in(&named);
            let minutes = counted(minutes, "minute");
            texts.push(if named.is_empty() {
                format!(
                    "{} too narrow to draw, {minutes} in all",
                    counted(others, "gap")
                )
            } else {
                format!("and {}, {minutes} in all", counted(others, "more gap"))
            });
        }
        texts
    }
}

/// The curves of one panel in dots.
struct Chart<'a> {
    ink: &'a Ink,
    minutes: usize,
    wide: usize,
    high: usize,
    scale: Option<Scale>,
    first: Dots,
    second: Dots,
    /// Whether all minutes of a column lack a value.
    missing: Vec<bool>,
}

impl<'a> Chart<'a> {
    fn of(sheet: &Sheet<'a>, panel: &Panel) -> Self {
        let Sheet { ink, wide, .. } = *sheet;
        let minutes = sheet.picture.minutes();
        let scale = scale(panel, minutes, sheet.high);
        let high = even(sheet.high, scale.as_ref());
        let mut chart = Chart {
            ink,
            minutes,
            wide,
            high,
            scale,
            first: Dots::blank(wide * ink.dots.0, high * ink.dots.1),
            second: Dots::blank(wide, high),
            missing: vec![false; wide],
        };
        if let Some(scale) = &chart.scale {
            for (place, line) in panel.lines.iter().enumerate() {
                let dots = if place == 0 {
                    &mut chart.first
                } else {
                    &mut chart.second
                };
                dots.draw(line, minutes, scale);
            }
        }
        for gap in sheet.picture.gaps(panel) {
            let columns = chart.columns(&gap);
            chart.missing[columns].fill(true);
        }
        chart
    }

    /// The columns that lie whole within a gap; none, if it is too narrow to draw.
    fn columns(&self, gap: &Range<usize>) -> Range<usize> {
        columns_of(gap, self.minutes, self.wide)
    }

    /// The rows of the ticks, with their texts.
    fn ticks(&self) -> Vec<(usize, String)> {
        let Some(scale) = &self.scale else {
            return Vec::new();
        };
        let row = |value: f64| self.first.row(value, scale) / self.ink.dots.1;
        let ticks = scale.ticks().into_iter();
        ticks.map(|(value, text)| (row(value), text)).collect()
    }

    /// The character of a cell: a curve, the mark at the foot of a gap, or a blank.
    fn cell(&self, column: usize, row: usize) -> char {
        let first = self.pattern(column, row);
        match (first, self.second.get(column, row)) {
            (0, true) => SECOND,
            (0, false) if self.missing[column] && row + 1 == self.high => self.ink.missing,
            (0, false) => ' ',
            (_, true) => BOTH,
            (dots, false) if self.ink.unicode => char::from_u32(0x2800 + dots).unwrap_or('*'),
            (_, false) => '*',
        }
    }

    /// The dots of the first curve in a cell, as the bits of a braille character.
    fn pattern(&self, column: usize, row: usize) -> u32 {
        const BITS: [[u32; 4]; 2] = [[0x01, 0x02, 0x04, 0x40], [0x08, 0x10, 0x20, 0x80]];
        let (across, down) = self.ink.dots;
        let mut pattern = 0;
        for (x, y) in (0..across).flat_map(|x| (0..down).map(move |y| (x, y))) {
            if self.first.get(column * across + x, row * down + y) {
                pattern |= BITS[x][y];
            }
        }
        pattern
    }

    /// Whether there is a cell in which both curves stand.
    fn crossed(&self) -> bool {
        (0..self.wide).any(|column| (0..self.high).any(|row| self.cell(column, row) == BOTH))
    }
}

/// A field of dots, row 0 above.
struct Dots {
    wide: usize,
    high: usize,
    set: Vec<bool>,
}

impl Dots {
    fn blank(wide: usize, high: usize) -> Self {
        Dots {
            wide,
            high,
            set: vec![false; wide * high],
        }
    }

    fn get(&self, column: usize, row: usize) -> bool {
        self.set[row * self.wide + column]
    }

    /// The row in which a value stands.
    fn row(&self, value: f64, scale: &Scale) -> usize {
        let from_above = (1.0 - scale.part(value)) * (self.high - 1) as f64;
        (from_above.round() as usize).min(self.high - 1)
    }

    /// Draws a line: in each column from the lowest to the highest of its minutes, and from column
    /// to column only between neighbouring minutes that both have a value.
    fn draw(&mut self, line: &Line, minutes: usize, scale: &Scale) {
        let mut bars: Vec<Option<(usize, usize)>> = vec![None; self.wide];
        let mut before = None;
        for offset in 0..minutes {
            let dot = line
                .at(offset)
                .map(|value| (place(offset, minutes, self.wide), self.row(value, scale)));
            if let Some((column, row)) = dot {
                let (top, bottom) = bars[column].unwrap_or((row, row));
                bars[column] = Some((top.min(row), bottom.max(row)));
            }
            if let (Some(from), Some(to)) = (before, dot) {
                self.join(from, to);
            }
            before = dot;
        }
        for (column, bar) in bars.into_iter().enumerate() {
            if let Some((top, bottom)) = bar {
                self.join((column, top), (column, bottom));
            }
        }
    }

    /// Sets the dots of the straight line from one dot to another, both included.
    fn join(&mut self, from: (usize, usize), to: (usize, usize)) {
        let steps = from.0.abs_diff(to.0).max(from.1.abs_diff(to.1)).max(1);
        let between = |a: usize, b: usize, step: usize| {
            (2 * (a * (steps - step) + b * step) + steps) / (2 * steps)
        };
        for step in 0..=steps {
            let (column, row) = (between(from.0, to.0, step), between(from.1, to.1, step));
            self.set[row * self.wide + column] = true;
        }
    }
}

/// The place among `wide` of the middle of a minute.
fn place(offset: usize, minutes: usize, wide: usize) -> usize {
    ((2 * offset + 1) * wide / (2 * minutes)).min(wide - 1)
}

/// The columns among `wide` that lie whole within a gap.
fn columns_of(gap: &Range<usize>, minutes: usize, wide: usize) -> Range<usize> {
    let from = (gap.start * wide).div_ceil(minutes);
    from..(gap.end * wide / minutes).max(from)
}

/// The value axis of a chart of at most so many rows: the one that gives a unit the most rows.
fn scale(panel: &Panel, minutes: usize, high: usize) -> Option<Scale> {
    let most = MOST_TICKS.min(high as i64).max(FEWEST_TICKS);
    let scales = (FEWEST_TICKS..=most).filter_map(|most| Scale::of(panel, minutes, most));
    let rows_per_unit = |scale: &Scale| even(high, Some(scale)) as f64 / scale.span();
    scales.max_by(|one, other| rows_per_unit(one).total_cmp(&rows_per_unit(other)))
}

/// The most rows, up to `high`, on which the ticks stand evenly.
fn even(high: usize, scale: Option<&Scale>) -> usize {
    let spaces = scale.map_or(1, |scale| scale.ticks().len() - 1);
    high - (high - 1) % spaces
}

/// The columns that the values of all panels need at the left, with a blank and the axis.
fn margin(picture: &Picture, high: usize) -> usize {
    let scales = picture
        .panels
        .iter()
        .filter_map(|panel| scale(panel, picture.minutes(), high));
    let texts = scales.flat_map(|scale| scale.ticks());
    texts.map(|(_, text)| text.len()).max().unwrap_or(0) + 2
}

/// The number of the nearest of the eight directions, 0 for up, clockwise.
fn eighth(turn: f64) -> usize {
    (turn.rem_euclid(360.0) / 45.0).round() as usize % 8
}

/// The texts, each at its column; they come from the left and do not overlap.
fn spaced(texts: &[(usize, String)]) -> String {
    let mut line = String::new();
    for (from, text) in texts {
        let blank = from.saturating_sub(line.width());
        line.push_str(&" ".repeat(blank));
        line.push_str(text);
    }
    line
}

/// The text without control characters; for ASCII also without any other sign.
fn plain(text: &str, ink: &Ink) -> String {
    if ink.unicode {
        return text
            .chars()
            .map(|c| if c.is_control() { ' ' } else { c })
            .collect();
    }
    let text = text.replace("°C", "deg C").replace('°', " deg");
    let ascii = |c: char| match c {
        ' '..='~' => c,
        '\u{2010}'..='\u{2015}' | '\u{2212}' => '-',
        c if c.is_whitespace() || c.is_control() => ' ',
        _ => '?',
    };
    text.chars().map(ascii).collect()
}

/// The text, shortened with a mark if it is wider than `columns`.
fn cut(text: &str, columns: usize, ink: &Ink) -> String {
    if text.width() <= columns {
        return text.to_string();
    }
    let mut short = String::new();
    let mut width = ink.cut.width();
    for c in text.chars() {
        width += c.width().unwrap_or(0);
        if width > columns {
            break;
        }
        short.push(c);
    }
    short + ink.cut
}

/// The text in lines of at most `columns`, broken at blanks where that can be; later lines are
/// set in by two.
fn wrapped(text: &str, columns: usize) -> Vec<String> {
    let mut lines = vec![String::new()];
    let words = text.split(' ').flat_map(|word| pieces(word, columns - 2));
    for word in words.filter(|word| !word.is_empty()) {
        let last = lines.len() - 1;
        let line = &mut lines[last];
        if line.trim().is_empty() {
            line.push_str(&word);
        } else if line.width() + 1 + word.width() <= columns {
            line.push(' ');
            line.push_str(&word);
        } else {
            lines.push(format!("  {word}"));
        }
    }
    lines
}

/// A word in pieces of at most `columns`.
fn pieces(word: &str, columns: usize) -> Vec<String> {
    let mut pieces = vec![String::new()];
    let mut width = 0;
    for c in word.chars() {
        let wide = c.width().unwrap_or(0);
        if width + wide > columns {
            pieces.push(String::new());
            width = 0;
        }
        width += wide;
        let last = pieces.len() - 1;
        pieces[last].push(c);
    }
    pieces
}
