//! The sheet that an SVG picture is drawn on: lines, blocks and texts, measured in pixels.

use plotters::coord::Shift;
use plotters::prelude::*;
use plotters::style::text_anchor::{HPos, Pos, VPos};
use unicode_width::UnicodeWidthStr;

/// The library draws on whole dots; so many of them are one pixel, that slopes look smooth.
const FINE: f64 = 10.0;

const PAPER: RGBColor = RGBColor(255, 255, 255);
const TEXT: RGBColor = RGBColor(34, 34, 34);
const FAINT_TEXT: RGBColor = RGBColor(85, 85, 85);

pub(super) type Drawn = Result<(), String>;

/// A point of the sheet: to the right and down from its upper left corner.
pub(super) type Point = (f64, f64);

/// The drawing area, in pixels.
pub(super) struct Sheet<'a> {
    area: DrawingArea<SVGBackend<'a>, Shift>,
}

/// How a text is set: black and from its left end, unless it says otherwise.
pub(super) struct Lettering {
    size: f64,
    weight: FontStyle,
    colour: RGBColor,
    end: HPos,
    turn: FontTransform,
}

/// Plain letters of a size.
pub(super) fn letters(size: f64) -> Lettering {
    Lettering {
        size,
        weight: FontStyle::Normal,
        colour: TEXT,
        end: HPos::Left,
        turn: FontTransform::None,
    }
}

impl Lettering {
    pub(super) fn bold(mut self) -> Self {
        self.weight = FontStyle::Bold;
        self
    }

    pub(super) fn faint(mut self) -> Self {
        self.colour = FAINT_TEXT;
        self
    }

    /// The point is the middle of the text.
    pub(super) fn centred(mut self) -> Self {
        self.end = HPos::Center;
        self
    }

    /// The point is the right end of the text.
    pub(super) fn ending(mut self) -> Self {
        self.end = HPos::Right;
        self
    }

    /// The text runs upwards.
    pub(super) fn upwards(mut self) -> Self {
        self.turn = FontTransform::Rotate270;
        self
    }
}

impl Sheet<'_> {
    /// A blank sheet that is written to `text`.
    pub(super) fn blank(text: &mut String, wide: f64, high: f64) -> Result<Sheet<'_>, String> {
        let size = (dots(wide) as u32, dots(high) as u32);
        let area = SVGBackend::with_string(text, size).into_drawing_area();
        let sheet = Sheet { area };
        sheet.block((0.0, 0.0), (wide, high), PAPER)?;
        Ok(sheet)
    }

    /// Nothing more is drawn: the text is complete.
    pub(super) fn complete(&self) -> Drawn {
        self.area.present().map_err(|error| error.to_string())
    }

    /// A filled rectangle between two corners.
    pub(super) fn block(&self, from: Point, to: Point, colour: RGBColor) -> Drawn {
        let element = Rectangle::new([fine(from), fine(to)], colour.filled());
        self.area.draw(&element).map_err(|error| error.to_string())
    }

    /// A line through the points.
    pub(super) fn stroke(&self, points: &[Point], colour: RGBColor, width: f64) -> Drawn {
        let points: Vec<_> = points.iter().map(|point| fine(*point)).collect();
        let style = colour.stroke_width(dots(width) as u32);
        let element = PathElement::new(points, style);
        self.area.draw(&element).map_err(|error| error.to_string())
    }

    /// A filled shape with corners at the points.
    pub(super) fn shape(&self, points: &[Point], colour: RGBColor) -> Drawn {
        let points: Vec<_> = points.iter().map(|point| fine(*point)).collect();
        let element = Polygon::new(points, colour.filled());
        self.area.draw(&element).map_err(|error| error.to_string())
    }

    /// A full circle.
    pub(super) fn dot(&self, middle: Point, radius: f64, colour: RGBColor) -> Drawn {
        let element = Circle::new(fine(middle), dots(radius), colour.filled());
        self.area.draw(&element).map_err(|error| error.to_string())
    }

    /// A ring with paper in it: the mark of a second curve.
    pub(super) fn ring(&self, middle: Point, colour: RGBColor) -> Drawn {
        self.dot(middle, 3.6, colour)?;
        self.dot(middle, 2.2, PAPER)
    }

    /// A text, its middle at the height of the point.
    pub(super) fn text(&self, text: &str, at: Point, how: &Lettering) -> Drawn {
        // The library writes a size that is smaller by this factor.
        let size = how.size * FINE * 1.24;
        let font =
            FontDesc::new(FontFamily::SansSerif, size, how.weight).transform(how.turn.clone());
        let place = Pos::new(how.end, VPos::Center);
        let style = TextStyle::from(font).color(&how.colour).pos(place);
        let drawn = self.area.draw_text(&printable(text), &style, fine(at));
        drawn.map_err(|error| error.to_string())
    }
}

/// A length in the dots of the file.
pub(super) fn dots(length: f64) -> i32 {
    (length * FINE).round() as i32
}

pub(super) fn fine((x, y): Point) -> (i32, i32) {
    (dots(x), dots(y))
}

/// About how wide a text is; no letter of a common sans-serif is much wider on the average.
pub(super) fn width_of(text: &str, size: f64) -> f64 {
    0.6 * size * text.width() as f64
}

/// The text, shortened if it is wider than the room.
pub(super) fn cut(text: &str, size: f64, room: f64) -> String {
    let text = printable(text);
    if width_of(&text, size) <= room {
        return text;
    }
    let letters = (room / (1.2 * size)) as usize;
    text.chars().take(letters).chain(['…']).collect()
}

/// The text without the characters that XML cannot hold.
pub(super) fn printable(text: &str) -> String {
    let unprintable = |c: char| c.is_control() || matches!(c, '\u{fffe}' | '\u{ffff}');
    text.replace(unprintable, " ")
}

/// The text as it stands in XML, also within quotes.
pub(super) fn escaped(text: &str) -> String {
    let text = printable(text).replace('&', "&amp;").replace('<', "&lt;");
    text.replace('>', "&gt;")
        .replace('"', "&quot;")
        .replace('\'', "&apos;")
}
