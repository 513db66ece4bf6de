//! Shapes and texts of a picture, and its text as SVG. Lengths are pixels at the picture's own width.
use std::fmt::Write;

pub const WHITE: &str = "#ffffff";
pub const GROUND: &str = "#f6f7f9";
pub const DARK: &str = "#22272e";
pub const GREY: &str = "#6a737d";
pub const PALE: &str = "#d5dae0";
pub const RED: &str = "#b3261e";
pub const BLUE: &str = "#4f7096";
pub const FAINT: &str = "#b4c1cf";
pub const LIGHT_BLUE: &str = "#e6eff9";
pub const LIGHT_YELLOW: &str = "#fdf3d3";
pub const LIGHT_GREEN: &str = "#e3f3e4";
pub const LIGHT_RED: &str = "#fbe9e7";

const SANS: &str = "DejaVu Sans, Verdana, sans-serif";
const MONO: &str = "DejaVu Sans Mono, Menlo, Consolas, monospace";

#[derive(Clone, Copy, PartialEq, Debug)]
pub struct Rect {
    pub x: f64,
    pub y: f64,
    pub w: f64,
    pub h: f64,
}

impl Rect {
    pub fn new(x: f64, y: f64, w: f64, h: f64) -> Rect {
        Rect { x, y, w, h }
    }

    pub fn right(&self) -> f64 {
        self.x + self.w
    }

    pub fn bottom(&self) -> f64 {
        self.y + self.h
    }

    pub fn middle(&self) -> (f64, f64) {
        (self.x + self.w / 2.0, self.y + self.h / 2.0)
    }

    /// The least rectangle around both.
    pub fn around(&self, other: &Rect) -> Rect {
        let (x, y) = (self.x.min(other.x), self.y.min(other.y));
        let right = self.right().max(other.right());
        let bottom = self.bottom().max(other.bottom());
        Rect::new(x, y, right - x, bottom - y)
    }
}

/// How a text is set.
#[derive(Clone, Copy)]
pub struct Font {
    pub size: f64,
    pub colour: &'static str,
    pub anchor: &'static str,
    pub mono: bool,
    pub bold: bool,
}

pub const TEXT: Font = Font {
    size: 12.0,
    colour: DARK,
    anchor: "start",
    mono: false,
    bold: false,
};

impl Font {
    pub fn size(self, size: f64) -> Font {
        Font { size, ..self }
    }

    pub fn colour(self, colour: &'static str) -> Font {
        Font { colour, ..self }
    }

    pub fn middle(self) -> Font {
        let anchor = "middle";
        Font { anchor, ..self }
    }

    pub fn mono(self) -> Font {
        Font { mono: true, ..self }
    }

    pub fn bold(self) -> Font {
        Font { bold: true, ..self }
    }
}

pub struct Svg {
    width: f64,
    height: f64,
    body: String,
}

impl Svg {
    pub fn new(width: f64, height: f64) -> Svg {
        let body = String::new();
        Svg {
            width,
            height,
            body,
        }
    }

    /// A rectangle; `style` holds further attributes.
    pub fn rect(&mut self, r: Rect, fill: &str, stroke: &str, style: &str) {
        let Rect { x, y, w, h } = r;
        writeln!(
            self.body,
            r#"<rect x="{x}" y="{y}" width="{w}" height="{h}" fill="{fill}" stroke="{stroke}" {style}/>"#
        )
        .unwrap();
    }

    pub fn circle(&mut self, (x, y): (f64, f64), r: f64, fill: &str, stroke: &str, width: f64) {
        writeln!(
            self.body,
            r#"<circle cx="{x}" cy="{y}" r="{r}" fill="{fill}" stroke="{stroke}" stroke-width="{width}"/>"#
        )
        .unwrap();
    }

    /// A line through points; `style` holds further attributes.
    pub fn line(&mut self, points: &[(f64, f64)], stroke: &str, style: &str) {
        let points: Vec<String> = points
            .iter()
            .map(|(x, y)| format!("{},{}", rounded(*x), rounded(*y)))
            .collect();
        writeln!(
            self.body,
            r#"<polyline points="{}" fill="none" stroke="{stroke}" {style}/>"#,
            points.join(" ")
        )
        .unwrap();
    }

    /// A line whose last point is the tip of an arrow.
    pub fn arrow(&mut self, points: &[(f64, f64)], stroke: &str, width: f64) {
        let &[.., (x0, y0), (x1, y1)] = points else {
            panic!("an arrow has two points")
        };
        let (length, half) = (6.5, 2.6);
        let size = (x1 - x0).hypot(y1 - y0);
        let (dx, dy) = ((x1 - x0) / size, (y1 - y0) / size);
        let (bx, by) = (x1 - length * dx, y1 - length * dy);
        let mut shaft = points.to_vec();
        *shaft.last_mut().unwrap() = (bx, by);
        self.line(&shaft, stroke, &format!(r#"stroke-width="{width}""#));
        let [a, b, c, d] = [
            bx - half * dy,
            by + half * dx,
            bx + half * dy,
            by - half * dx,
        ]
        .map(rounded);
        let (x1, y1) = (rounded(x1), rounded(y1));
        writeln!(
            self.body,
            r#"<polygon points="{x1},{y1} {a},{b} {c},{d}" fill="{stroke}"/>"#
        )
        .unwrap();
    }

    pub fn text(&mut self, (x, y): (f64, f64), font: Font, text: &str) {
        let family = if font.mono { MONO } else { SANS };
        let weight = if font.bold {
            r#" font-weight="bold""#
        } else {
            ""
        };
        let Font {
            size,
            colour,
            anchor,
            ..
        } = font;
        let text = text.replace('&', "&amp;").replace('<', "&lt;");
        writeln!(
            self.body,
            r#"<text x="{x}" y="{y}" font-family="{family}" font-size="{size}" fill="{colour}" text-anchor="{anchor}"{weight}>{text}</text>"#
        )
        .unwrap();
    }

    /// Lines of text one below the other, `step` apart.
    pub fn lines(&mut self, (x, y): (f64, f64), font: Font, step: f64, text: &[&str]) {
        for (i, line) in text.iter().enumerate() {
            self.text((x, y + step * i as f64), font, line);
        }
    }

    /// The picture on a white ground.
    pub fn finish(self, title: &str) -> String {
        let Svg {
            width,
            height,
            body,
        } = self;
        format!(
            r##"<svg xmlns="http://www.w3.org/2000/svg" width="{width}" height="{height}" viewBox="0 0 {width} {height}" role="img">
<title>{title}</title>
<rect x="0" y="0" width="{width}" height="{height}" fill="{WHITE}"/>
{body}</svg>
"##
        )
    }
}

/// To a tenth of a pixel, so that the text is short and the same everywhere.
fn rounded(x: f64) -> f64 {
    (x * 10.0).round() / 10.0
}
