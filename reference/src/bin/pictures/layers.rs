//! The picture of the crates: each stands above all crates that it uses. What uses what is read from crates.txt and from the sources, and
//! compared with what is drawn.
use crate::places::{
    area, place, top, Below, Kind, Library, NoCode, Place, Program, Turn, BENT, BOX_HEIGHT, CASES,
    COLUMN, DOWN, LEFT, PARTS, PLACES, STRAIGHT, X,
};
use crate::svg::{Rect, Svg, DARK, GREY, GROUND, PALE, TEXT};
use std::collections::{BTreeMap, BTreeSet};
use std::{fs, path::Path};

const WIDTH: f64 = 960.0;
const HEIGHT: f64 = 956.0;

/// Whose arrows are not drawn.
const CHECKS: [&str; 2] = ["examples", CASES];

// What crates.txt and the sources say.

/// The crates that each crate uses, with the programs `*_cases` as one.
struct Crates {
    uses: BTreeMap<String, BTreeSet<String>>,
    cases: usize,
}

fn root() -> &'static Path {
    Path::new(concat!(env!("CARGO_MANIFEST_DIR"), "/.."))
}

/// The kind of a crate by its sources: a program has a file main.rt, and a crate without functions has no code.
fn kind(name: &str) -> Kind {
    let sources = root().join("crates").join(name).join("src");
    if sources.join("main.rt").exists() {
        return Program;
    }
    let has_code = fs::read_dir(&sources).unwrap().any(|file| {
        let text = fs::read_to_string(file.unwrap().path()).unwrap();
        text.lines().any(|line| {
            let line = line.trim_start();
            let starts = ["fn ", "pub fn ", "pub extern \"C\" fn "];
            starts.iter().any(|start| line.starts_with(start))
        })
    });
    if has_code {
        Library
    } else {
        NoCode
    }
}

impl Crates {
    fn read() -> Crates {
        let text = fs::read_to_string(root().join("crates.txt")).unwrap();
        let mut crates = Crates {
            uses: BTreeMap::new(),
            cases: 0,
        };
        let mut names = BTreeSet::new();
        for line in text.lines().filter(|line| !line.starts_with('#')) {
            let (head, used) = line.split_once(':').expect("a name and a colon");
            // a static library has the word behind its name
            let name = head.strip_suffix(" staticlib").unwrap_or(head);
            let is_case = name.ends_with("_cases");
            assert!(names.insert(name), "{name} stands twice");
            crates.cases += usize::from(is_case);
            let shown = if is_case { CASES } else { name };
            assert_eq!(kind(name), place(shown).1, "the kind of {name}");
            let all = crates.uses.entry(shown.to_string()).or_default();
            all.extend(used.split_whitespace().map(str::to_string));
        }
        crates
    }

    /// Every crate has one place, nothing else has one, and what a crate uses stands in a lower layer.
    fn check(&self) {
        let placed: BTreeSet<&str> = PLACES.iter().map(|place| place.0).collect();
        let named: BTreeSet<&str> = self.uses.keys().map(String::as_str).collect();
        assert_eq!(placed.len(), PLACES.len(), "a crate is placed twice");
        assert_eq!(placed, named, "the crates placed are those of crates.txt");
        for (name, used) in &self.uses {
            for used in used {
                let (high, low) = (place(name).2, place(used).2);
                assert!(high > low, "{name} must stand above {used}, which it uses");
            }
        }
    }

    /// Whether a crate uses another, directly or not.
    fn reaches(&self, from: &str, to: &str) -> bool {
        let mut used = self.uses[from].iter();
        used.any(|used| used == to || self.reaches(used, to))
    }

    /// What is used directly, and by none of the others that are used.
    fn arrows(&self) -> BTreeSet<(String, String)> {
        let mut arrows = BTreeSet::new();
        for (name, used) in &self.uses {
            for to in used {
                if !used.iter().any(|other| self.reaches(other, to)) {
                    arrows.insert((name.clone(), to.clone()));
                }
            }
        }
        arrows
    }
}

// Arrows.

/// An arrow to a crate that is used.
struct Arrow {
    from: &'static str,
    to: &'static str,
    points: Vec<(f64, f64)>,
}

impl Arrow {
    fn new(from: &'static str, to: &'static str, turns: &[Turn]) -> Arrow {
        let mut points = Vec::new();
        let mut y = area(from).bottom();
        let mut x = None;
        for turn in turns {
            match *turn {
                X(column, offset) => {
                    let next = LEFT + column as f64 * COLUMN + offset + 0.5;
                    points.push((next, y));
                    x = Some(next);
                }
                Below(layer, offset) => {
                    y = top(layer) + BOX_HEIGHT + offset + 0.5;
                    points.push((x.expect("across first"), y));
                }
            }
        }
        points.push((x.expect("across last"), area(to).y));
        Arrow { from, to, points }
    }

    /// No part of the arrow goes up or lies within the box of another crate, and it ends at the box that it points to.
    fn check(&self) {
        let (from, to) = (area(self.from), area(self.to));
        let (first, last) = (self.points[0], self.points[self.points.len() - 1]);
        assert!(from.x < first.0 && first.0 < from.right(), "{}", self.from);
        assert!(to.x < last.0 && last.0 < to.right(), "{}", self.to);
        for two in self.points.windows(2) {
            assert!(two[0].1 <= two[1].1, "{} goes up", self.from);
            let (low, high) = (two[0].0.min(two[1].0), two[0].0.max(two[1].0));
            for other in PLACES {
                let r = area(other.0);
                let apart =
                    high <= r.x || r.right() <= low || two[1].1 <= r.y || r.bottom() <= two[0].1;
                assert!(apart, "{} to {} crosses {}", self.from, self.to, other.0);
            }
        }
    }
}

fn arrows() -> Vec<Arrow> {
    let down = DOWN
        .iter()
        .map(|&(from, to, column)| Arrow::new(from, to, &[X(column, STRAIGHT)]));
    let bent = BENT
        .iter()
        .map(|&(from, to, turns)| Arrow::new(from, to, turns));
    down.chain(bent).collect()
}

/// The arrows drawn are those that crates.txt gives, but for the crates whose arrows are left out.
fn check_arrows(crates: &Crates, arrows: &[Arrow]) {
    let drawn: BTreeSet<(String, String)> = arrows
        .iter()
        .map(|arrow| (arrow.from.to_string(), arrow.to.to_string()))
        .collect();
    assert_eq!(drawn.len(), arrows.len(), "an arrow is drawn twice");
    let expected = crates.arrows().into_iter().filter(|(from, to)| {
        !CHECKS.contains(&from.as_str()) || (from.as_str(), to.as_str()) == (CASES, "cases")
    });
    assert_eq!(drawn, expected.collect(), "the arrows drawn");
    arrows.iter().for_each(Arrow::check);
}

// The picture.

pub fn picture() -> String {
    let crates = Crates::read();
    crates.check();
    let arrows = arrows();
    check_arrows(&crates, &arrows);
    let mut svg = Svg::new(WIDTH, HEIGHT);
    head(&mut svg);
    for &(label, first, last) in PARTS {
        part(&mut svg, label, first, last);
    }
    for arrow in &arrows {
        svg.arrow(&arrow.points, GREY, 1.0);
    }
    for place in PLACES {
        draw(&mut svg, place, crates.cases);
    }
    svg.finish("The crates of Potekawhi, layer by layer")
}

/// The title, what the arrows mean, and the colours.
fn head(svg: &mut Svg) {
    let title = "The crates, layer by layer";
    svg.text((LEFT - 20.0, 26.0), TEXT.size(17.0).bold(), title);
    let lines = [
        "An arrow points to a crate that is used; a crate uses only crates below it. Not drawn: arrows that follow from others,",
        "and those from examples and *_cases to the crates that they check. Lines that join end at one crate.",
    ];
    svg.lines((LEFT - 20.0, 45.0), TEXT.size(12.5), 16.0, &lines);
    let mut x = 420.0;
    for (kind, label) in Kind::ALL {
        let (fill, stroke) = kind.colours();
        svg.rect(Rect::new(x, 14.0, 20.0, 13.0), fill, stroke, r#"rx="3""#);
        svg.text((x + 26.0, 25.0), TEXT, label);
        x += 26.0 + 6.3 * label.len() as f64 + 18.0;
    }
}

/// The ground and the label of a part.
fn part(svg: &mut Svg, label: &str, first: &str, last: &str) {
    let r = area(first).around(&area(last));
    let ground = Rect::new(r.x - 6.0, r.y - 18.0, r.w + 12.0, r.h + 24.0);
    svg.rect(ground, GROUND, PALE, r#"rx="7""#);
    svg.text((r.x, r.y - 5.0), TEXT.colour(GREY), label);
}

/// A crate: its name and what it holds.
fn draw(svg: &mut Svg, place: &Place, cases: usize) {
    let &(name, kind, _, _, holds) = place;
    let r = area(name);
    let (fill, stroke) = kind.colours();
    svg.rect(r, fill, stroke, r#"rx="5""#);
    let x = r.middle().0;
    let count = format!("{cases} {}", holds[0]);
    let mut lines = holds.to_vec();
    if name == CASES {
        lines[0] = &count;
    }
    let name_y = if lines.len() == 1 { 22.0 } else { 16.0 };
    let name_font = TEXT.mono().bold().middle();
    svg.text((x, r.y + name_y), name_font, name);
    let font = TEXT.size(11.5).colour(DARK).middle();
    svg.lines((x, r.y + name_y + 14.5), font, 13.0, &lines);
}
