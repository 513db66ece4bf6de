//! The picture of one run: document 01's example, played by the reference. All messages, matrices, the core and the outcomes are taken from
//! that run.
use crate::panels::panels;
use crate::played::{listed, Played};
use crate::svg::{
    Font, Rect, Svg, BLUE, DARK, FAINT, GREY, GROUND, LIGHT_BLUE, LIGHT_GREEN, LIGHT_RED,
    LIGHT_YELLOW, PALE, RED, TEXT, WHITE,
};
use reference::controller::{Outcome, State};
use reference::simulator::{hex, read, EXAMPLE};
use reference::wire::round_row;
use std::collections::BTreeSet;

const WIDTH: f64 = 960.0;
const HEIGHT: f64 = 720.0;

/// Left and right edge of what stands at each call, from call 1.
const CALLS: [(f64, f64); 12] = [
    (94.0, 94.0),
    (168.0, 208.0),
    (278.0, 320.0),
    (384.0, 416.0),
    (465.0, 465.0),
    (510.0, 510.0),
    (555.0, 555.0),
    (600.0, 600.0),
    (645.0, 645.0),
    (690.0, 722.0),
    (786.0, 812.0),
    (878.0, 938.0),
];
/// The lane of controller 1, and from one lane to the next.
const LANES: f64 = 182.0;
const LANE: f64 = 58.0;
const ROW_LABEL: f64 = 12.0;

fn lane(i: usize) -> f64 {
    LANES + LANE * (i - 1) as f64
}

fn call_middle(call: usize) -> f64 {
    let (left, right) = CALLS[call - 1];
    (left + right) / 2.0
}

/// Where the arrows of a round begin and end.
fn round_edges(round: usize) -> (f64, f64) {
    let gap = |(left, right): (f64, f64)| if left == right { 3.5 } else { 2.0 };
    let (before, after) = (CALLS[round - 1], CALLS[round]);
    (before.1 + gap(before), after.0 - gap(after))
}

fn round_middle(round: usize) -> f64 {
    let (left, right) = round_edges(round);
    (left + right) / 2.0
}

/// First and last round, and the heading.
const HEADINGS: &[(usize, usize, &[&str])] = &[
    (1, 1, &["the sender's", "block"]),
    (2, 2, &["pieces"]),
    (3, 3, &["marks"]),
    (4, 9, &["the vote: two phases of three rounds"]),
    (10, 10, &["pieces from", "the core"]),
    (11, 11, &["every", "piece"]),
];

/// The headings and what is sent, above a ground for each part of the run.
fn headings(svg: &mut Svg, played: &Played) {
    for &(first, last, heading) in HEADINGS {
        let (left, right) = (round_edges(first).0, round_edges(last).1);
        let bottom = lane(played.system.n) + 24.0;
        let ground = Rect::new(left, 112.0, right - left, bottom - 112.0);
        svg.rect(ground, GROUND, PALE, r#"rx="6""#);
        let y = if heading.len() == 1 && first != 4 {
            103.0
        } else {
            88.0
        };
        let middle = ((left + right) / 2.0, y);
        svg.lines(middle, TEXT.bold().middle(), 15.0, heading);
    }
    for king in 1..=played.system.t + 1 {
        let first = 3 * king + 1;
        let (left, right) = (round_edges(first).0, round_edges(first + 2).1);
        let text = format!("phase {king}, king {king}");
        let font = TEXT.middle().colour(played.colour(king, DARK));
        svg.text(((left + right) / 2.0, 105.0), font, &text);
        if king > 1 {
            let x = call_middle(first);
            let line = [(x, 96.0), (x, lane(played.system.n) + 24.0)];
            svg.line(&line, PALE, "");
        }
    }
    for (y, label) in [(128.0, "round"), (144.0, "sent")] {
        svg.text((ROW_LABEL, y), TEXT.colour(GREY), label);
    }
    for round in 1..=played.system.rounds() {
        let x = round_middle(round);
        let number = round.to_string();
        svg.text((x, 128.0), TEXT.bold().middle(), &number);
        let mut font = TEXT.size(11.0).middle();
        let sent = match round_row(played.system.t as u128, round as u128) {
            1 => "block".to_string(),
            2 => "2 pieces".to_string(),
            3 => "marks".to_string(),
            4 => "matrix".to_string(),
            5 => "seen".to_string(),
            6 => {
                let king = round / 3 - 1;
                font = font.colour(played.colour(king, DARK));
                format!("king {king}")
            }
            _ => "piece".to_string(),
        };
        svg.text((x, 144.0), font, &sent);
    }
}

/// A line for each controller.
fn lanes(svg: &mut Svg, played: &Played) {
    for i in 1..=played.system.n {
        let y = lane(i);
        let (stroke, fill) = if played.faulty(i) {
            (RED, LIGHT_RED)
        } else {
            (FAINT, LIGHT_BLUE)
        };
        let dash = if played.faulty(i) {
            r#"stroke-dasharray="4 3""#
        } else {
            ""
        };
        let end = if played.faulty(i) { 866.0 } else { CALLS[11].0 };
        svg.line(&[(CALLS[0].0, y), (end, y)], stroke, dash);
        let node = played.colour(i, BLUE);
        svg.circle((22.0, y), 12.0, fill, node, 1.3);
        svg.text(
            (22.0, y + 4.5),
            TEXT.size(13.0).bold().middle(),
            &i.to_string(),
        );
        let font = TEXT.colour(played.colour(i, DARK));
        if played.faulty(i) {
            svg.lines((40.0, y - 3.0), font, 14.0, &["sender,", "faulty"]);
        } else {
            svg.text((40.0, y + 4.0), font, "correct");
        }
    }
    let font = TEXT.size(11.0).colour(RED).middle();
    let (left, right) = (round_edges(4).0, round_edges(9).1);
    let place = ((left + right) / 2.0, lane(played.system.sender) - 7.0);
    svg.text(place, font, "1 sends nothing from round 4 on");
}

/// An arrow for each message, and the blocks of round 1 beside theirs.
fn messages(svg: &mut Svg, played: &Played) {
    // messages to the faulty controller first, so that the others lie above
    let mut sent: Vec<_> = played.sent.keys().collect();
    sent.sort_by_key(|(_, from, to)| (!played.faulty(*to), played.faulty(*from)));
    for &(round, from, to) in sent {
        if from == to {
            continue;
        }
        let (left, right) = round_edges(round);
        let line = [(left, lane(from)), (right, lane(to))];
        match (played.faulty(from), played.faulty(to)) {
            (true, _) => svg.arrow(&line, RED, 1.2),
            (_, true) => svg.arrow(&line, FAINT, 0.9),
            _ => svg.arrow(&line, BLUE, 0.9),
        }
    }
    for (&(round, from, to), message) in &played.sent {
        if round == 1 && from != to {
            let (left, right) = round_edges(1);
            let share = if to == played.system.n { 0.80 } else { 0.72 };
            let x = left + share * (right - left);
            let y = lane(from) + share * (lane(to) - lane(from));
            let halo = Rect::new(x - 16.0, y - 7.0, 32.0, 14.0);
            svg.rect(halo, GROUND, "none", "");
            let font = TEXT.size(11.5).mono().middle().colour(RED);
            svg.text((x, y + 4.0), font, &hex(message));
        }
    }
}

/// What the correct controllers hold after each call.
fn nodes(svg: &mut Svg, played: &Played) {
    let blocks: BTreeSet<&Vec<u8>> = played
        .correct
        .iter()
        .map(|&i| &played.after[&(2, i)].1)
        .collect();
    let fill_of = |block: &Vec<u8>| {
        if blocks.first() == Some(&block) {
            LIGHT_BLUE
        } else {
            LIGHT_YELLOW
        }
    };
    let (mono, bold) = (TEXT.mono().middle(), TEXT.bold().middle());
    for &i in &played.correct {
        for call in [1, 5, 6, 7, 8, 9] {
            svg.circle((call_middle(call), lane(i)), 3.0, BLUE, BLUE, 0.5);
        }
        let block = &played.after[&(2, i)].1;
        labelled(svg, 2, i, fill_of(block), mono, &[&hex(block)]);
        let marks = listed(&played.marks(i), " ");
        labelled(svg, 3, i, WHITE, mono, &[&marks]);
        for call in [4, 10] {
            small_matrix(svg, call, i, played.state(call, i));
        }
        let piece = played.pieces(11, i, i);
        labelled(svg, 11, i, WHITE, mono, &[&piece]);
        let (state, block) = &played.after[&(12, i)];
        let end = [outcome(state.outcome), &hex(block)];
        labelled(svg, 12, i, LIGHT_GREEN, bold, &end);
    }
    for &i in &played.system.faulty {
        for round in 1..=3 {
            svg.circle((CALLS[round - 1].1, lane(i)), 3.0, RED, RED, 0.5);
        }
    }
}

fn outcome(outcome: Outcome) -> &'static str {
    match outcome {
        Outcome::Open => "open",
        Outcome::Agreed => "agreed",
        Outcome::None => "none",
        Outcome::Beyond => "beyond",
    }
}

/// What a controller holds after a call, as text.
fn labelled(svg: &mut Svg, call: usize, i: usize, fill: &str, font: Font, text: &[&str]) {
    let (left, right) = CALLS[call - 1];
    let height = 8.0 + 15.0 * text.len() as f64;
    let r = Rect::new(left, lane(i) - height / 2.0, right - left, height);
    svg.rect(r, fill, BLUE, r#"rx="4""#);
    svg.lines((r.middle().0, r.y + 15.5), font, 15.0, text);
}

/// The matrix that a controller holds after a call, ones filled.
fn small_matrix(svg: &mut Svg, call: usize, i: usize, state: &State) {
    let cell = 8.0;
    let (x, y) = (CALLS[call - 1].0, lane(i) - 2.0 * cell);
    for row in 0..state.n {
        for column in 0..state.n {
            let fill = if state.matrix[row] >> column & 1 == 1 {
                BLUE
            } else {
                WHITE
            };
            let (dx, dy) = (cell * column as f64, cell * row as f64);
            svg.rect(
                Rect::new(x + dx, y + dy, cell, cell),
                fill,
                FAINT,
                r#"stroke-width="0.7""#,
            );
        }
    }
}

/// What is held after a call.
const CALL_LABELS: &[(usize, &[&str])] = &[
    (2, &["block"]),
    (3, &["marks"]),
    (4, &["matrix"]),
    (10, &["one matrix,", "the core is found"]),
    (11, &["piece"]),
    (12, &["decoding:", "outcome, block"]),
];

fn calls(svg: &mut Svg, played: &Played) {
    let y = lane(played.system.n) + 42.0;
    svg.text((ROW_LABEL, y), TEXT.colour(GREY), "call");
    svg.text((ROW_LABEL, y + 16.0), TEXT.colour(GREY), "then holds");
    for call in 1..=CALLS.len() {
        let font = TEXT.bold().middle();
        svg.text((call_middle(call), y), font, &call.to_string());
    }
    for &(call, label) in CALL_LABELS {
        svg.lines(
            (call_middle(call), y + 16.0),
            TEXT.size(11.0).middle(),
            14.0,
            label,
        );
    }
}

fn legend(svg: &mut Svg) {
    let y = HEIGHT - 48.0;
    let mut x = 12.0;
    for (colour, label) in [
        (RED, "message of the faulty controller"),
        (BLUE, "message between correct controllers"),
        (FAINT, "message to the faulty controller"),
    ] {
        svg.arrow(&[(x, y - 4.0), (x + 26.0, y - 4.0)], colour, 1.2);
        svg.text((x + 32.0, y), TEXT, label);
        x += 32.0 + 6.5 * label.len() as f64 + 14.0;
    }
    let lines = [
        "In the vote each sends its matrix, then where it has seen n - t zeros and where n - t ones (seen); then the king sends its matrix,",
        "whose bits are taken where the count for the bit held is below n - t. What a controller sends to itself is not drawn.",
    ];
    svg.lines((12.0, y + 18.0), TEXT, 16.0, &lines);
}

pub fn picture() -> String {
    let played = Played::new(read(EXAMPLE.as_bytes()).unwrap());
    played.check();
    let mut svg = Svg::new(WIDTH, HEIGHT);
    let title = "One run: 4 controllers, at most 1 faulty, 11 rounds, 12 calls";
    svg.text((12.0, 26.0), TEXT.size(17.0).bold(), title);
    let blocks: Vec<String> = (2..=4).map(|to| hex(&played.sent[&(1, 1, to)])).collect();
    assert!(blocks[0] == blocks[1] && blocks[1] != blocks[2]);
    let line = format!(
        "The sender, controller 1, is faulty: it sends block {} to 2 and 3, and block {} to 4. All correct controllers end with one block.",
        blocks[0], blocks[2]
    );
    svg.text((12.0, 48.0), TEXT.size(12.5), &line);
    headings(&mut svg, &played);
    lanes(&mut svg, &played);
    messages(&mut svg, &played);
    nodes(&mut svg, &played);
    calls(&mut svg, &played);
    panels(&mut svg, &played);
    legend(&mut svg);
    svg.finish("One run of the protocol with a faulty sender")
}
