//! The panels below the lanes of a run: pieces, the matrix before and after the vote, the graph with its core, and the last pieces.
use crate::played::{listed, members, Played};
use crate::svg::{
    Rect, Svg, BLUE, DARK, FAINT, LIGHT_BLUE, LIGHT_GREEN, LIGHT_RED, PALE, TEXT, WHITE,
};
use reference::code::encode;
use reference::controller::Outcome;
use reference::simulator::{hex, System};
use reference::star::apart;

/// The top of the panels.
const PANELS: f64 = 452.0;

/// The frame of a panel, its title, and notes at its bottom.
fn panel(svg: &mut Svg, x: f64, width: f64, title: &str, notes: &[&str]) {
    svg.rect(Rect::new(x, PANELS, width, 196.0), WHITE, PALE, r#"rx="6""#);
    svg.text((x + 10.0, PANELS + 19.0), TEXT.bold(), title);
    svg.lines((x + 10.0, PANELS + 158.0), TEXT.size(11.0), 14.5, notes);
}

/// A table of n rows and n columns: the top left corner of the cells, their size, and for each cell fill and text.
fn table(
    svg: &mut Svg,
    played: &Played,
    (x, y): (f64, f64),
    (w, h): (f64, f64),
    cell: impl Fn(usize, usize) -> (&'static str, String),
) {
    for i in 1..=played.system.n {
        let font = TEXT.bold().middle().colour(played.colour(i, DARK));
        let (dx, dy) = (w * (i - 1) as f64, h * (i - 1) as f64);
        svg.text((x + dx + w / 2.0, y - 5.0), font, &i.to_string());
        svg.text((x - 10.0, y + dy + h / 2.0 + 4.5), font, &i.to_string());
        for j in 1..=played.system.n {
            let (fill, text) = cell(i, j);
            let r = Rect::new(x + w * (j - 1) as f64, y + dy, w, h);
            svg.rect(r, fill, FAINT, "");
            let font = TEXT.mono().middle().colour(played.colour(i, DARK));
            svg.text((r.middle().0, r.middle().1 + 4.5), font, &text);
        }
    }
}

pub fn panels(svg: &mut Svg, played: &Played) {
    let n = played.system.n;
    pieces_panel(svg, played);
    let holders = listed(&played.correct, ", ");
    let before = played.common(4, |state, _| state.matrix);
    let after = played.common(10, |state, _| state.matrix);
    let bits = |matrix: [u16; 16]| {
        move |i: usize, j: usize| match matrix[i - 1] >> (j - 1) & 1 {
            1 => (LIGHT_BLUE, "1".to_string()),
            _ => (WHITE, "0".to_string()),
        }
    };
    let held = format!("Held by {holders} alike: 1 sent");
    panel(
        svg,
        248.0,
        176.0,
        "Matrix before the vote",
        &[&held, "all the same marks. Row i:", "whom i marks."],
    );
    table(
        svg,
        played,
        (294.0, PANELS + 46.0),
        (26.0, 24.0),
        bits(before),
    );
    let held = format!("Held by {holders}, whatever");
    panel(
        svg,
        432.0,
        176.0,
        "Matrix after the vote",
        &[&held, "a faulty controller sent,", "in the vote too."],
    );
    table(
        svg,
        played,
        (478.0, PANELS + 46.0),
        (26.0, 24.0),
        bits(after),
    );
    graph_panel(svg, played, after, n);
    decoding_panel(svg, played);
}

/// Who sends whom which pieces in round 2.
fn pieces_panel(svg: &mut Svg, played: &Played) {
    let notes = [
        "Row i, column j: i sends j its own",
        "piece, then piece j of its coding.",
        "Shaded: j marks i.",
    ];
    panel(svg, 8.0, 232.0, "Round 2: pieces", &notes);
    let place = (36.0, PANELS + 46.0);
    table(svg, played, place, (48.0, 24.0), |i, j| {
        let marked = !played.faulty(j) && played.marks(j).contains(&i);
        let fill = if marked { LIGHT_GREEN } else { WHITE };
        (fill, played.pieces(2, i, j))
    });
}

/// The neighbours by a matrix, and the core.
fn graph_panel(svg: &mut Svg, played: &Played, matrix: [u16; 16], n: usize) {
    let core = members(played.common(10, |state, _| state.core), n);
    assert!(!core.is_empty(), "a core is found");
    let core_note = format!("edge: the core, {}.", listed(&core, ", "));
    let notes = [
        "Line: each of the two marks",
        "the other. With a thick",
        &core_note,
    ];
    panel(svg, 616.0, 172.0, "Neighbours and core", &notes);
    let corner = |i: usize| {
        let (column, row) = [(0, 0), (1, 0), (0, 1), (1, 1)][i - 1];
        (
            668.0 + 68.0 * column as f64,
            PANELS + 56.0 + 66.0 * row as f64,
        )
    };
    let apart = apart(&matrix, n);
    for i in 1..=n {
        for j in i + 1..=n {
            if !apart[i - 1][j - 1] {
                svg.line(&[corner(i), corner(j)], BLUE, r#"stroke-width="1.5""#);
            }
        }
    }
    for i in 1..=n {
        let stroke = played.colour(i, BLUE);
        let (fill, width) = match (core.contains(&i), played.faulty(i)) {
            (false, _) => (WHITE, 1.0),
            (_, true) => (LIGHT_RED, 3.0),
            _ => (LIGHT_BLUE, 3.0),
        };
        let (x, y) = corner(i);
        svg.circle((x, y), 14.0, fill, stroke, width);
        svg.text(
            (x, y + 4.5),
            TEXT.size(13.0).bold().middle(),
            &i.to_string(),
        );
    }
}

/// What the correct controller outside the core gets in the last two rounds, and the coding of the block that all end with.
fn decoding_panel(svg: &mut Svg, played: &Played) {
    let System { n, t, k, .. } = played.system;
    let core = members(played.common(10, |state, _| state.core), n);
    let mut others = played.correct.iter().filter(|i| !core.contains(i));
    let (Some(&other), None) = (others.next(), others.next()) else {
        panic!("one correct controller outside the core")
    };
    let block = played.common(12, |_, block| block.to_vec());
    assert_eq!(played.common(12, |state, _| state.outcome), Outcome::Agreed);
    let received =
        |round: usize| -> Vec<String> { (1..=n).map(|i| played.pieces(round, i, other)).collect() };
    let coded: Vec<String> = (1..=n as u64)
        .map(|i| {
            let mut piece = vec![0; k];
            let number = encode(n as u64, t as u64, k as u64, i, &block, &mut piece);
            assert_eq!(number, 0);
            hex(&piece)
        })
        .collect();
    let (tenth, last) = (received(10), received(11));
    let taken = &last[other - 1];
    let senders = core.iter().filter(|&&i| tenth[i - 1] == *taken).count();
    assert!(senders > t, "{other} takes a piece that t + 1 members sent");
    let present: Vec<usize> = (1..=n)
        .filter(|&i| played.sent.contains_key(&(11, i, other)))
        .collect();
    let differs = |&&i: &&usize| last[i - 1] != coded[i - 1];
    let differing = present.iter().filter(differs).count();
    let (present, least) = (present.len(), 2 * differing + t + 1);
    assert!(least <= present, "the block is decoded");

    let (x, width) = (796.0, 156.0);
    let notes = [
        &format!("{present} present, {differing} differ:"),
        &format!("2 × {differing} + t + 1 = {least} ≤ {present}.")[..],
    ];
    panel(svg, x, width, "Rounds 10 and 11", &notes);
    let rows = [
        (format!("10, to {other}: {taken} is taken"), &tenth),
        ("11, to all:".to_string(), &last),
        (format!("{} codes to:", hex(&block)), &coded),
    ];
    for (row, (label, pieces)) in rows.into_iter().enumerate() {
        let y = PANELS + 36.0 + 38.0 * row as f64;
        svg.text((x + 10.0, y), TEXT.size(11.0), &label);
        for (i, piece) in pieces.iter().enumerate() {
            let r = Rect::new(x + 10.0 + 34.0 * i as f64, y + 4.0, 34.0, 19.0);
            let agrees = row == 1 && *piece == coded[i];
            let fill = if agrees { LIGHT_GREEN } else { WHITE };
            let colour = if row < 2 {
                played.colour(i + 1, DARK)
            } else {
                DARK
            };
            svg.rect(r, fill, FAINT, "");
            let font = TEXT.mono().middle().colour(colour);
            svg.text((r.middle().0, r.y + 14.0), font, piece);
        }
    }
}
