//! Lengths: all n to 20, t to 8 and c to 40 with the edges of k, and the edges of all four.
use crate::compare::{Same, Tally};
use crate::inputs::EDGES;
use potekawhi::raw;
use reference::wire;

pub fn all(tally: &mut Tally) -> Same<()> {
    let numbers = |last: usize| (0..=last).chain(EDGES.into_iter().filter(move |&e| e > last));
    for n in numbers(20) {
        for t in numbers(8) {
            let calls = if (1..=5).contains(&t) { 3 * t + 9 } else { 0 };
            tally.same("calls", raw::calls(t), calls)?;
            for k in EDGES {
                of(tally, n, t, k, numbers(40))
                    .map_err(|text| format!("n {n}, t {t}, k {k}, {text}"))?;
            }
        }
    }
    Ok(())
}

fn of(
    tally: &mut Tally,
    n: usize,
    t: usize,
    k: usize,
    calls: impl Iterator<Item = usize>,
) -> Same<()> {
    let wide = |number: usize| number as u128;
    let expected = wire::block_length(wide(n), wide(t), wide(k));
    tally.same("block", wide(raw::block_length(n, t, k)), expected)?;
    for c in calls {
        let boxes = |round| wire::box_length(wide(n), wide(t), wide(k), round);
        let message = wire::message_length(wide(n), wide(t), wide(k), wide(c));
        // the inbox of call c is that of round c - 1
        let inbox = if c == 0 { 0 } else { boxes(wide(c) - 1) };
        let answers = [
            raw::message_length(n, t, k, c),
            raw::inbox_length(n, t, k, c),
            raw::outbox_length(n, t, k, c),
        ];
        let expected = [message, inbox, boxes(wide(c))];
        tally
            .same("message, inbox, outbox", answers.map(wide), expected)
            .map_err(|text| format!("c {c}: {text}"))?;
    }
    Ok(())
}
