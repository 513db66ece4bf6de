//! The star: graphs of many kinds for every n and t, and walks from the complete graph until there is no core, as rows and, one in four, as
//! missing pairs too; any 120 bits; refused ones.
use crate::compare::{wrong_length, Lent, Same, Tally};
use crate::inputs::{self, EDGES};
use crate::random::Random;
use potekawhi::raw;
use reference::star::{self, MissingPairs, Star};

#[derive(Default)]
pub struct Counts {
    pub cores: u64,
    pub without: u64,
    pub refused: u64,
    /// Of any 120 bits.
    pub bits: u64,
}

/// All n and t.
fn all_settings() -> Vec<(usize, usize)> {
    (4..=16)
        .flat_map(|n| (1..=(n - 1) / 3).map(move |t| (n, t)))
        .collect()
}

/// Some graphs for one n and t; fewer for a large n, as the reference needs more time.
pub fn case(tally: &mut Tally, random: &mut Random, number: u64, counts: &mut Counts) -> Same<()> {
    let settings = all_settings();
    let (n, t) = settings[(number % settings.len() as u64) as usize];
    let graphs = (1usize << (16 - n)).min(32);
    for _ in 0..graphs {
        let rows = inputs::graph(random, n, t);
        compare(tally, random, n, t, &rows, counts)?;
        any_bits(tally, random, n, t, counts)?;
    }
    if random.one_in(4) {
        walk(tally, random, n, t, counts)?;
    }
    for _ in 0..4 {
        refused(tally, random, n, t, counts)?;
    }
    Ok(())
}

fn to_bytes(words: &[u16]) -> Vec<u8> {
    words
        .iter()
        .flat_map(|word| [*word as u8, (word >> 8) as u8])
        .collect()
}

/// The star of rows, and the bits of the rows. Answers whether there is a core.
fn compare(
    tally: &mut Tally,
    random: &mut Random,
    n: usize,
    t: usize,
    rows: &[u16; 16],
    counts: &mut Counts,
) -> Same<bool> {
    let bytes = to_bytes(rows);
    let expected = star::star(rows, n, t);
    let mut same = || {
        let find = |lent: &[u8], sets: &mut [u8]| raw::star(n, t, lent, sets);
        compare_sets(tally, random, "star", &bytes, &expected, find)?;
        compare_bits(tally, random, n, rows, &bytes)
    };
    same().map_err(|text| format!("n {n}, t {t}, rows {rows:04x?}: {text}"))?;
    if random.one_in(4) {
        // the bits of numbers past n at random
        let bits = with_more(random, star::missing_pairs(rows, n), n.saturating_add(1), 5);
        compare_pairs(tally, random, n, t, &bits, counts)?;
    }
    Ok(count(&expected, counts))
}

/// The bits with more of them set: of the pairs whose larger number is from `least` on, each with a chance of `tenths` in 10.
fn with_more(
    random: &mut Random,
    mut bits: MissingPairs,
    least: usize,
    tenths: usize,
) -> MissingPairs {
    for (place, (_, large)) in star::pairs().enumerate() {
        if large >= least && random.below(10) < tenths {
            bits[place / 8] |= 1 << (place % 8);
        }
    }
    bits
}

/// The missing pairs of rows.
fn compare_bits(
    tally: &mut Tally,
    random: &mut Random,
    n: usize,
    rows: &[u16; 16],
    bytes: &[u8],
) -> Same<()> {
    let dirty = random.bytes(raw::PAIRS_LENGTH);
    let lent_rows = Lent::new(random, bytes);
    let mut lent_pairs = Lent::new(random, &dirty);
    let answer = raw::missing_pairs(n, lent_rows.bytes(), lent_pairs.bytes_mut());
    let expected = star::missing_pairs(rows, n);
    tally.same("missing pairs' number", answer, 0)?;
    tally.same_lent("missing pairs", &lent_pairs, &expected)?;
    tally.same_lent("missing pairs' rows", &lent_rows, bytes)
}

/// The star of 120 bits at random, at a chance of its own for all of them, also those of numbers past n.
fn any_bits(
    tally: &mut Tally,
    random: &mut Random,
    n: usize,
    t: usize,
    counts: &mut Counts,
) -> Same<()> {
    let tenths = random.below(10);
    let bits = with_more(random, [0; raw::PAIRS_LENGTH], 0, tenths);
    counts.bits += 1;
    compare_pairs(tally, random, n, t, &bits, counts)
}

/// The star of 120 bits.
fn compare_pairs(
    tally: &mut Tally,
    random: &mut Random,
    n: usize,
    t: usize,
    bits: &MissingPairs,
    counts: &mut Counts,
) -> Same<()> {
    let expected = star::star_of_pairs(bits, n, t);
    let find = |lent: &[u8], sets: &mut [u8]| raw::star_of_pairs(n, t, lent, sets);
    compare_sets(tally, random, "star of pairs", bits, &expected, find)
        .map_err(|text| format!("n {n}, t {t}, pairs {bits:02x?}: {text}"))?;
    count(&expected, counts);
    Ok(())
}

/// The number and the sets that a function of the library answers for a graph in lent bytes.
fn compare_sets(
    tally: &mut Tally,
    random: &mut Random,
    what: &str,
    graph: &[u8],
    expected: &Star,
    find: impl Fn(&[u8], &mut [u8]) -> u8,
) -> Same<()> {
    let dirty = random.bytes(raw::SETS_LENGTH);
    let lent_graph = Lent::new(random, graph);
    let mut lent_sets = Lent::new(random, &dirty);
    let answer = find(lent_graph.bytes(), lent_sets.bytes_mut());
    let sets = match expected.refusal {
        0 => to_bytes(&[expected.c, expected.d, expected.f, expected.e]),
        _ => dirty,
    };
    tally.same(&format!("{what}: number"), answer, expected.refusal)?;
    tally.same_lent(&format!("{what}: sets"), &lent_sets, &sets)?;
    tally.same_lent(&format!("{what}: graph"), &lent_graph, graph)
}

/// Counts an answer, and says whether there is a core.
fn count(star: &Star, counts: &mut Counts) -> bool {
    match (star.refusal, star.e) {
        (0, 0) => counts.without += 1,
        (0, _) => counts.cores += 1,
        _ => counts.refused += 1,
    }
    star.e != 0
}

/// From the complete graph, one mark less in each step, until there is no core, and a few steps further.
fn walk(
    tally: &mut Tally,
    random: &mut Random,
    n: usize,
    t: usize,
    counts: &mut Counts,
) -> Same<()> {
    let mut rows = [0xffff; 16];
    let mut further = 3;
    while further > 0 {
        let order = random.order(n);
        let (i, j) = (order[0], order[1]);
        if rows[i] >> j & rows[j] >> i & 1 == 0 {
            continue;
        }
        rows[i] &= !(1 << j);
        if !compare(tally, random, n, t, &rows, counts)? {
            further -= 1;
        }
    }
    Ok(())
}

/// Settings at the edges, and wrong lengths, which are tried first.
fn refused(
    tally: &mut Tally,
    random: &mut Random,
    n: usize,
    t: usize,
    counts: &mut Counts,
) -> Same<()> {
    let (mut n, mut t) = (n, t);
    let rows = [0xffff; 16];
    match random.below(3) {
        0 => n = random.pick(&[0, 1, 3, 17, 1 << 32 | n, usize::MAX]),
        1 => {
            let edge = random.pick(&EDGES);
            t = random.pick(&[0, (n - 1) / 3 + 1, 6, 17, 1 << 32 | t, edge]);
        }
        _ => return wrong_lengths(tally, random, n, t, counts),
    }
    if star::refusal(n, t) == 0 {
        return Ok(());
    }
    compare(tally, random, n, t, &rows, counts)?;
    any_bits(tally, random, n, t, counts)
}

/// Each of the three functions with one of its two lengths wrong.
fn wrong_lengths(
    tally: &mut Tally,
    random: &mut Random,
    n: usize,
    t: usize,
    counts: &mut Counts,
) -> Same<()> {
    let (which, wrong) = (random.below(3), random.below(2));
    let mut lengths = match which {
        0 => [raw::ROWS_LENGTH, raw::SETS_LENGTH],
        1 => [raw::PAIRS_LENGTH, raw::SETS_LENGTH],
        _ => [raw::ROWS_LENGTH, raw::PAIRS_LENGTH],
    };
    lengths[wrong] = wrong_length(random, lengths[wrong]);
    let edge = random.pick(&EDGES);
    let n = random.pick(&[n, n, edge]);
    let (bytes, dirty) = (random.bytes(lengths[0]), random.bytes(lengths[1]));
    let lent = Lent::new(random, &bytes);
    let mut lent_out = Lent::new(random, &dirty);
    let out = lent_out.bytes_mut();
    let answer = match which {
        0 => raw::star(n, t, lent.bytes(), out),
        1 => raw::star_of_pairs(n, t, lent.bytes(), out),
        _ => raw::missing_pairs(n, lent.bytes(), out),
    };
    tally.same("star's number with a wrong length", answer, 6)?;
    tally.same_lent("what it writes with a wrong length", &lent_out, &dirty)?;
    tally.same_lent("what it reads with a wrong length", &lent, &bytes)?;
    counts.refused += 1;
    Ok(())
}
