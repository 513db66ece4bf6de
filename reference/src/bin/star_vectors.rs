//! The expected output of the program star_cases, from the reference.
use reference::star::{apart as missing, from_matching, missing_pairs, star, star_of_pairs, Star};

/// The generator of the program: x times 1664525 plus 1013904223, modulo 2 to the 32.
fn next(x: u64) -> u64 {
    (x % (1 << 32) * 1664525 + 1013904223) % (1 << 32)
}

fn draw(k: usize, i: usize, j: usize) -> u64 {
    next(next(next(k as u64) + i as u64) + j as u64) / 65536
}

/// The largest odd number that is at most n, or 0.
fn odd(n: usize) -> usize {
    if n == 0 {
        0
    } else {
        n - 1 + n % 2
    }
}

/// Whether i and j, i the smaller, are to be no neighbours in graph k of n controllers.
fn apart(k: usize, n: usize, t: usize, i: usize, j: usize) -> bool {
    let a = odd(n / 2);
    let third = |x: usize| x % 3 == 1 && x / 3 < t;
    match k {
        // all neighbours, and none
        0 => false,
        1 => true,
        // an odd cycle
        2 => j < odd(n) && (j == i + 1 || i == 0 && j + 1 == odd(n)),
        // two odd cliques
        3 => j < a || i >= a && j - a < odd(n - a),
        // bipartite: the first t with the others, or the last t
        4 => i < t && j >= t,
        5 => i < n - t && j >= n - t,
        // t / 2 paths of four whose middle pair comes first
        6 => {
            i / 4 == j / 4
                && i / 4 < t / 2
                && (i % 4 == 0 && j % 4 != 3 || i % 4 == 1 && j % 4 == 3)
        }
        // a cycle of five, and two triangles
        7 => j < 5 && (j == i + 1 || i == 0 && j == 4),
        8 => j < 6 && i / 3 == j / 3,
        // at random, at seven densities
        9..=15 => draw(k, i, j) % 8 < k as u64 - 8,
        // at random, with an end among the last t, or among t others
        16..=19 => j >= n - t && draw(k, i, j) % 2 == 0,
        20..=23 => (third(i) || third(j)) && draw(k, i, j) % 2 == 0,
        // at random, few
        _ => draw(k, i, j) % 16 == 0,
    }
}

/// Row i of the marks. Who are not neighbours lack one mark or both; one's own mark and all past n are at random.
fn row(k: usize, n: usize, t: usize, i: usize) -> u16 {
    let mark = |j: usize| {
        let (a, b) = (i.min(j), i.max(j));
        let d = draw(k + 100, a, b) % 3;
        if b >= n || i == j {
            draw(k + 200, i, j) % 2 == 0
        } else {
            !apart(k, n, t, a, b) || d == 1 && i == a || d == 2 && i == b
        }
    };
    (0..16).filter(|&j| mark(j)).map(|j| 1u16 << j).sum()
}

fn rows(k: usize, n: usize, t: usize) -> [u16; 16] {
    std::array::from_fn(|i| row(k, n, t, i))
}

fn print_star(k: usize, n: usize, t: usize, s: Star) {
    println!("{n} {t} {k}: {} {} {} {} {}", s.refusal, s.c, s.d, s.f, s.e);
}

fn play(k: usize, n: usize, t: usize) {
    print_star(k, n, t, star(&rows(k, n, t), n, t));
}

/// The star of 120 bits at random, each set with a chance of k in 32, those of numbers past n too.
fn play_bits(k: usize, n: usize, t: usize) {
    let bit = |b: usize, x: usize| draw(n + 300, b, x) % 32 < k as u64;
    let byte = |b: usize| (0..8).filter(|&x| bit(b, x)).map(|x| 1u8 << x).sum();
    print_star(k, n, t, star_of_pairs(&std::array::from_fn(byte), n, t));
}

/// The missing pairs of graph k.
fn print_bits(k: usize, n: usize, t: usize) {
    let bits = missing_pairs(&rows(k, n, t), n).map(|byte| format!(" {byte}"));
    println!("{n}:{}", bits.concat());
}

/// A matching that cannot be extended: the first pair that fits, again and again, in this order of the controllers.
fn greedy(graph: &[Vec<bool>], order: &[usize]) -> Vec<(usize, usize)> {
    let mut pairs: Vec<(usize, usize)> = Vec::new();
    for (x, &i) in order.iter().enumerate() {
        for &j in &order[x + 1..] {
            let free = |v: usize| pairs.iter().all(|&(a, b)| v != a && v != b);
            if graph[i][j] && free(i) && free(j) {
                pairs.push((i, j));
            }
        }
    }
    pairs
}

fn main() {
    let mut told = 0;
    for n in 4..=16 {
        for t in 1..=(n - 1) / 3 {
            for k in 0..28 {
                play(k, n, t);
                let rows = rows(k, n, t);
                let graph = missing(&rows, n);
                let rising: Vec<usize> = (0..n).collect();
                let falling: Vec<usize> = (0..n).rev().collect();
                let right = star(&rows, n, t);
                let differs = |order| from_matching(&graph, &greedy(&graph, order), t) != right;
                told += usize::from(differs(&rising) || differs(&falling));
            }
            (0..9).for_each(|k| play_bits(k, n, t));
        }
        print_bits(12, n, 1);
    }
    // enough of the graphs tell the matching to be used from one that cannot be extended
    assert!(told >= 100, "{told}");
    for (n, t) in [
        (3, 1),
        (3, 0),
        (17, 5),
        (0, 0),
        (4, 0),
        (4, 2),
        (7, 2),
        (16, 6),
        (16, 5),
    ] {
        play(0, n, t);
    }
    for (n, t) in [(3, 0), (17, 5), (4, 2), (16, 6)] {
        play_bits(0, n, t);
    }
    print_bits(1, 17, 1);
}
