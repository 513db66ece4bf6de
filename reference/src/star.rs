//! The star and the core (document 01, 'Star and core') by exhaustive search: for every set of controllers how many pairs its largest
//! matching has, then the first in dictionary order of the largest ones, then C, B, D, F and E as they are said. The graph comes as rows of
//! marks, or as its missing pairs (document 02, U9).

/// The number of a refusal, or 0, and the sets C, D, F and E as marks, the bit worth 1 for controller 1.
#[derive(Debug, PartialEq, Eq, Clone, Copy, Default)]
pub struct Star {
    pub refusal: u8,
    pub c: u16,
    pub d: u16,
    pub f: u16,
    pub e: u16,
}

/// 'Turned down': the star tries 1, then 2.
pub fn refusal(n: usize, t: usize) -> u8 {
    if !(4..=16).contains(&n) {
        1
    } else if t == 0 || 3 * t as u128 + 1 > n as u128 {
        2
    } else {
        0
    }
}

fn marks(row: u16, j: usize) -> bool {
    row >> j & 1 == 1
}

fn neighbours(rows: &[u16; 16], i: usize, j: usize) -> bool {
    i == j || marks(rows[i], j) && marks(rows[j], i)
}

/// The pairs below n that are not neighbours: row by row.
pub fn apart(rows: &[u16; 16], n: usize) -> Vec<Vec<bool>> {
    (0..n)
        .map(|i| (0..n).map(|j| !neighbours(rows, i, j)).collect())
        .collect()
}

/// Document 02, U9: 120 bits, one for each pair, eight to a byte, the bit worth 1 first.
pub type MissingPairs = [u8; 15];

/// The pairs of different numbers of 1 to 16, ordered by the smaller number and then the larger.
pub fn pairs() -> impl Iterator<Item = (usize, usize)> {
    (1..=16).flat_map(|small| (small + 1..=16).map(move |large| (small, large)))
}

/// The bits of the graph of rows: set when both numbers are at most n and they are not neighbours.
pub fn missing_pairs(rows: &[u16; 16], n: usize) -> MissingPairs {
    let mut bits = [0; 15];
    for (place, (small, large)) in pairs().enumerate() {
        let at_most_n = small <= n && large <= n;
        if at_most_n && !neighbours(rows, small - 1, large - 1) {
            bits[place / 8] |= 1 << (place % 8);
        }
    }
    bits
}

/// The pairs below n whose bits are set: row by row.
fn apart_by_pairs(bits: &MissingPairs, n: usize) -> Vec<Vec<bool>> {
    let mut apart = vec![vec![false; n]; n];
    for (place, (small, large)) in pairs().enumerate() {
        if large <= n && bits[place / 8] >> (place % 8) & 1 == 1 {
            apart[small - 1][large - 1] = true;
            apart[large - 1][small - 1] = true;
        }
    }
    apart
}

/// For every set of controllers, how many pairs its largest matching has.
fn sizes(apart: &[Vec<bool>]) -> Vec<u8> {
    let n = apart.len();
    let mut size = vec![0u8; 1 << n];
    for set in 1..1usize << n {
        let v = set.trailing_zeros() as usize;
        let rest = set & (set - 1);
        size[set] = (v + 1..n)
            .filter(|&w| rest >> w & 1 == 1 && apart[v][w])
            .map(|w| 1 + size[rest & !(1 << w)])
            .fold(size[rest], u8::max);
    }
    size
}

/// Of the largest matchings, the first in dictionary order.
pub fn matching(apart: &[Vec<bool>]) -> Vec<(usize, usize)> {
    let n = apart.len();
    let size = sizes(apart);
    let mut set = (1usize << n) - 1;
    let mut pairs = Vec::new();
    while set != 0 {
        let v = set.trailing_zeros() as usize;
        let rest = set & (set - 1);
        let partner = (v + 1..n).find(|&w| {
            rest >> w & 1 == 1 && apart[v][w] && 1 + size[rest & !(1 << w)] == size[set]
        });
        set = match partner {
            Some(w) => {
                pairs.push((v, w));
                rest & !(1 << w)
            }
            None => rest,
        };
    }
    pairs
}

fn set(n: usize, test: impl Fn(usize) -> bool) -> u16 {
    (0..n).filter(|&i| test(i)).map(|i| 1u16 << i).sum()
}

/// What the star answers.
pub fn star(rows: &[u16; 16], n: usize, t: usize) -> Star {
    star_of(n, t, || apart(rows, n))
}

/// What the star of any 120 bits answers.
pub fn star_of_pairs(bits: &MissingPairs, n: usize, t: usize) -> Star {
    star_of(n, t, || apart_by_pairs(bits, n))
}

/// The refusals, and else the star of a graph.
fn star_of(n: usize, t: usize, apart: impl Fn() -> Vec<Vec<bool>>) -> Star {
    match refusal(n, t) {
        0 => {
            let apart = apart();
            from_matching(&apart, &matching(&apart), t)
        }
        refusal => Star {
            refusal,
            ..Star::default()
        },
    }
}

/// The sets that a matching gives, if they are large enough.
pub fn from_matching(apart: &[Vec<bool>], pairs: &[(usize, usize)], t: usize) -> Star {
    let n = apart.len();
    let matched = |i: usize| pairs.iter().any(|&(a, b)| i == a || i == b);
    let struck = |i: usize| pairs.iter().any(|&(a, b)| apart[i][a] && apart[i][b]);
    let c = set(n, |i| !matched(i) && !struck(i));
    let in_b = |i: usize| matched(i) && (0..n).any(|x| marks(c, x) && apart[i][x]);
    let d = set(n, |i| !in_b(i));
    let near = |i: usize, s: u16| (0..n).filter(|&x| marks(s, x) && !apart[i][x]).count();
    let f = set(n, |i| near(i, c) > t);
    let e = set(n, |i| near(i, f) > 2 * t);
    let size = |s: u16| s.count_ones() as usize;
    if size(c) >= n - 2 * t && size(d) >= n - t && size(f) > 2 * t && size(e) > 2 * t {
        Star {
            refusal: 0,
            c,
            d,
            f,
            e,
        }
    } else {
        Star::default()
    }
}

#[cfg(test)]
mod tests {
    use super::*;

    /// The bits of some pairs, each at its place in the list of document 02's order.
    fn bits(missing: &[(usize, usize)]) -> MissingPairs {
        let order: Vec<_> = pairs().collect();
        let mut bits = [0; 15];
        for pair in missing {
            let place = order.iter().position(|other| other == pair).unwrap();
            bits[place / 8] |= 1 << (place % 8);
        }
        bits
    }

    /// The rows in which all mark all but these pairs; of each pair the larger one lacks its mark.
    fn rows(missing: &[(usize, usize)]) -> [u16; 16] {
        let mut rows = [0xffff; 16];
        for &(small, large) in missing {
            rows[large - 1] &= !(1 << (small - 1));
        }
        rows
    }

    #[test]
    fn the_order_of_the_pairs() {
        let order: Vec<_> = pairs().collect();
        assert_eq!(order.len(), 120);
        assert_eq!(order[..3], [(1, 2), (1, 3), (1, 4)]);
        assert_eq!(order[14..17], [(1, 16), (2, 3), (2, 4)]);
        assert_eq!(order[117..], [(14, 15), (14, 16), (15, 16)]);
        assert!(order.windows(2).all(|two| two[0] < two[1]));
    }

    /// All pairs missing, and of the numbers up to 4 the six of the places 0, 1, 2, 15, 16 and 29.
    #[test]
    fn bits_of_rows() {
        assert_eq!(missing_pairs(&[0; 16], 16), [0xff; 15]);
        assert_eq!(missing_pairs(&[0xffff; 16], 16), [0; 15]);
        let mut four = [0; 15];
        (four[0], four[1], four[2], four[3]) = (0x07, 0x80, 0x01, 0x20);
        assert_eq!(missing_pairs(&[0; 16], 4), four);
        assert_eq!(missing_pairs(&[0; 16], 1), [0; 15]);
    }

    /// Examples g, h and i of document 01, by rows and by pairs, with the bits of all pairs past 4 set.
    #[test]
    fn examples() {
        let past: Vec<_> = pairs().filter(|&(_, large)| large > 4).collect();
        let g = [(1, 4), (2, 4), (3, 4)];
        let h = [(1, 2), (1, 3), (1, 4), (2, 4), (3, 4)];
        for (missing, sets) in [
            (&g[..], [6, 7, 7, 7]),
            (&h[..], [0; 4]),
            (&[][..], [0xf; 4]),
        ] {
            assert_eq!(missing_pairs(&rows(missing), 4), bits(missing));
            let with_past = bits(&[missing, &past].concat());
            for star in [
                star(&rows(missing), 4, 1),
                star_of_pairs(&bits(missing), 4, 1),
                star_of_pairs(&with_past, 4, 1),
            ] {
                assert_eq!((star.refusal, [star.c, star.d, star.f, star.e]), (0, sets));
            }
        }
        assert_eq!(star_of_pairs(&[0; 15], 3, 0).refusal, 1);
        assert_eq!(star_of_pairs(&[0; 15], 17, 5).refusal, 1);
        assert_eq!(star_of_pairs(&[0; 15], 4, 2).refusal, 2);
    }
}
