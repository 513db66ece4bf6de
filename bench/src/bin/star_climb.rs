//! Looks for a graph on 16 controllers on which the search for the first largest matching takes long, by hill climbing from random
//! starts: a model of the search of crates/matching counts its steps, and a change of the graph that does not lower the count is kept.
//! Prints each graph that beats those before it, with the round, the count and the size of the matching: row i has the bit j where i
//! and j are not neighbours. The one argument, if there is one, is the number of rounds.
use reference::star::{apart, matching};
use std::cmp::Reverse;

type Graph = [u16; 16];

const SEED: u64 = 424242;
/// With so many rounds the last graph printed is the second one that `bench/benchmark` measures.
const ROUNDS: u64 = 420;
/// A climb ends after so many changes in a row that do not raise the count.
const PATIENCE: u32 = 400;

/// The search, and the steps that it took: 4 for a call, 8 for a choice of whom to take out, 1 for each component and each of its
/// members that is looked at.
struct Search<'a> {
    graph: &'a Graph,
    steps: u64,
}

impl Search<'_> {
    fn component(&mut self, s: u16, v: u32) -> u16 {
        let mut c = 1u16 << v;
        let mut unseen = s;
        let mut next = c;
        while next != 0 {
            self.steps += 1;
            let x = next.trailing_zeros();
            unseen &= !(1 << x);
            c |= self.graph[x as usize] & s;
            next = c & unseen;
        }
        c
    }

    fn halves(&mut self, s: u16) -> u32 {
        let mut left = s;
        let mut sum = 0;
        while left != 0 {
            self.steps += 1;
            let c = self.component(left, left.trailing_zeros());
            sum += c.count_ones() / 2;
            left &= !c;
        }
        sum
    }

    /// The member of s with the most partners within s, or a partner of the one with the fewest; 16 where nobody has one.
    fn hub(&mut self, s: u16, most: bool) -> u32 {
        self.steps += 8;
        let partners = |i: u32| self.graph[i as usize] & s;
        let members = (0..16).filter(|&i| s >> i & 1 == 1 && partners(i) != 0);
        if most {
            members.min_by_key(|&i| Reverse(partners(i).count_ones()))
        } else {
            members
                .map(partners)
                .min_by_key(|p| p.count_ones())
                .map(u16::trailing_zeros)
        }
        .unwrap_or(16)
    }

    fn falls_short(&mut self, s: u16, k: u32, most: bool) -> bool {
        let mut left = s;
        for x in 0..k {
            if self.halves(left) + x < k {
                return true;
            }
            let y = self.hub(left, most);
            if y < 16 {
                left &= !(1 << y);
            }
        }
        false
    }

    /// Whether there is a matching of k pairs within s. The crate has no test of the size of s: the first bound of `falls_short` has
    /// the same answer there.
    fn is_found(&mut self, s: u16, k: u32) -> bool {
        self.steps += 4;
        if k == 0 {
            return true;
        }
        if s.count_ones() < 2 * k || self.falls_short(s, k, true) || self.falls_short(s, k, false) {
            return false;
        }
        let v = s.trailing_zeros();
        let rest = s & !(1 << v);
        let partners = self.graph[v as usize] & rest;
        (v + 1..16).any(|w| partners >> w & 1 == 1 && self.is_found(rest & !(1 << w), k - 1))
            || self.is_found(rest, k)
    }
}

/// The steps of the search for the first largest matching, and its size.
fn cost(graph: &Graph) -> (u64, u32) {
    let mut search = Search { graph, steps: 0 };
    let largest = (1..=8).rev().find(|&k| search.is_found(u16::MAX, k));
    (search.steps, largest.unwrap_or(0))
}

/// Xorshift.
struct Random(u64);

impl Random {
    fn below(&mut self, n: usize) -> usize {
        self.0 ^= self.0 << 13;
        self.0 ^= self.0 >> 7;
        self.0 ^= self.0 << 17;
        (self.0 % n as u64) as usize
    }

    fn order(&mut self) -> [usize; 16] {
        let mut order = std::array::from_fn(|i| i);
        for i in (1..16).rev() {
            order.swap(i, self.below(i + 1));
        }
        order
    }
}

fn flip(graph: &mut Graph, i: usize, j: usize) {
    if i != j {
        graph[i] ^= 1 << j;
        graph[j] ^= 1 << i;
    }
}

/// The pairs of a side and the other.
fn bipartite(side: impl Fn(usize) -> bool) -> Graph {
    std::array::from_fn(|i| {
        (0..16)
            .filter(|&j| side(i) != side(j))
            .map(|j| 1 << j)
            .sum()
    })
}

/// Some controllers with all others, which are cliques of these sizes, taken at random.
fn cliques(r: &mut Random, order: [usize; 16], hubs: usize, sizes: &[usize]) -> Graph {
    let mut graph = [0; 16];
    let mut p = hubs;
    while p < 16 {
        let end = (p + sizes[r.below(sizes.len())]).min(16);
        for x in p..end {
            (p..x).for_each(|y| flip(&mut graph, order[x], order[y]));
        }
        p = end;
    }
    for a in 0..hubs {
        (hubs..16).for_each(|x| flip(&mut graph, order[a], order[x]));
    }
    graph
}

/// A graph to start from, by the round: pairs at random; two sides, of which one is scattered, or first or last; cliques and hubs.
fn start(r: &mut Random, round: u64) -> Graph {
    let mut graph = [0; 16];
    match round % 5 {
        0 => {
            let density = r.below(100);
            let pairs = (0..16).flat_map(|i| (0..i).map(move |j| (i, j)));
            for (i, j) in pairs {
                if r.below(100) < density {
                    flip(&mut graph, i, j);
                }
            }
        }
        1 => {
            let size = 2 + r.below(6) as u32;
            let mut side = 0u16;
            while side.count_ones() < size {
                side |= 1 << r.below(16);
            }
            graph = bipartite(|i| side >> i & 1 == 1);
        }
        2 => {
            let size = 2 + r.below(6);
            let first = r.below(2) == 0;
            graph = bipartite(|i| if first { i < size } else { i >= 16 - size });
        }
        3 => {
            let hubs = 1 + r.below(4);
            let order = r.order();
            graph = cliques(r, order, hubs, &[1, 1, 3, 3, 5]);
        }
        _ => {
            let mut order = std::array::from_fn(|i| i);
            if r.below(2) == 0 {
                order = r.order();
            }
            let hubs = r.below(4);
            graph = cliques(r, order, hubs, &[1, 3, 5, 7, 9, 11, 13]);
            for a in 0..hubs {
                (0..a).for_each(|x| flip(&mut graph, order[a], order[x]));
            }
        }
    }
    graph
}

/// The graph with the controllers i and j exchanged.
fn exchanged(graph: &Graph, i: usize, j: usize) -> Graph {
    let place = |x| {
        if x == i {
            j
        } else if x == j {
            i
        } else {
            x
        }
    };
    let edge = |x: usize, y: usize| graph[place(x)] >> place(y) & 1;
    std::array::from_fn(|x| (0..16).map(|y| edge(x, y) << y).sum())
}

/// One to three changes: two controllers exchanged, or a pair put in or taken out.
fn changed(graph: &Graph, r: &mut Random) -> Graph {
    let mut next = *graph;
    for _ in 0..1 + r.below(3) {
        let exchange = r.below(4) == 0;
        let (i, j) = (r.below(16), r.below(16));
        if exchange {
            next = exchanged(&next, i, j);
        } else {
            flip(&mut next, i, j);
        }
    }
    next
}

fn climb(r: &mut Random, round: u64) -> (Graph, u64) {
    let mut graph = start(r, round);
    let mut best = cost(&graph).0;
    let mut idle = 0;
    while idle < PATIENCE {
        let next = changed(&graph, r);
        let c = cost(&next).0;
        idle = if c > best { 0 } else { idle + 1 };
        if c >= best {
            (graph, best) = (next, c);
        }
    }
    (graph, best)
}

fn main() {
    let rounds = std::env::args()
        .nth(1)
        .map_or(ROUNDS, |a| a.parse().expect("a number of rounds"));
    let mut r = Random(SEED);
    let mut worst = 0;
    for round in 1..=rounds {
        let (graph, steps) = climb(&mut r, round);
        if steps > worst {
            worst = steps;
            let size = cost(&graph).1;
            let marks: Graph = graph.map(|row| !row);
            assert_eq!(matching(&apart(&marks, 16)).len(), size as usize);
            println!("round {round}: {steps} steps, {size} pairs, {graph:?}");
        }
    }
}
