//! The expected output of the program vote_cases, from the reference.
use reference::vote::{bytes, first, from_words as matrix, held, seen, settled, words, Message};
use reference::wire::{in_slot, slot_with};

struct Setup {
    n: usize,
    t: usize,
    faults: usize,
    seed: u64,
}

/// The generator of the program: x times 1664525 plus 1013904223, modulo 2 to the 32.
fn next(x: u64) -> u64 {
    (x % (1 << 32) * 1664525 + 1013904223) % (1 << 32)
}

fn mix(x: u64, y: u64) -> u64 {
    next(x + y)
}

fn draw(seed: u64, c: usize, i: usize, j: usize, b: usize) -> u64 {
    [c, i, j, b]
        .iter()
        .fold(next(seed), |x, &y| mix(x, y as u64))
        / 65536
}

impl Setup {
    fn faulty(&self, i: usize) -> bool {
        match self.faults {
            0 => false,
            1 => i < self.t,
            2 => i >= self.n - self.t,
            _ => (0..self.t).any(|k| i == 3 * k + 1),
        }
    }

    /// The run number.
    fn run(&self) -> u16 {
        [0, 1, 256, 65535][(self.seed + self.seed / 4) as usize % 4]
    }

    /// What a faulty controller sends: 0 silence, 1 all ones to every other receiver, 2 any bytes, 3 any bytes or silence, 4 any bytes, to every other
    /// receiver in a slot of another run, which differs in one byte of the number only.
    fn lie(&self, c: usize, i: usize, j: usize, len: usize) -> Message {
        let any = || {
            Some(
                (0..len)
                    .map(|b| draw(self.seed, c, i, j, b) as u8)
                    .collect::<Vec<u8>>(),
            )
        };
        match draw(self.seed, 0, i, 0, 0) % 5 {
            0 => None,
            1 => Some(vec![if j % 2 == 0 { 0 } else { 255 }; len]),
            2 => any(),
            4 if j % 2 == 1 => {
                let other = self.run() ^ if c % 2 == 0 { 1 } else { 256 };
                in_slot(&slot_with(other, &any()?), self.run()).map(<[u8]>::to_vec)
            }
            4 => any(),
            _ if draw(self.seed, c, i, j, 1000) % 2 == 0 => any(),
            _ => None,
        }
    }

    /// The messages that j receives in round c; `sent` is what each correct controller sends to all.
    fn received(&self, c: usize, j: usize, sent: &[Message], len: usize) -> Vec<Message> {
        (0..self.n)
            .map(|i| {
                if self.faulty(i) {
                    self.lie(c, i, j, len)
                } else {
                    sent[i].clone()
                }
            })
            .collect()
    }
}

fn digest(words: &[u16]) -> u64 {
    words.iter().fold(0, |d, &w| mix(d, u64::from(w)))
}

fn scattered(seed: u64, j: usize) -> [u16; 16] {
    std::array::from_fn(|r| {
        let flips = [501, 502, 503]
            .iter()
            .fold(0xffff, |x, &c| x & draw(seed, c, j, 0, r));
        (draw(seed, 500, 0, 0, r) ^ flips) as u16
    })
}

fn play(s: &Setup) {
    let n = s.n;
    let correct: Vec<usize> = (0..n).filter(|&i| !s.faulty(i)).collect();
    println!("vote {n} {} {} {} {}", s.t, s.faults, s.seed, s.run());
    // of index i: its matrix, the weak one, the zeros and the ones, as words
    let mut state = vec![[[0u16; 16]; 16]; 4];
    let report = |c: usize, state: &Vec<[[u16; 16]; 16]>| {
        let all: Vec<u16> = state.iter().flatten().flatten().copied().collect();
        println!("round {c} {:08x}", digest(&all));
    };
    let marks: Vec<Message> = (0..n)
        .map(|i| Some((draw(s.seed, 3, i, 0, 0) as u16).to_le_bytes().to_vec()))
        .collect();
    for &j in &correct {
        state[0][j] = if s.seed % 2 == 0 {
            words(&first(&s.received(3, j, &marks, 2)))
        } else {
            scattered(s.seed, j)
        };
    }
    report(3, &state);
    let start = state[0];
    for p in 1..=s.t + 1 {
        let sent: Vec<Message> = (0..n)
            .map(|i| Some(bytes(&matrix(n, &state[0][i]))))
            .collect();
        for &j in &correct {
            let (zeros, ones) = seen(&s.received(3 * p + 1, j, &sent, 2 * n), s.t);
            state[2][j] = words(&zeros);
            state[3][j] = words(&ones);
        }
        report(3 * p + 1, &state);
        let sent: Vec<Message> = (0..n)
            .map(|i| {
                Some(
                    [
                        bytes(&matrix(n, &state[2][i])),
                        bytes(&matrix(n, &state[3][i])),
                    ]
                    .concat(),
                )
            })
            .collect();
        for &j in &correct {
            let (rows, weak) = held(&s.received(3 * p + 2, j, &sent, 4 * n), s.t);
            state[0][j] = words(&rows);
            state[1][j] = words(&weak);
        }
        report(3 * p + 2, &state);
        let sent: Vec<Message> = (0..n)
            .map(|i| (i + 1 == p).then(|| bytes(&matrix(n, &state[0][i]))))
            .collect();
        for &j in &correct {
            let king = &s.received(3 * p + 3, j, &sent, 2 * n)[p - 1];
            let m = settled(&matrix(n, &state[0][j]), &matrix(n, &state[1][j]), king);
            state[0][j] = words(&m);
        }
        report(3 * p + 3, &state);
    }
    // what the vote promises
    for r in 0..n {
        for b in 0..n {
            let bits = |m: &[[u16; 16]; 16]| -> Vec<u16> {
                correct.iter().map(|&j| m[j][r] >> b & 1).collect()
            };
            let (before, after) = (bits(&start), bits(&state[0]));
            assert!(after.iter().all(|&x| x == after[0]));
            assert!(before.iter().any(|&x| x != before[0]) || after[0] == before[0]);
        }
    }
    for &j in &correct {
        println!("controller {} {:08x}", j + 1, digest(&state[0][j]));
    }
}

fn main() {
    for (n, t) in [(4, 1), (7, 2), (10, 3), (16, 5)] {
        for k in 0..16 {
            play(&Setup {
                n,
                t,
                faults: k / 4,
                seed: k as u64,
            });
        }
    }
}
