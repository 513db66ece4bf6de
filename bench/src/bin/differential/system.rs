//! A system in a run: settings, run number, who is faulty, what the faulty ones speak of, each controller between two calls, and what each has sent, in
//! the run before too. What faulty controllers choose is in `faulty`, how a run goes in `systems`.
use crate::inputs::{costly, sharing_block};
use crate::random::Random;
use reference::controller::State;
use reference::wire::{self, FRONT};

/// A controller between two calls; the same on both sides.
pub struct Controller {
    pub state: State,
    pub bytes: Vec<u8>,
    pub block: Vec<u8>,
}

pub struct System {
    pub n: usize,
    pub t: usize,
    pub k: usize,
    /// 0 if there is none.
    pub sender: usize,
    pub run: u16,
    /// The faulty controllers, the bit worth 1 for controller 1.
    pub faulty: u16,
    /// Blocks that faulty controllers speak of; the sender's comes first, and without a sender one that controllers start with.
    pub blocks: Vec<Vec<u8>>,
    /// For each controller the block that a faulty sender has for it, or that it starts with where there is no sender.
    pub groups: Vec<usize>,
    pub controllers: Vec<Controller>,
    /// The outboxes of each round, one for each controller.
    pub outboxes: Vec<Vec<Vec<u8>>>,
    /// The same of the run before; empty where there was none.
    pub before: Vec<Vec<Vec<u8>>>,
}

impl System {
    /// A system before its start, with no run before it.
    pub fn new(random: &mut Random) -> System {
        let (n, t, k) = random.settings();
        let count = match random.below(20) {
            0 => 0,
            1..=3 => random.within(t + 1, n - 1),
            4..=10 => t,
            _ => random.within(1, t),
        };
        let mut faulty = random.subset(n, count);
        let mut sender = random.within(1, n);
        if count > 0 && random.one_in(2) {
            // a faulty sender
            while faulty >> (sender - 1) & 1 == 0 {
                sender = random.within(1, n);
            }
        }
        if random.one_in(2) {
            // the kings are among the faulty ones
            faulty = faulty.rotate_right(faulty.trailing_zeros());
            sender = if random.one_in(2) {
                1
            } else {
                random.within(1, n)
            };
        }
        if costly(n, t, k) {
            // pieces of low numbers are right then
            let last = random.within(0, t);
            faulty = random.subset(n - t - 1, last) << (t + 1);
        }
        let blocks = System::blocks(random, (n, t, k));
        let run = random.run();
        System::with(random, (n, t, k), sender, run, faulty, blocks)
    }

    /// The next run of the same controllers: with another number, with the same blocks or others, and with the same sender or another.
    pub fn after(random: &mut Random, before: System) -> System {
        let System { n, t, k, .. } = before;
        let blocks = if random.one_in(2) {
            before.blocks
        } else {
            System::blocks(random, (n, t, k))
        };
        let sender = if random.one_in(2) && before.sender != 0 {
            before.sender
        } else {
            random.within(1, n)
        };
        let run = random.other_run(before.run);
        System {
            before: before.outboxes,
            ..System::with(random, (n, t, k), sender, run, before.faulty, blocks)
        }
    }

    /// Blocks, which share pieces or differ in one bit.
    fn blocks(random: &mut Random, (n, t, k): (usize, usize, usize)) -> Vec<Vec<u8>> {
        let first = random.bytes(k * (t + 1));
        let mut blocks = vec![first.clone()];
        for _ in 0..random.within(1, 3) {
            let mut block = sharing_block(random, n, t, &first);
            if random.one_in(4) {
                block = first.clone();
                block[random.below(k * (t + 1))] ^= 1 << random.below(8);
            }
            blocks.push(block);
        }
        blocks
    }

    /// The system of these, or one in four without a sender.
    fn with(
        random: &mut Random,
        (n, t, k): (usize, usize, usize),
        mut sender: usize,
        run: u16,
        faulty: u16,
        blocks: Vec<Vec<u8>>,
    ) -> System {
        if random.one_in(4) {
            sender = 0;
        }
        let mut groups = vec![0; n];
        let mut others = random.pick(&[1, t, t, t + 1, n / 2]);
        if sender == 0 && random.one_in(2) {
            // all start with one block
            others = 0;
        }
        for i in &random.order(n)[..others] {
            groups[*i] = random.below(blocks.len());
        }
        System {
            n,
            t,
            k,
            sender,
            run,
            faulty,
            blocks,
            groups,
            controllers: Vec::new(),
            outboxes: Vec::new(),
            before: Vec::new(),
        }
    }

    /// The block that a controller starts with: that of the sender and, without one, that of its group; else any.
    pub fn first_block(&self, random: &mut Random, own: usize) -> Vec<u8> {
        if self.sender == 0 {
            self.blocks[self.groups[own - 1]].clone()
        } else if own == self.sender {
            self.blocks[0].clone()
        } else {
            random.bytes(self.blocks[0].len())
        }
    }

    pub fn is_faulty(&self, i: usize) -> bool {
        self.faulty >> (i - 1) & 1 == 1
    }

    pub fn message_length(&self, round: usize) -> usize {
        let (n, t, k) = (self.n as u128, self.t as u128, self.k as u128);
        wire::message_length(n, t, k, round as u128) as usize
    }

    pub fn state(&self, i: usize) -> &State {
        &self.controllers[i - 1].state
    }

    pub fn block(&self, i: usize) -> &[u8] {
        &self.controllers[i - 1].block
    }

    /// The slot that `from` has written for `to` in a round.
    pub fn sent(&self, round: usize, from: usize, to: usize) -> &[u8] {
        self.slot(&self.outboxes[round - 1], round, from, to)
    }

    /// The same of the run before.
    pub fn sent_before(&self, round: usize, from: usize, to: usize) -> Option<&[u8]> {
        let outboxes = self.before.get(round - 1)?;
        Some(self.slot(outboxes, round, from, to))
    }

    fn slot<'a>(&self, outboxes: &'a [Vec<u8>], round: usize, from: usize, to: usize) -> &'a [u8] {
        let width = FRONT + self.message_length(round);
        &outboxes[from - 1][(to - 1) * width..to * width]
    }
}
