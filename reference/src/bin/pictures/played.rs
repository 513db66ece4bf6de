//! A run of the reference with all that it leaves behind: what each correct controller holds after each call, and every message.
use crate::svg::RED;
use reference::controller::State;
use reference::simulator::{hex, Run, System, RUN};
use reference::wire::in_slot;
use std::collections::{BTreeMap, BTreeSet};

/// What the run leaves: states and blocks by call and controller, messages by round, from and to.
pub struct Played {
    pub system: System,
    pub correct: Vec<usize>,
    pub after: BTreeMap<(usize, usize), (State, Vec<u8>)>,
    pub sent: BTreeMap<(usize, usize, usize), Vec<u8>>,
}

impl Played {
    pub fn new(system: System) -> Played {
        let numbers = (1..=system.n).filter(|i| !system.faulty.contains(i));
        let correct: Vec<usize> = numbers.collect();
        let mut run = Run::new(&system, correct.iter().copied());
        let (mut after, mut sent) = (BTreeMap::new(), system.messages.clone());
        for c in 1..=system.rounds() + 1 {
            run.call(&system, c);
            for &i in &correct {
                let controller = run.controller(i);
                after.insert((c, i), (controller.state, controller.block.clone()));
                if c > system.rounds() {
                    continue;
                }
                for to in 1..=system.n {
                    if let Some(message) = in_slot(run.slot(&system, c, i, to), RUN) {
                        sent.insert((c, i, to), message.to_vec());
                    }
                }
            }
        }
        Played {
            system,
            correct,
            after,
            sent,
        }
    }

    /// The picture is laid out for a system of 4 with one faulty controller, which is the sender.
    pub fn check(&self) {
        let System {
            n,
            t,
            k,
            sender,
            faulty,
            ..
        } = &self.system;
        assert_eq!((*n, *t, *k), (4, 1, 1));
        assert_eq!(*faulty, BTreeSet::from([*sender]));
        assert_eq!(self.system.rounds(), 11);
        let last = self.system.messages.keys().map(|key| key.0).max();
        assert_eq!(last, Some(3), "the last round in which 1 sends");
    }

    pub fn state(&self, call: usize, i: usize) -> &State {
        &self.after[&(call, i)].0
    }

    /// What all correct controllers hold alike after a call.
    pub fn common<T: PartialEq + std::fmt::Debug>(
        &self,
        call: usize,
        part: impl Fn(&State, &[u8]) -> T,
    ) -> T {
        let of = |i: usize| {
            let (state, block) = &self.after[&(call, i)];
            part(state, block)
        };
        let first = of(self.correct[0]);
        for &i in &self.correct {
            assert_eq!(of(i), first, "controllers {} and {i}", self.correct[0]);
        }
        first
    }

    pub fn faulty(&self, i: usize) -> bool {
        self.system.faulty.contains(&i)
    }

    /// Red for a faulty controller.
    pub fn colour(&self, i: usize, correct: &'static str) -> &'static str {
        if self.faulty(i) {
            RED
        } else {
            correct
        }
    }

    /// A message in hexadecimal, its pieces apart; a dash where there is none.
    pub fn pieces(&self, round: usize, from: usize, to: usize) -> String {
        let Some(message) = self.sent.get(&(round, from, to)) else {
            return "–".to_string();
        };
        let pieces: Vec<String> = message.chunks(self.system.k).map(hex).collect();
        pieces.join(" ")
    }

    /// The marks that a controller sends to all.
    pub fn marks(&self, i: usize) -> Vec<usize> {
        let message = &self.sent[&(3, i, i)];
        members(u16::from_le_bytes([message[0], message[1]]), self.system.n)
    }
}

/// The numbers in a set.
pub fn members(set: u16, n: usize) -> Vec<usize> {
    (1..=n).filter(|i| set >> (i - 1) & 1 == 1).collect()
}

pub fn listed(numbers: &[usize], between: &str) -> String {
    let numbers: Vec<String> = numbers.iter().map(usize::to_string).collect();
    numbers.join(between)
}
