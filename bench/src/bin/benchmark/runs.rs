//! Whole runs of 16 controllers, t 5, k 128, by the library and by the reference: the time of the steps alone, without the passing of
//! messages.
use crate::random::Random;
use crate::timing::{figure, print_table, ratio, Times};
use potekawhi::raw;
use reference::controller::{self, Outcome, State};
use reference::wire::{slot_with, FRONT};
use std::hint::black_box;
use std::time::Instant;

const N: usize = 16;
const T: usize = 5;
const K: usize = 128;
/// A correct controller in all runs.
const SENDER: usize = 11;
/// The run number of all runs.
const RUN: u16 = 513;
/// `POTEKAWHI_OUTCOME_AGREED`.
const AGREED: u8 = 1;

/// One controller in a run.
trait Controller {
    fn start(own: usize, block: Vec<u8>) -> Self;
    fn step(&mut self, inbox: &[u8], outbox: &mut [u8]) -> u8;
    /// The outcome as a number of the header, whom it names, and the block.
    fn end(&self) -> (u8, u16, Vec<u8>);
}

struct OfLibrary {
    state: [u8; raw::STATE_LENGTH],
    block: Vec<u8>,
}

impl Controller for OfLibrary {
    fn start(own: usize, block: Vec<u8>) -> Self {
        let mut state = [0; raw::STATE_LENGTH];
        assert_eq!(raw::start(N, T, K, own, SENDER, RUN, &block, &mut state), 0);
        OfLibrary { state, block }
    }

    fn step(&mut self, inbox: &[u8], outbox: &mut [u8]) -> u8 {
        raw::step(&mut self.state, &mut self.block, inbox, outbox)
    }

    fn end(&self) -> (u8, u16, Vec<u8>) {
        let mut block = vec![0; self.block.len()];
        let outcome = raw::final_block(&self.state, &self.block, &mut block);
        (outcome, raw::named(&self.state), block)
    }
}

struct OfReference {
    state: State,
    block: Vec<u8>,
}

impl Controller for OfReference {
    fn start(own: usize, block: Vec<u8>) -> Self {
        let (number, state) = controller::start(N, T, K, own, SENDER, RUN, &block);
        assert_eq!(number, 0);
        OfReference { state, block }
    }

    fn step(&mut self, inbox: &[u8], outbox: &mut [u8]) -> u8 {
        let (number, state) = controller::step(self.state, &mut self.block, inbox, outbox);
        self.state = state;
        number
    }

    fn end(&self) -> (u8, u16, Vec<u8>) {
        let outcome = match self.state.outcome {
            Outcome::Open => 0,
            Outcome::Agreed => AGREED,
            Outcome::None => 2,
            Outcome::Beyond => 3,
        };
        (outcome, self.state.named, self.block.clone())
    }
}

/// Who is faulty, and what the faulty send: drawn at random for each round and receiver before the runs.
struct System {
    block: Vec<u8>,
    faulty: Vec<usize>,
    /// For each round from 1 on a slot from each controller to each; those from the faulty are sent.
    garbled: Vec<Vec<Vec<u8>>>,
}

impl System {
    fn new(random: &mut Random, faulty: &[usize]) -> System {
        assert!(faulty.len() <= T && !faulty.contains(&SENDER));
        let mut garbled = Vec::new();
        for c in 1..raw::calls(T) {
            let length = raw::message_length(N, T, K, c);
            let slot = |_| slot_with(RUN, &random.bytes(length));
            garbled.push((0..N * N).map(slot).collect());
        }
        System {
            block: random.bytes(raw::block_length(N, T, K)),
            faulty: faulty.to_vec(),
            garbled,
        }
    }

    fn correct(&self) -> Vec<usize> {
        (1..=N).filter(|i| !self.faulty.contains(i)).collect()
    }

    /// Plays the system with controllers of one kind, of which each must end with the sender's block and name the faulty ones. Answers the
    /// nanoseconds of each step, call by call.
    fn play<C: Controller>(&self) -> Vec<Vec<f64>> {
        let correct = self.correct();
        let own_block = |i: usize| match i {
            SENDER => self.block.clone(),
            _ => vec![0; self.block.len()],
        };
        let mut controllers: Vec<C> = correct.iter().map(|&i| C::start(i, own_block(i))).collect();
        let mut inboxes = vec![Vec::new(); correct.len()];
        let mut times = Vec::new();
        for c in 1..=raw::calls(T) {
            let mut outboxes = vec![vec![0; raw::outbox_length(N, T, K, c)]; correct.len()];
            let mut of_call = Vec::new();
            for ((a, inbox), outbox) in controllers.iter_mut().zip(&inboxes).zip(&mut outboxes) {
                let start = Instant::now();
                let number = a.step(black_box(inbox), black_box(outbox));
                of_call.push(start.elapsed().as_nanos() as f64);
                assert_eq!(number, 0);
            }
            times.push(of_call);
            if c < raw::calls(T) {
                inboxes = correct
                    .iter()
                    .map(|&j| self.inbox(c, j, &outboxes))
                    .collect();
            }
        }
        let faulty = self.faulty.iter().fold(0, |marks, &i| marks | 1 << (i - 1));
        for controller in &controllers {
            assert!(controller.end() == (AGREED, faulty, self.block.clone()));
        }
        times
    }

    /// What arrives at j in round c.
    fn inbox(&self, c: usize, j: usize, outboxes: &[Vec<u8>]) -> Vec<u8> {
        let width = FRONT + raw::message_length(N, T, K, c);
        let mut sent = outboxes.iter();
        let slot = |i: usize| {
            if self.faulty.contains(&i) {
                return &self.garbled[c - 1][(i - 1) * N + j - 1][..];
            }
            let outbox = sent.next().expect("an outbox of each correct controller");
            &outbox[(j - 1) * width..j * width]
        };
        (1..=N).flat_map(slot).copied().collect()
    }
}

/// The times of several runs.
struct Runs {
    /// All steps of all correct controllers together.
    whole: Times,
    /// For each call and controller the median.
    steps: Vec<Vec<f64>>,
}

impl Runs {
    fn new(runs: &[Vec<Vec<f64>>]) -> Runs {
        let whole = runs.iter().map(|run| run.iter().flatten().sum());
        let step = |c: usize, i: usize| {
            let all = runs.iter().map(|run| run[c][i]);
            Times::new(all.collect()).median()
        };
        let of_call = |c: usize| (0..runs[0][c].len()).map(|i| step(c, i)).collect();
        Runs {
            whole: Times::new(whole.collect()),
            steps: (0..runs[0].len()).map(of_call).collect(),
        }
    }

    /// Microseconds of a step: the mean, the longest, and the call of the longest.
    fn of_step(&self) -> [String; 3] {
        let all = self.steps.iter().zip(1..);
        let all: Vec<(f64, usize)> = all
            .flat_map(|(of_call, c)| of_call.iter().map(move |&time| (time, c)))
            .collect();
        let mean = all.iter().map(|(time, _)| time).sum::<f64>() / all.len() as f64;
        let longest = all.iter().max_by(|a, b| a.0.total_cmp(&b.0));
        let &(time, c) = longest.expect("a step");
        [figure(mean / 1e3), figure(time / 1e3), c.to_string()]
    }
}

/// Table 5: whole runs.
pub fn whole_runs() {
    let mut random = Random::new(5);
    let mut rows = Vec::new();
    for (name, faulty, library_runs, reference_runs) in [
        ("all correct", vec![], 31, 5),
        ("12 to 16 garble", vec![12, 13, 14, 15, 16], 31, 5),
        ("1 to 5 garble", vec![1, 2, 3, 4, 5], 31, 1),
    ] {
        let system = System::new(&mut random, &faulty);
        let (mut library, mut reference) = (Vec::new(), Vec::new());
        // one run before those that count
        system.play::<OfLibrary>();
        for r in 0..library_runs {
            library.push(system.play::<OfLibrary>());
            if r < reference_runs {
                reference.push(system.play::<OfReference>());
            }
        }
        let (library, reference) = (Runs::new(&library), Runs::new(&reference));
        let by_library = ratio(&reference.whole, &library.whole);
        for (side, runs, count, ratio) in [
            ("library", library, library_runs, String::new()),
            ("reference", reference, reference_runs, by_library),
        ] {
            let mut row = vec![name.to_string(), side.to_string(), count.to_string()];
            row.extend(runs.whole.cells(1e6));
            row.extend(runs.of_step());
            row.push(ratio);
            rows.push(row);
        }
    }
    let heading =
        "5. Whole runs of 16 controllers, t 5, k 128, with a correct sender.
Whole: milliseconds of all steps of all correct controllers together. The passing of messages is not timed.
Step: microseconds; of each step the median of the runs, and of these the mean and the longest.
The boxes that are lent are new for each call, on both sides, outside the time.";
    let names =
        "system | by | runs | whole | min | max | step, mean | longest | in call | reference / library";
    print_table(heading, names, &rows);
}
