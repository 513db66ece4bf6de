//! One controller: settings with the lengths that they give, start, the calls, how a run ended, and whom the controller names.
use crate::{raw, Marks, Refusal};
use core::ops::Range;

/// How a run ended.
#[derive(Debug, Clone, Copy, PartialEq, Eq)]
pub enum Outcome {
    /// The run is not at its end.
    Open,
    /// The final block is the one agreed on. If at most t controllers are faulty, at least t + 1 correct ones have held it since call 2.
    Agreed,
    /// No core was found; the final block is zeros. If there is a sender and at most t controllers are faulty, the sender is one of them. Without a
    /// sender it accuses nobody: the correct controllers did not all start with one block, or more than t are faulty.
    None,
    /// The pieces give no block, which takes more than t faulty controllers; the final block is zeros.
    Beyond,
}

/// What all controllers of a system have in common: n controllers, at most t of them faulty, k stripes, and the sender's number. Lengths
/// are 0 where n, t or k is refused, and where there is no such round or call.
#[derive(Debug, Clone, Copy, PartialEq, Eq)]
pub struct Settings {
    /// How many controllers there are, 4 to 16.
    pub n: usize,
    /// How many of them may be faulty: at least 1, with 3t + 1 at most n.
    pub t: usize,
    /// How many stripes a block has, 1 to 128.
    pub k: usize,
    /// The number of the sender, 1 to n, or 0 if there is none: then the controllers compare the blocks that they start with.
    pub sender: usize,
}

impl Settings {
    /// How many calls a run has: 3t + 9.
    pub fn calls(self) -> usize {
        raw::calls(self.t)
    }

    /// The length of a block: k * (t + 1).
    pub fn block_length(self) -> usize {
        raw::block_length(self.n, self.t, self.k)
    }

    /// The length of a message of a round.
    pub fn message_length(self, round: usize) -> usize {
        raw::message_length(self.n, self.t, self.k, round)
    }

    /// The length of the inbox of a call.
    pub fn inbox_length(self, call: usize) -> usize {
        raw::inbox_length(self.n, self.t, self.k, call)
    }

    /// The length of the outbox of a call.
    pub fn outbox_length(self, call: usize) -> usize {
        raw::outbox_length(self.n, self.t, self.k, call)
    }

    /// Where slot `j` stands in a box of a round, in an outbox and in an inbox alike; empty where there is no such round or slot.
    ///
    /// ```
    /// let settings = potekawhi::Settings { n: 4, t: 1, k: 1, sender: 1 };
    /// assert_eq!(settings.slot(1, 4), 15..20);
    /// assert_eq!(settings.slot(1, 5), 0..0);
    /// ```
    pub fn slot(self, round: usize, j: usize) -> Range<usize> {
        if j == 0 || j > self.n {
            return 0..0;
        }
        let width = self.outbox_length(round) / self.n;
        (j - 1) * width..j * width
    }
}

/// One controller: its state, and the block that it is lent for the whole run.
#[derive(Debug, PartialEq, Eq)]
pub struct Controller<'b> {
    settings: Settings,
    state: [u8; raw::STATE_LENGTH],
    block: &'b mut [u8],
}

impl<'b> Controller<'b> {
    /// Begins the run of the controller with the number `own`. `run` is the run number, which all correct controllers have in common: slots that
    /// carry another one are read as absent. `block` is the sender's block; every other controller lends bytes of that length, whatever they are.
    /// Without a sender it is the block that this controller holds. The calls overwrite it.
    pub fn start(
        settings: Settings,
        own: usize,
        run: u16,
        block: &'b mut [u8],
    ) -> Result<Controller<'b>, Refusal> {
        let Settings { n, t, k, sender } = settings;
        let mut state = [0; raw::STATE_LENGTH];
        Refusal::check(raw::start(n, t, k, own, sender, run, block, &mut state))?;
        Ok(Controller {
            settings,
            state,
            block,
        })
    }

    /// Makes the next call: reads the inbox, which holds the messages of the round before, and fills the outbox. Their lengths are
    /// [`inbox_length`](Controller::inbox_length) and [`outbox_length`](Controller::outbox_length). Refused, nothing changes, and the step
    /// can be made again.
    pub fn step(&mut self, inbox: &[u8], outbox: &mut [u8]) -> Result<(), Refusal> {
        Refusal::check(raw::step(&mut self.state, self.block, inbox, outbox))
    }

    /// The settings that it was started with.
    pub fn settings(&self) -> Settings {
        self.settings
    }

    /// The number of the next call: 1 to 3t + 9, or 3t + 10 at the end.
    pub fn next_call(&self) -> usize {
        raw::next_call(&self.state)
    }

    /// The length of the inbox of the next call; 0 at the end.
    pub fn inbox_length(&self) -> usize {
        self.settings.inbox_length(self.next_call())
    }

    /// The length of the outbox of the next call; 0 at the end.
    pub fn outbox_length(&self) -> usize {
        self.settings.outbox_length(self.next_call())
    }

    /// How the run ended.
    pub fn outcome(&self) -> Outcome {
        match raw::outcome(&self.state) {
            raw::OUTCOME_OPEN => Outcome::Open,
            raw::OUTCOME_AGREED => Outcome::Agreed,
            raw::OUTCOME_NONE => Outcome::None,
            raw::OUTCOME_BEYOND => Outcome::Beyond,
            number => panic!("the library answered {number}, which is no outcome"),
        }
    }

    /// The block with which the run ended; none while it is open.
    pub fn final_block(&self) -> Option<&[u8]> {
        match self.outcome() {
            Outcome::Open => None,
            _ => Some(self.block),
        }
    }

    /// Whom the controller names: those whose piece in the last round was absent or differed, in any byte, from their piece of the final block.
    /// Empty while the run is open, and where the outcome is [`None`](Outcome::None) or [`Beyond`](Outcome::Beyond). With at most t faulty
    /// controllers no correct one names a correct one. Correct ones may name different ones, since a faulty one may send its true piece to
    /// some of them; and a faulty one that sent its true piece is not named.
    pub fn named(&self) -> Marks {
        Marks(raw::named(&self.state))
    }
}
