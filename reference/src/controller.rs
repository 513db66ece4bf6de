//! One controller: start and step (document 01, 'The house', 'Rounds', 'Turned down'; document 02, U1, U6 and U11), for all inputs, refused ones
//! too, and for states that no run reaches.
use crate::code::{self, Decoded};
use crate::vote::{self, Message};
use crate::{star, wire};

#[derive(Debug, Clone, Copy, PartialEq, Eq, Default)]
pub enum Outcome {
    #[default]
    Open,
    Agreed,
    None,
    Beyond,
}

/// Rows and bits past n, and core members past n, are not read.
#[derive(Debug, Clone, Copy, PartialEq, Eq, Default)]
pub struct State {
    pub n: usize,
    pub t: usize,
    pub k: usize,
    pub own: usize,
    /// 0 if there is none.
    pub sender: usize,
    /// The number of the next call.
    pub next: usize,
    pub outcome: Outcome,
    /// Rows of marks, the bit worth 1 for controller 1.
    pub matrix: [u16; 16],
    /// Where the count of the bit now held is below n - t.
    pub weak: [u16; 16],
    /// Marks of the core's members.
    pub core: u16,
    /// Whom the controller names: marks of the slots whose piece was absent or false in the last call. Empty before it, and for none and beyond.
    pub named: u16,
    /// The run number: slots with another one are absent.
    pub run: u16,
}

/// Rows 1 to 5 of 'Turned down', in order, row 5 as U6 has it; 0 if none of them is met.
fn settings_refusal(n: usize, t: usize, k: usize, own: usize, sender: usize) -> u8 {
    match code::settings_refusal(n as u128, t as u128, k as u128) {
        0 if !(1..=n).contains(&own) => 4,
        0 if !(0..=n).contains(&sender) => 5,
        number => number,
    }
}

/// Start tries 1 to 6. The lent block is neither read nor changed; a refused start returns the zero state.
pub fn start(
    n: usize,
    t: usize,
    k: usize,
    own: usize,
    sender: usize,
    run: u16,
    block: &[u8],
) -> (u8, State) {
    let number = match settings_refusal(n, t, k, own, sender) {
        0 if block.len() != k * (t + 1) => 6,
        number => number,
    };
    if number != 0 {
        return (number, State::default());
    }
    let state = State {
        n,
        t,
        k,
        own,
        sender,
        next: 1,
        run,
        ..State::default()
    };
    (0, state)
}

/// One step: the number and the next state. A refused step returns the state as given and leaves the lent bytes unchanged.
pub fn step(state: State, block: &mut [u8], inbox: &[u8], outbox: &mut [u8]) -> (u8, State) {
    let number = state.refusal(block.len(), inbox.len(), outbox.len());
    if number != 0 {
        return (number, state);
    }
    let mut next = State {
        next: state.next + 1,
        outcome: Outcome::Open,
        named: 0,
        ..state
    };
    let sent = next.call(state.next, block, inbox);
    let length = state.message_length(state.next);
    outbox.fill(0);
    for (j, message) in sent.iter().enumerate() {
        if let Some(message) = message {
            wire::send_one(outbox, state.run, length, j + 1, message);
        }
    }
    (0, next)
}

impl State {
    /// The message length of round c; 0 before the first round and after the last.
    pub fn message_length(&self, c: usize) -> usize {
        wire::message_length(self.n as u128, self.t as u128, self.k as u128, c as u128) as usize
    }

    /// The length of the inbox or outbox of round c.
    pub fn box_length(&self, c: usize) -> usize {
        wire::box_length(self.n as u128, self.t as u128, self.k as u128, c as u128) as usize
    }

    /// A step tries 7, 8, 6.
    fn refusal(&self, block: usize, inbox: usize, outbox: usize) -> u8 {
        if settings_refusal(self.n, self.t, self.k, self.own, self.sender) != 0 {
            return 7;
        }
        let finished = 3 * self.t + 10;
        if !(1..=finished).contains(&self.next) {
            return 7;
        }
        if self.next == finished {
            return 8;
        }
        let stated = [
            self.k * (self.t + 1),
            self.box_length(self.next - 1),
            self.box_length(self.next),
        ];
        if [block, inbox, outbox] == stated {
            0
        } else {
            6
        }
    }

    /// Call c: what it does to the state and the block, and the message to each controller.
    fn call(&mut self, c: usize, block: &mut [u8], inbox: &[u8]) -> Vec<Message> {
        let received = self.received(c - 1, inbox);
        match wire::call_row(self.t as u128, c as u128) {
            1 if self.own == self.sender => self.to_all(block.to_vec()),
            1 => self.silence(),
            2 => self.disperse(block, &received),
            3 => self.to_all(self.marks(block, &received).to_le_bytes().to_vec()),
            4 => {
                self.matrix = vote::words(&vote::first(&received));
                self.to_all(self.matrix_bytes())
            }
            5 => {
                let (zeros, ones) = vote::seen(&received, self.t);
                self.to_all([vote::bytes(&zeros), vote::bytes(&ones)].concat())
            }
            6 => self.hold(c / 3 - 1, &received),
            7 => {
                self.settle((c - 4) / 3, &received);
                self.to_all(self.matrix_bytes())
            }
            8 => {
                self.settle(self.t + 1, &received);
                self.core = star::star(&self.matrix, self.n, self.t).e;
                self.pieces_for_others(block)
            }
            9 => match self.own_or_received_piece(block, &received) {
                Some(piece) => self.to_all(piece),
                None => self.silence(),
            },
            10 => {
                (self.outcome, self.named) = self.decode(block, inbox);
                self.silence()
            }
            _ => unreachable!(),
        }
    }

    /// The messages of round c from controller 1 on.
    fn received(&self, c: usize, inbox: &[u8]) -> Vec<Message> {
        let length = self.message_length(c) as u128;
        (1..=self.n as u128)
            .map(|j| match wire::message(inbox, self.run, length, j) {
                [] => None,
                message => Some(message.to_vec()),
            })
            .collect()
    }

    fn to_all(self, message: Vec<u8>) -> Vec<Message> {
        vec![Some(message); self.n]
    }

    fn silence(&self) -> Vec<Message> {
        vec![None; self.n]
    }

    /// Piece j of the coding of a block.
    fn piece(&self, block: &[u8], j: usize) -> Vec<u8> {
        let (n, t, k) = (self.n as u64, self.t as u64, self.k as u64);
        let mut piece = vec![0; self.k];
        assert_eq!(code::encode(n, t, k, j as u64, block, &mut piece), 0);
        piece
    }

    /// Call 2: the block is the sender's message, zeros if absent; without a sender it is kept. To j go the own piece and piece j.
    fn disperse(&self, block: &mut [u8], received: &[Message]) -> Vec<Message> {
        if self.sender != 0 {
            match &received[self.sender - 1] {
                Some(message) => block.copy_from_slice(message),
                None => block.fill(0),
            }
        }
        let own = self.piece(block, self.own);
        (1..=self.n)
            .map(|j| Some([own.clone(), self.piece(block, j)].concat()))
            .collect()
    }

    /// Call 3: the own bit, and that of each j whose two pieces are piece j of the own coding and the own piece.
    fn marks(&self, block: &[u8], received: &[Message]) -> u16 {
        let own = self.piece(block, self.own);
        (1..=self.n)
            .filter(|&j| {
                let expected = [self.piece(block, j), own.clone()].concat();
                j == self.own || received[j - 1].as_ref() == Some(&expected)
            })
            .map(|j| 1 << (j - 1))
            .sum()
    }

    fn matrix_bytes(&self) -> Vec<u8> {
        vote::bytes(&vote::from_words(self.n, &self.matrix))
    }

    /// After round 3p + 2: the bits held, and where they are weak; king p sends its matrix.
    fn hold(&mut self, p: usize, received: &[Message]) -> Vec<Message> {
        let (held, weak) = vote::held(received, self.t);
        self.matrix = vote::words(&held);
        self.weak = vote::words(&weak);
        if self.own == p {
            self.to_all(self.matrix_bytes())
        } else {
            self.silence()
        }
    }

    /// After round 3p + 3: the bits of king p where weak.
    fn settle(&mut self, p: usize, received: &[Message]) {
        let held = vote::from_words(self.n, &self.matrix);
        let weak = vote::from_words(self.n, &self.weak);
        self.matrix = vote::words(&vote::settled(&held, &weak, &received[p - 1]));
    }

    /// The core's members, rising.
    fn members(&self) -> Vec<usize> {
        (1..=self.n)
            .filter(|i| self.core >> (i - 1) & 1 == 1)
            .collect()
    }

    /// Round 3t + 7: a member sends to j piece j of its own coding.
    fn pieces_for_others(&self, block: &[u8]) -> Vec<Message> {
        if !self.members().contains(&self.own) {
            return self.silence();
        }
        (1..=self.n).map(|j| Some(self.piece(block, j))).collect()
    }

    /// Call 3t + 8: a member's own piece; another's is the one that at least t + 1 members sent, of several that of the lowest-numbered
    /// member.
    fn own_or_received_piece(&self, block: &[u8], received: &[Message]) -> Message {
        let members = self.members();
        if members.contains(&self.own) {
            return Some(self.piece(block, self.own));
        }
        let pieces: Vec<&Vec<u8>> = members
            .iter()
            .filter_map(|i| received[i - 1].as_ref())
            .collect();
        let senders = |piece| pieces.iter().filter(|&&other| other == piece).count();
        pieces
            .iter()
            .find(|&&piece| senders(piece) > self.t)
            .map(|&piece| piece.clone())
    }

    /// The last call: the block that the inbox decodes to, zeros where there is no core or no such block; the outcome and who is named.
    fn decode(&self, block: &mut [u8], inbox: &[u8]) -> (Outcome, u16) {
        if self.members().is_empty() {
            block.fill(0);
            return (Outcome::None, 0);
        }
        let (n, t, k) = (self.n as u64, self.t as u64, self.k as u64);
        match code::decode(n, t, k, self.run, inbox, block) {
            Decoded::Block(named) => (Outcome::Agreed, named),
            Decoded::Beyond => (Outcome::Beyond, 0),
            Decoded::Refused(number) => unreachable!("{number}"),
        }
    }
}

#[cfg(test)]
mod tests {
    use super::*;

    /// The run number, 01 02 in a slot.
    const RUN: u16 = 0x0201;

    /// n 4, t 1, k 1, own number 2, sender 1.
    fn at(next: usize) -> State {
        let (number, state) = start(4, 1, 1, 2, 1, RUN, &[0, 0]);
        assert_eq!(number, 0);
        State { next, ..state }
    }

    /// The slots of messages in a run, an empty one absent.
    fn slots_in(run: u16, length: usize, messages: [&[u8]; 4]) -> Vec<u8> {
        let mut inbox = vec![0; 4 * (wire::FRONT + length)];
        for (j, message) in messages.iter().enumerate() {
            wire::send_one(&mut inbox, run, length, j + 1, message);
        }
        inbox
    }

    fn slots(length: usize, messages: [&[u8]; 4]) -> Vec<u8> {
        slots_in(RUN, length, messages)
    }

    fn carried_out(state: State, block: &mut [u8], inbox: &[u8]) -> (State, Vec<u8>) {
        let mut outbox = vec![0xa5; state.box_length(state.next)];
        let (number, after) = step(state, block, inbox, &mut outbox);
        assert_eq!((number, after.next), (0, state.next + 1));
        (after, outbox)
    }

    #[test]
    fn the_sender_sends_its_block() {
        let mut block = [10, 20];
        let (_, outbox) = carried_out(at(1), &mut block, &[]);
        assert_eq!(outbox, [0; 20]);
        let sender = State { own: 1, ..at(1) };
        let (_, outbox) = carried_out(sender, &mut block, &[]);
        assert_eq!(outbox, [1, 1, 2, 10, 20].repeat(4));
    }

    /// Each round in which a controller does not send: all bytes of its slots are 00, those of the run number too.
    #[test]
    fn absent_slots_are_written_00() {
        for c in [1, 6, 9, 10, 11] {
            let state = State {
                own: 3,
                run: u16::MAX,
                ..at(c)
            };
            let inbox = vec![0; state.box_length(c - 1)];
            let (_, outbox) = carried_out(state, &mut [10, 20], &inbox);
            assert_eq!(outbox, vec![0; outbox.len()], "{c}");
        }
    }

    /// Without a sender round 1 is silent, and whatever arrives in it the block is kept.
    #[test]
    fn no_sender() {
        for own in 1..=4 {
            let (number, state) = start(4, 1, 1, own, 0, RUN, &[10, 20]);
            assert_eq!(number, 0);
            let mut block = [10, 20];
            let (state, outbox) = carried_out(state, &mut block, &[]);
            assert_eq!(outbox, [0; 20]);
            let inbox = slots(2, [&[1, 2], &[3, 4], &[5, 6], &[7, 8]]);
            let (_, outbox) = carried_out(state, &mut block, &inbox);
            assert_eq!(block, [10, 20]);
            let pieces = [0x1e, 0x22, 0x36, 0x5a];
            let sent = pieces.map(|piece| [pieces[own - 1], piece]);
            assert_eq!(outbox, slots(2, sent.each_ref().map(|m| &m[..])));
        }
    }

    /// Example c of document 01: 0a14 codes to 1e 22 36 5a.
    #[test]
    fn pieces_and_marks() {
        let mut block = [0, 0];
        let inbox = slots(2, [&[0x0a, 0x14], &[1, 2], &[], &[3, 4]]);
        let (state, outbox) = carried_out(at(2), &mut block, &inbox);
        assert_eq!(block, [0x0a, 0x14]);
        let sent = [0x1e, 0x22, 0x36, 0x5a].map(|piece| [0x22, piece]);
        assert_eq!(outbox, slots(2, sent.each_ref().map(|m| &m[..])));
        let inbox = slots(2, [&[0x1e, 0x22], &[], &[0x36, 0x23], &[0x5a, 0x22]]);
        let (_, outbox) = carried_out(state, &mut block, &inbox);
        assert_eq!(outbox, slots(2, [&[0b1011, 0]; 4]));
    }

    #[test]
    fn what_lies_past_n_is_not_read() {
        let full = State {
            matrix: [0xffff; 16],
            weak: [0xfff0; 16],
            core: 0xfff0,
            outcome: Outcome::Beyond,
            ..at(7)
        };
        let (state, outbox) = carried_out(full, &mut [1, 2], &[0; 44]);
        let rows = [15, 0, 15, 0, 15, 0, 15, 0];
        assert_eq!(outbox, slots(8, [&rows; 4]));
        assert_eq!((state.outcome, state.core), (Outcome::Open, 0xfff0));
        assert_eq!(state.matrix[..5], [15, 15, 15, 15, 0]);
        assert_eq!(state.weak, full.weak);
        // a core of numbers past n is no core
        let mut block = [1, 2];
        let last = State { next: 12, ..full };
        let (state, _) = carried_out(last, &mut block, &[1; 16]);
        assert_eq!((state.outcome, block), (Outcome::None, [0, 0]));
    }

    #[test]
    fn the_kings_bits_where_weak() {
        let state = State {
            matrix: [1; 16],
            weak: [2; 16],
            ..at(7)
        };
        let king = [255; 8];
        let inbox = slots(8, [&king, &[], &[], &[]]);
        let (after, _) = carried_out(state, &mut [0, 0], &inbox);
        assert_eq!(after.matrix[..5], [3, 3, 3, 3, 0]);
        // the others do not send in the round
        let inbox = slots(8, [&[], &king, &king, &king]);
        let (after, _) = carried_out(state, &mut [0, 0], &inbox);
        assert_eq!(after.matrix[..5], [1, 1, 1, 1, 0]);
    }

    #[test]
    fn the_piece_that_two_members_sent() {
        let piece = |core, messages| {
            let state = State { core, ..at(11) };
            let (_, outbox) = carried_out(state, &mut [0x0a, 0x14], &slots(1, messages));
            assert_eq!(outbox, outbox[..4].repeat(4));
            match outbox[..4] {
                [1, 1, 2, piece] => Some(piece),
                _ => {
                    assert_eq!(outbox, [0; 16]);
                    None
                }
            }
        };
        assert_eq!(piece(0b1101, [&[7], &[8], &[7], &[8]]), Some(7));
        assert_eq!(piece(0b1101, [&[7], &[8], &[8], &[8]]), Some(8));
        // a slot from outside the core does not count
        assert_eq!(piece(0b1001, [&[7], &[8], &[7], &[8]]), None);
        // a member's piece is its own
        assert_eq!(piece(0b0111, [&[7], &[7], &[7], &[7]]), Some(0x22));
        assert_eq!(piece(0, [&[7], &[7], &[7], &[7]]), None);
    }

    /// Examples d and e of document 01, with absent slots, with no false one, and with no core. Whom the state given names does not count.
    #[test]
    fn the_last_call() {
        let decoded = |core, messages| {
            let mut block = [1, 2];
            let last = State {
                core,
                named: 0b0110,
                ..at(12)
            };
            let (state, _) = carried_out(last, &mut block, &slots(1, messages));
            (state.outcome, state.named, block)
        };
        let right: [&[u8]; 4] = [&[0x1e], &[0x22], &[0x36], &[0x5a]];
        let block = [0x0a, 0x14];
        assert_eq!(decoded(1, right), (Outcome::Agreed, 0, block));
        assert_eq!(
            decoded(1, [&[0x00], &[0x22], &[0x36], &[0x5a]]),
            (Outcome::Agreed, 0b0001, block)
        );
        assert_eq!(
            decoded(1, [&[], &[0x22], &[0x36], &[0x5a]]),
            (Outcome::Agreed, 0b0001, block)
        );
        assert_eq!(
            decoded(1, [&[0x1e], &[], &[0x36], &[]]),
            (Outcome::Agreed, 0b1010, block)
        );
        assert_eq!(
            decoded(1, [&[0x1e], &[0x22], &[0x37], &[0x5b]]),
            (Outcome::Beyond, 0, [0, 0])
        );
        assert_eq!(decoded(0, right), (Outcome::None, 0, [0, 0]));
    }

    /// Start and every call but the last leave nobody named, whatever the state given says and whatever arrives.
    #[test]
    fn nobody_is_named_before_the_last_call() {
        assert_eq!(at(1).named, 0);
        for c in 1..=11 {
            for first in [0, 1] {
                let given = State {
                    core: 0b1101,
                    named: 0xffff,
                    run: 0x0101,
                    ..at(c)
                };
                let inbox = vec![first; given.box_length(c - 1)];
                let (state, _) = carried_out(given, &mut [0x0a, 0x14], &inbox);
                assert_eq!((state.outcome, state.named), (Outcome::Open, 0), "{c}");
            }
        }
    }

    /// A refused step hands the state back as given: 6 before each call, 8 after the last, 7 for settings that are refused.
    #[test]
    fn a_refused_step_names_whom_it_named() {
        let refused = |state: State, number| {
            let inbox = vec![1; 3];
            let answer = step(state, &mut [0x0a, 0x14], &inbox, &mut [0xa5; 5]);
            assert_eq!(answer, (number, state));
        };
        let given = |next| State {
            named: 0x8421,
            ..at(next)
        };
        for c in 1..=12 {
            refused(given(c), 6);
        }
        refused(given(13), 8);
        refused(given(14), 7);
        refused(State { n: 3, ..given(12) }, 7);
    }

    /// Document 02, U2: n 7, t 2, k 1. 0a141e codes to 00 5a 50 a7 ad f7 fd; 2, 5 and 6 are silent. Document 01's own rule, an absent slot being a
    /// piece of zeros, asks for five places that agree: here no block has more than four.
    #[test]
    fn three_silent_of_seven() {
        let (number, state) = start(7, 2, 1, 2, 1, RUN, &[0; 3]);
        assert_eq!(number, 0);
        let last = State {
            next: 15,
            core: 1,
            ..state
        };
        let (silent, slot) = ([0; 4], |piece| [1, 1, 2, piece]);
        let inbox = [
            slot(0x00),
            silent,
            slot(0x50),
            slot(0xa7),
            silent,
            silent,
            slot(0xfd),
        ];
        let inbox = inbox.concat();
        let mut block = [1, 2, 3];
        let (state, _) = carried_out(last, &mut block, &inbox);
        assert_eq!(
            (state.outcome, state.named, block),
            (Outcome::Agreed, 0b011_0010, [0x0a, 0x14, 0x1e])
        );
    }
    /// Document 02, U11: start takes any run number, and the state keeps it in each call, and in a step that is refused.
    #[test]
    fn the_state_keeps_the_run() {
        for run in [0, 1, 256, u16::MAX] {
            let (number, mut state) = start(4, 1, 1, 2, 1, run, &[0, 0]);
            assert_eq!((number, state.run), (0, run));
            for c in 1..=12 {
                let (number, refused) = step(state, &mut [0; 3], &[], &mut []);
                assert_eq!((number, refused), (6, state));
                let inbox = vec![0; state.box_length(c - 1)];
                (state, _) = carried_out(state, &mut [0, 0], &inbox);
                assert_eq!(state.run, run, "{c}");
            }
            assert_eq!(
                start(4, 1, 1, 5, 1, run, &[0, 0]).1,
                State::default(),
                "refused"
            );
        }
    }

    /// In each call that reads, slots of the own run count, and those of another, which may differ in one byte, are read as absent.
    #[test]
    fn another_run_is_absent_in_each_call() {
        for c in 2..=12 {
            let state = State {
                weak: [0xffff; 16],
                core: 0b1101,
                ..at(c)
            };
            let length = state.message_length(c - 1);
            // zeros are the right pieces of a block of zeros; to the other calls bits of 1 say something else than silence
            let message = vec![if c == 3 { 0 } else { 0xff }; length];
            let call = |inbox: &[u8]| {
                let mut block = [0, 0];
                let (after, outbox) = carried_out(state, &mut block, inbox);
                (after, outbox, block)
            };
            let silence = call(&vec![0; state.box_length(c - 1)]);
            assert_ne!(call(&slots(length, [&message; 4])), silence, "{c}");
            for other in [0, RUN ^ 1, RUN ^ 0x100, RUN.swap_bytes(), u16::MAX] {
                let inbox = slots_in(other, length, [&message; 4]);
                assert_eq!(call(&inbox), silence, "{c} {other}");
            }
        }
    }

    /// Slots by round and receiver.
    type Slots = Vec<Vec<Vec<u8>>>;
    /// Outcome, who is named, and the block.
    type End = (Outcome, u16, [u8; 2]);

    /// A whole run of four controllers, the sender with block 0a14: how 1, 2 and 3 end, and the slots that 4 wrote. If `late` is given, these slots
    /// arrive in place of those that 4 wrote.
    fn played(run: u16, sender: usize, late: Option<&Slots>) -> (Vec<End>, Slots) {
        let started = |own| {
            let block = if own == sender { [0x0a, 0x14] } else { [7; 2] };
            (start(4, 1, 1, own, sender, run, &block).1, block)
        };
        let mut controllers: Vec<(State, [u8; 2])> = (1..=4).map(started).collect();
        let mut inboxes = vec![Vec::new(); 4];
        let mut sent = Vec::new();
        for c in 1..=12 {
            let mut slots: Vec<Vec<Vec<u8>>> = Vec::new();
            for ((state, block), inbox) in controllers.iter_mut().zip(&inboxes) {
                let (after, outbox) = carried_out(*state, block, inbox);
                let width = (outbox.len() / 4).max(1);
                slots.push(outbox.chunks(width).map(<[u8]>::to_vec).collect());
                *state = after;
            }
            sent.push(slots[3].clone());
            if let Some(late) = late {
                slots[3] = late[c - 1].clone();
            }
            if c < 12 {
                let to = |j: usize| slots.iter().flat_map(|from| from[j].clone()).collect();
                inboxes = (0..4).map(to).collect();
            }
        }
        let end = |(state, block): &(State, [u8; 2])| (state.outcome, state.named, *block);
        (controllers[..3].iter().map(end).collect(), sent)
    }

    /// Controller 4 is correct in a run, and in the next repeats all that it sent, with the first run's number: it is read as silent. As sender it is
    /// heard by nobody then, so that all hold zeros. With the number of the second run what it repeats counts.
    #[test]
    fn late_slots_in_a_whole_run() {
        for (first, second) in [(0, 1), (1, 0), (0, 256), (0x0102, RUN), (65534, 65535)] {
            for sender in [1, 4] {
                let (ends, sent) = played(first, sender, None);
                assert_eq!(ends, [(Outcome::Agreed, 0, [0x0a, 0x14]); 3]);
                let (late, _) = played(second, sender, Some(&sent));
                let block = if sender == 4 { [0, 0] } else { [0x0a, 0x14] };
                assert_eq!(late, [(Outcome::Agreed, 0b1000, block); 3]);
                let mut counted = sent.clone();
                let present = |slot: &&mut Vec<u8>| slot.first() == Some(&1);
                for slot in counted.iter_mut().flatten().filter(present) {
                    slot[1..3].copy_from_slice(&second.to_le_bytes());
                }
                assert_eq!(played(second, sender, Some(&counted)).0, ends);
            }
        }
    }
}
