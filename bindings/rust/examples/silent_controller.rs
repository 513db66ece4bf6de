//! Seven controllers in one process, of which one is silent in all rounds and at most two may be faulty: the sender's block reaches the others,
//! and they name the silent one.
//! All buffers are arrays of the longest lengths that these settings have, as on a board that has no allocator.
//!
//!     cargo run -p potekawhi --example silent_controller
use potekawhi::{Controller, Outcome, Refusal, Settings};

const N: usize = 7;
const SETTINGS: Settings = Settings {
    n: N,
    t: 2,
    k: 5,
    sender: 3,
};
const RUN: u16 = 1;
const BLOCK: [u8; 15] = *b"vents: 40, 0, 5";
/// The longest boxes are those of the rounds with two matrices, whose messages have 4n bytes.
const LONGEST_BOX: usize = N * (3 + 4 * N);
const SILENT: usize = 6;

fn main() -> Result<(), Refusal> {
    let mut blocks = [[0; BLOCK.len()]; N];
    blocks[SETTINGS.sender - 1] = BLOCK;
    let mut own = 0;
    let mut controllers = Vec::new();
    for block in &mut blocks {
        own += 1;
        controllers.push(Controller::start(SETTINGS, own, RUN, block)?);
    }

    let mut inboxes = [[0; LONGEST_BOX]; N];
    for call in 1..=SETTINGS.calls() {
        let mut arriving = [[0; LONGEST_BOX]; N];
        for from in 1..=N {
            let mut outbox = [0; LONGEST_BOX];
            let inbox = &inboxes[from - 1][..SETTINGS.inbox_length(call)];
            controllers[from - 1].step(inbox, &mut outbox[..SETTINGS.outbox_length(call)])?;
            if from == SILENT {
                continue;
            }
            for to in 1..=N {
                let slot = &outbox[SETTINGS.slot(call, to)];
                arriving[to - 1][SETTINGS.slot(call, from)].copy_from_slice(slot);
            }
        }
        inboxes = arriving;
    }

    for (i, controller) in controllers.iter().enumerate() {
        let block = controller.final_block().unwrap_or_default();
        println!(
            "controller {}: {:?}, {}, names {:?}",
            i + 1,
            controller.outcome(),
            String::from_utf8_lossy(block),
            controller.named()
        );
        assert_eq!((controller.outcome(), block), (Outcome::Agreed, &BLOCK[..]));
        assert!(controller.named().iter().eq([SILENT]));
    }
    Ok(())
}
