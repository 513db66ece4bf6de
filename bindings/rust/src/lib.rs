//! A Byzantine broadcast of a block of bytes among 4 to 16 controllers, at most t of n ≥ 3t + 1 of them faulty: safe bindings to the static
//! library `boards`, whose functions are proved. They need neither `std` nor an allocator: all buffers are the caller's.
//!
//! [`Controller`] runs one controller; at the end of a run it also names, as [`Marks`], those whose last piece was absent or false. [`encode`],
//! [`decode`], [`star`], [`star_of_pairs`] and [`message`] are usable by themselves. The library has an answer for every number and every
//! length, so that there is nothing to test before a call; what it refuses is a [`Refusal`], and then nothing was changed. [`raw`] has its
//! functions one by one; include/potekawhi.h says what each does.
//!
//! Every run has a number, which its slots carry: a slot of another run, as of a message that comes late, is read as absent.
//!
//! A run of four controllers, all correct, in which every message arrives:
//!
//! ```
//! use potekawhi::{Controller, Outcome, Settings};
//!
//! let settings = Settings { n: 4, t: 1, k: 1, sender: 1 };
//! let run = 1;
//! // the sender's block; the others lend bytes of that length
//! let mut blocks = [[0x0a, 0x14], [0; 2], [0; 2], [0; 2]];
//! let mut controllers = Vec::new();
//! for (i, block) in blocks.iter_mut().enumerate() {
//!     controllers.push(Controller::start(settings, i + 1, run, block)?);
//! }
//! let mut inboxes = vec![Vec::new(); 4];
//! for call in 1..=settings.calls() {
//!     let mut arriving = vec![vec![0; settings.inbox_length(call + 1)]; 4];
//!     for from in 1..=4 {
//!         let mut outbox = vec![0; settings.outbox_length(call)];
//!         controllers[from - 1].step(&inboxes[from - 1], &mut outbox)?;
//!         // slot `to` of what one sends is slot `from` of what the other receives
//!         for to in 1..=4 {
//!             arriving[to - 1][settings.slot(call, from)].copy_from_slice(&outbox[settings.slot(call, to)]);
//!         }
//!     }
//!     inboxes = arriving;
//! }
//! for controller in &controllers {
//!     assert_eq!(controller.outcome(), Outcome::Agreed);
//!     assert_eq!(controller.final_block(), Some(&[0x0a, 0x14][..]));
//!     assert!(controller.named().is_empty());
//! }
//! # Ok::<(), potekawhi::Refusal>(())
//! ```
#![no_std]
#![warn(missing_docs)]

mod coding;
mod controller;
mod marks;
pub mod raw;
mod refusal;
mod stars;

pub use coding::{decode, encode, message, Decoded};
pub use controller::{Controller, Outcome, Settings};
pub use marks::Marks;
pub use refusal::Refusal;
pub use stars::{missing_pairs, star, star_of_pairs, MissingPairs, Star};
