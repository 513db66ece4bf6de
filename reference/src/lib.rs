//! The independent reference of the protocol, one module for each layer. It is written from documents 01 and 02 and not from the Rattle code,
//! shares no code with the crates or with the bindings, and has no dependencies. It aims at being plainly right, not fast, and is no part of
//! the proofs.
//! `src/bin/` has the programs that make the expected output and the system files of the crates `*_cases` with it, and the pictures of docs/.

pub mod code;
pub mod controller;
pub mod field;
pub mod simulator;
pub mod star;
pub mod vote;
pub mod wire;
