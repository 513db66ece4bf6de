//! Refusals: the numbers with which the library refuses a call.
use crate::raw;
use core::{error, fmt};

/// Why a call was refused; it changed nothing then. The numbers are those of include/potekawhi.h.
#[derive(Debug, Clone, Copy, PartialEq, Eq)]
#[repr(u8)]
pub enum Refusal {
    /// n is not 4 to 16.
    N = raw::BAD_N,
    /// t is 0, or 3t + 1 exceeds n.
    T = raw::BAD_T,
    /// k is not 1 to 128.
    K = raw::BAD_K,
    /// The own number, or the number of a piece, is not 1 to n.
    Number = raw::BAD_NUMBER,
    /// The sender is not 0 to n.
    Sender = raw::BAD_SENDER,
    /// A length is not the one stated.
    Length = raw::BAD_LENGTH,
    /// The state has settings that are refused or a next call that there is not.
    State = raw::BAD_STATE,
    /// The run is at its end.
    Finished = raw::FINISHED,
}

impl Refusal {
    const ALL: [Refusal; 8] = [
        Refusal::N,
        Refusal::T,
        Refusal::K,
        Refusal::Number,
        Refusal::Sender,
        Refusal::Length,
        Refusal::State,
        Refusal::Finished,
    ];

    /// The number in include/potekawhi.h.
    pub fn number(self) -> u8 {
        self as u8
    }

    /// What a number that the library answered says.
    pub(crate) fn check(number: u8) -> Result<(), Refusal> {
        if number == raw::OK {
            return Ok(());
        }
        match Refusal::ALL
            .into_iter()
            .find(|refusal| refusal.number() == number)
        {
            Some(refusal) => Err(refusal),
            None => panic!("the library answered {number}, which is no refusal"),
        }
    }
}

impl fmt::Display for Refusal {
    fn fmt(&self, f: &mut fmt::Formatter) -> fmt::Result {
        f.write_str(match self {
            Refusal::N => "n is not 4 to 16",
            Refusal::T => "t is 0, or 3t + 1 exceeds n",
            Refusal::K => "k is not 1 to 128",
            Refusal::Number => "the own number, or the number of a piece, is not 1 to n",
            Refusal::Sender => "the sender is not 0 to n",
            Refusal::Length => "a length is not the one stated",
            Refusal::State => {
                "the state has settings that are refused or a next call that there is not"
            }
            Refusal::Finished => "the run is at its end",
        })
    }
}

impl error::Error for Refusal {}
