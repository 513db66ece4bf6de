//! The message in a slot, and the code: a block into pieces, and back from pieces some of which are false, with the marks of these.
use crate::{raw, Marks, Refusal};

/// The message in slot `j` of an inbox of messages of `length` bytes, in the run `run`; none where the slot is absent, also by its run number, `j` is 0,
/// the inbox does not hold the slot whole, or `length` is 0.
///
/// ```
/// let inbox = [1, 7, 0, 0x0a, 0x14, 0, 0, 0, 0, 0];
/// assert_eq!(potekawhi::message(&inbox, 7, 2, 1), Some(&[0x0a, 0x14][..]));
/// assert_eq!(potekawhi::message(&inbox, 7, 2, 2), None);
/// assert_eq!(potekawhi::message(&inbox, 8, 2, 1), None);
/// ```
pub fn message(inbox: &[u8], run: u16, length: usize, j: usize) -> Option<&[u8]> {
    let mut offset = 0;
    match raw::message(inbox, run, length, j, &mut offset) {
        0 => None,
        length => Some(&inbox[offset..offset + length]),
    }
}

/// Writes piece `number`, k bytes, of the coding of a block of k * (t + 1) bytes.
///
/// ```
/// let mut piece = [0];
/// potekawhi::encode(4, 1, 1, 2, &[0x0a, 0x14], &mut piece)?;
/// assert_eq!(piece, [0x22]);
/// # Ok::<(), potekawhi::Refusal>(())
/// ```
pub fn encode(
    n: usize,
    t: usize,
    k: usize,
    number: usize,
    block: &[u8],
    piece: &mut [u8],
) -> Result<(), Refusal> {
    Refusal::check(raw::encode(n, t, k, number, block, piece))
}

/// What decoding found.
#[derive(Debug, Clone, Copy, PartialEq, Eq)]
pub enum Decoded {
    /// The block was written; the set of those of 1 to n whose slot is absent or differs, in any byte, from their piece of it.
    Block(Marks),
    /// There is no such block; zeros were written.
    Beyond,
}

/// Writes the block from the pieces in `slots`, n slots of messages of k bytes, of which absent ones are dropped, also those that carry another run
/// number than `run`. With N slots present, it is the block in each stripe of which twice the number of present values that differ from its coding is
/// at most N - t - 1. With N at most t there is none. `block` has k * (t + 1) bytes.
///
/// Two true pieces suffice for t 1 if the other slots are silent or late, and with all four present one may be false:
///
/// ```
/// use potekawhi::{decode, Decoded, Marks};
///
/// let run = 7;
/// let mut block = [0; 2];
/// // slot 3 is of run 6
/// let slots = [0, 0, 0, 0, 1, 7, 0, 0x22, 1, 6, 0, 0x36, 1, 7, 0, 0x5a];
/// assert_eq!(decode(4, 1, 1, run, &slots, &mut block), Ok(Decoded::Block(Marks(0b0101))));
/// assert_eq!(block, [0x0a, 0x14]);
/// let slots = [1, 7, 0, 0x1e, 1, 7, 0, 0x22, 1, 7, 0, 0x36, 1, 7, 0, 0xff];
/// match decode(4, 1, 1, run, &slots, &mut block) {
///     Ok(Decoded::Block(named)) => assert!(named.iter().eq([4])),
///     other => panic!("{other:?}"),
/// }
/// let slots = [0, 0, 0, 0, 1, 7, 0, 0x22, 0, 0, 0, 0, 0, 0, 0, 0];
/// assert_eq!(decode(4, 1, 1, run, &slots, &mut block), Ok(Decoded::Beyond));
/// ```
pub fn decode(
    n: usize,
    t: usize,
    k: usize,
    run: u16,
    slots: &[u8],
    block: &mut [u8],
) -> Result<Decoded, Refusal> {
    let mut named = 0;
    match raw::decode(n, t, k, run, slots, block, &mut named) {
        raw::BEYOND => Ok(Decoded::Beyond),
        number => Refusal::check(number).map(|()| Decoded::Block(Marks(named))),
    }
}
