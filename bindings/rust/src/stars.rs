//! The star of a neighbour graph, of rows of marks and of missing pairs.
use crate::{raw, Refusal};

/// The sets of a star as marks, the bit worth 1 for controller 1. E is the core.
#[derive(Debug, Clone, Copy, PartialEq, Eq)]
pub struct Star {
    /// The set C.
    pub c: u16,
    /// The set D.
    pub d: u16,
    /// The set F.
    pub f: u16,
    /// The set E, the core.
    pub e: u16,
}

/// The star of the neighbour graph of 16 rows of marks, of which the first n rows and of them the lowest n bits are read: i and j are
/// neighbours if each marks the other. None if no core is found.
///
/// ```
/// assert_eq!(potekawhi::star(4, 1, &[0xf; 16])?.map(|star| star.e), Some(0xf));
/// assert_eq!(potekawhi::star(4, 1, &[0; 16])?, None);
/// # Ok::<(), potekawhi::Refusal>(())
/// ```
pub fn star(n: usize, t: usize, rows: &[u16; 16]) -> Result<Option<Star>, Refusal> {
    let mut sets = [0; raw::SETS_LENGTH];
    Refusal::check(raw::star(n, t, &row_bytes(rows), &mut sets))?;
    Ok(Star::found(&sets))
}

/// A neighbour graph as its missing pairs: a bit for each pair of different numbers of 1 to 16, in the order of the smaller number and then
/// the larger, eight to a byte, the bit worth 1 first; it is set where the two are not neighbours.
pub type MissingPairs = [u8; raw::PAIRS_LENGTH];

/// The missing pairs of the neighbour graph of 16 rows of marks: a bit is set where both numbers are at most n and they are not neighbours.
///
/// ```
/// let mut rows = [0xffff; 16];
/// rows[0] = !(1 << 3); // controller 1 does not mark controller 4
/// let pairs = potekawhi::missing_pairs(4, &rows);
/// assert_eq!(pairs[0], 0b100); // the third pair, after (1, 2) and (1, 3)
/// assert_eq!(potekawhi::star_of_pairs(4, 1, &pairs), potekawhi::star(4, 1, &rows));
/// ```
pub fn missing_pairs(n: usize, rows: &[u16; 16]) -> MissingPairs {
    let mut pairs = [0; raw::PAIRS_LENGTH];
    let number = raw::missing_pairs(n, &row_bytes(rows), &mut pairs);
    assert_eq!(number, raw::OK, "the lengths are those of the header");
    pairs
}

/// The star of a neighbour graph given as its missing pairs; bits of numbers past n are not read. None if no core is found.
pub fn star_of_pairs(n: usize, t: usize, pairs: &MissingPairs) -> Result<Option<Star>, Refusal> {
    let mut sets = [0; raw::SETS_LENGTH];
    Refusal::check(raw::star_of_pairs(n, t, pairs, &mut sets))?;
    Ok(Star::found(&sets))
}

/// Rows of marks as the library takes them.
fn row_bytes(rows: &[u16; 16]) -> [u8; raw::ROWS_LENGTH] {
    let mut bytes = [0; raw::ROWS_LENGTH];
    for (pair, row) in bytes.chunks_mut(2).zip(rows) {
        pair.copy_from_slice(&row.to_le_bytes());
    }
    bytes
}

impl Star {
    /// The sets as the library writes them; none if there is no core.
    fn found(sets: &[u8; raw::SETS_LENGTH]) -> Option<Star> {
        let set = |i: usize| u16::from_le_bytes([sets[2 * i], sets[2 * i + 1]]);
        let star = Star {
            c: set(0),
            d: set(1),
            f: set(2),
            e: set(3),
        };
        (star.e != 0).then_some(star)
    }
}
