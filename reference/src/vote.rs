//! The vote (document 01, 'Rounds', call 4 and rounds 3p + 1 to 3p + 3) on matrices of truth values. A message is `None` where its slot is
//! absent.

/// Row by row, bit by bit; index i is controller i + 1.
pub type Matrix = Vec<Vec<bool>>;
pub type Message = Option<Vec<u8>>;

/// Bit `j` of row `r` of a message: 16 bits a row, low byte first. Absent says 0.
fn says(message: &Message, r: usize, j: usize) -> bool {
    match message {
        None => false,
        Some(bytes) => bytes[2 * r + j / 8] >> (j % 8) & 1 == 1,
    }
}

fn matrix(n: usize, bit: impl Fn(usize, usize) -> bool) -> Matrix {
    (0..n)
        .map(|r| (0..n).map(|j| bit(r, j)).collect())
        .collect()
}

/// The bytes of a matrix.
pub fn bytes(m: &Matrix) -> Vec<u8> {
    let mut out = Vec::new();
    for row in m {
        let mut marks = [0u8; 2];
        for (j, &bit) in row.iter().enumerate() {
            if bit {
                marks[j / 8] += 1 << (j % 8);
            }
        }
        out.extend(marks);
    }
    out
}

/// A matrix as 16 rows of marks, zeros past n.
pub fn words(m: &Matrix) -> [u16; 16] {
    let mut words = [0; 16];
    for (r, pair) in bytes(m).chunks(2).enumerate() {
        words[r] = u16::from_le_bytes([pair[0], pair[1]]);
    }
    words
}

/// The first n bits of the first n rows of marks.
pub fn from_words(n: usize, words: &[u16; 16]) -> Matrix {
    matrix(n, |r, j| words[r] >> j & 1 == 1)
}

/// Call 4: row j is the message of j.
pub fn first(messages: &[Message]) -> Matrix {
    matrix(messages.len(), |r, j| says(&messages[r], 0, j))
}

/// After round 3p + 1: zero is seen if at least n - t slots say 0, one if at least n - t say 1.
pub fn seen(messages: &[Message], t: usize) -> (Matrix, Matrix) {
    let n = messages.len();
    let votes = |r, j, value| messages.iter().filter(|m| says(m, r, j) == value).count();
    (
        matrix(n, |r, j| votes(r, j, false) >= n - t),
        matrix(n, |r, j| votes(r, j, true) >= n - t),
    )
}

/// After round 3p + 2: the bit held is 1 if the ones exceed t, and it is weak where its count is below n - t.
pub fn held(messages: &[Message], t: usize) -> (Matrix, Matrix) {
    let n = messages.len();
    let count = |r, j| messages.iter().filter(|m| says(m, r, j)).count();
    let zeros = |r, j| count(r, j);
    let ones = |r, j| count(n + r, j);
    let value = |r, j| ones(r, j) > t;
    let backing = |r, j| if value(r, j) { ones(r, j) } else { zeros(r, j) };
    (matrix(n, value), matrix(n, |r, j| backing(r, j) < n - t))
}

/// After round 3p + 3: the king's bit where weak.
pub fn settled(held: &Matrix, weak: &Matrix, king: &Message) -> Matrix {
    matrix(held.len(), |r, j| {
        if weak[r][j] {
            says(king, r, j)
        } else {
            held[r][j]
        }
    })
}

#[cfg(test)]
mod tests {
    use super::*;

    fn one_bit(bits: &[Option<bool>]) -> Vec<Message> {
        bits.iter()
            .map(|b| b.map(|b| [vec![u8::from(b), 0], vec![0; 14]].concat()))
            .collect()
    }

    // Example f of document 01.
    #[test]
    fn three_of_four() {
        let (zeros, ones) = seen(
            &one_bit(&[Some(true), Some(true), Some(true), Some(false)]),
            1,
        );
        assert!(ones[0][0] && !zeros[0][0]);
        let (zeros, ones) = seen(
            &one_bit(&[Some(true), Some(true), Some(false), Some(false)]),
            1,
        );
        assert!(!ones[0][0] && !zeros[0][0]);
        let (zeros, _) = seen(&one_bit(&[Some(true), None, Some(false), None]), 1);
        assert!(zeros[0][0]);
    }
}
