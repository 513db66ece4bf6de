//! What the library's decoding is compared with: for each stripe the sets of t + 1 present slots are tried in dictionary order, until twice
//! the number of present values that differ from a set's polynomial is at most N - t - 1, where N slots are present. It shares no code with
//! the library or the reference.
//!
//! The coefficients of a set are computed once in a decoding and kept for the other stripes, and a set is given up as soon as too many values
//! differ.

/// The most points that there are.
const POINTS: usize = 16;
/// The bytes of a slot in front of its piece.
const FRONT: usize = 3;
/// The exponent that stands for 00: a sum with it is past every sum of two other exponents, where `POWERS` has zeros.
const OF_ZERO: u16 = 510;

/// The powers of 02, so far as sums of two exponents go, and zeros behind them.
static POWERS: [u8; 1024] = powers();
/// The exponents of all elements.
static EXPONENTS: [u16; 256] = exponents();

const fn powers() -> [u8; 1024] {
    let mut table = [0; 1024];
    let mut power = 1u16;
    let mut e = 0;
    while e < 2 * 255 - 1 {
        table[e] = power as u8;
        power <<= 1;
        if power > 0xff {
            power ^= 0x11d;
        }
        e += 1;
    }
    table
}

const fn exponents() -> [u16; 256] {
    let powers = powers();
    let mut table = [OF_ZERO; 256];
    let mut e = 0;
    while e < 255 {
        table[powers[e] as usize] = e as u16;
        e += 1;
    }
    table
}

fn exponent(x: u8) -> u16 {
    EXPONENTS[usize::from(x)]
}

/// The element with this sum of exponents.
fn power(sum: u16) -> u8 {
    POWERS[usize::from(sum) % POWERS.len()]
}

fn product(a: u8, b: u8) -> u8 {
    power(exponent(a) + exponent(b))
}

/// The sum of products of elements given by their exponents.
fn dot<const M: usize>(a: &[u8; M], b: &[u16; M]) -> u8 {
    let mut sum = 0;
    for i in 0..M {
        sum ^= power(u16::from(a[i]) + b[i]);
    }
    sum
}

/// The value of a present slot outside a set, `other` by its index, as a sum: the exponents of the factors of the members' values.
struct Row<const M: usize> {
    other: u8,
    factors: [u8; M],
}

/// The sets of M of the N present slots in dictionary order, as far as they were needed, by the slots' indices among those present. Set x
/// has the N - M rows from x * (N - M) on.
struct Sets<'a, const M: usize> {
    /// The numbers of the present slots, rising: at these points they have their values.
    points: &'a [u8],
    members: Vec<[usize; M]>,
    rows: Vec<Row<M>>,
}

impl<'a, const M: usize> Sets<'a, M> {
    /// The first set; there are M points or more.
    fn new(points: &'a [u8]) -> Self {
        let first = std::array::from_fn(|i| i);
        let mut sets = Sets {
            points,
            members: Vec::new(),
            rows: Vec::new(),
        };
        sets.add(first);
        sets
    }

    /// How many present slots are outside a set.
    fn others(&self) -> usize {
        self.points.len() - M
    }

    /// Adds the set behind the last one; whether there is one.
    fn add_next(&mut self) -> bool {
        let mut members = self.members[self.members.len() - 1];
        let Some(i) = (0..M).rev().find(|&i| members[i] < self.others() + i) else {
            return false;
        };
        let next = members[i] + 1;
        for (above, member) in members[i..].iter_mut().enumerate() {
            *member = next + above;
        }
        self.add(members);
        true
    }

    /// Lagrange: the factor of member i for the point x is the product of x - y over the other members' points y, by the weight of i.
    fn add(&mut self, members: [usize; M]) {
        let points = members.map(|m| self.points[m]);
        let weights = weights(&points);
        for other in (0..self.points.len()).filter(|i| !members.contains(i)) {
            let differences = points.map(|point| exponent(self.points[other] ^ point));
            let all: u16 = differences.iter().sum();
            let factor = |i| (all + 2 * 255 - differences[i] - weights[i]) % 255;
            self.rows.push(Row {
                other: other as u8,
                factors: std::array::from_fn(|i| factor(i) as u8),
            });
        }
        self.members.push(members);
    }

    /// Whether twice the number of present values that differ from the polynomial through the values of set x is at most N - t - 1, which is
    /// N - M. The remainders by POINTS change no index; with them no bound is tested.
    fn agrees(&self, x: usize, values: &[u8; POINTS], exponents: &[u16; POINTS]) -> bool {
        let own = self.members[x].map(|m| exponents[m % POINTS]);
        let others = self.others();
        // so many differing values are too many
        let mut left = others / 2 + 1;
        for row in &self.rows[x * others..(x + 1) * others] {
            let received = values[usize::from(row.other) % POINTS];
            left -= usize::from(dot(&row.factors, &own) != received);
            if left == 0 {
                return false;
            }
        }
        true
    }
}

/// The exponents of the products of the differences of each point from the others.
fn weights<const M: usize>(points: &[u8; M]) -> [u16; M] {
    points.map(|x| {
        let others = points.iter().filter(|&&y| y != x);
        others.map(|y| exponent(x ^ y)).sum::<u16>() % 255
    })
}

/// The polynomial through values at points: in row d the factors of the values for the coefficient of degree d.
fn coefficients<const M: usize>(points: &[u8; M]) -> [[u8; M]; M] {
    let weights = weights(points);
    let mut rows = [[0; M]; M];
    for i in 0..M {
        let mut polynomial = [0; M];
        polynomial[0] = power(255 - weights[i]);
        for &y in points.iter().filter(|&&y| y != points[i]) {
            for d in (0..M).rev() {
                let below = if d == 0 { 0 } else { polynomial[d - 1] };
                polynomial[d] = below ^ product(y, polynomial[d]);
            }
        }
        for d in 0..M {
            rows[d][i] = polynomial[d];
        }
    }
    rows
}

/// The block of slots of a byte, a run number, low byte first, and a piece of k bytes, present where the byte is 01 and the number that of the run;
/// whether there is one. Else the block is zeros.
pub fn decode(t: usize, k: usize, run: u16, slots: &[u8], block: &mut [u8]) -> bool {
    let found = match t {
        1 => decode_by::<2>(k, run, slots, block),
        2 => decode_by::<3>(k, run, slots, block),
        3 => decode_by::<4>(k, run, slots, block),
        4 => decode_by::<5>(k, run, slots, block),
        5 => decode_by::<6>(k, run, slots, block),
        _ => panic!("t is not 1 to 5"),
    };
    if !found {
        block.fill(0);
    }
    found
}

/// The same with sets of M slots, which is t + 1, but for the zeros.
fn decode_by<const M: usize>(k: usize, run: u16, slots: &[u8], block: &mut [u8]) -> bool {
    // the numbers of the present slots, and their values stripe by stripe
    let mut points = Vec::with_capacity(POINTS);
    let mut stripes = vec![[0; POINTS]; k];
    let [low, high] = run.to_le_bytes();
    for (point, slot) in (1..).zip(slots.chunks_exact(FRONT + k)) {
        if slot[..FRONT] == [1, low, high] {
            let i = points.len();
            assert!(i < POINTS, "more slots than points");
            for (values, &value) in stripes.iter_mut().zip(&slot[FRONT..]) {
                values[i] = value;
            }
            points.push(point);
        }
    }
    if points.len() < M {
        return false;
    }
    let mut sets = Sets::<M>::new(&points);
    // the set that was right last, and its coefficients
    let mut last = (0, coefficients(&sets.members[0].map(|m| points[m])));
    for (values, bytes) in stripes.iter().zip(block.chunks_exact_mut(M)) {
        let exponents = values.map(exponent);
        let mut x = 0;
        while !sets.agrees(x, values, &exponents) {
            x += 1;
            if x == sets.members.len() && !sets.add_next() {
                return false;
            }
        }
        let members = sets.members[x];
        if last.0 != x {
            last = (x, coefficients(&members.map(|m| points[m])));
        }
        for (byte, row) in bytes.iter_mut().zip(&last.1) {
            let products = row.iter().zip(members);
            *byte = products.fold(0, |sum, (&c, m)| sum ^ product(c, values[m]));
        }
    }
    true
}
