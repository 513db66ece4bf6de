//! The field of 256 elements (document 01, 'Field and code'), bit by bit and by search, without tables.

/// The polynomial by which products are reduced.
pub const MODULUS: u32 = 0x11d;

pub fn add(a: u8, b: u8) -> u8 {
    a ^ b
}

/// The product of polynomials over two elements: bit i of `a` times bit j of `b` counts for bit i + j.
fn polynomial_product(a: u8, b: u8) -> u32 {
    let mut product = 0;
    for i in 0..8 {
        for j in 0..8 {
            product ^= (u32::from(a >> i) & u32::from(b >> j) & 1) << (i + j);
        }
    }
    product
}

/// The remainder modulo 11d: while a bit from 8 on is set, a multiple of 11d takes the highest one away.
fn remainder(mut polynomial: u32) -> u8 {
    while polynomial > 0xff {
        let degree = 31 - polynomial.leading_zeros();
        polynomial ^= MODULUS << (degree - 8);
    }
    polynomial as u8
}

pub fn mul(a: u8, b: u8) -> u8 {
    remainder(polynomial_product(a, b))
}

/// `a` multiplied by itself `n` times.
pub fn pow(a: u8, n: usize) -> u8 {
    let mut power = 1;
    for _ in 0..n {
        power = mul(power, a);
    }
    power
}

/// The power `exponent` of 02.
pub fn power(exponent: u8) -> u8 {
    pow(2, usize::from(exponent))
}

/// The exponent below 255 whose power of 02 is `a`; that of 00 is 00.
pub fn log(a: u8) -> u8 {
    (0..255).find(|&exponent| power(exponent) == a).unwrap_or(0)
}

/// The element whose product with `a` is 01; for 00 the answer is 00.
pub fn inv(a: u8) -> u8 {
    (0..=255).find(|&b| mul(a, b) == 1).unwrap_or(0)
}

#[cfg(test)]
mod tests {
    use super::*;

    fn elements() -> impl Iterator<Item = u8> {
        0..=255
    }

    #[test]
    fn example_a() {
        assert_eq!(mul(0x80, 0x02), 0x1d);
    }

    #[test]
    fn example_b() {
        assert_eq!(mul(0x14, 0x03), 0x3c);
    }

    #[test]
    fn sums_form_a_group_of_self_inverse_elements() {
        for a in elements() {
            assert_eq!(add(a, 0), a);
            assert_eq!(add(a, a), 0);
            for b in elements() {
                assert_eq!(add(a, b), add(b, a));
            }
        }
    }

    #[test]
    fn products_commute_and_have_units() {
        for a in elements() {
            assert_eq!(mul(a, 0), 0);
            assert_eq!(mul(a, 1), a);
            for b in elements() {
                assert_eq!(mul(a, b), mul(b, a));
                assert_eq!(mul(a, b) == 0, a == 0 || b == 0);
            }
        }
    }

    /// All 16,777,216 triples; the products are looked up in a table made by `mul`, once.
    #[test]
    fn products_associate_and_distribute() {
        let table: Vec<Vec<u8>> = elements()
            .map(|a| elements().map(|b| mul(a, b)).collect())
            .collect();
        let times = |a: u8, b: u8| table[usize::from(a)][usize::from(b)];
        for a in elements() {
            for b in elements() {
                for c in elements() {
                    assert_eq!(times(times(a, b), c), times(a, times(b, c)));
                    assert_eq!(times(a, add(b, c)), add(times(a, b), times(a, c)));
                }
            }
        }
    }

    #[test]
    fn inverses() {
        assert_eq!(inv(0), 0);
        for a in 1..=255 {
            assert_eq!(mul(a, inv(a)), 1);
            assert_eq!(elements().filter(|&b| mul(a, b) == 1).count(), 1);
            assert_eq!(inv(a), pow(a, 254));
        }
    }

    #[test]
    fn powers_and_exponents() {
        assert_eq!(power(0), 1);
        assert_eq!(power(1), 2);
        assert_eq!(power(255), 1);
        assert_eq!(log(0), 0);
        assert_eq!(log(1), 0);
        for exponent in 0..255 {
            assert_eq!(log(power(exponent)), exponent);
        }
        for a in 1..=255 {
            assert_eq!(power(log(a)), a);
        }
    }
}
