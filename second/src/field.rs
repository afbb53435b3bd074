//! The two fields. Callers pass elements only; layout and the calls see to that.

#[derive(Clone, Copy, Debug, PartialEq, Eq)]
pub enum Field {
    Mod251,
    Gf256,
}

/// The bits that a polynomial of degree 8 folds back to, modulo 11D.
const FOLD: u8 = 0x1D;

impl Field {
    pub fn contains(self, number: u8) -> bool {
        match self {
            Field::Mod251 => number < 251,
            Field::Gf256 => true,
        }
    }

    pub fn negate(self, a: u8) -> u8 {
        match self {
            Field::Mod251 if a == 0 => 0,
            Field::Mod251 => 251 - a,
            Field::Gf256 => a,
        }
    }

    pub fn multiply(self, a: u8, b: u8) -> u8 {
        match self {
            Field::Mod251 => (u16::from(a) * u16::from(b) % 251) as u8,
            Field::Gf256 => shift_and_fold(a, b),
        }
    }

    /// The power that undoes `a`: every element but 0 has order dividing q - 1.
    pub fn inverse(self, a: u8) -> u8 {
        match self {
            Field::Mod251 => self.power(a, 249),
            Field::Gf256 => self.power(a, 254),
        }
    }

    fn power(self, base: u8, exponent: u8) -> u8 {
        (0..8).rev().fold(1, |result, bit| {
            let square = self.multiply(result, result);
            if exponent >> bit & 1 == 1 {
                self.multiply(square, base)
            } else {
                square
            }
        })
    }

    /// Adds `factor` times each cell of `source` to the cell of `target` at its place.
    pub fn add_multiple(self, target: &mut [u8], factor: u8, source: &[u8]) {
        let cells = target.iter_mut().zip(source);
        match self {
            Field::Mod251 => {
                for (t, s) in cells {
                    *t = ((u16::from(*t) + u16::from(factor) * u16::from(*s)) % 251) as u8;
                }
            }
            Field::Gf256 => {
                for (t, s) in cells {
                    *t ^= shift_and_fold(*s, factor);
                }
            }
        }
    }

    pub fn scale(self, cells: &mut [u8], factor: u8) {
        for cell in cells {
            *cell = self.multiply(*cell, factor);
        }
    }
}

/// The product in GF(256), bit by bit and without branches, so that a loop over
/// cells can be done many cells at a time.
#[inline]
fn shift_and_fold(mut a: u8, b: u8) -> u8 {
    let mut product = 0;
    for bit in 0..8 {
        let taken = 0u8.wrapping_sub(b >> bit & 1);
        product ^= a & taken;
        a = (a << 1) ^ (FOLD & 0u8.wrapping_sub(a >> 7));
    }
    product
}

#[cfg(test)]
mod tests {
    use super::*;

    #[test]
    fn figures() {
        assert_eq!(Field::Mod251.inverse(2), 126);
        assert_eq!(Field::Gf256.multiply(2, 128), 29);
    }

    #[test]
    fn inverses_undo() {
        for field in [Field::Mod251, Field::Gf256] {
            assert_eq!(field.inverse(0), 0);
            for a in (1..=255).filter(|a| field.contains(*a)) {
                assert_eq!(field.multiply(a, field.inverse(a)), 1);
            }
        }
    }

    #[test]
    fn multiples_are_products_and_sums() {
        for field in [Field::Mod251, Field::Gf256] {
            for factor in (0..=255).filter(|a| field.contains(*a)) {
                let mut cells = [7u8, 7, 7];
                field.add_multiple(&mut cells, factor, &[0, 1, 250]);
                field.add_multiple(&mut cells, field.negate(factor), &[0, 1, 250]);
                assert_eq!(cells, [7, 7, 7]);
            }
        }
    }
}
