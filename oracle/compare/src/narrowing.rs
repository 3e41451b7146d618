//! Where narrowing goes from one case of IEEE 754 to the next, worked out from the formats' values.

use crate::generator::midpoint;

const SIGN: u64 = 1 << 63;

/// The first 64-bit pattern, without its sign, of each case behind zero's: subnormal, normal, too
/// large, infinity, NaN.
pub fn borders() -> [u64; 5] {
    let infinity = f64::INFINITY.to_bits();
    [
        // Half of the least subnormal is a tie and goes to zero, the even one; what follows does not.
        midpoint(0x0000_0000).to_bits() + 1,
        // Half way from the greatest subnormal to the least normal, which is the even one.
        midpoint(0x007f_ffff).to_bits(),
        // Half way from the greatest float to 2^128, which would be the even one.
        midpoint(0x7f7f_ffff).to_bits(),
        infinity,
        infinity + 1,
    ]
}

/// The patterns within two of a border, and the ends of the first case and the last, with both signs.
pub fn near_borders() -> Vec<u64> {
    let near = borders().into_iter().flat_map(|first| first - 2..first + 2);
    let ends = [0, 1, SIGN - 2, SIGN - 1];
    let unsigned = near.chain(ends);
    unsigned.flat_map(|bits| [bits, bits | SIGN]).collect()
}

#[cfg(test)]
mod tests {
    use super::*;
    use crate::generator::Generator;
    use crate::recorded;
    use crate::row::{Kind, Row};
    use std::collections::BTreeSet;
    use std::num::FpCategory::{self, *};

    /// What a 64-bit pattern stands for, and what Rust's own cast makes of it. Each of the six cases
    /// has such a pair; subnormals are finite.
    fn case(bits: u64) -> (FpCategory, FpCategory) {
        let x = f64::from_bits(bits);
        let value = match x.classify() {
            Zero | Subnormal => Normal,
            other => other,
        };
        (value, (x as f32).classify())
    }

    const CASES: [(FpCategory, FpCategory); 6] = [
        (Normal, Zero),
        (Normal, Subnormal),
        (Normal, Normal),
        (Normal, Infinite),
        (Infinite, Infinite),
        (Nan, Nan),
    ];

    fn narrowed(rows: impl IntoIterator<Item = Row>) -> Vec<u64> {
        let rows = rows.into_iter().filter(|row| row.kind == Kind::Narrow);
        rows.map(|row| u64::from(row.words[0]) << 32 | u64::from(row.words[1]))
            .collect()
    }

    #[test]
    fn borders_lie_between_the_cases() {
        for (i, first) in borders().into_iter().enumerate() {
            for sign in [0, SIGN] {
                assert_eq!(case((first - 1) | sign), CASES[i]);
                assert_eq!(case(first | sign), CASES[i + 1]);
            }
        }
        assert_eq!(case(0), CASES[0]);
        assert_eq!(case(SIGN - 1), CASES[5]);
    }

    #[test]
    fn every_border_is_recorded() {
        let recorded: BTreeSet<u64> = narrowed(recorded::rows()).into_iter().collect();
        for first in borders() {
            for bits in first - 2..first + 2 {
                assert!(recorded.contains(&bits), "{bits:016x}");
                assert!(recorded.contains(&(bits | SIGN)), "-{bits:016x}");
            }
        }
    }

    /// A gate's share of random rows has each case with each sign apart from the borders, but for the
    /// infinities, which lie at one.
    #[test]
    fn random_rows_fall_in_every_case() {
        let mut generator = Generator::new(4);
        let rows = (0..14_000).map(|_| generator.row(Kind::Narrow));
        let borders: BTreeSet<u64> = near_borders().into_iter().collect();
        let patterns = narrowed(rows);
        let apart: Vec<u64> = patterns
            .iter()
            .copied()
            .filter(|bits| !borders.contains(bits))
            .collect();
        assert!(patterns.len() - apart.len() > 300);
        let infinite = CASES[4];
        for wanted in CASES.into_iter().filter(|&wanted| wanted != infinite) {
            for sign in [0, SIGN] {
                let fall = |bits: &&u64| case(**bits) == wanted && **bits & SIGN == sign;
                let count = apart.iter().filter(fall).count();
                assert!(count > 50, "{count} are {wanted:?}");
            }
        }
    }
}
