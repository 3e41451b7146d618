//! The recorded list: every branch, tie and limit by name, and random rows of a fixed seed.

use crate::generator::{midpoint, Generator, SPECIAL, WRAP_LIMITS};
use crate::narrowing::near_borders;
use crate::row::{Kind, Row};
use std::collections::BTreeSet;

const SEED: u64 = 0x5f37_59df;

/// How many random rows follow the chosen ones.
const RANDOM: [(Kind, usize); 14] = [
    (Kind::InvSqrt, 120),
    (Kind::LerpQuaternion, 150),
    (Kind::QuaternionToMatrix, 120),
    (Kind::MatrixToQuaternion, 200),
    (Kind::RowMat4Mul, 100),
    (Kind::PoseLerp, 150),
    (Kind::PoseConcat, 150),
    (Kind::PoseToMatrix, 80),
    (Kind::PoseFromMatrix, 100),
    (Kind::Widen, 60),
    (Kind::Narrow, 200),
    (Kind::FloorIndex, 120),
    (Kind::CeilingIndex, 120),
    (Kind::IndexToFloat, 150),
];

pub fn rows() -> Vec<Row> {
    let mut generator = Generator::new(SEED);
    let mut rows = Vec::new();
    floats(&mut rows);
    narrow(&mut rows);
    indices(&mut rows);
    quaternions(&mut rows, &mut generator);
    matrices(&mut rows, &mut generator);
    poses(&mut rows, &mut generator);
    for (kind, count) in RANDOM {
        rows.extend((0..count).map(|_| generator.row(kind)));
    }
    rows
}

/// A pattern with its neighbours, two on each side.
fn neighbours(word: u32) -> [u32; 5] {
    [-2, -1, 0, 1, 2].map(|step| word.wrapping_add_signed(step))
}

/// The kinds of one operand, around the special patterns and the limits of inv_sqrt's wrapping.
fn floats(rows: &mut Vec<Row>) {
    let chosen = SPECIAL.into_iter().chain(WRAP_LIMITS);
    let mut words: BTreeSet<u32> = chosen.flat_map(neighbours).collect();
    words.extend((-7..8).map(|halves| (halves as f32 / 2.0).to_bits()));
    for kind in [
        Kind::InvSqrt,
        Kind::Widen,
        Kind::FloorIndex,
        Kind::CeilingIndex,
    ] {
        rows.extend(words.iter().map(|&word| Row::new(kind, &[word])));
    }
}

/// Ties and the values beside them, from the least subnormal to the greatest float, and the borders
/// between the cases.
fn narrow(rows: &mut Vec<Row>) {
    let lower = [
        0x0000_0000,
        0x0000_0001,
        0x0000_0002,
        0x007f_fffe,
        0x007f_ffff,
        0x0080_0000,
        0x0080_0001,
        0x00ff_ffff,
        0x3f7f_ffff,
        0x3f80_0000,
        0x3f80_0001,
        0x4b7f_ffff,
        0x7f7f_fffe,
        0x7f7f_ffff,
    ];
    let mut doubles: Vec<u64> = lower.map(|word| midpoint(word).to_bits()).to_vec();
    doubles.extend(lower.map(|word| f64::from(f32::from_bits(word)).to_bits()));
    doubles.extend([
        0x0000_0000_0000_0000,
        0x0000_0000_0000_0001,
        0x000f_ffff_ffff_ffff,
        0x0010_0000_0000_0000,
        0x47f0_0000_0000_0000, // 2^128
        0x7fef_ffff_ffff_ffff,
        0x7ff0_0000_0000_0000,
        0x7ff8_0000_0000_0000,
        0x7fff_ffff_ffff_ffff,
    ]);
    let mut patterns: BTreeSet<u64> = near_borders().into_iter().collect();
    for double in doubles {
        for sign in [0, 1 << 63] {
            patterns.extend([-1, 0, 1].map(|step| double.wrapping_add_signed(step) ^ sign));
        }
    }
    let patterns = patterns.into_iter();
    rows.extend(patterns.map(|bits| Row::pair(Kind::Narrow, bits)));
}

/// Indices around each power of two and around the ties just above it.
fn indices(rows: &mut Vec<Row>) {
    for index in [0, 1, 2, 3, u64::MAX - 1, u64::MAX] {
        rows.push(Row::pair(Kind::IndexToFloat, index));
    }
    for exponent in [23, 24, 25, 26, 31, 32, 33, 40, 52, 53, 62, 63] {
        let power = 1u64 << exponent;
        // Floats from the power on are this far apart.
        let gap = power >> 23;
        let last = power.wrapping_mul(2).wrapping_sub(gap);
        for float in [power, power + gap, last] {
            for middle in [float, float.wrapping_add(gap / 2)] {
                for step in [-1, 0, 1] {
                    let index = middle.wrapping_add_signed(step);
                    rows.push(Row::pair(Kind::IndexToFloat, index));
                }
            }
        }
    }
}

/// Factors, and pairs whose dot product is 0, -0, NaN, infinite or of either sign.
fn quaternions(rows: &mut Vec<Row>, generator: &mut Generator) {
    let inf = f32::INFINITY;
    let pairs: [[f32; 8]; 14] = [
        [1.0, 0.0, 0.0, 0.0, 1.0, 0.0, 0.0, 0.0],
        [1.0, 0.0, 0.0, 0.0, -1.0, 0.0, 0.0, 0.0],
        [1.0, 0.0, 0.0, 0.0, 0.0, 1.0, 0.0, 0.0],
        [0.0, 1.0, 0.0, 0.0, 0.0, 0.0, -1.0, 0.0],
        [0.0, 0.0, 0.0, 0.0, -1.0, -1.0, -1.0, -1.0],
        [-0.0, -0.0, -0.0, -0.0, 1.0, 1.0, 1.0, 1.0],
        [0.0, 0.0, 0.0, 0.0, 0.0, 0.0, 0.0, 0.0],
        [0.5, 0.5, 0.5, 0.5, 0.5, -0.5, 0.5, -0.5],
        [0.5, 0.5, 0.5, 0.5, 0.5, -0.5, 0.5, -0.499_999_97],
        [0.5, 0.5, 0.5, 0.5, 0.5, -0.5, 0.5, -0.500_000_06],
        [inf, 0.0, 0.0, 0.0, 0.0, 1.0, 0.0, 0.0],
        [inf, 1.0, 0.0, 0.0, 1.0, -inf, 0.0, 0.0],
        [f32::NAN, 0.0, 0.0, 0.0, 1.0, 0.0, 0.0, 0.0],
        [1e20, 1e20, 0.0, 0.0, 1e20, 1e-20, 0.0, 0.0],
    ];
    let factors = [0.0, -0.0, 0.25, 0.5, 1.0, 2.0, -1.0, 1e-40, inf, f32::NAN];
    for pair in pairs {
        for factor in factors {
            let mut words = pair.map(f32::to_bits).to_vec();
            words.push(factor.to_bits());
            rows.push(Row::new(Kind::LerpQuaternion, &words));
        }
    }
    rows.extend((0..64).filter_map(cancelling));
    for special in SPECIAL {
        for place in 0..4 {
            let mut words = [(); 4].map(|_| generator.ordinary());
            words[place] = special;
            rows.push(Row::new(Kind::QuaternionToMatrix, &words));
        }
    }
}

/// A pair whose products are 1, -1 and 2^-24 at three places: the sign of their sum is that of the
/// order in which they are added. None where two of the places are the same.
fn cancelling(places: usize) -> Option<Row> {
    let [one, negated, small] = [places % 4, places / 4 % 4, places / 16];
    if one == negated || one == small || negated == small {
        return None;
    }
    let mut words = [0.0, 0.0, 0.0, 0.0, 1.0, 1.0, 1.0, 1.0, 0.5];
    words[one] = 1.0;
    words[negated] = -1.0;
    words[small] = 2f32.powi(-24);
    Some(Row::new(Kind::LerpQuaternion, &words.map(f32::to_bits)))
}

fn ordinary_words(count: usize, generator: &mut Generator) -> Vec<u32> {
    (0..count).map(|_| generator.ordinary()).collect()
}

/// Diagonals that take each branch of matrix_to_quaternion, with every tie, and special entries.
fn matrices(rows: &mut Vec<Row>, generator: &mut Generator) {
    let entries = [-2.0, -1.0, -0.0, 0.5, 1.0, f32::NAN];
    let infinite = [-1.0, f32::INFINITY, f32::NEG_INFINITY];
    for choices in [&entries[..], &infinite[..]] {
        let count = choices.len();
        for i in 0..count.pow(3) {
            let mut words = ordinary_words(16, generator);
            words[0] = choices[i % count].to_bits();
            words[5] = choices[i / count % count].to_bits();
            words[10] = choices[i / count / count].to_bits();
            rows.push(Row::new(Kind::MatrixToQuaternion, &words));
        }
    }
    for special in SPECIAL {
        let mut words = ordinary_words(32, generator);
        words[generator.draw() as usize % 16] = special;
        words[16 + generator.draw() as usize % 16] = special;
        rows.push(Row::new(Kind::RowMat4Mul, &words));
        rows.push(Row::new(Kind::PoseFromMatrix, &words[..16]));
    }
}

/// A special pattern in each part of a pose in turn.
fn poses(rows: &mut Vec<Row>, generator: &mut Generator) {
    for (i, special) in SPECIAL.into_iter().enumerate() {
        for kind in [Kind::PoseLerp, Kind::PoseConcat, Kind::PoseToMatrix] {
            let count = kind.operands();
            for place in [i % count, (i * 7 + 3) % count] {
                let mut words = ordinary_words(count, generator);
                words[place] = special;
                rows.push(Row::new(kind, &words));
            }
        }
    }
}

#[cfg(test)]
mod tests {
    use super::*;

    fn floats_of(kind: Kind) -> Vec<Vec<f32>> {
        let rows = rows().into_iter().filter(|row| row.kind == kind);
        rows.map(|row| row.words.into_iter().map(f32::from_bits).collect())
            .collect()
    }

    /// Every order of the three diagonal entries, with and without ties, on each side of the trace's
    /// test.
    #[test]
    fn has_each_diagonal() {
        let mut seen = BTreeSet::new();
        for m in floats_of(Kind::MatrixToQuaternion) {
            let [a, b, c] = [m[0], m[5], m[10]];
            if let (Some(ab), Some(ac), Some(bc)) =
                (a.partial_cmp(&b), a.partial_cmp(&c), b.partial_cmp(&c))
            {
                seen.insert((a + b + c > 0.0, ab, ac, bc));
            }
        }
        assert_eq!(seen.len(), 2 * 13);
    }

    #[test]
    fn has_each_dot_product() {
        let dots = floats_of(Kind::LerpQuaternion)
            .into_iter()
            .map(|q| q[0] * q[4] + q[1] * q[5] + q[2] * q[6] + q[3] * q[7]);
        let dots: Vec<f32> = dots.collect();
        assert!(dots.iter().any(|dot| dot.to_bits() == 0));
        assert!(dots.iter().any(|dot| dot.to_bits() == 0x8000_0000));
        assert!(dots.iter().any(|dot| dot.is_nan()));
        assert!(dots.iter().any(|&dot| dot > 0.0));
        assert!(dots.iter().any(|&dot| dot < 0.0));
    }
}
