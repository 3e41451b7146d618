//! Random rows from a seed.

use crate::narrowing::near_borders;
use crate::row::{Kind, Row};
use skeletal_animation::math::quaternion_to_matrix;

/// Bit patterns at which some function here changes its course.
pub const SPECIAL: [u32; 40] = [
    // zeros
    0x0000_0000,
    0x8000_0000,
    // subnormals and the least normals
    0x0000_0001,
    0x8000_0001,
    0x007f_ffff,
    0x807f_ffff,
    0x0080_0000,
    0x8080_0000,
    // a half, one, two and between
    0x3eff_ffff,
    0x3f00_0000,
    0xbf00_0000,
    0x3f7f_ffff,
    0xbf7f_ffff,
    0x3f80_0000,
    0xbf80_0000,
    0x3f80_0001,
    0xbf80_0001,
    0x3fc0_0000,
    0xbfc0_0000,
    0x4000_0000,
    0xc000_0000,
    0x4040_0000,
    // 2^24, from which every float is whole; 2^63 and 2^64
    0x4b7f_ffff,
    0x4b80_0000,
    0x4b80_0001,
    0xcb80_0000,
    0x5eff_ffff,
    0x5f00_0000,
    0x5f7f_ffff,
    0x5f80_0000,
    0xdf80_0000,
    // the greatest floats, infinities and NaNs
    0x7f7f_ffff,
    0xff7f_ffff,
    0x7f80_0000,
    0xff80_0000,
    0x7f80_0001,
    0x7fc0_0000,
    0xffc0_0000,
    0x7fff_ffff,
    0xffff_ffff,
];

/// The ends of the patterns at which inv_sqrt's subtraction wraps, 80000000 to be6eb3bf, with the
/// first pattern after them and the last ones of both signs.
pub const WRAP_LIMITS: [u32; 5] = [
    0x8000_0000,
    0xbe6e_b3bf,
    0xbe6e_b3c0,
    0x7fff_ffff,
    0xffff_ffff,
];

/// How a row's words are chosen.
#[derive(Clone, Copy)]
enum Style {
    /// Floats from -4 to 4.
    Ordinary,
    /// Any bit pattern.
    Pattern,
    Special,
    /// Each word by one of the above.
    Mixed,
    /// Unit quaternions, rotation matrices and factors from 0 to 1.
    Rotation,
    /// Close to where the function takes another branch or rounds the other way.
    NearTie,
}

const STYLES: [Style; 6] = [
    Style::Ordinary,
    Style::Pattern,
    Style::Special,
    Style::Mixed,
    Style::Rotation,
    Style::NearTie,
];

pub struct Generator {
    state: u64,
}

impl Generator {
    pub fn new(seed: u64) -> Generator {
        Generator { state: seed }
    }

    /// splitmix64
    pub fn draw(&mut self) -> u64 {
        self.state = self.state.wrapping_add(0x9e37_79b9_7f4a_7c15);
        let mut z = self.state;
        z = (z ^ (z >> 30)).wrapping_mul(0xbf58_476d_1ce4_e5b9);
        z = (z ^ (z >> 27)).wrapping_mul(0x94d0_49bb_1331_11eb);
        z ^ (z >> 31)
    }

    pub fn below(&mut self, n: u64) -> u64 {
        self.draw() % n
    }

    pub fn pick<T: Copy>(&mut self, items: &[T]) -> T {
        items[self.below(items.len() as u64) as usize]
    }

    /// A float from `low` to `high`.
    pub fn between(&mut self, low: f32, high: f32) -> f32 {
        low + (high - low) * ((self.draw() >> 40) as f32 / 16_777_216.0)
    }

    pub fn ordinary(&mut self) -> u32 {
        self.between(-4.0, 4.0).to_bits()
    }

    /// A pattern at most two steps away.
    fn near(&mut self, word: u32) -> u32 {
        word.wrapping_add(self.below(5) as u32).wrapping_sub(2)
    }

    fn word(&mut self, style: Style) -> u32 {
        match style {
            Style::Pattern => self.draw() as u32,
            Style::Special => self.pick(&SPECIAL),
            Style::Mixed => {
                let style = self.pick(&STYLES[..3]);
                self.word(style)
            }
            Style::NearTie => {
                let word = self.pick(&SPECIAL);
                self.near(word)
            }
            Style::Ordinary | Style::Rotation => self.ordinary(),
        }
    }

    fn words(&mut self, style: Style, count: usize) -> Vec<u32> {
        (0..count).map(|_| self.word(style)).collect()
    }

    pub fn row(&mut self, kind: Kind) -> Row {
        let style = self.pick(&STYLES);
        let words = match style {
            Style::Rotation => self.rotations(kind),
            Style::NearTie => self.near_tie(kind),
            _ => self.words(style, kind.operands()),
        };
        Row::new(kind, &words)
    }

    pub fn unit_quaternion(&mut self) -> [f32; 4] {
        let parts = [(); 4].map(|_| self.between(-1.0, 1.0));
        let length = parts.iter().map(|p| p * p).sum::<f32>().sqrt();
        parts.map(|p| p / length)
    }

    fn quaternion(&mut self) -> Vec<u32> {
        self.unit_quaternion().map(f32::to_bits).to_vec()
    }

    fn pose(&mut self) -> Vec<u32> {
        let mut words = self.words(Style::Ordinary, 4);
        words.extend(self.quaternion());
        words
    }

    fn matrix(&mut self) -> Vec<u32> {
        let [w, x, y, z] = self.unit_quaternion();
        let mut m = quaternion_to_matrix((w, [x, y, z]));
        for row in m.iter_mut().take(3) {
            row[3] = self.between(-4.0, 4.0);
        }
        m.iter().flatten().map(|entry| entry.to_bits()).collect()
    }

    fn factor(&mut self) -> Vec<u32> {
        vec![self.between(0.0, 1.0).to_bits()]
    }

    fn rotations(&mut self, kind: Kind) -> Vec<u32> {
        match kind {
            Kind::LerpQuaternion => [self.quaternion(), self.quaternion(), self.factor()].concat(),
            Kind::QuaternionToMatrix => self.quaternion(),
            Kind::MatrixToQuaternion | Kind::PoseFromMatrix => self.matrix(),
            Kind::RowMat4Mul => [self.matrix(), self.matrix()].concat(),
            Kind::PoseLerp => [self.pose(), self.pose(), self.factor()].concat(),
            Kind::PoseConcat => [self.pose(), self.pose()].concat(),
            Kind::PoseToMatrix => self.pose(),
            _ => self.words(Style::Ordinary, kind.operands()),
        }
    }

    fn near_tie(&mut self, kind: Kind) -> Vec<u32> {
        match kind {
            Kind::InvSqrt => {
                let limit = self.pick(&WRAP_LIMITS);
                vec![self.near(limit)]
            }
            Kind::LerpQuaternion => self.orthogonal_quaternions(),
            Kind::MatrixToQuaternion | Kind::PoseFromMatrix => self.tied_diagonal(),
            Kind::FloorIndex | Kind::CeilingIndex => {
                let whole = (self.draw() >> self.below(64)) as f32;
                let sign = (self.draw() as u32) & 0x8000_0000;
                vec![self.near(whole.to_bits()) ^ sign]
            }
            Kind::Narrow => self.narrow_tie(),
            Kind::IndexToFloat => self.index_tie(),
            _ => self.words(Style::NearTie, kind.operands()),
        }
    }

    /// Two quaternions whose dot product is 0, or a step away from it.
    fn orthogonal_quaternions(&mut self) -> Vec<u32> {
        let [w, x, y, z] = self.unit_quaternion();
        let mut words = [w, x, y, z, -x, w, -z, y].map(f32::to_bits).to_vec();
        if self.below(2) == 0 {
            let i = self.below(8) as usize;
            words[i] = self.near(words[i]);
        }
        words.extend(self.factor());
        words
    }

    /// A matrix whose diagonal entries are equal, a step apart or each other's negatives.
    fn tied_diagonal(&mut self) -> Vec<u32> {
        let mut words = self.words(Style::Ordinary, 16);
        let entry = self.ordinary();
        for i in [0, 5, 10] {
            words[i] = match self.below(6) {
                0 => entry ^ 0x8000_0000,
                1 => self.near(entry),
                2 => self.pick(&SPECIAL),
                _ => entry,
            };
        }
        words
    }

    /// At a border between two cases; or half way between two neighbouring 32-bit floats, or a step
    /// away from that.
    fn narrow_tie(&mut self) -> Vec<u32> {
        if self.below(4) == 0 {
            let bits = self.pick(&near_borders());
            return vec![(bits >> 32) as u32, bits as u32];
        }
        let word = (self.draw() as u32) % 0x7f80_0000;
        let word = if self.below(4) == 0 {
            word % 0x0100_0000
        } else {
            word
        };
        let middle = midpoint(word).to_bits();
        let bits = middle.wrapping_add(self.below(3)).wrapping_sub(1) ^ (self.draw() & 1 << 63);
        vec![(bits >> 32) as u32, bits as u32]
    }

    /// Half way between two neighbouring 32-bit floats, or a step away from that.
    fn index_tie(&mut self) -> Vec<u32> {
        let shift = self.below(41);
        let index = (self.draw() >> 40 | 1 << 23) << shift;
        let half = if shift == 0 { 0 } else { 1 << (shift - 1) };
        let index = (index | half).wrapping_add(self.below(3)).wrapping_sub(1);
        vec![(index >> 32) as u32, index as u32]
    }
}

/// Half way from the non-negative float of a pattern to the next one, where the infinity counts as
/// 2^128.
pub fn midpoint(word: u32) -> f64 {
    let value = |word: u32| match f32::from_bits(word) {
        x if x.is_infinite() => 2f64.powi(128),
        x => f64::from(x),
    };
    (value(word) + value(word + 1)) / 2.0
}
