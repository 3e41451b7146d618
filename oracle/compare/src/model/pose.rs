//! A joint's pose.

use super::rotation::{self, Matrix, Quaternion};

#[derive(Clone, Copy, Debug, PartialEq)]
pub struct Pose {
    pub translation: [f32; 3],
    pub scale: f32,
    pub rotation: Quaternion,
}

impl Pose {
    pub const IDENTITY: Pose = Pose {
        translation: [0.0; 3],
        scale: 1.0,
        rotation: [1.0, 0.0, 0.0, 0.0],
    };

    /// From its eight numbers.
    pub fn new(numbers: [f32; 8]) -> Pose {
        let [tx, ty, tz, scale, w, x, y, z] = numbers;
        Pose {
            translation: [tx, ty, tz],
            scale,
            rotation: [w, x, y, z],
        }
    }

    pub fn lerp(self, to: Pose, factor: f32) -> Pose {
        let between = |a: f32, b: f32| a + (b - a) * factor;
        let translation = [0, 1, 2].map(|i| between(self.translation[i], to.translation[i]));
        Pose {
            translation,
            scale: between(self.scale, to.scale),
            rotation: rotation::lerp(self.rotation, to.rotation, factor),
        }
    }

    /// By way of both matrices, which have no scale.
    pub fn concat(self, other: Pose) -> Pose {
        let matrix = rotation::product(&self.matrix(), &other.matrix());
        Pose {
            translation: [0, 1, 2].map(|row| matrix[row][3]),
            scale: 1.0,
            rotation: rotation::quaternion(&matrix),
        }
    }

    pub fn matrix(self) -> Matrix {
        let mut matrix = rotation::matrix(self.rotation);
        for (row, part) in self.translation.into_iter().enumerate() {
            matrix[row][3] = part;
        }
        matrix
    }
}
