//! Joints under their parents.

use super::pose::Pose;
use super::rotation::{product, Matrix};

/// Each joint's matrix from its own one: its parent's times it.
pub fn matrices(parents: &[Option<u16>], own: &[Matrix]) -> Vec<Matrix> {
    let mut matrices: Vec<Matrix> = Vec::new();
    for (&parent, own) in parents.iter().zip(own) {
        let above = match parent {
            None => Pose::IDENTITY.matrix(),
            Some(parent) => matrices[usize::from(parent)],
        };
        matrices.push(product(&above, own));
    }
    matrices
}

/// A joint's own matrix in a page frame: its upper 3x3 part is transposed.
pub fn page_matrix(matrix: &Matrix) -> Matrix {
    let mut page = *matrix;
    for row in 0..3 {
        for column in 0..3 {
            page[row][column] = matrix[column][row];
        }
    }
    page
}
