//! A frame as a fault gets to see it.

use crate::evaluator::{HostPlayer, Shown};
use compare::model::figure::Checked;
use compare::model::pose::Pose;
use compare::model::rotation::Matrix;
use compare::model::skeleton::{matrices, page_matrix};
use compare::model::tree::Tree;
use compare::texts::figure::Figure;

/// A frame's arguments.
#[derive(Clone, Copy)]
pub struct Frame<'a> {
    pub shown: Shown,
    pub plan: &'a [u16],
    pub numbers: &'a [f32],
    pub ext: f64,
}

/// The figure, where it is accepted.
pub fn checked(plan: &[u16], numbers: &[f32]) -> Option<Checked> {
    Checked::new(&figure(plan, numbers)).ok()
}

pub fn figure(plan: &[u16], numbers: &[f32]) -> Figure {
    Figure {
        plan: plan.to_vec(),
        numbers: numbers.iter().map(|float| float.to_bits()).collect(),
    }
}

impl Frame<'_> {
    /// The tree of a state at the frame's time.
    pub fn tree<'a>(&self, figure: &'a Checked, player: &HostPlayer, state: usize) -> Tree<'a> {
        let time = (player.clock + self.ext * player.speed) as f32;
        Tree {
            figure,
            state,
            time,
        }
    }

    /// Shows these poses in place of the right ones.
    pub fn write(&self, figure: &Checked, poses: &[Pose], output: &mut [f32]) {
        let own = |pose: &Pose| match self.shown {
            Shown::Frame => pose.matrix(),
            Shown::Page => page_matrix(&pose.matrix()),
        };
        let own: Vec<Matrix> = poses.iter().map(own).collect();
        write_matrices(&matrices(&figure.plan.parents, &own), output);
    }
}

/// At the front of the output.
pub fn write_matrices(matrices: &[Matrix], output: &mut [f32]) {
    let entries = matrices.iter().flatten().flatten();
    for (float, entry) in output.iter_mut().zip(entries) {
        *float = *entry;
    }
}
