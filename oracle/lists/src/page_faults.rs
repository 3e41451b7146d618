//! Faults about page frames.

use crate::evaluator::{HostPlayer, Shown};
use crate::faults::{Fault, Faulty};
use crate::frame::{figure, write_matrices, Frame};
use compare::model::pose::Pose;
use compare::model::rotation::{product, Matrix};
use compare::model::skeleton::page_matrix;
use compare::model::Model;

impl Faulty<'_> {
    /// What the fault does to the matrices of an accepted page frame.
    pub fn spoil_page(&self, frame: Frame, before: &HostPlayer, output: &mut [f32]) {
        if frame.shown != Shown::Page || !Fault::OF_PAGES.contains(&self.fault) {
            return;
        }
        let mut model = Model::start(&figure(frame.plan, frame.numbers));
        model.store(&before.player());
        let own = model.own_matrices(frame.ext, output.len());
        let (Ok(own), Some(plan)) = (own, model.plan()) else {
            return;
        };
        let mut shown: Vec<Matrix> = Vec::new();
        for (&parent, own) in plan.parents.iter().zip(&own) {
            let above = parent.map(|parent| shown[usize::from(parent)]);
            shown.push(self.spoilt(above, own));
        }
        if self.fault == Fault::PageTransposedLate {
            shown = shown.iter().map(page_matrix).collect();
        }
        write_matrices(&shown, output);
    }

    /// A joint's matrix, from its parent's and the one of its pose.
    fn spoilt(&self, above: Option<Matrix>, own: &Matrix) -> Matrix {
        let base = above.unwrap_or(Pose::IDENTITY.matrix());
        let page = page_matrix(own);
        match self.fault {
            Fault::PageNotTransposed | Fault::PageTransposedLate => product(&base, own),
            Fault::PageParentTransposed => product(&page_matrix(&base), own),
            Fault::PageRootLeftAlone if above.is_none() => product(&base, own),
            Fault::PageRootNotMultiplied if above.is_none() => page,
            Fault::PageWhollyTransposed => product(&base, &transposed(own)),
            _ => product(&base, &page),
        }
    }
}

fn transposed(matrix: &Matrix) -> Matrix {
    [0, 1, 2, 3].map(|row| [0, 1, 2, 3].map(|column| matrix[column][row]))
}
