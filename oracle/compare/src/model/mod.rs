//! The player by documents 01 and 02, computed here once more without a call to the Rust, joint by
//! joint over a plan and its numbers. It plays every figure; what the Rust can play too is held to
//! the Rust (`reference`). The plan check is the one that the Rust's player here uses as well.

pub mod clip;
mod controller;
pub mod figure;
pub mod loops;
pub mod pose;
pub mod rotation;
pub mod skeleton;
pub mod tree;
pub mod uses;

use crate::player::{Player, BLANK, PARAMETERS};
use crate::texts::figure::{Figure, Refusal};
use crate::texts::plan::Plan;
use figure::Checked;
use rotation::Matrix;

pub struct Model {
    figure: Result<Checked, Refusal>,
    player: Player,
}

impl Model {
    /// A fresh player of the figure, or the blank one where the figure is refused.
    pub fn start(figure: &Figure) -> Model {
        let figure = Checked::new(figure);
        let player = figure.as_ref().map_or(BLANK, controller::fresh);
        Model { figure, player }
    }

    /// The start's answer.
    pub fn answer(&self) -> Result<(), Refusal> {
        match &self.figure {
            Ok(_) => Ok(()),
            Err(refusal) => Err(*refusal),
        }
    }

    /// The plan of an accepted figure.
    pub fn plan(&self) -> Option<&Plan> {
        let figure = self.figure.as_ref().ok();
        figure.map(|figure| &figure.plan)
    }

    pub fn player(&self) -> &Player {
        &self.player
    }

    /// Takes another player's place, whatever it holds.
    pub fn store(&mut self, player: &Player) {
        self.player = player.clone();
    }

    pub fn update(&mut self, delta: f64) {
        self.player.clock += delta * self.player.speed;
    }

    pub fn speed(&mut self, speed: f64) {
        self.player.speed = speed;
    }

    pub fn set(&mut self, parameter: usize, value: f32) -> Result<(), Refusal> {
        if parameter >= PARAMETERS {
            return refused(8);
        }
        self.player.parameters[parameter] = value;
        Ok(())
    }

    /// Each joint's matrix, for an output of so many floats.
    pub fn frame(&mut self, ext: f64, length: usize) -> Result<Vec<Matrix>, Refusal> {
        let own = self.own_matrices(ext, length)?;
        Ok(self.joined(&own))
    }

    /// The same from own matrices that are transposed first.
    pub fn page_frame(&mut self, ext: f64, length: usize) -> Result<Vec<Matrix>, Refusal> {
        let own = self.own_matrices(ext, length)?;
        let own: Vec<Matrix> = own.iter().map(skeleton::page_matrix).collect();
        Ok(self.joined(&own))
    }

    fn joined(&self, own: &[Matrix]) -> Vec<Matrix> {
        let plan = self.plan().expect("a frame was accepted");
        skeleton::matrices(&plan.parents, own)
    }

    /// A frame up to the joints' own matrices: the player moves.
    pub fn own_matrices(&mut self, ext: f64, length: usize) -> Result<Vec<Matrix>, Refusal> {
        let figure = playable(&self.figure, &self.player)?;
        let player = &mut self.player;
        if length < 16 * figure.joints() {
            return refused(10);
        }
        let now = player.clock + ext;
        controller::step(figure, player, now);
        let poses = controller::poses(figure, player, ext);
        Ok(poses.iter().map(|pose| pose.matrix()).collect())
    }
}

/// The figure, where the player is in states of it.
fn playable<'a>(
    figure: &'a Result<Checked, Refusal>,
    player: &Player,
) -> Result<&'a Checked, Refusal> {
    let figure = figure.as_ref().map_err(|refusal| *refusal)?;
    let is_absent = |state: usize| state >= figure.plan.states.len();
    let target = player.transition.map(|running| running.target);
    if is_absent(player.state) || target.is_some_and(is_absent) {
        return refused(9);
    }
    Ok(figure)
}

fn refused<T>(number: u8) -> Result<T, Refusal> {
    Err(Refusal { number, place: 0 })
}

#[cfg(test)]
mod joint_tests;
#[cfg(test)]
mod loops_tests;
#[cfg(test)]
mod page_tests;
#[cfg(test)]
mod pause_tests;
#[cfg(test)]
mod tests;
#[cfg(test)]
mod uses_tests;
