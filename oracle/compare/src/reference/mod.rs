//! The reference player. Figures of at most 64 joints whose clips all loop and all have samples are
//! played by the Rust's controller, and by the oracle's own model beside it: the two must agree on
//! every answer, matrix and player. A figure of more joints or with another clip, one that stops or is
//! empty, is played by the model alone, since the Rust has no such figures.

pub mod controller;
mod page;
mod rust;

use crate::judge::matrix_bits;
use crate::lists::report::{ending, player_line};
use crate::model::loops::Played;
use crate::model::Model;
use crate::player::{Player, Seen};
use crate::texts::figure::{Figure, Refusal};
use crate::texts::plan::Plan;
use rust::RustPlayer;
use skeletal_animation::math::Matrix4;

pub struct Reference {
    figure: Figure,
    model: Model,
    /// Only where it has such figures.
    rust: Option<RustPlayer>,
}

type Shown = Result<Vec<Matrix4<f32>>, Refusal>;

impl Reference {
    /// A player of the figure, fresh where the figure is accepted and else blank.
    pub fn start(figure: &Figure) -> Reference {
        let model = Model::start(figure);
        let is_rusts = model.plan().is_none_or(Plan::is_rusts);
        let reference = Reference {
            figure: figure.clone(),
            rust: is_rusts.then(|| RustPlayer::start(figure)),
            model,
        };
        if let Some(rust) = &reference.rust {
            reference.agree("a start", &reference.model.answer(), &rust.answer());
        }
        reference.players_agree("a start");
        reference
    }

    /// A player of the figure that holds what `player` holds.
    pub fn resumed(figure: &Figure, player: &Player) -> Reference {
        let mut reference = Reference::start(figure);
        reference.store(player);
        reference
    }

    /// Whether the Rust plays the figure.
    pub fn is_rust(&self) -> bool {
        self.rust.is_some()
    }

    /// The start's answer.
    pub fn answer(&self) -> Result<(), Refusal> {
        self.model.answer()
    }

    pub fn update(&mut self, delta: f64) {
        self.model.update(delta);
        if let Some(rust) = &mut self.rust {
            rust.update(delta);
        }
        self.players_agree("an update");
    }

    pub fn speed(&mut self, speed: f64) {
        self.model.speed(speed);
        if let Some(rust) = &mut self.rust {
            rust.speed(speed);
        }
        self.players_agree("a speed");
    }

    pub fn set(&mut self, parameter: usize, value: f32) -> Result<(), Refusal> {
        let answer = self.model.set(parameter, value);
        if let Some(rust) = &mut self.rust {
            let other = rust.set(parameter, value);
            self.agree("a set", &answer, &other);
        }
        self.players_agree("a set");
        answer
    }

    /// Each joint's matrix, for an output of so many floats.
    pub fn frame(&mut self, ext: f64, length: usize) -> Shown {
        let shown = self.model.frame(ext, length);
        let other = self.rust.as_mut().map(|rust| rust.frame(ext, length));
        self.judged("a frame", shown, other)
    }

    pub fn page_frame(&mut self, ext: f64, length: usize) -> Shown {
        let shown = self.model.page_frame(ext, length);
        let other = self.rust.as_mut().map(|rust| rust.page_frame(ext, length));
        self.judged("a page frame", shown, other)
    }

    /// What a state's clip node has played at a time. Nothing moves.
    pub fn loops(&self, state: usize, node: usize, time: f32) -> Result<Played, Refusal> {
        let answer = self.model.loops(state, node, time);
        if let Some(rust) = &self.rust {
            let other = rust.loops(state, node, time);
            self.agree("a question for loops", &answer, &other);
        }
        answer
    }

    /// What the Rust shows where it plays, and else the model.
    fn judged(&self, call: &str, model: Shown, rust: Option<Shown>) -> Shown {
        self.players_agree(call);
        let Some(rust) = rust else { return model };
        self.agree(call, &shown_bits(&model), &shown_bits(&rust));
        rust
    }

    pub fn is_running(&self) -> bool {
        self.model.player().transition.is_some()
    }

    /// The player after the last call.
    pub fn player(&self) -> Player {
        self.model.player().clone()
    }

    /// Puts another player in its place, whatever it holds.
    pub fn store(&mut self, player: &Player) {
        self.model.store(player);
        if let Some(rust) = &mut self.rust {
            rust.store(player);
        }
        self.players_agree("a store");
    }

    fn players_agree(&self, call: &str) {
        let Some(rust) = &self.rust else { return };
        let [model, rust] = [self.model.player(), &rust.player()].map(Player::seen);
        if model != rust {
            self.agree(call, &player_text(&model), &player_text(&rust));
        }
    }

    /// Where these two differ the oracle itself is wrong, and it says so at once: a report about the
    /// library would mislead.
    fn agree<T: PartialEq + std::fmt::Debug>(&self, call: &str, model: &T, rust: &T) {
        let Figure { plan, numbers } = &self.figure;
        assert!(
            model == rust,
            "the oracle's own model is not the Rust's after {call}\nmodel {model:x?}\nRust  {rust:x?}\n\
             plan {plan:?}\nnumbers {numbers:x?}"
        );
    }
}

fn player_text(player: &Seen) -> String {
    player_line(player) + &ending(player)
}

fn shown_bits(shown: &Shown) -> Result<Vec<Vec<u32>>, Refusal> {
    let matrices = shown.as_ref().map_err(|refusal| *refusal)?;
    Ok(matrices.iter().map(|&matrix| matrix_bits(matrix)).collect())
}

#[cfg(test)]
mod tests;
