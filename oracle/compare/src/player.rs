//! A player as document 01 has it, and what two players are compared by.

use crate::judge::{bits, double_bits};

pub const PARAMETERS: usize = 32;
pub const INSTANCES: usize = 64;

/// Start time, playback rate and offset of a clip instance.
pub type Instance = [f32; 3];

#[derive(Clone, Debug)]
pub struct Player {
    pub clock: f64,
    pub speed: f64,
    pub state: usize,
    pub transition: Option<Running>,
    pub parameters: [f32; PARAMETERS],
    pub instances: [Instance; INSTANCES],
}

/// A transition that has begun and not ended.
#[derive(Clone, Copy, Debug)]
pub struct Running {
    pub start: f64,
    pub target: usize,
    pub duration: f32,
}

pub const BLANK_INSTANCE: Instance = [0.0, 1.0, 0.0];

pub const BLANK: Player = Player {
    clock: 0.0,
    speed: 1.0,
    state: 0,
    transition: None,
    parameters: [0.0; PARAMETERS],
    instances: [BLANK_INSTANCE; INSTANCES],
};

/// What two players are compared by: all floats as bits, every NaN by one pattern.
#[derive(Clone, Debug, PartialEq, Eq)]
pub struct Seen {
    pub clock: u64,
    pub speed: u64,
    pub state: usize,
    /// Start, target, duration.
    pub transition: Option<(u64, usize, u32)>,
    pub parameters: [u32; PARAMETERS],
    pub instances: [[u32; 3]; INSTANCES],
}

impl Player {
    pub fn seen(&self) -> Seen {
        let running = |running: &Running| {
            let start = double_bits(running.start);
            (start, running.target, bits(running.duration))
        };
        Seen {
            clock: double_bits(self.clock),
            speed: double_bits(self.speed),
            state: self.state,
            transition: self.transition.as_ref().map(running),
            parameters: self.parameters.map(bits),
            instances: self.instances.map(|instance| instance.map(bits)),
        }
    }
}
