//! What is compared: the calls of the static library, and the player as a host holds it.

use compare::model::loops::Played;
use compare::model::uses::Uses;
use compare::player::{Player, Running, INSTANCES, PARAMETERS};
use compare::texts::figure::Refusal;
use std::fmt;

/// A player in a host's memory. Where `running` is 0, the next three fields mean nothing.
#[repr(C)]
#[derive(Clone, Copy, Debug)]
pub struct HostPlayer {
    pub clock: f64,
    pub speed: f64,
    pub state: usize,
    pub running: usize,
    pub start: f64,
    pub target: usize,
    pub duration: f32,
    pub parameters: [f32; PARAMETERS],
    pub instances: [[f32; 3]; INSTANCES],
}

/// 0 as number is the acceptance.
#[repr(C)]
#[derive(Clone, Copy, PartialEq, Eq)]
pub struct Answer {
    pub number: usize,
    pub place: usize,
}

#[repr(C)]
#[derive(Clone, Copy, PartialEq, Eq)]
pub struct TextAnswer {
    pub number: usize,
    pub place: usize,
    pub words: usize,
    pub numbers: usize,
}

/// The most states, and the most clips, that a figure has.
pub const MOST: usize = 16;

/// Which states are reachable, which parameters are read and which clips played: 1, else 0. Behind the
/// figure's own there are 0s.
#[repr(C)]
#[derive(Clone, Copy, PartialEq, Eq)]
pub struct HostUses {
    pub number: usize,
    pub place: usize,
    pub states: [u8; MOST],
    pub parameters: [u8; PARAMETERS],
    pub clips: [u8; MOST],
}

/// What a clip has played. Refused, both are 0.
#[repr(C)]
#[derive(Clone, Copy, PartialEq, Eq)]
pub struct HostLoops {
    pub number: usize,
    pub place: usize,
    pub loops: usize,
    pub rest: usize,
}

/// What is asked for: a state, a node of it, and a time.
#[derive(Clone, Copy, Debug)]
pub struct Question {
    pub state: usize,
    pub node: usize,
    pub time: f32,
}

/// A frame or a page frame.
#[derive(Clone, Copy, Debug, PartialEq, Eq)]
pub enum Shown {
    Frame,
    Page,
}

/// The library, or in a self-test one with a fault.
pub trait Evaluator {
    fn start(&self, plan: &[u16], numbers: &[f32], player: &mut HostPlayer) -> Answer;
    fn update(&self, player: &mut HostPlayer, delta: f64);
    fn speed(&self, player: &mut HostPlayer, speed: f64);
    fn set(&self, player: &mut HostPlayer, parameter: usize, value: f32) -> Answer;
    fn frame(
        &self,
        shown: Shown,
        plan: &[u16],
        numbers: &[f32],
        player: &mut HostPlayer,
        ext: f64,
        output: &mut [f32],
    ) -> Answer;
    fn read_text(&self, text: &[u8], plan: &mut [u16], numbers: &mut [f32]) -> TextAnswer;
    fn uses(&self, plan: &[u16], numbers: &[f32]) -> HostUses;
    /// Only reads the player. It is lent to be written all the same, or else the compiler might take it
    /// for granted that nothing is.
    fn loops(
        &self,
        plan: &[u16],
        numbers: &[f32],
        player: &mut HostPlayer,
        question: Question,
    ) -> HostLoops;
    fn player_size(&self) -> usize;
    fn output_length(&self, plan: &[u16]) -> usize;
    fn most_words(&self) -> usize;
    fn most_numbers(&self, text_length: usize) -> usize;
}

impl Answer {
    pub fn of(answer: Result<(), Refusal>) -> Answer {
        match answer {
            Ok(()) => Answer {
                number: 0,
                place: 0,
            },
            Err(Refusal { number, place }) => Answer {
                number: usize::from(number),
                place,
            },
        }
    }

    pub fn is_accepted(self) -> bool {
        self.number == 0
    }
}

impl fmt::Debug for Answer {
    fn fmt(&self, f: &mut fmt::Formatter) -> fmt::Result {
        match *self {
            Answer {
                number: 0,
                place: 0,
            } => write!(f, "ok"),
            Answer { number, place } => write!(f, "refused,{number},{place}"),
        }
    }
}

impl fmt::Debug for TextAnswer {
    fn fmt(&self, f: &mut fmt::Formatter) -> fmt::Result {
        let (words, numbers) = (self.words, self.numbers);
        let (number, place) = (self.number, self.place);
        write!(
            f,
            "{:?} with {words} words and {numbers} numbers",
            Answer { number, place }
        )
    }
}

impl HostUses {
    pub fn of(uses: Result<Uses, Refusal>) -> HostUses {
        let Answer { number, place } = Answer::of(uses.as_ref().map(|_| ()).map_err(|r| *r));
        let mut answer = HostUses {
            number,
            place,
            states: [0; MOST],
            parameters: [0; PARAMETERS],
            clips: [0; MOST],
        };
        if let Ok(uses) = uses {
            put_marks(&mut answer.states, &uses.states);
            put_marks(&mut answer.parameters, &uses.parameters);
            put_marks(&mut answer.clips, &uses.clips);
        }
        answer
    }
}

/// At the front.
pub fn put_marks(bytes: &mut [u8], marks: &[bool]) {
    for (byte, mark) in bytes.iter_mut().zip(marks) {
        *byte = u8::from(*mark);
    }
}

impl fmt::Debug for HostUses {
    fn fmt(&self, f: &mut fmt::Formatter) -> fmt::Result {
        let (number, place) = (self.number, self.place);
        let digits = |marks: &[u8]| -> String {
            let digit = |mark: &u8| match mark {
                0..=9 => mark.to_string(),
                _ => format!("({mark})"),
            };
            marks.iter().map(digit).collect()
        };
        write!(
            f,
            "{:?} states {} parameters {} clips {}",
            Answer { number, place },
            digits(&self.states),
            digits(&self.parameters),
            digits(&self.clips)
        )
    }
}

impl HostLoops {
    pub fn of(played: Result<Played, Refusal>) -> HostLoops {
        let Answer { number, place } = Answer::of(played.map(|_| ()));
        let Played { loops, rest } = played.unwrap_or(Played { loops: 0, rest: 0 });
        HostLoops {
            number,
            place,
            loops,
            rest,
        }
    }

    pub fn answer(self) -> Answer {
        let HostLoops { number, place, .. } = self;
        Answer { number, place }
    }
}

impl fmt::Debug for HostLoops {
    fn fmt(&self, f: &mut fmt::Formatter) -> fmt::Result {
        let HostLoops { loops, rest, .. } = self;
        write!(f, "{:?} with {loops} loops and rest {rest}", self.answer())
    }
}

impl HostPlayer {
    /// No player that a call leaves: a start has to overwrite all of it.
    pub const UNUSED: HostPlayer = HostPlayer {
        clock: -7.0,
        speed: -7.0,
        state: 77,
        running: 7,
        start: -7.0,
        target: 77,
        duration: -7.0,
        parameters: [-7.0; PARAMETERS],
        instances: [[-7.0; 3]; INSTANCES],
    };

    /// What it means.
    pub fn player(&self) -> Player {
        let running = Running {
            start: self.start,
            target: self.target,
            duration: self.duration,
        };
        Player {
            clock: self.clock,
            speed: self.speed,
            state: self.state,
            transition: (self.running != 0).then_some(running),
            parameters: self.parameters,
            instances: self.instances,
        }
    }

    /// All of its bits, payloads of NaNs and fields without meaning too.
    pub fn bits(&self) -> Vec<u64> {
        let doubles = [self.clock, self.speed, self.start].map(f64::to_bits);
        let numbers = [self.state, self.running, self.target].map(|number| number as u64);
        let instances = self.instances.iter().flatten();
        let floats = self.parameters.iter().chain(instances);
        let floats = floats.chain([&self.duration]);
        let floats = floats.map(|float| u64::from(float.to_bits()));
        doubles.into_iter().chain(numbers).chain(floats).collect()
    }

    /// Whether it is as calls write it: 0 or 1 for `running`, and zeros behind a 0.
    pub fn is_tidy(&self) -> bool {
        let unused = (self.start.to_bits(), self.target, self.duration.to_bits());
        self.running == 1 || (self.running == 0 && unused == (0, 0, 0))
    }
}

#[cfg(test)]
mod tests {
    use super::*;

    /// Each of these is another player than the one before.
    #[test]
    fn every_field_has_its_bits() {
        let changes: [fn(&mut HostPlayer); 10] = [
            |player| player.clock = f64::NAN,
            |player| player.clock = -f64::NAN,
            |player| player.speed = 1.0,
            |player| player.state = 1,
            |player| player.running = 0,
            |player| player.start = 1.0,
            |player| player.target = 1,
            |player| player.duration = 1.0,
            |player| player.parameters[PARAMETERS - 1] = 1.0,
            |player| player.instances[INSTANCES - 1][2] = 1.0,
        ];
        let mut player = HostPlayer::UNUSED;
        for change in changes {
            let before = player.bits();
            change(&mut player);
            assert_ne!(player.bits(), before);
        }
        assert_eq!(player.bits().len(), 7 + PARAMETERS + 3 * INSTANCES);
    }
}
