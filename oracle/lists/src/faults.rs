//! The library with a fault put in on the way.

use crate::endings::with_endings;
use crate::evaluator::{
    Answer, Evaluator, HostLoops, HostPlayer, HostUses, Question, Shown, TextAnswer,
};
pub use crate::fault::Fault;
use crate::frame::{checked, Frame};

pub struct Faulty<'a> {
    pub library: &'a dyn Evaluator,
    pub fault: Fault,
}

impl Faulty<'_> {
    fn has(&self, fault: Fault) -> bool {
        self.fault == fault
    }

    /// What the fault does to an accepted frame's player.
    fn spoil_player(&self, before: &HostPlayer, player: &mut HostPlayer) {
        let begins = before.running == 0 && player.running != 0;
        match self.fault {
            Fault::StateKept => player.state = before.state,
            Fault::TransitionKept if before.running != 0 => {
                let state = player.state;
                let instances = player.instances;
                *player = *before;
                (player.state, player.instances) = (state, instances);
            }
            Fault::StartWithoutExt if begins => player.start = player.clock,
            Fault::DurationRounded if begins => player.duration = player.duration.round(),
            Fault::InstancesKept => player.instances = before.instances,
            _ => {}
        }
    }

    /// What the fault does to an accepted frame's poses and playback rates.
    fn spoil_poses(&self, frame: Frame, player: &mut HostPlayer, output: &mut [f32]) {
        let Some(figure) = checked(frame.plan, frame.numbers) else {
            return;
        };
        let held = self.held_poses(frame, &figure, player);
        if let Some(poses) = held.or_else(|| self.paused_poses(frame, &figure, player)) {
            frame.write(&figure, &poses, output);
        }
        self.spoil_shown_rates(frame, &figure, player);
    }

    /// What the fault does to a frame's answer.
    fn spoil_answer(&self, answer: &mut Answer, ext: f64) {
        match self.fault {
            Fault::FrameRefused if ext.is_nan() => answer.number = 10,
            Fault::FramePlace if answer.number == 3 => answer.place += 1,
            Fault::FrameEnding if answer.number == 14 => answer.number = 2,
            Fault::NineForTen if answer.number == 9 => answer.number = 10,
            _ => {}
        }
    }

    /// What the fault does to an accepted frame's output.
    fn spoil_output(&self, joints: usize, before: &[f32], output: &mut [f32]) {
        let last = 16 * joints - 1;
        match self.fault {
            Fault::MatrixBit => output[last - 4] = flipped(output[last - 4]),
            Fault::ZeroSign => {
                if let Some(zero) = output[..last].iter_mut().find(|x| **x == 0.0) {
                    *zero = -*zero;
                }
            }
            Fault::LastFloatMissing => output[last] = before[last],
            Fault::FloatTooMany if output.len() > last + 1 => output[last + 1] = 0.0,
            _ => {}
        }
    }
}

/// A NaN stays one.
fn flipped(x: f32) -> f32 {
    f32::from_bits(x.to_bits() ^ 1)
}

impl Evaluator for Faulty<'_> {
    fn start(&self, plan: &[u16], numbers: &[f32], player: &mut HostPlayer) -> Answer {
        let before = *player;
        let handed_on = self.plan_handed_on(plan);
        let mut answer = self.library.start(&handed_on, numbers, player);
        self.spoil_refusal(plan, &mut answer);
        self.spoil_acceptance(plan, &mut answer);
        if let Some(figure) = checked(plan, numbers) {
            self.spoil_fresh_rates(&figure, player);
        }
        if !answer.is_accepted() && self.has(Fault::StartPlace) {
            answer.place += usize::from(answer.number == 4);
        }
        if !answer.is_accepted() && self.has(Fault::StartNotBlank) {
            *player = before;
        }
        if self.has(Fault::StartForgetsRates) {
            for instance in &mut player.instances {
                instance[1] = 1.0;
            }
        }
        answer
    }

    fn update(&self, player: &mut HostPlayer, delta: f64) {
        let clock = player.clock;
        self.library.update(player, delta);
        if self.has(Fault::ClockWithoutSpeed) {
            player.clock = clock + delta;
        }
    }

    fn speed(&self, player: &mut HostPlayer, speed: f64) {
        if !self.has(Fault::SpeedLost) {
            self.library.speed(player, speed);
        }
    }

    fn set(&self, player: &mut HostPlayer, parameter: usize, value: f32) -> Answer {
        let before = *player;
        match self.fault {
            Fault::NeighbourSet => self.library.set(player, parameter ^ 1, value),
            Fault::SetAcceptsTooMuch => self.library.set(player, parameter.min(31), value),
            Fault::SetKeepsOldValue => {
                let answer = self.library.set(player, parameter, value);
                player.parameters = before.parameters;
                answer
            }
            _ => self.library.set(player, parameter, value),
        }
    }

    fn frame(
        &self,
        shown: Shown,
        plan: &[u16],
        numbers: &[f32],
        player: &mut HostPlayer,
        ext: f64,
        output: &mut [f32],
    ) -> Answer {
        let (before, old) = (*player, output.to_vec());
        let handed_on = self.plan_handed_on(plan);
        let frame = |plan| Frame {
            shown,
            plan,
            numbers,
            ext,
        };
        let mut answer = self.library_frame(frame(&handed_on), player, output);
        self.spoil_refusal(plan, &mut answer);
        if answer.is_accepted() {
            self.spoil_poses(frame(plan), player, output);
            self.spoil_page(frame(plan), &before, output);
            self.spoil_player(&before, player);
            self.spoil_output(usize::from(plan[0]), &old, output);
            self.spoil_joints(usize::from(plan[0]), &old, output);
        }
        self.spoil_answer(&mut answer, ext);
        match self.fault {
            Fault::RefusedFrameWrites if answer.number == 10 => output.fill(0.0),
            Fault::RefusedFrameMoves if !answer.is_accepted() => player.clock += ext,
            _ => {}
        }
        answer
    }

    fn read_text(&self, text: &[u8], plan: &mut [u16], numbers: &mut [f32]) -> TextAnswer {
        let text = self.text_handed_on(text);
        let mut answer = self.library.read_text(&text, plan, numbers);
        match self.fault {
            Fault::TextPlace if answer.number == 11 => answer.place += 1,
            Fault::TextRefusedWrites if answer.number == 12 => plan.fill(0),
            Fault::TextCount if answer.number == 0 => answer.numbers = numbers.len(),
            Fault::TextPauseRefused if answer.number == 0 => {
                self.spoil_reading(&plan[..answer.words], &mut answer);
            }
            Fault::TextOldLimit if answer.number == 0 => {
                self.spoil_limit(plan, &mut answer);
            }
            Fault::TextEndingLost if answer.number == 0 => {
                plan.copy_from_slice(&with_endings(plan, |_, _| 0));
            }
            _ => {}
        }
        answer
    }

    fn uses(&self, plan: &[u16], numbers: &[f32]) -> HostUses {
        let mut uses = self.library.uses(plan, numbers);
        self.spoil_uses(plan, numbers, &mut uses);
        uses
    }

    fn loops(
        &self,
        plan: &[u16],
        numbers: &[f32],
        player: &mut HostPlayer,
        question: Question,
    ) -> HostLoops {
        self.spoilt_loops((plan, numbers), player, question)
    }

    fn player_size(&self) -> usize {
        self.library.player_size()
    }

    fn output_length(&self, plan: &[u16]) -> usize {
        self.library.output_length(plan)
    }

    fn most_words(&self) -> usize {
        self.library.most_words()
    }

    fn most_numbers(&self, text_length: usize) -> usize {
        self.library.most_numbers(text_length)
    }
}
