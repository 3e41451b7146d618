//! The static library's functions, declared here once more from its description.

use crate::evaluator::{
    Answer, Evaluator, HostLoops, HostPlayer, HostUses, Question, Shown, TextAnswer,
};

extern "C" {
    fn gentianlathe_start(
        plan: *const u16,
        plan_length: usize,
        numbers: *const f32,
        numbers_length: usize,
        player: *mut HostPlayer,
    ) -> Answer;
    fn gentianlathe_update(player: *mut HostPlayer, delta: f64);
    fn gentianlathe_speed(player: *mut HostPlayer, speed: f64);
    fn gentianlathe_set(player: *mut HostPlayer, parameter: usize, value: f32) -> Answer;
    fn gentianlathe_frame(
        plan: *const u16,
        plan_length: usize,
        numbers: *const f32,
        numbers_length: usize,
        player: *mut HostPlayer,
        ext: f64,
        output: *mut f32,
        output_length: usize,
    ) -> Answer;
    fn gentianlathe_page_frame(
        plan: *const u16,
        plan_length: usize,
        numbers: *const f32,
        numbers_length: usize,
        player: *mut HostPlayer,
        ext: f64,
        output: *mut f32,
        output_length: usize,
    ) -> Answer;
    fn gentianlathe_read_text(
        text: *const u8,
        text_length: usize,
        plan: *mut u16,
        plan_length: usize,
        numbers: *mut f32,
        numbers_length: usize,
    ) -> TextAnswer;
    fn gentianlathe_uses(
        plan: *const u16,
        plan_length: usize,
        numbers: *const f32,
        numbers_length: usize,
    ) -> HostUses;
    fn gentianlathe_loops(
        plan: *const u16,
        plan_length: usize,
        numbers: *const f32,
        numbers_length: usize,
        player: *const HostPlayer,
        state: usize,
        node: usize,
        time: f32,
    ) -> HostLoops;
    fn gentianlathe_player_size() -> usize;
    fn gentianlathe_output_length(plan: *const u16, plan_length: usize) -> usize;
    fn gentianlathe_most_words() -> usize;
    fn gentianlathe_most_numbers(text_length: usize) -> usize;
}

/// The library as it was built.
pub struct Library;

// Each pointer below is a reference's, or a slice's with its own length. The library keeps none.
impl Evaluator for Library {
    fn start(&self, plan: &[u16], numbers: &[f32], player: &mut HostPlayer) -> Answer {
        let (words, floats) = (plan.len(), numbers.len());
        unsafe { gentianlathe_start(plan.as_ptr(), words, numbers.as_ptr(), floats, player) }
    }

    fn update(&self, player: &mut HostPlayer, delta: f64) {
        unsafe { gentianlathe_update(player, delta) }
    }

    fn speed(&self, player: &mut HostPlayer, speed: f64) {
        unsafe { gentianlathe_speed(player, speed) }
    }

    fn set(&self, player: &mut HostPlayer, parameter: usize, value: f32) -> Answer {
        unsafe { gentianlathe_set(player, parameter, value) }
    }

    fn frame(
        &self,
        shown: Shown,
        plan: &[u16],
        numbers: &[f32],
        player: &mut HostPlayer,
        ext: f64,
        output: &mut [f32],
    ) -> Answer {
        let function = match shown {
            Shown::Frame => gentianlathe_frame,
            Shown::Page => gentianlathe_page_frame,
        };
        unsafe {
            function(
                plan.as_ptr(),
                plan.len(),
                numbers.as_ptr(),
                numbers.len(),
                player,
                ext,
                output.as_mut_ptr(),
                output.len(),
            )
        }
    }

    fn read_text(&self, text: &[u8], plan: &mut [u16], numbers: &mut [f32]) -> TextAnswer {
        unsafe {
            gentianlathe_read_text(
                text.as_ptr(),
                text.len(),
                plan.as_mut_ptr(),
                plan.len(),
                numbers.as_mut_ptr(),
                numbers.len(),
            )
        }
    }

    fn uses(&self, plan: &[u16], numbers: &[f32]) -> HostUses {
        let (words, floats) = (plan.len(), numbers.len());
        unsafe { gentianlathe_uses(plan.as_ptr(), words, numbers.as_ptr(), floats) }
    }

    fn loops(
        &self,
        plan: &[u16],
        numbers: &[f32],
        player: &mut HostPlayer,
        question: Question,
    ) -> HostLoops {
        let Question { state, node, time } = question;
        let player: *mut HostPlayer = player;
        unsafe {
            gentianlathe_loops(
                plan.as_ptr(),
                plan.len(),
                numbers.as_ptr(),
                numbers.len(),
                player,
                state,
                node,
                time,
            )
        }
    }

    fn player_size(&self) -> usize {
        unsafe { gentianlathe_player_size() }
    }

    fn output_length(&self, plan: &[u16]) -> usize {
        unsafe { gentianlathe_output_length(plan.as_ptr(), plan.len()) }
    }

    fn most_words(&self) -> usize {
        unsafe { gentianlathe_most_words() }
    }

    fn most_numbers(&self, text_length: usize) -> usize {
        unsafe { gentianlathe_most_numbers(text_length) }
    }
}
