//! The archive's calls, by their C names, on buffers of their own.

use crate::draft::{Draft, VALUES};
use crate::sys::{self, RawAnswer, RawLoops, RawPlayer, RawUses};
use gentianlathe as _; // links the archive

const ACCEPTED: RawAnswer = RawAnswer {
    number: 0,
    place: 0,
};

/// A frame or a page frame.
type FrameCall = unsafe extern "C" fn(
    *const u16,
    usize,
    *const f32,
    usize,
    *mut RawPlayer,
    f64,
    *mut f32,
    usize,
) -> RawAnswer;

/// A figure with its player and output.
pub struct Archive {
    pub plan: Vec<u16>,
    numbers: Vec<f32>,
    player: RawPlayer,
    pub output: Vec<f32>,
}

impl Archive {
    pub fn new(draft: &Draft) -> Archive {
        let plan = draft.plan();
        // SAFETY: a slice.
        let length = unsafe { sys::gentianlathe_output_length(plan.as_ptr(), plan.len()) };
        let mut archive = Archive {
            plan,
            numbers: draft.numbers(),
            player: RawPlayer::EMPTY,
            output: vec![0.0; length],
        };
        archive.start();
        for (number, value) in VALUES.iter().enumerate() {
            // SAFETY: a player that is ours.
            assert_eq!(
                unsafe { sys::gentianlathe_set(&mut archive.player, number, *value) },
                ACCEPTED
            );
        }
        archive
    }

    /// Starts the player anew.
    pub fn start(&mut self) {
        let (plan, numbers) = (&self.plan, &self.numbers);
        // SAFETY: two slices and a player, all apart.
        let answer = unsafe {
            sys::gentianlathe_start(
                plan.as_ptr(),
                plan.len(),
                numbers.as_ptr(),
                numbers.len(),
                &mut self.player,
            )
        };
        assert_eq!(answer, ACCEPTED);
    }

    /// What the figure can ever use.
    pub fn uses(&self) -> RawUses {
        let (plan, numbers) = (&self.plan, &self.numbers);
        // SAFETY: two slices.
        let uses = unsafe {
            sys::gentianlathe_uses(plan.as_ptr(), plan.len(), numbers.as_ptr(), numbers.len())
        };
        assert_eq!(uses.number, 0);
        uses
    }

    /// The loops that a clip node's clip has played.
    pub fn loops(&self, state: usize, node: usize, time: f32) -> RawLoops {
        let (plan, numbers) = (&self.plan, &self.numbers);
        // SAFETY: two slices and a player to read.
        let loops = unsafe {
            sys::gentianlathe_loops(
                plan.as_ptr(),
                plan.len(),
                numbers.as_ptr(),
                numbers.len(),
                &self.player,
                state,
                node,
                time,
            )
        };
        assert_eq!(loops.number, 0);
        loops
    }

    pub fn in_transition(&self) -> bool {
        self.player.running != 0
    }

    pub fn play(&mut self, delta: f64, ext: f64) {
        self.step(sys::gentianlathe_frame, delta, ext);
    }

    /// The same by a page frame.
    pub fn play_page(&mut self, delta: f64, ext: f64) {
        self.step(sys::gentianlathe_page_frame, delta, ext);
    }

    #[inline(always)]
    fn step(&mut self, call: FrameCall, delta: f64, ext: f64) {
        // SAFETY: a player that is ours.
        unsafe { sys::gentianlathe_update(&mut self.player, delta) }
        let answer = self.frame(call, self.plan.len(), ext, self.output.len());
        assert_eq!(answer, ACCEPTED);
    }

    /// A frame that is refused for its output, after the whole check of the figure.
    pub fn check(&mut self) {
        let answer = self.frame(sys::gentianlathe_frame, self.plan.len(), 0.0, 0);
        assert_eq!(
            answer,
            RawAnswer {
                number: 10,
                place: 0
            }
        );
    }

    /// A frame that is refused at its plan's first word: what a call costs by itself.
    pub fn call(&mut self) {
        let answer = self.frame(sys::gentianlathe_frame, 0, 0.0, 0);
        assert_eq!(
            answer,
            RawAnswer {
                number: 1,
                place: 0
            }
        );
    }

    /// A frame with so many words of the plan, and so much of the output.
    #[inline(always)]
    fn frame(&mut self, call: FrameCall, words: usize, ext: f64, length: usize) -> RawAnswer {
        let (plan, output) = (&self.plan[..words], &mut self.output[..length]);
        let numbers = &self.numbers;
        // SAFETY: three slices and a player, all apart.
        unsafe {
            call(
                plan.as_ptr(),
                plan.len(),
                numbers.as_ptr(),
                numbers.len(),
                &mut self.player,
                ext,
                output.as_mut_ptr(),
                output.len(),
            )
        }
    }
}

/// A text with slices that hold what it says.
pub struct Text {
    pub text: Vec<u8>,
    plan: Vec<u16>,
    numbers: Vec<f32>,
}

impl Text {
    pub fn new(text: Vec<u8>) -> Text {
        // SAFETY: counts only.
        let (words, numbers) = unsafe {
            (
                sys::gentianlathe_most_words(),
                sys::gentianlathe_most_numbers(text.len()),
            )
        };
        Text {
            text,
            plan: vec![0; words],
            numbers: vec![0.0; numbers],
        }
    }

    /// Reads the text; how many words and numbers it has.
    pub fn read(&mut self) -> (usize, usize) {
        let Text {
            text,
            plan,
            numbers,
        } = self;
        // SAFETY: three slices, all apart.
        let answer = unsafe {
            sys::gentianlathe_read_text(
                text.as_ptr(),
                text.len(),
                plan.as_mut_ptr(),
                plan.len(),
                numbers.as_mut_ptr(),
                numbers.len(),
            )
        };
        assert_eq!(answer.number, 0);
        (answer.words, answer.numbers)
    }

    /// Whether the text reads as the plan and numbers that it was written from.
    pub fn reads_as(&mut self, draft: &Draft) -> bool {
        let (words, count) = self.read();
        self.plan[..words] == draft.plan()[..] && self.numbers[..count] == draft.numbers()[..]
    }
}
