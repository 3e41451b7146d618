//! The archive's C interface, as `bindings/c/gentianlathe.h` has it.

/// How many parameters a player has.
pub const PARAMETERS: usize = 32;
/// How many floats its clip instances have: start, rate and offset of 64.
pub const INSTANCE_FLOATS: usize = 3 * 64;
/// The most states of a figure.
pub const MAX_STATES: usize = 16;
/// The most clips of a figure.
pub const MAX_CLIPS: usize = 16;

/// The player as the archive lays it out. Every content is taken: there are only floats and counts.
///
/// The arrays' lengths are plain numbers, since rustc 1.95 breaks off at a closure that updates a struct with
/// lengths by name.
#[repr(C)]
#[derive(Clone, Copy, Debug)]
pub struct RawPlayer {
    pub clock: f64,
    pub speed: f64,
    pub state: usize,
    /// 0 where idle; any other value is a transition, and `start`, `target` and `duration` count.
    pub running: usize,
    pub start: f64,
    pub target: usize,
    pub duration: f32,
    pub parameters: [f32; 32],
    pub instances: [f32; 192],
}

// A target with another pointer size stops here, at compile time.
const _: () = assert!(std::mem::size_of::<RawPlayer>() == 952);
const _: () = assert!(std::mem::align_of::<RawPlayer>() == 8);

impl RawPlayer {
    /// What a player holds before a call fills it.
    pub const EMPTY: RawPlayer = RawPlayer {
        clock: 0.0,
        speed: 0.0,
        state: 0,
        running: 0,
        start: 0.0,
        target: 0,
        duration: 0.0,
        parameters: [0.0; PARAMETERS],
        instances: [0.0; INSTANCE_FLOATS],
    };
}

/// Number 0 is the acceptance.
#[repr(C)]
#[derive(Clone, Copy, Debug, PartialEq, Eq)]
pub struct RawAnswer {
    pub number: usize,
    pub place: usize,
}

/// A reading's answer, and how many words and numbers it wrote.
#[repr(C)]
#[derive(Clone, Copy, Debug, PartialEq, Eq)]
pub struct RawTextAnswer {
    pub number: usize,
    pub place: usize,
    pub words: usize,
    pub numbers: usize,
}

/// What a figure can ever use: a byte, 0 or 1, for each state, parameter and clip that there can be. Where refused, and
/// behind those that the figure has, all are 0.
#[repr(C)]
#[derive(Clone, Copy, Debug, PartialEq, Eq)]
pub struct RawUses {
    pub number: usize,
    pub place: usize,
    pub states: [u8; MAX_STATES],
    pub parameters: [u8; PARAMETERS],
    pub clips: [u8; MAX_CLIPS],
}

// The archive writes so many bytes where the caller has room for the answer.
const _: () = assert!(std::mem::size_of::<RawUses>() == 80);
const _: () = assert!(std::mem::align_of::<RawUses>() == 8);

/// How many whole loops a clip has played, and how many samples of the next. Where refused, both are 0.
#[repr(C)]
#[derive(Clone, Copy, Debug, PartialEq, Eq)]
pub struct RawLoops {
    pub number: usize,
    pub place: usize,
    pub loops: usize,
    pub rest: usize,
}

const _: () = assert!(std::mem::size_of::<RawLoops>() == 32);

// Pointers are valid for the lengths beside them, not null, aligned, and none overlaps another.
extern "C" {
    pub fn gentianlathe_start(
        plan: *const u16,
        plan_length: usize,
        numbers: *const f32,
        numbers_length: usize,
        player: *mut RawPlayer,
    ) -> RawAnswer;

    pub fn gentianlathe_update(player: *mut RawPlayer, delta: f64);

    pub fn gentianlathe_speed(player: *mut RawPlayer, speed: f64);

    pub fn gentianlathe_set(player: *mut RawPlayer, parameter: usize, value: f32) -> RawAnswer;

    pub fn gentianlathe_frame(
        plan: *const u16,
        plan_length: usize,
        numbers: *const f32,
        numbers_length: usize,
        player: *mut RawPlayer,
        ext: f64,
        output: *mut f32,
        output_length: usize,
    ) -> RawAnswer;

    pub fn gentianlathe_page_frame(
        plan: *const u16,
        plan_length: usize,
        numbers: *const f32,
        numbers_length: usize,
        player: *mut RawPlayer,
        ext: f64,
        output: *mut f32,
        output_length: usize,
    ) -> RawAnswer;

    pub fn gentianlathe_uses(
        plan: *const u16,
        plan_length: usize,
        numbers: *const f32,
        numbers_length: usize,
    ) -> RawUses;

    pub fn gentianlathe_loops(
        plan: *const u16,
        plan_length: usize,
        numbers: *const f32,
        numbers_length: usize,
        player: *const RawPlayer,
        state: usize,
        node: usize,
        time: f32,
    ) -> RawLoops;

    pub fn gentianlathe_read_text(
        text: *const u8,
        text_length: usize,
        plan: *mut u16,
        plan_length: usize,
        numbers: *mut f32,
        numbers_length: usize,
    ) -> RawTextAnswer;

    pub fn gentianlathe_player_size() -> usize;

    pub fn gentianlathe_output_length(plan: *const u16, plan_length: usize) -> usize;

    pub fn gentianlathe_most_words() -> usize;

    pub fn gentianlathe_most_numbers(text_length: usize) -> usize;
}
