//! The archive's calls on slices and references. All unsafe code of the crate is in this file.
//!
//! Why it is sound: a slice's pointer is never null, is aligned also where the slice is empty, and is valid for
//! the slice's length; borrowing keeps what is written apart from everything else that a call is lent; and
//! the archive is proved to answer on every content. What is left, the player's layout, is checked here
//! before a player exists.

use crate::refusal::Refusal;
use crate::sys::{self, RawAnswer, RawLoops, RawPlayer, RawUses};
use std::mem::size_of;
use std::sync::Once;

/// A figure's two slices.
#[derive(Clone, Copy)]
pub struct Slices<'a> {
    pub plan: &'a [u16],
    pub numbers: &'a [f32],
}

/// The two kinds of frame.
#[derive(Clone, Copy)]
pub enum FrameKind {
    Plain,
    Page,
}

fn result(answer: RawAnswer) -> Result<(), Refusal> {
    match Refusal::from_answer(answer.number, answer.place) {
        None => Ok(()),
        Some(refusal) => Err(refusal),
    }
}

/// Bytes of the archive's player.
pub fn player_size() -> usize {
    // SAFETY: it takes nothing.
    unsafe { sys::gentianlathe_player_size() }
}

/// Makes sure that the linked archive has the player that this crate was written for; an archive of another
/// version would write past ours. Every way to a player comes through here.
///
/// # Panics
///
/// Where it has not: then the crate was linked with a foreign archive, and no call can be made.
pub fn hold_layout() {
    static HELD: Once = Once::new();
    HELD.call_once(|| {
        let (theirs, ours) = (player_size(), size_of::<RawPlayer>());
        assert!(
            theirs == ours,
            "gentianlathe: the archive's player has {theirs} bytes and this crate's {ours}: \
             take both from one version"
        );
    });
}

/// The start's answer, and the player that it stored: fresh, or blank where refused.
pub fn start(figure: Slices) -> (Result<(), Refusal>, RawPlayer) {
    hold_layout();
    let mut player = RawPlayer::EMPTY;
    let Slices { plan, numbers } = figure;
    // SAFETY: two slices, and a player of the archive's size that is ours alone.
    let answer = unsafe {
        sys::gentianlathe_start(
            plan.as_ptr(),
            plan.len(),
            numbers.as_ptr(),
            numbers.len(),
            &mut player,
        )
    };
    (result(answer), player)
}

pub fn update(player: &mut RawPlayer, delta: f64) {
    // SAFETY: a player that is lent to us alone.
    unsafe { sys::gentianlathe_update(player, delta) }
}

pub fn speed(player: &mut RawPlayer, speed: f64) {
    // SAFETY: a player that is lent to us alone.
    unsafe { sys::gentianlathe_speed(player, speed) }
}

pub fn set(player: &mut RawPlayer, parameter: usize, value: f32) -> Result<(), Refusal> {
    // SAFETY: a player that is lent to us alone.
    result(unsafe { sys::gentianlathe_set(player, parameter, value) })
}

pub fn frame(
    kind: FrameKind,
    figure: Slices,
    player: &mut RawPlayer,
    ext: f64,
    output: &mut [f32],
) -> Result<(), Refusal> {
    let call = match kind {
        FrameKind::Plain => sys::gentianlathe_frame,
        FrameKind::Page => sys::gentianlathe_page_frame,
    };
    let Slices { plan, numbers } = figure;
    // SAFETY: two slices to read; a player and a slice to write, which are lent to us alone.
    result(unsafe {
        call(
            plan.as_ptr(),
            plan.len(),
            numbers.as_ptr(),
            numbers.len(),
            player,
            ext,
            output.as_mut_ptr(),
            output.len(),
        )
    })
}

/// The answer about what the figure can use, and its marks: all 0 where refused.
pub fn uses(figure: Slices) -> (Result<(), Refusal>, RawUses) {
    let Slices { plan, numbers } = figure;
    // SAFETY: two slices to read; the answer comes by value.
    let uses = unsafe {
        sys::gentianlathe_uses(plan.as_ptr(), plan.len(), numbers.as_ptr(), numbers.len())
    };
    let answer = RawAnswer {
        number: uses.number,
        place: uses.place,
    };
    (result(answer), uses)
}

/// The answer about the loops that a clip node's clip has played, and their count: 0 and 0 where refused.
pub fn loops(
    figure: Slices,
    player: &RawPlayer,
    state: usize,
    node: usize,
    time: f32,
) -> (Result<(), Refusal>, RawLoops) {
    let Slices { plan, numbers } = figure;
    // SAFETY: two slices and a player to read; the answer comes by value.
    let loops = unsafe {
        sys::gentianlathe_loops(
            plan.as_ptr(),
            plan.len(),
            numbers.as_ptr(),
            numbers.len(),
            player,
            state,
            node,
            time,
        )
    };
    let answer = RawAnswer {
        number: loops.number,
        place: loops.place,
    };
    (result(answer), loops)
}

/// How many words and numbers were written in front of the two slices.
pub fn read_text(
    text: &[u8],
    plan: &mut [u16],
    numbers: &mut [f32],
) -> Result<(usize, usize), Refusal> {
    // SAFETY: a slice to read and two to write, which are lent to us alone.
    let answer = unsafe {
        sys::gentianlathe_read_text(
            text.as_ptr(),
            text.len(),
            plan.as_mut_ptr(),
            plan.len(),
            numbers.as_mut_ptr(),
            numbers.len(),
        )
    };
    result(RawAnswer {
        number: answer.number,
        place: answer.place,
    })?;
    Ok((answer.words, answer.numbers))
}

pub fn output_length(plan: &[u16]) -> usize {
    // SAFETY: a slice to read.
    unsafe { sys::gentianlathe_output_length(plan.as_ptr(), plan.len()) }
}

pub fn most_words() -> usize {
    // SAFETY: it takes nothing.
    unsafe { sys::gentianlathe_most_words() }
}

pub fn most_numbers(text_length: usize) -> usize {
    // SAFETY: it takes a count.
    unsafe { sys::gentianlathe_most_numbers(text_length) }
}
