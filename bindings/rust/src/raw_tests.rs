//! The layouts, fields that mean nothing, whole answers, every mark and count: what only the raw calls can show.

use crate::calls::{self, FrameKind, Slices};
use crate::player::Player;
use crate::sys::{self, RawLoops, RawPlayer, RawTextAnswer, RawUses};
use std::mem::{offset_of, size_of};

const PLAN: [u16; 14] = [1, 1, 0, 1, 0, 255, 1, 0, 1, 0, 0, 0, 0, 0];
const NUMBERS: [f32; 9] = [1.0, 1.0, 2.0, 3.0, 1.0, 1.0, 0.0, 0.0, 0.0];
const FIGURE: Slices = Slices {
    plan: &PLAN,
    numbers: &NUMBERS,
};

#[test]
fn layout_is_the_archives() {
    assert_eq!(size_of::<RawPlayer>(), calls::player_size());
    assert_eq!(offset_of!(RawPlayer, running), 24);
    assert_eq!(offset_of!(RawPlayer, duration), 48);
    assert_eq!(offset_of!(RawPlayer, parameters), 52);
    assert_eq!(offset_of!(RawPlayer, instances), 180);
    calls::hold_layout();
}

/// Plays two frames, the first of which has no room.
fn play(mut raw: RawPlayer) -> (Player, Player, [f32; 16]) {
    let mut output = [0.0; 16];
    let refused = calls::frame(FrameKind::Plain, FIGURE, &mut raw, 0.0, &mut output[..15]);
    assert!(refused.is_err());
    assert!(calls::set(&mut raw, 32, 1.0).is_err());
    let after_refusals = Player::from_raw(raw);
    calls::update(&mut raw, 0.5);
    calls::frame(FrameKind::Plain, FIGURE, &mut raw, 0.0, &mut output).expect("a frame");
    (after_refusals, Player::from_raw(raw), output)
}

#[test]
fn any_running_but_0_is_a_transition() {
    let (_, fresh) = calls::start(FIGURE);
    let running = |running| RawPlayer {
        running,
        start: 0.25,
        duration: 4.0,
        ..fresh
    };
    for count in [1, 2, 255, 256, 1 << 32, usize::MAX] {
        assert_eq!(play(running(count)), play(running(1)), "{count}");
        assert_eq!(play(running(count)).0, Player::from_raw(running(count)));
    }
}

#[test]
fn idle_ignores_the_transitions_fields() {
    let (_, fresh) = calls::start(FIGURE);
    let odd = RawPlayer {
        start: f64::NAN,
        target: usize::MAX,
        duration: -1.0,
        ..fresh
    };
    assert_eq!(Player::from_raw(odd), Player::from_raw(fresh));
    assert_eq!(play(odd), play(fresh));
}

/// A reading's whole answer, with slices of these lengths.
fn read(text: &[u8], words: usize, numbers: usize) -> RawTextAnswer {
    let (mut plan, mut floats) = (vec![0; words], vec![0.0; numbers]);
    // SAFETY: three slices, all apart.
    unsafe {
        sys::gentianlathe_read_text(
            text.as_ptr(),
            text.len(),
            plan.as_mut_ptr(),
            words,
            floats.as_mut_ptr(),
            numbers,
        )
    }
}

#[test]
fn a_refused_readings_counts_are_0() {
    let text = include_bytes!("../../../examples/printed.figure");
    let answer = |number, place, words, numbers| RawTextAnswer {
        number,
        place,
        words,
        numbers,
    };
    assert_eq!(read(text, 14, 9), answer(0, 0, 14, 9));
    assert_eq!(read(text, 13, 9), answer(12, 0, 0, 0));
    assert_eq!(read(text, 14, 8), answer(12, 0, 0, 0));
    assert_eq!(read(&text[..60], 14, 9), answer(11, 5, 0, 0));
    assert_eq!(read(b"", 0, 0), answer(11, 1, 0, 0));
}

#[test]
fn layout_of_the_loops() {
    assert_eq!(size_of::<RawLoops>(), 32);
    assert_eq!(offset_of!(RawLoops, place), 8);
    assert_eq!(offset_of!(RawLoops, loops), 16);
    assert_eq!(offset_of!(RawLoops, rest), 24);
}

#[test]
fn layout_of_the_marks() {
    assert_eq!(size_of::<RawUses>(), 80);
    assert_eq!(offset_of!(RawUses, states), 16);
    assert_eq!(offset_of!(RawUses, parameters), 32);
    assert_eq!(offset_of!(RawUses, clips), 64);
}

/// Two joints, 3 clips without samples, 4 parameters. State 1 is initial: it blends clips 0 and 2 by parameter 3, and
/// leads to state 0, which plays clip 0, by parameter 1. Nothing leads to state 2, which plays clip 1.
const BRANCHED: [u16; 45] = [
    2, 3, 4, 3, 1, // J C P S I
    65535, 0, // parents
    0, 0, 0, 1, 0, 0, // N and ending
    1, 0, 0, 0, 0, 0, // state 0
    3, 0, 0, 0, 0, 0, 2, 0, 0, 2, 0, 1, 3, 1, 1, 5, 0, // state 1
    1, 0, 1, 0, 0, 1, 2, 0, 0, // state 2, which would lead to state 0 by parameter 2
];

/// Three rates, and the value and duration of two transitions. No pose: no clip has samples.
const BRANCHED_NUMBERS: [f32; 7] = [1.0; 7];

fn uses(plan: &[u16], numbers: &[f32]) -> RawUses {
    calls::uses(Slices { plan, numbers }).1
}

/// That all marks are 0 or 1, and 0 behind what the figure has; where refused, that all are 0.
fn assert_marks(plan: &[u16], uses: &RawUses) {
    let lists = [
        (&uses.states[..], 3),
        (&uses.parameters[..], 2),
        (&uses.clips[..], 1),
    ];
    for (marks, word) in lists {
        let count = match uses.number {
            0 => usize::from(plan[word]),
            _ => 0,
        };
        assert!(marks[..count].iter().all(|mark| *mark <= 1), "{uses:?}");
        assert!(marks[count..].iter().all(|mark| *mark == 0), "{uses:?}");
    }
}

#[test]
fn every_mark_of_a_figure() {
    let mut expected = RawUses {
        number: 0,
        place: 0,
        states: [0; 16],
        parameters: [0; 32],
        clips: [0; 16],
    };
    expected.states[..3].copy_from_slice(&[1, 1, 0]);
    expected.parameters[..4].copy_from_slice(&[0, 1, 0, 1]);
    expected.clips[..3].copy_from_slice(&[1, 0, 1]);
    assert_eq!(uses(&BRANCHED, &BRANCHED_NUMBERS), expected);
}

/// With every word of the plan replaced, its end cut off and numbers left out: refused as the start is, without marks.
#[test]
fn marks_of_damaged_figures() {
    let put = |plan: &[u16], numbers: &[f32]| {
        let figure = Slices { plan, numbers };
        let (answer, marks) = calls::uses(figure);
        assert_eq!(answer, calls::start(figure).0);
        assert_eq!(answer.is_ok(), marks.number == 0);
        assert_marks(plan, &marks);
        answer.is_ok()
    };
    let mut accepted = 0;
    for word in 0..BRANCHED.len() {
        for value in (0..40).chain([254, 255, 256, 4096, 4097, 65534, 65535]) {
            let mut plan = BRANCHED;
            plan[word] = value;
            accepted += usize::from(put(&plan, &BRANCHED_NUMBERS));
        }
        assert!(!put(&BRANCHED[..word], &BRANCHED_NUMBERS));
    }
    assert!(accepted > 100, "some are still figures: {accepted}");
    for count in 0..BRANCHED_NUMBERS.len() {
        assert!(!put(&BRANCHED, &BRANCHED_NUMBERS[..count]));
    }
    assert!(!put(&[&BRANCHED[..], &[0]].concat(), &BRANCHED_NUMBERS));
}

/// The whole answer about a node of the figure's only state, at 2.5 seconds.
fn loops(figure: Slices, player: &RawPlayer, node: usize) -> [usize; 4] {
    let (_, told) = calls::loops(figure, player, 0, node, 2.5);
    [told.number, told.place, told.loops, told.rest]
}

/// Damaged in each way that a start refuses, it is refused alike, before the player and the node are judged.
#[test]
fn a_refused_questions_counts_are_0() {
    let (_, fresh) = calls::start(FIGURE);
    let foreign = RawPlayer { state: 1, ..fresh };
    assert_eq!(loops(FIGURE, &fresh, 0), [0, 0, 2, 0]);
    assert_eq!(loops(FIGURE, &fresh, 1), [16, 0, 0, 0]);
    assert_eq!(loops(FIGURE, &foreign, 1), [9, 0, 0, 0]);
    for word in 0..PLAN.len() {
        for value in [2, 17, 254, 4097, 65534] {
            let mut plan = PLAN;
            plan[word] = value;
            let figure = Slices {
                plan: &plan,
                numbers: &NUMBERS,
            };
            let told = match calls::start(figure).0 {
                Ok(()) => [9, 0, 0, 0],
                Err(refusal) => [refusal.number(), refusal.place(), 0, 0],
            };
            assert_eq!(loops(figure, &foreign, 1), told, "{plan:?}");
        }
    }
    let mut plan = PLAN;
    plan[7] = 1;
    let stopping = Slices {
        plan: &plan,
        numbers: &NUMBERS,
    };
    assert_eq!(loops(stopping, &fresh, 0), [17, 0, 0, 0]);
}
