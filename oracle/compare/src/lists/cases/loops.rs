//! Lists about loops played and the rest.

use super::{length, steps};
use crate::lists::call::{text, Call};
use crate::lists::figures::{
    emptied, figure, joined, one_clip, state, stopping, CLIP, GREATER, SECOND, THIRD, THREE,
};
use crate::lists::recorded::List;
use crate::texts::draft::Draft;

const LERP: u16 = 1;
const ADDITIVE: u16 = 2;
const TWO_TO_64: f32 = 18_446_744_073_709_551_616.0;

/// A node of a state at each of these times.
fn timed(state: usize, node: usize, times: &[f32]) -> Vec<Call> {
    let asked = |&time: &f32| Call::loops(state, node, time);
    times.iter().map(asked).collect()
}

/// All nodes of all states, and one node more, at a time.
fn everywhere(draft: &Draft, time: f32) -> Vec<Call> {
    let asked = |state: usize| {
        let nodes = 0..=draft.states[state].nodes.len();
        nodes.map(move |node| Call::loops(state, node, time))
    };
    (0..draft.states.len()).flat_map(asked).collect()
}

/// Clips of four samples, of six and of one, each in a state of its own, at one sample a second.
fn one_a_state() -> Draft {
    let clips = THREE.map(|(samples, _)| (samples, 1.0));
    let states = [CLIP, SECOND, THIRD].map(|clip| state(&[clip], &[]));
    figure(1, &clips, 0, states.to_vec())
}

pub fn positions() -> Vec<List> {
    let draft = one_a_state();
    let four = 4f32.next_down();
    let whole = timed(0, 0, &[0.0, 0.5, 3.0, four, 4.0, 4.5, 8.0, 403.75]);
    let sixes = timed(1, 0, &[5.75, 6.0, 12.5, 16_777_216.0]);
    let ones = timed(2, 0, &[0.75, 1.0, 7.5]);
    let below = [-0.0, -1e-45, -0.5, -4.0, -f32::MAX, f32::NEG_INFINITY];
    let none = [&below[..], &[f32::NAN, -f32::NAN]].concat();
    let late = [TWO_TO_64 / 2.0, TWO_TO_64.next_down(), 3e38, f32::INFINITY];
    let latest = (0..3).map(|state| Call::loops(state, 0, TWO_TO_64));
    vec![
        List::new(
            "loops-whole",
            "at, beside and between multiples of N",
            &draft,
            &[whole, sixes, ones].concat(),
        ),
        List::new(
            "loops-special",
            "negative and NaN positions: 0 and 0; about 2^63 and 2^64, and the index 2^64 - 1",
            &draft,
            &[timed(0, 0, &none), timed(0, 0, &late), latest.collect()].concat(),
        ),
        rates(),
    ]
}

/// States by the rates of their clips: negative, infinite, NaN and 0.
fn rates() -> List {
    let clips = [-2.0, f32::INFINITY, f32::NAN, 0.0].map(|rate| (3, rate));
    let states = (0..4).map(|clip| state(&[[0, clip, 0, 0]], &[]));
    let draft = figure(1, &clips, 0, states.collect());
    let times = [-4.5, 0.0, 2.5, f32::INFINITY];
    let calls = (0..4).flat_map(|state| timed(state, 0, &times));
    let purpose = "rates negative, infinite, NaN and 0";
    List::new("loops-rates", purpose, &draft, &calls.collect::<Vec<_>>())
}

/// The same question before a frame and after it: what the frame synchronises shows behind it.
pub fn players() -> Vec<List> {
    let draft = joined(1, LERP);
    let both = |time: f32| [0, 1].map(|node| Call::loops(0, node, time));
    let swept = [0.5, 1.0, 0.25, -0.5].iter().flat_map(|&value| {
        let mut calls = vec![Call::set(0, value)];
        calls.extend(both(8.0));
        calls.extend([Call::update(1.5), Call::frame(0.0, length(&draft))]);
        calls.extend(both(8.0));
        calls
    });
    vec![
        List::new(
            "loops-synchronised",
            "before a frame synchronises, and after it",
            &draft,
            &swept.collect::<Vec<_>>(),
        ),
        transition(),
    ]
}

/// State 0 goes to state 1; state 2 is never reached, and keeps the rates of a fresh player.
fn transition() -> List {
    let nodes = |a, b| [a, b, [LERP, 0, 1, 0]];
    let states = vec![
        state(&nodes(CLIP, SECOND), &[(1, GREATER, 1, 0.5, 2.0)]),
        state(&nodes(SECOND, CLIP), &[]),
        state(&nodes(CLIP, SECOND), &[]),
    ];
    let draft = figure(1, &THREE[..2], 2, states);
    let clips = || (0..3).flat_map(|state| [0, 1].map(|node| Call::loops(state, node, 9.0)));
    let calls = [
        vec![Call::set(0, 0.5), Call::set(1, 1.0)],
        clips().collect(),
        steps(&draft, 1.0, 1),
        clips().collect(),
        vec![Call::set(0, 0.25)],
        steps(&draft, 2.0, 1),
        clips().collect(),
    ];
    let purpose = "before, in and after a transition, and of a state that is never reached";
    List::new("loops-transition", purpose, &draft, &calls.concat())
}

pub fn refused() -> Vec<List> {
    let nodes = [CLIP, SECOND, [LERP, 0, 1, 0], THIRD, [ADDITIVE, 2, 3, 0]];
    let states = vec![state(&nodes, &[]), state(&[THIRD], &[])];
    let draft = figure(1, &THREE, 1, states);
    let far = [(2, 0), (65535, 0), (0, 65535), (65535, 65535)];
    let far = far.map(|(state, node)| Call::loops(state, node, 1.5));
    let absent = [everywhere(&draft, 1.5), far.to_vec()].concat();
    // The last is both.
    let no_loops = stopping(emptied(draft.clone(), &[0, 2]), &[1, 2]);
    vec![
        List::new(
            "loops-absent",
            "16: no such state, no such node, a lerp and an additive node",
            &draft,
            &absent,
        ),
        List::new(
            "loops-no-loop",
            "17: an empty clip, one that stops and one that does both; 16 comes before it",
            &no_loops,
            &everywhere(&no_loops, f32::NAN),
        ),
    ]
}

/// A name, what is malformed, and what stands behind good calls.
const MALFORMED: [(&str, &str, &str); 9] = [
    ("loops-fields", "a field too few", "loops,0,00000000\n"),
    (
        "loops-field-more",
        "a field too many",
        "loops,0,0,00000000,0\n",
    ),
    (
        "loops-state-zero",
        "a leading zero of a state",
        "loops,00,0,00000000\n",
    ),
    (
        "loops-node-zero",
        "a leading zero of a node",
        "loops,0,00,00000000\n",
    ),
    (
        "loops-state-65536",
        "a state 65536",
        "loops,65536,0,00000000\n",
    ),
    (
        "loops-node-65536",
        "a node 65536",
        "loops,0,65536,00000000\n",
    ),
    ("loops-digits", "digits in capitals", "loops,0,0,3F800000\n"),
    ("loops-wide", "16 digits", "loops,0,0,3ff0000000000000\n"),
    ("loops-without-lf", "no LF at the end", "loops,0,0,3f800000"),
];

pub fn malformed() -> Vec<List> {
    let draft = one_clip(1, 1, 1.0);
    let good = text(&[Call::loops(0, 0, 1.5), Call::update(0.5)]);
    let list = |(name, purpose, end): (&str, &'static str, &str)| {
        List::raw(name, purpose, draft.text(), good.clone() + end)
    };
    MALFORMED.into_iter().map(list).collect()
}
