//! Lists about clips without samples.

use super::{length, steps, swept};
use crate::lists::call::Call;
use crate::lists::figures::{
    chain, emptied, figure, going, joined, one_clip, state, stopping, Go, CLIP, EQUAL, GREATER,
    SECOND, THIRD, THREE,
};
use crate::lists::recorded::List;
use crate::texts::draft::Draft;

/// Name, purpose, joints, rate.
type Lone = (&'static str, &'static str, u16, f32);

const LONE: [Lone; 4] = [
    ("pause", "the identity at all times", 1, 1.0),
    ("pause-rate-0", "likewise at a rate of 0", 2, 0.0),
    ("pause-rate-nan", "likewise at a rate NaN", 1, f32::NAN),
    (
        "pause-rate-infinite",
        "likewise at an infinite rate",
        2,
        f32::INFINITY,
    ),
];

/// Frames at times of all sorts.
fn timed(draft: &Draft) -> Vec<Call> {
    let special = [f64::INFINITY, f64::NEG_INFINITY, f64::NAN];
    let times = [0.0, 0.5, 1.0, -1.0, 1e30].into_iter().chain(special);
    let frames = times.map(|time| Call::frame(time, length(draft)));
    let mut calls = steps(draft, 0.75, 3);
    calls.extend(frames);
    calls
}

/// One state with nothing but an empty clip.
pub fn clips() -> Vec<List> {
    let list = |name, purpose, draft: Draft| List::new(name, purpose, &draft, &timed(&draft));
    let lone = |(name, purpose, joints, rate): Lone| list(name, purpose, one_clip(joints, 0, rate));
    let mut lists: Vec<List> = LONE.into_iter().map(lone).collect();
    let stops = "an empty clip that stops";
    lists.extend([
        list("pause-stops", stops, stopping(one_clip(1, 0, 1.0), &[0])),
        between(),
        wide(),
    ]);
    lists
}

/// Three states with a clip each, the second without samples.
fn between() -> List {
    let go = |target| [(0, EQUAL, target, 0.0, 0.5)];
    let states = vec![
        state(&[CLIP], &go(1)),
        state(&[SECOND], &go(2)),
        state(&[THIRD], &go(0)),
    ];
    let draft = emptied(figure(2, &THREE, 1, states), &[1]);
    let purpose = "between clips with samples, each in its turn";
    List::new("pause-between", purpose, &draft, &steps(&draft, 0.25, 12))
}

/// From a state that shows a pause to one that blends it with a clip; both clips stop.
fn wide() -> List {
    let states = vec![
        state(&[CLIP], &[(0, GREATER, 1, 0.0, 1.0)]),
        state(&[CLIP, SECOND, [1, 0, 1, 1]], &[]),
    ];
    let draft = stopping(figure(33, &[(0, 1.0), (2, 1.0)], 2, states), &[0, 1]);
    let frame = Call::frame(0.0, length(&draft));
    let calls = [
        Call::set(1, 0.5),
        frame,
        Call::set(0, 1.0),
        frame,
        Call::update(0.5),
        Call::page(0.0, length(&draft)),
        Call::update(1.0),
        frame,
    ];
    let purpose = "alone and blended, at 33 joints";
    List::new("pause-33-joints", purpose, &draft, &calls)
}

/// Name, purpose, empty clips.
type Join = (&'static str, &'static str, &'static [usize]);

const LERPS: [Join; 3] = [
    (
        "pause-lerp-from",
        "from an empty clip, not synchronised",
        &[0],
    ),
    ("pause-lerp-to", "to an empty clip, not synchronised", &[1]),
    ("pause-lerp-both", "between two, not synchronised", &[0, 1]),
];

const ADDITIVES: [Join; 3] = [
    ("pause-additive-to", "added to an identity", &[0]),
    ("pause-additive-of", "an identity added", &[1]),
    ("pause-additive-both", "an identity added to one", &[0, 1]),
];

/// Clips 0 and 1 joined, some of them empty, or in a larger tree.
pub fn joins() -> Vec<List> {
    let values = [0.0, 0.5, 1.0, 2.0, -1.0, f32::NAN, 0.25];
    let list =
        |name, purpose, draft: Draft| List::new(name, purpose, &draft, &swept(&draft, 0, &values));
    let of = |kind: u16| {
        move |(name, purpose, empty): Join| list(name, purpose, emptied(joined(2, kind), empty))
    };
    let nodes = [CLIP, SECOND, THIRD, [2, 0, 1, 1], [1, 3, 2, 0]];
    let of_trees = figure(2, &THREE, 2, vec![state(&nodes, &[])]);
    let nodes = [CLIP, CLIP, [1, 0, 1, 0], SECOND, [2, 2, 3, 1]];
    let twice = figure(1, &THREE[..2], 2, vec![state(&nodes, &[])]);
    let all = figure(2, &THREE, 4, vec![state(&chain(), &[])]);
    let mut lists: Vec<List> = LERPS.into_iter().map(of(1)).collect();
    lists.extend(ADDITIVES.into_iter().map(of(2)));
    lists.extend([
        list(
            "pause-stops-in-lerp",
            "beside a clip that stops too",
            stopping(emptied(joined(2, 1), &[0]), &[0, 1]),
        ),
        list(
            "pause-of-trees",
            "among other clips",
            emptied(of_trees, &[0]),
        ),
        list(
            "pause-twice",
            "the same empty clip by two nodes",
            emptied(twice, &[0]),
        ),
        list("pause-all", "no poses at all", emptied(all, &[0, 1, 2])),
    ]);
    lists
}

/// A figure's empty clips by number, while a transition runs.
pub fn transitions() -> Vec<List> {
    let go: [Go; 1] = [(0, EQUAL, 1, 0.0, 2.0)];
    let list = |name: &str, purpose, clips: &[usize]| {
        let draft = emptied(going(2, &go), clips);
        List::new(name, purpose, &draft, &steps(&draft, 0.5, 6))
    };
    vec![
        list("pause-from", "out of a pause", &[0]),
        list("pause-to", "into a pause", &[1]),
        list("pause-from-and-to", "from one pause to another", &[0, 1]),
    ]
}
