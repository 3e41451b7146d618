//! Lists about clips that stop on their last pose.

use super::{length, steps, swept};
use crate::lists::call::Call;
use crate::lists::figures::{
    figure, going, joined, one_clip, posed, state, stopping, Go, CLIP, EQUAL, SECOND, THIRD, THREE,
};
use crate::lists::recorded::List;
use crate::texts::draft::Draft;
use crate::texts::random_figure::Numbers;

/// Name, purpose, samples, rate, delta of the updates, how many.
type Timed = (&'static str, &'static str, u16, f32, f64, usize);

const CLIPS: [Timed; 8] = [
    (
        "stop-held",
        "at and between samples, then held",
        4,
        1.0,
        0.375,
        12,
    ),
    ("stop-still", "held from the first frame on", 1, 1.0, 0.5, 3),
    (
        "stop-backwards",
        "negative positions, as in a loop",
        4,
        1.0,
        -0.75,
        4,
    ),
    (
        "stop-rate-negative",
        "the same by a negative rate",
        3,
        -2.0,
        0.5,
        4,
    ),
    ("stop-rate-0", "never at its end", 3, 0.0, 0.5, 3),
    ("stop-rate-nan", "a position NaN", 3, f32::NAN, 0.5, 3),
    (
        "stop-rate-infinite",
        "a position NaN, then infinite",
        3,
        f32::INFINITY,
        0.5,
        4,
    ),
    ("stop-rate-huge", "held beyond 2^64", 3, 3e38, 0.5, 4),
];

/// One state with one stopping clip.
pub fn clips() -> Vec<List> {
    let list = |(name, purpose, samples, rate, delta, times): Timed| {
        let draft = stopping(one_clip(2, samples, rate), &[0]);
        List::new(name, purpose, &draft, &steps(&draft, delta, times))
    };
    let mut lists: Vec<List> = CLIPS.into_iter().map(list).collect();
    lists.extend([ends(), zeros(), clocks()]);
    lists
}

/// The last sample's position is 3.
fn ends() -> List {
    let draft = stopping(one_clip(1, 4, 1.0), &[0]);
    let below = f64::from(3f32.next_down());
    let times = [2.5, below, 3.0, f64::from(3f32.next_up()), 3.5, 4.0, 7.5];
    let frame = |time: f64| Call::frame(time, length(&draft));
    let purpose = "the last sample's position, and those beside it";
    List::new("stop-ends", purpose, &draft, &times.map(frame))
}

/// With one sample the end is at 0, of either sign.
fn zeros() -> List {
    let draft = stopping(one_clip(1, 1, -1.0), &[0]);
    let times = [0.0, -0.0, 1e-45, -1e-45, 0.5, -0.5];
    let frame = |time: f64| Call::frame(time, length(&draft));
    let purpose = "one sample at 0, -0 and beside them";
    List::new("stop-zeros", purpose, &draft, &times.map(frame))
}

fn clocks() -> List {
    let draft = stopping(one_clip(2, 3, 1.5), &[0]);
    let times = [1e9, 1e30, 1e300, f64::INFINITY, f64::NEG_INFINITY, f64::NAN];
    let frame = |time: f64| Call::frame(time, length(&draft));
    let purpose = "late, infinite and NaN times";
    List::new("stop-clocks", purpose, &draft, &times.map(frame))
}

pub fn joins() -> Vec<List> {
    let values = [0.0, 0.5, 1.0, 2.0, -1.0, f32::NAN, f32::INFINITY, 0.25];
    let list = |name: &str, purpose, draft: Draft| {
        let mut calls = swept(&draft, 0, &values);
        calls.push(Call::update(8.0));
        calls.extend(swept(&draft, 0, &[0.25, 0.75]));
        List::new(name, purpose, &draft, &calls)
    };
    let nodes = [CLIP, SECOND, THIRD, [2, 0, 1, 1], [1, 3, 2, 0]];
    let of_trees = figure(2, &THREE, 2, vec![state(&nodes, &[])]);
    let special = posed(joined(2, 1), Numbers::Mixed);
    vec![
        list(
            "stop-lerp",
            "both synchronised, and held together",
            stopping(joined(2, 1), &[0, 1]),
        ),
        list(
            "stop-and-loop",
            "one held while the other loops",
            stopping(joined(2, 1), &[1]),
        ),
        list(
            "stop-additive",
            "held below a loop",
            stopping(joined(2, 2), &[0]),
        ),
        list(
            "stop-of-trees",
            "a loop among stopping clips",
            stopping(of_trees, &[1, 2]),
        ),
        list(
            "stop-numbers",
            "held poses of all sorts of numbers",
            stopping(special, &[0, 1]),
        ),
        same_clip(),
    ]
}

/// Two nodes play the same stopping clip, at rates of their own.
fn same_clip() -> List {
    let nodes = [CLIP, SECOND, [1, 0, 1, 0], CLIP, [2, 2, 3, 1]];
    let draft = figure(1, &THREE[..2], 2, vec![state(&nodes, &[])]);
    let draft = stopping(draft, &[0]);
    let calls = [
        swept(&draft, 0, &[0.5, 1.0]),
        vec![Call::set(1, 0.5)],
        steps(&draft, 0.375, 6),
    ];
    let purpose = "the same clip by two nodes, one of them held";
    List::new("stop-twice", purpose, &draft, &calls.concat())
}

/// A figure's stopping clips by number, while a transition runs.
pub fn transitions() -> Vec<List> {
    let go: [Go; 1] = [(0, EQUAL, 1, 0.0, 4.0)];
    let list = |name: &str, purpose, clips: &[usize]| {
        let draft = stopping(going(2, &go), clips);
        List::new(name, purpose, &draft, &steps(&draft, 0.75, 8))
    };
    vec![
        list("stop-from", "from a held pose to a loop", &[0]),
        list("stop-to", "from a loop to a clip that stops", &[1]),
        list("stop-from-and-to", "from one held pose to another", &[0, 1]),
    ]
}
