//! Lists about clocks, speeds, parameters, outputs and numbers.

use super::{length, steps, swept};
use crate::lists::call::Call;
use crate::lists::figures::{figure, going, joined, one_clip, posed, special, state, EQUAL, THREE};
use crate::lists::recorded::List;
use crate::texts::draft::Draft;
use crate::texts::random_figure::Numbers;

/// Each speed with two updates and frames after it.
fn at_speeds(draft: &Draft, speeds: &[f64]) -> Vec<Call> {
    let at = |&speed: &f64| {
        let mut calls = vec![Call::speed(speed), Call::update(0.5)];
        calls.extend([0.0, 0.25].map(|ext| Call::frame(ext, length(draft))));
        calls
    };
    speeds.iter().flat_map(at).collect()
}

const SPEEDS: [(&str, &str, &[f64]); 7] = [
    ("speed", "speeds of use", &[1.0, 2.0, 0.5, 0.25]),
    ("speed-0", "a clock that stands still", &[0.0, -0.0, 1.0]),
    (
        "speed-negative",
        "a clock that runs back",
        &[-1.0, -0.5, 2.0],
    ),
    ("speed-nan", "then the clock is NaN too", &[f64::NAN, 1.0]),
    (
        "speed-infinite",
        "infinite speeds",
        &[1.0 / 0.0, -1.0 / 0.0, 0.0],
    ),
    (
        "speed-huge",
        "clocks without a float",
        &[1e300, 1e308, 1e308],
    ),
    ("speed-tiny", "subnormal steps", &[5e-324, 1e-310, 1e-45]),
];

pub fn speeds() -> Vec<List> {
    let list = |(name, purpose, speeds): (&str, &'static str, &[f64])| {
        let draft = going(1, &[(0, EQUAL, 1, 0.0, 2.0)]);
        List::new(name, purpose, &draft, &at_speeds(&draft, speeds))
    };
    SPEEDS.into_iter().map(list).collect()
}

pub fn clocks() -> Vec<List> {
    let clip = one_clip(1, 4, 1.0);
    let shown = [Call::frame(0.5, 16), Call::page(0.5, 16)];
    let bench = [vec![Call::update(2.0), Call::speed(3.0)], shown.to_vec()].concat();
    let lerp = joined(1, 1);
    let mut long = vec![Call::set(0, 0.375)];
    long.extend(steps(&lerp, 1.0 / 60.0, 60));
    vec![
        List::new("ext-and-speed", "case k of the bench sheet", &clip, &bench),
        List::new("long", "60 steps of a sixtieth", &lerp, &long),
    ]
}

pub fn parameters() -> Vec<List> {
    let lerp = joined(1, 1);
    let set = |parameter: usize| Call::set(parameter, parameter as f32);
    let mut all: Vec<Call> = (0..34).rev().map(set).collect();
    all.extend([Call::set(65535, 1.0), Call::set(0, 0.5)]);
    all.extend(steps(&lerp, 0.25, 2));
    let nodes = [[0, 0, 0, 0], [0, 1, 0, 0], [1, 0, 1, 31]];
    let last = figure(1, &THREE, 32, vec![state(&nodes, &[(30, 2, 0, 0.5, 1.0)])]);
    let mut far = swept(&last, 31, &[0.5, -1.0]);
    far.extend(swept(&last, 30, &[0.75]));
    let none = one_clip(1, 2, 1.0);
    vec![
        List::new("set-all", "refused from 32 on", &lerp, &all),
        List::new("set-last", "parameters 30 and 31 are read", &last, &far),
        List::new(
            "set-unread",
            "a figure that reads no parameter keeps them",
            &none,
            &swept(&none, 0, &[1.0, f32::NAN]),
        ),
    ]
}

pub fn outputs() -> Vec<List> {
    let list = |name: &str, purpose, draft: Draft| {
        let needed = length(&draft);
        let lengths = [0, 1, 15, 16, needed - 1, needed, needed + 1, 65535];
        let shown = |(i, &length): (usize, &usize)| match i % 2 {
            0 => [Call::update(0.5), Call::frame(0.0, length)],
            _ => [Call::update(0.5), Call::page(0.0, length)],
        };
        let calls: Vec<Call> = lengths.iter().enumerate().flat_map(shown).collect();
        List::new(name, purpose, &draft, &calls)
    };
    let going = |joints| going(joints, &[(0, EQUAL, 1, 0.0, 1.0)]);
    vec![
        list(
            "output-1-joint",
            "outputs too short, long enough and longer",
            going(1),
        ),
        list("output-2-joints", "likewise for two joints", going(2)),
        list("output-31-joints", "likewise for 31 joints", going(31)),
        list("output-32-joints", "likewise for 32 joints", going(32)),
        list("output-33-joints", "likewise for 33 joints", going(33)),
        list("output-64-joints", "likewise for 64 joints", going(64)),
        list("output-65-joints", "likewise for 65 joints", going(65)),
    ]
}

pub fn numbers() -> Vec<List> {
    let wide = |numbers| posed(joined(3, 2), numbers);
    let list = |name: &str, purpose, draft: Draft| {
        let mut calls = swept(&draft, 0, &[0.0, 0.5, 1.0]);
        calls.extend(steps(&draft, 0.3, 3));
        List::new(name, purpose, &draft, &calls)
    };
    vec![
        list(
            "numbers-special",
            "zeros, subnormals, infinities and NaNs in every number",
            special(2),
        ),
        list(
            "numbers-pattern",
            "any bit pattern in poses",
            wide(Numbers::Pattern),
        ),
        list(
            "numbers-mixed",
            "sensible, special and any patterns in poses",
            wide(Numbers::Mixed),
        ),
    ]
}
