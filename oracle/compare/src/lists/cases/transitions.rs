//! Lists about transitions.

use super::{length, steps, swept};
use crate::lists::call::Call;
use crate::lists::figures::{
    figure, going, state, Go, AT_LEAST, CLIP, EQUAL, GREATER, LESS, SECOND, THIRD, THREE,
};
use crate::lists::recorded::List;
use crate::texts::draft::Draft;

/// One for each operator.
const OPERATORS: [(&str, &str); 6] = [
    ("go-less", "less, by parameters below, at, above, and NaN"),
    ("go-at-most", "at most, likewise"),
    ("go-greater", "greater, likewise"),
    ("go-at-least", "at least, likewise"),
    ("go-equal", "equal, likewise"),
    ("go-unequal", "unequal, likewise"),
];

/// Two states that go to each other by the same condition.
pub fn conditions() -> Vec<List> {
    let list = |(operator, (name, purpose)): (usize, (&str, &'static str))| {
        let go = |target| (0, operator as u16, target, 0.5, 0.0);
        let states = vec![state(&[CLIP], &[go(1)]), state(&[SECOND], &[go(0)])];
        let draft = figure(1, &THREE[..2], 1, states);
        let values = [0.25, 0.5, 0.75, -0.5, f32::NAN, f32::NEG_INFINITY];
        List::new(name, purpose, &draft, &swept(&draft, 0, &values))
    };
    OPERATORS.into_iter().enumerate().map(list).collect()
}

/// Of transitions that stand together, the parameter being 0.
pub fn choices() -> Vec<List> {
    let list = |name: &str, purpose, goes: &[Go]| {
        let draft = going(1, goes);
        List::new(name, purpose, &draft, &steps(&draft, 0.75, 4))
    };
    let of_nan = [(0, AT_LEAST, 1, f32::NAN, 1.0), (0, 5, 1, f32::NAN, 2.0)];
    let of_zeros = [(0, LESS, 1, -0.0, 1.0), (0, EQUAL, 1, -0.0, 2.0)];
    let three = [
        (0, GREATER, 0, 0.0, 4.0),
        (0, EQUAL, 1, 0.0, 2.0),
        (0, EQUAL, 0, 0.0, 3.0),
    ];
    vec![
        list("go-nan-value", "to a value NaN all is unequal", &of_nan),
        list("go-negative-zero", "0 is -0, and not less", &of_zeros),
        list("go-first", "of those that hold the first begins", &three),
    ]
}

/// Name, purpose, duration, delta of the updates, how many.
type Timed = (&'static str, &'static str, f32, f64, usize);

const DURATIONS: [Timed; 12] = [
    ("duration-1", "begun, running, ended", 1.0, 0.25, 7),
    (
        "duration-exact",
        "ended at start + duration exactly",
        0.5,
        0.5,
        4,
    ),
    ("duration-0", "a NaN factor, then ended", 0.0, 0.25, 3),
    (
        "duration-negative",
        "ended in the next frame",
        -1.0,
        0.25,
        3,
    ),
    ("duration-nan", "never ended", f32::NAN, 0.25, 4),
    ("duration-infinite", "never ended", f32::INFINITY, 0.25, 4),
    (
        "duration-minus-infinite",
        "ended in the next frame",
        f32::NEG_INFINITY,
        0.25,
        3,
    ),
    ("duration-subnormal", "an infinite factor", 1e-44, 1e-44, 3),
    ("duration-backwards", "time before the start", 1.0, -0.25, 4),
    (
        "start-nan",
        "a start that is NaN: never ended",
        1.0,
        f64::NAN,
        4,
    ),
    ("start-infinite", "an infinite start", 1.0, f64::INFINITY, 3),
    (
        "start-huge",
        "a clock so large that the duration is lost",
        1.0,
        1e17,
        3,
    ),
];

pub fn durations() -> Vec<List> {
    let list = |(name, purpose, duration, delta, times): Timed| {
        let draft = going(2, &[(0, EQUAL, 1, 0.0, duration)]);
        List::new(name, purpose, &draft, &steps(&draft, delta, times))
    };
    DURATIONS.into_iter().map(list).collect()
}

/// Three states with trees of each kind.
fn three(joints: u16, goes: [&[Go]; 3]) -> Draft {
    let nodes = [CLIP, SECOND, [1, 0, 1, 0]];
    let states = vec![
        state(&nodes, goes[0]),
        state(&[THIRD, CLIP, [2, 1, 0, 0]], goes[1]),
        state(&[SECOND], goes[2]),
    ];
    figure(joints, &THREE, 2, states)
}

/// One step a frame, always.
pub fn rings() -> Vec<List> {
    let go = |target| [(1, EQUAL, target, 0.0, 0.5)];
    let list = |name: &str, purpose, draft: Draft| {
        List::new(name, purpose, &draft, &steps(&draft, 0.25, 12))
    };
    let round = three(2, [&go(1), &go(2), &go(0)]);
    let mut last = round.clone();
    last.initial = 2;
    let itself = three(1, [&go(0), &go(1), &go(2)]);
    vec![
        list("ring", "where one ends, none begins in that frame", round),
        list("ring-initial", "from the last state on", last),
        list("to-itself", "a state's tree synchronised twice", itself),
    ]
}

pub fn begun_by_hand() -> Vec<List> {
    let up = [(0, GREATER, 1, 0.5, 0.25)];
    let down = [(0, LESS, 0, 0.5, 0.25)];
    let to_and_fro = three(1, [&up, &down, &[]]);
    let fro = swept(&to_and_fro, 0, &[0.25, 0.75, 1.0, 0.0, 0.5, 0.25]);
    let many: Vec<Go> = (0..16)
        .map(|i| (1, GREATER, i % 3, f32::from(i), 1.0))
        .collect();
    let many = three(1, [&many, &many, &many]);
    let by_many = swept(&many, 1, &[-1.0, 0.0, 15.5, 3.0]);
    let ext = going(1, &[(0, EQUAL, 1, 0.0, 1.0)]);
    let frame = |by: f64| Call::frame(by, length(&ext));
    let exts = [0.0, 0.5, 0.25, 1.0, -4.0, f64::NAN, f64::INFINITY, 0.0];
    vec![
        List::new(
            "to-and-fro",
            "transitions begun and turned back by set",
            &to_and_fro,
            &fro,
        ),
        List::new("sixteen", "a state's 16 transitions", &many, &by_many),
        List::new(
            "ext",
            "the same clock with ext of all sorts",
            &ext,
            &exts.map(frame),
        ),
    ]
}
