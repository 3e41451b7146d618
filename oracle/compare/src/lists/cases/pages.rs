//! Lists about page frames: own matrices are transposed, and then multiplied.

use super::{length, steps, swept};
use crate::lists::call::Call;
use crate::lists::figures::{figure, going, joined, one_clip, posed, state, CLIP, EQUAL};
use crate::lists::recorded::List;
use crate::texts::draft::Draft;
use crate::texts::random_figure::Numbers;

/// A third of a turn, about two axes.
const ABOUT_ALL: [f32; 4] = [0.5, 0.5, 0.5, 0.5];
const ABOUT_OTHERS: [f32; 4] = [0.5, -0.5, 0.5, 0.5];

const INFINITY: f32 = f32::INFINITY;

/// Each joint under the one before it.
fn chained(mut draft: Draft) -> Draft {
    for joint in 1..draft.parents.len() {
        draft.parents[joint] = joint as u16 - 1;
    }
    draft
}

/// Where a joint is, and how it is turned.
type Placed = ([f32; 3], [f32; 4]);

/// A chain with one pose for each joint.
fn still(poses: &[Placed]) -> Draft {
    let clips = [(1, 1.0)];
    let mut draft = chained(figure(
        poses.len() as u16,
        &clips,
        0,
        vec![state(&[CLIP], &[])],
    ));
    let numbers =
        |&([x, y, z], [w, i, j, k]): &Placed| [x, y, z, 1.0, w, i, j, k].map(f32::to_bits);
    draft.poses = poses.iter().map(numbers).collect();
    draft
}

/// A frame, a page frame, and again a frame.
fn side_by_side(name: &str, purpose: &'static str, draft: Draft) -> List {
    let needed = length(&draft);
    let calls = [
        Call::frame(0.0, needed),
        Call::page(0.0, needed),
        Call::frame(0.0, needed),
    ];
    List::new(name, purpose, &draft, &calls)
}

pub fn still_figures() -> Vec<List> {
    let arm = ([0.5, 0.0, 0.0], ABOUT_ALL);
    let hand = ([0.0, 0.5, 0.0], ABOUT_OTHERS);
    vec![
        side_by_side(
            "page-hand",
            "a hand on a turned arm, as a frame and as a page frame",
            still(&[arm, hand]),
        ),
        side_by_side(
            "page-fingers",
            "six joints, each turned under the one before it",
            still(&[arm, hand, arm, arm, hand, hand]),
        ),
        side_by_side(
            "page-infinite-root",
            "a root whose own matrix has infinities: the product has NaNs beside them",
            still(&[([0.0; 3], [1.0, 1e30, 0.0, 0.0]), hand]),
        ),
        side_by_side(
            "page-infinite-place",
            "an arm infinitely far away, and a hand on it",
            still(&[([INFINITY, 1.0, -INFINITY], ABOUT_ALL), hand]),
        ),
        side_by_side(
            "page-nan",
            "a hand turned by NaN on an arm that shows none",
            still(&[arm, ([0.0; 3], [f32::NAN, 0.0, 0.0, 0.0]), arm]),
        ),
    ]
}

/// In `steps` every third frame is a page frame.
pub fn moving_figures() -> Vec<List> {
    let pages = |draft: &Draft| {
        let page = |i: u8| {
            [
                Call::update(0.25),
                Call::page(0.125 * f64::from(i), length(draft)),
            ]
        };
        (0..4).flat_map(page).collect::<Vec<Call>>()
    };
    let chain = chained(one_clip(6, 4, 2.0));
    let lerp = chained(joined(4, 1));
    let additive = joined(9, 2);
    let leaving = chained(going(5, &[(0, EQUAL, 1, 0.0, 2.0)]));
    let special = chained(posed(joined(3, 1), Numbers::Special));
    let mut left = pages(&leaving);
    left.extend(steps(&leaving, 0.75, 3));
    vec![
        List::new(
            "page-chain",
            "six joints between samples",
            &chain,
            &pages(&chain),
        ),
        List::new(
            "page-lerp",
            "a chain of four by a lerp",
            &lerp,
            &[swept(&lerp, 0, &[0.25]), pages(&lerp)].concat(),
        ),
        List::new(
            "page-branches",
            "several children each, by an additive node",
            &additive,
            &[swept(&additive, 0, &[0.75]), pages(&additive)].concat(),
        ),
        List::new(
            "page-transition",
            "page frames begin a transition, run through it and end it",
            &leaving,
            &left,
        ),
        List::new(
            "page-special",
            "a chain by zeros, subnormals, infinities and NaNs",
            &special,
            &[swept(&special, 0, &[0.5]), pages(&special)].concat(),
        ),
    ]
}
