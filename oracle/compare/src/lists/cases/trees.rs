//! Lists about clips and trees.

use super::{steps, swept};
use crate::lists::figures::{
    chain, figure, joined, mixed, one_clip, state, CLIP, SECOND, THIRD, THREE,
};
use crate::lists::recorded::List;
use crate::texts::draft::Draft;

const RATES: [(&str, &str, f32); 5] = [
    ("clip-rate-0", "a rate of 0: infinite length", 0.0),
    ("clip-rate-negative", "a negative rate", -2.0),
    ("clip-rate-nan", "a rate that is NaN", f32::NAN),
    ("clip-rate-infinite", "an infinite rate", f32::INFINITY),
    ("clip-rate-huge", "positions beyond 2^64", 3e38),
];

pub fn clips() -> Vec<List> {
    let list = |name: &str, purpose, draft: Draft, delta, times| {
        List::new(name, purpose, &draft, &steps(&draft, delta, times))
    };
    let moving = || one_clip(3, 4, 1.0);
    let mut lists = vec![
        list("clip-still", "one sample", one_clip(1, 1, 1.0), 0.5, 3),
        list("clip-loop", "at and between samples", moving(), 0.375, 22),
        list("clip-backwards", "negative positions", moving(), -0.75, 4),
    ];
    let with_rate = |(name, purpose, rate)| list(name, purpose, one_clip(2, 3, rate), 0.5, 4);
    lists.extend(RATES.map(with_rate));
    lists
}

pub fn joins() -> Vec<List> {
    let values = [0.0, 0.5, 1.0, 2.0, -1.0, f32::NAN, f32::INFINITY, 0.25];
    let list = |name: &str, purpose, draft: Draft| {
        List::new(name, purpose, &draft, &swept(&draft, 0, &values))
    };
    let nodes = [CLIP, SECOND, THIRD, [2, 0, 1, 1], [1, 3, 2, 0]];
    let of_trees = figure(2, &THREE, 2, vec![state(&nodes, &[])]);
    vec![
        list(
            "lerp",
            "synchronised by all sorts of parameters",
            joined(2, 1),
        ),
        list("additive", "by all sorts of parameters", joined(2, 2)),
        list("lerp-of-trees", "not synchronised", of_trees),
    ]
}

pub fn large_trees() -> Vec<List> {
    let list = |name: &str, purpose, nodes: &[[u16; 4]], states| {
        let draft = figure(1, &THREE, 4, vec![state(nodes, &[]); states]);
        let values = [0.5, 0.75, 0.25];
        let calls = [swept(&draft, 0, &values), swept(&draft, 3, &values)];
        List::new(name, purpose, &draft, &calls.concat())
    };
    vec![
        list("chain", "31 nodes, each over the one before", &chain(), 1),
        list("mixed", "clip nodes not in their tree's order", &mixed(), 1),
        list("full", "64 clip nodes in four states", &mixed(), 4),
    ]
}
