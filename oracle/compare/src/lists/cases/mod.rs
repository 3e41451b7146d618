//! The recorded lists one by one.

mod endings;
mod loops;
mod pages;
mod pauses;
mod players;
mod refused;
mod transitions;
mod trees;

use super::call::Call;
use super::random_calls::{call, Calls};
use super::recorded::List;
use crate::generator::Generator;
use crate::texts::draft::Draft;
use crate::texts::random_figure::accepted;

const SEED: u64 = 0x5f37_59df;

pub fn cases() -> Vec<List> {
    let groups = [
        trees::clips(),
        trees::joins(),
        trees::large_trees(),
        transitions::conditions(),
        transitions::choices(),
        transitions::durations(),
        transitions::rings(),
        transitions::begun_by_hand(),
        endings::clips(),
        endings::joins(),
        endings::transitions(),
        pauses::clips(),
        pauses::joins(),
        pauses::transitions(),
        pages::still_figures(),
        pages::moving_figures(),
        loops::positions(),
        loops::players(),
        loops::refused(),
        loops::malformed(),
        players::speeds(),
        players::clocks(),
        players::parameters(),
        players::outputs(),
        players::numbers(),
        refused::starts(),
        refused::unread_figures(),
        refused::call_lists(),
        random(),
    ];
    groups.into_iter().flatten().collect()
}

fn length(draft: &Draft) -> usize {
    16 * draft.parents.len()
}

/// So many times an update by delta and a frame; every third is a page frame.
fn steps(draft: &Draft, delta: f64, times: usize) -> Vec<Call> {
    let step = |i: usize| {
        let shown = match i % 3 {
            2 => Call::page(0.0, length(draft)),
            _ => Call::frame(0.0, length(draft)),
        };
        [Call::update(delta), shown]
    };
    (0..times).flat_map(step).collect()
}

/// For each value: the parameter is set, and two steps follow.
fn swept(draft: &Draft, parameter: usize, values: &[f32]) -> Vec<Call> {
    let swept = |&value: &f32| {
        let mut calls = vec![Call::set(parameter, value)];
        calls.extend(steps(draft, 0.25, 2));
        calls
    };
    values.iter().flat_map(swept).collect()
}

/// Random figures with random calls, of the same seed always.
fn random() -> Vec<List> {
    let mut generator = Generator::new(SEED);
    let mut lists = Vec::new();
    while lists.len() < 12 {
        let draft = accepted(&mut generator);
        let kind = generator.pick(&Calls::ALL);
        let calls: Vec<Call> = (0..24)
            .map(|_| call(&mut generator, &draft, kind))
            .filter(|call| call.has_text())
            .collect();
        if draft.parents.len() <= 8 && draft.pose_count() <= 80 {
            let name = format!("random-{}", lists.len());
            lists.push(List::new(
                &name,
                "a random figure with random calls",
                &draft,
                &calls,
            ));
        }
    }
    lists
}
