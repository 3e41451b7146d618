//! What a figure can ever use, beside a start, of the archive alone: the Rust has no such call.

use crate::archive::Archive;
use crate::draft::{Draft, Size, VALUES};
use crate::measure::{rounds, Timer};
use crate::sys::MAX_STATES;
use std::time::Duration;

/// The most transitions of a state.
const TRANSITIONS: usize = 16;

/// Where transition n of a state leads.
type Target = fn(state: usize, n: usize) -> usize;

/// By the first two the last state is reached only after 15 steps, by the third all are after one.
const WAYS: [(&str, Target); 3] = [
    ("to the next state", |state, _| (state + 1) % MAX_STATES),
    ("to the state before", |state, _| {
        (state + MAX_STATES - 1) % MAX_STATES
    }),
    ("to all states", |_, n| n),
];

/// A figure with the most states and transitions, which lead as they are told.
fn led(nodes: usize, target: Target) -> Draft {
    let mut draft = Draft::new(Size {
        states: MAX_STATES,
        waiting: TRANSITIONS,
        ..Size::new(20, nodes)
    });
    for (number, state) in draft.states.iter_mut().enumerate() {
        for (n, go) in state.goes.iter_mut().enumerate() {
            go.target = target(number, n) as u16;
        }
    }
    draft
}

/// Prints a figure's row: its check, a start and its uses in turns. All its states are reachable, all its clips are
/// played, and so many parameters are read.
fn row(name: &str, draft: &Draft, read: usize, time: Duration) {
    let mut archive = Archive::new(draft);
    let marks = archive.uses();
    let count = |marks: &[u8]| marks.iter().filter(|mark| **mark == 1).count();
    assert_eq!(count(&marks.states), draft.states.len(), "{name}");
    assert_eq!(count(&marks.clips), draft.clips.len(), "{name}");
    assert_eq!(count(&marks.parameters), read, "{name}");
    let mut check = Timer::new(|| archive.check());
    let mut start = Timer::new(|| archive.start());
    let mut uses = Timer::new(|| archive.uses());
    rounds(time, || {
        check.batch(|| archive.check());
        start.batch(|| archive.start());
        uses.batch(|| archive.uses());
    });
    let words = archive.plan.len();
    let [check, start, uses] = [check.least, start.least, uses.least];
    print!("| {name} | {words} | {check:.0} | {start:.0} | {uses:.0} ");
    println!("| {:.2} |", uses / start);
}

pub fn uses(time: Duration) {
    println!("\n### What a figure can use (20 joints)\n");
    println!("| figure | plan words | check ns | start ns | uses ns | uses / start |");
    println!("|---|---:|---:|---:|---:|---:|");
    row("1 state, 1 clip", &Draft::new(Size::new(20, 1)), 0, time);
    for (nodes, each) in [(1, "1 node"), (3, "3 nodes")] {
        for (way, target) in WAYS {
            let name = format!("16 states of {each}, each with 16 transitions {way}");
            row(&name, &led(nodes, target), VALUES.len(), time);
        }
    }
}
