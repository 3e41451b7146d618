//! Questions for loops, beside the check of their figure, of the archive alone: the Rust has no such call.

use crate::archive::Archive;
use crate::draft::{Draft, Node, Size};
use crate::measure::{rounds, Timer};
use std::time::Duration;

/// A time at which the clips have gone round.
const TIME: f32 = 100.0;

/// Prints a figure's row: its check, and a question about the last clip node of its last state, in turns.
fn row(name: &str, size: Size, time: Duration) {
    let draft = Draft::new(size);
    let mut archive = Archive::new(&draft);
    let state = draft.states.len() - 1;
    let is_clip = |node: &Node| matches!(node, Node::Clip(_));
    let node = draft.states[state].nodes.iter().rposition(is_clip);
    let node = node.expect("a tree has clips");
    assert!(archive.loops(state, node, TIME).loops > 0, "{name}");
    let mut check = Timer::new(|| archive.check());
    let mut loops = Timer::new(|| archive.loops(state, node, TIME));
    rounds(time, || {
        check.batch(|| archive.check());
        loops.batch(|| archive.loops(state, node, TIME));
    });
    let [check, loops] = [check.least, loops.least];
    println!(
        "| {name} | {check:.0} | {loops:.0} | {:.0} |",
        loops - check
    );
}

pub fn loops(time: Duration) {
    println!("\n### Loops played\n");
    println!("| figure | check ns | loops ns | beside the check |");
    println!("|---|---:|---:|---:|");
    row("1 joint, 1 clip", Size::new(1, 1), time);
    row("20 joints, 3 nodes", Size::new(20, 3), time);
    row("64 joints, 31 nodes", Size::new(64, 31), time);
    let states = Size {
        states: 16,
        ..Size::new(20, 3)
    };
    row("20 joints, 16 states of 3 nodes", states, time);
}
