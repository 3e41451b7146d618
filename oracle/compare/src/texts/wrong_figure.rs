//! Figures that the start refuses for a word.

use super::draft::Draft;
use crate::generator::Generator;

/// A word at or beyond what is allowed below `limit`, most likely.
fn odd_word(generator: &mut Generator, limit: usize) -> u16 {
    let limit = limit as u16;
    let random = generator.draw() as u16;
    let words = [0, 1, 2, 3, 254, 255, 256, 65534, 65535];
    let others = [limit, limit + 1, random];
    generator.pick(&[&words[..], &others].concat())
}

fn any<'a, T>(generator: &mut Generator, items: &'a mut [T]) -> &'a mut T {
    let i = generator.below(items.len() as u64) as usize;
    &mut items[i]
}

/// What text can say and the start refuses: a count of 0, or a wrong word that is no count.
pub fn put_fault(generator: &mut Generator, draft: &mut Draft) {
    let states = draft.states.len();
    match generator.below(17) {
        0 => draft.parents.clear(),
        1 => draft.clips.clear(),
        2 => draft.states.clear(),
        3 => any(generator, &mut draft.states).nodes.clear(),
        4 => draft.parameters = 0,
        5 => draft.initial = odd_word(generator, states),
        6 => drop(any(generator, &mut draft.states).nodes.pop()),
        7 => any(generator, &mut draft.states).nodes.insert(0, [0; 4]),
        8 | 9 => {
            let joint = generator.below(draft.parents.len() as u64) as usize;
            draft.parents[joint] = odd_word(generator, joint);
        }
        10 => put_wrong_transition(generator, draft),
        11 => repeat_input(generator, draft),
        12..=14 => put_wrong_endings(generator, draft),
        _ => put_wrong_node(generator, draft),
    }
}

/// Some node gets an input that it has already, or that an earlier one has.
fn repeat_input(generator: &mut Generator, draft: &mut Draft) {
    let nodes = &mut any(generator, &mut draft.states).nodes;
    let input = nodes.iter().find(|node| node[0] > 0).map(|node| node[1]);
    let last = nodes.last_mut().filter(|node| node[0] > 0);
    if let (Some(input), Some(last)) = (input, last) {
        last[1 + generator.below(2) as usize] = input;
    }
}

/// One clip's, or a few: what comes first in the plan decides. An empty clip's is judged too.
fn put_wrong_endings(generator: &mut Generator, draft: &mut Draft) {
    for _ in 0..=generator.below(2) {
        let word = odd_word(generator, 2);
        let clip = any(generator, &mut draft.clips);
        clip.ending = word;
        if generator.below(3) == 0 {
            clip.samples = 0;
        }
    }
}

fn put_wrong_node(generator: &mut Generator, draft: &mut Draft) {
    let nodes = &mut any(generator, &mut draft.states).nodes;
    let node = generator.below(nodes.len() as u64) as usize;
    let word = odd_word(generator, node);
    *any(generator, &mut nodes[node]) = word;
}

fn put_wrong_transition(generator: &mut Generator, draft: &mut Draft) {
    let states = draft.states.len();
    let transitions = &mut any(generator, &mut draft.states).transitions;
    if transitions.is_empty() {
        draft.initial = odd_word(generator, states);
        return;
    }
    let word = odd_word(generator, states);
    let transition = any(generator, transitions);
    *any(generator, &mut transition.words) = word;
}
