//! Random figures of many states and few transitions, of which some states are reachable and some are
//! not. Figures by chance alone are seldom so: they have few states, which go everywhere.

use super::draft::{Clip, Draft, State, Transition};
use super::random_figure::{below, number, pose, Numbers};
use crate::generator::{Generator, SPECIAL};

/// How the states hang together.
#[derive(Clone, Copy)]
enum Form {
    /// Each state goes to the next in some order; the initial one may be any of them.
    Chain,
    /// The same, and some go back too.
    ThereAndBack,
    /// Each state goes to one other at most.
    Few,
    /// Each state goes to itself, and a few go elsewhere.
    Loops,
    /// Two chains apart from each other, each of which ends where it began.
    Islands,
}

const FORMS: [Form; 5] = [
    Form::Chain,
    Form::ThereAndBack,
    Form::Few,
    Form::Loops,
    Form::Islands,
];

pub fn sparse(generator: &mut Generator) -> Draft {
    let states = 1 + below(generator, 16);
    let mut draft = Draft {
        // Without parameters nothing goes anywhere.
        parameters: below(generator, 33),
        parents: vec![255; 1 + usize::from(below(generator, 2))],
        ..Draft::default()
    };
    let clips = 1 + below(generator, 16);
    draft.clips = (0..clips).map(|_| clip(generator)).collect();
    draft.states = (0..states).map(|_| state(generator, &draft)).collect();
    put_transitions(generator, &mut draft);
    let poses = (0..draft.pose_count()).map(|_| pose(generator, Numbers::Sparse));
    draft.poses = poses.collect();
    draft
}

fn clip(generator: &mut Generator) -> Clip {
    Clip {
        samples: below(generator, 2),
        rate: generator.pick(&SPECIAL),
        ending: below(generator, 2),
    }
}

/// A clip, or up to three of them joined: 16 such states have less than 64 clip nodes.
fn state(generator: &mut Generator, draft: &Draft) -> State {
    let joins = match generator.below(4) {
        _ if draft.parameters == 0 => 0,
        0 => 2,
        1 => 1,
        _ => 0,
    };
    let clips = draft.clips.len() as u16;
    let mut nodes = vec![[0, below(generator, clips), 0, 0]];
    for _ in 0..joins {
        let top = nodes.len() as u16 - 1;
        let (kind, parameter) = (
            1 + below(generator, 2),
            below(generator, draft.parameters.max(1)),
        );
        nodes.push([0, below(generator, clips), 0, 0]);
        nodes.push([kind, top, top + 1, parameter]);
    }
    State {
        nodes,
        transitions: Vec::new(),
    }
}

fn put_transitions(generator: &mut Generator, draft: &mut Draft) {
    let order = shuffled(generator, draft.states.len() as u16);
    let form = generator.pick(&FORMS);
    // At the front of a chain more often than elsewhere.
    draft.initial = match generator.below(2) {
        0 => order[0],
        _ => generator.pick(&order),
    };
    if draft.parameters == 0 {
        return;
    }
    for (from, to) in links(generator, form, &order) {
        let transition = transition(generator, draft.parameters, to);
        draft.states[usize::from(from)].transitions.push(transition);
    }
}

fn shuffled(generator: &mut Generator, count: u16) -> Vec<u16> {
    let mut order: Vec<u16> = (0..count).collect();
    for i in (1..order.len()).rev() {
        order.swap(i, generator.below(i as u64 + 1) as usize);
    }
    order
}

fn chain(order: &[u16]) -> Vec<(u16, u16)> {
    order.windows(2).map(|pair| (pair[0], pair[1])).collect()
}

/// From which state to which.
fn links(generator: &mut Generator, form: Form, order: &[u16]) -> Vec<(u16, u16)> {
    let mut links = match form {
        Form::Chain | Form::ThereAndBack => chain(order),
        Form::Few => Vec::new(),
        Form::Loops => order.iter().map(|&state| (state, state)).collect(),
        Form::Islands => {
            let (one, other) = order.split_at(order.len() / 2);
            let closed = |part: &[u16]| [part, &part[..part.len().min(1)]].concat();
            [chain(&closed(one)), chain(&closed(other))].concat()
        }
    };
    // One more of each state at most: none comes near 16.
    for &from in order {
        let is_more = match form {
            Form::Chain | Form::Islands => false,
            Form::ThereAndBack | Form::Loops => generator.below(4) == 0,
            Form::Few => generator.below(3) > 0,
        };
        if is_more {
            links.push((from, generator.pick(order)));
        }
    }
    links
}

fn transition(generator: &mut Generator, parameters: u16, target: u16) -> Transition {
    Transition {
        words: [below(generator, parameters), below(generator, 6), target],
        numbers: [(); 2].map(|_| number(generator, Numbers::Special)),
    }
}

#[cfg(test)]
mod tests {
    use super::*;
    use crate::model::uses::uses;

    /// They are accepted, and of each kind both marks are often among one figure's.
    #[test]
    fn marks_are_mixed() {
        let mut generator = Generator::new(3);
        let mut mixed = [0; 3];
        let mut whole = 0;
        for _ in 0..1000 {
            let uses = uses(&sparse(&mut generator).figure()).unwrap();
            for (count, marks) in mixed.iter_mut().zip(uses.kinds()) {
                *count += usize::from(marks.contains(&true) && marks.contains(&false));
            }
            let all = uses.states.len() > 8 && !uses.states.contains(&false);
            whole += usize::from(all);
        }
        assert!(mixed.iter().all(|&count| count >= 400), "{mixed:?}");
        assert!(whole >= 50, "{whole} of many states, all of them reachable");
    }
}
