//! Faults about what a figure can ever use.

use crate::evaluator::{put_marks, HostUses};
use crate::faults::{Fault, Faulty};
use crate::frame::figure;
use compare::model::uses::{targets, uses_of, Uses};
use compare::texts::plan::{check, Node, Plan, State};

impl Faulty<'_> {
    /// What the fault does to an answer.
    pub fn spoil_uses(&self, plan: &[u16], numbers: &[f32], uses: &mut HostUses) {
        match check(&figure(plan, numbers)) {
            Ok(plan) => {
                self.spoil_reached(&plan, uses);
                self.spoil_read(&plan, uses);
                self.spoil_played(&plan, uses);
                self.spoil_rest(&plan, uses);
            }
            Err(_) => match self.fault {
                Fault::UsesRefusedMarked => uses.states[0] = 1,
                Fault::UsesPlace if uses.number == 4 => uses.place += 1,
                _ => {}
            },
        }
    }

    fn spoil_reached(&self, plan: &Plan, uses: &mut HostUses) {
        let states = plan.states.len();
        let reached = match self.fault {
            Fault::UsesStepTooFew => within(plan, plan.initial, states.saturating_sub(2)),
            Fault::UsesFromStateZero => within(plan, 0, states - 1),
            _ => return,
        };
        *uses = HostUses::of(Ok(uses_of(plan, reached)));
    }

    fn spoil_read(&self, plan: &Plan, uses: &mut HostUses) {
        let is_read: fn(&Node) -> bool = match self.fault {
            Fault::UsesLerpNotRead => |node| matches!(node, Node::Additive(_)),
            Fault::UsesAdditiveNotRead => |node| matches!(node, Node::Lerp(_)),
            _ => |_| true,
        };
        match self.fault {
            Fault::UsesUnreachableRead => put_marks(&mut uses.parameters, &all(plan).parameters),
            Fault::UsesClipNodeReads if plan.parameters > 0 => uses.parameters[0] = 1,
            Fault::UsesLerpNotRead
            | Fault::UsesAdditiveNotRead
            | Fault::UsesConditionsNotRead
            | Fault::UsesReadersCounted => {
                uses.parameters.fill(0);
                for state in marked(plan, &uses.states) {
                    let conditions = self.fault != Fault::UsesConditionsNotRead;
                    for parameter in read_by(state, is_read, conditions) {
                        let mark = &mut uses.parameters[usize::from(parameter)];
                        let is_counted = self.fault == Fault::UsesReadersCounted;
                        *mark = if is_counted { *mark + 1 } else { 1 };
                    }
                }
            }
            _ => {}
        }
    }

    fn spoil_played(&self, plan: &Plan, uses: &mut HostUses) {
        let clips = &mut uses.clips;
        match self.fault {
            Fault::UsesUnreachablePlayed => put_marks(clips, &all(plan).clips),
            Fault::UsesEmptyNotPlayed => {
                let empty = plan.clips.iter().zip(clips).filter(|(c, _)| c.is_empty());
                empty.for_each(|(_, mark)| *mark = 0);
            }
            Fault::UsesInputsPlayed => {
                let nodes = marked(plan, &uses.states).flat_map(|state| &state.nodes);
                let inputs = nodes.filter_map(|node| match node {
                    Node::Clip(_) => None,
                    Node::Lerp(inputs) | Node::Additive(inputs) => Some(inputs.a),
                });
                let inputs = inputs.map(usize::from);
                inputs
                    .filter(|&a| a < plan.clips.len())
                    .for_each(|a| clips[a] = 1);
            }
            _ => {}
        }
    }

    /// A mark where the figure has nothing.
    fn spoil_rest(&self, plan: &Plan, uses: &mut HostUses) {
        let (marks, count): (&mut [u8], usize) = match self.fault {
            Fault::UsesMarkBehindStates => (&mut uses.states, plan.states.len()),
            Fault::UsesMarkBehindParameters => (&mut uses.parameters, plan.parameters.into()),
            Fault::UsesMarkBehindClips => (&mut uses.clips, plan.clips.len()),
            _ => return,
        };
        if let Some(mark) = marks.get_mut(count) {
            *mark = 1;
        }
    }
}

/// As if all states were reachable.
fn all(plan: &Plan) -> Uses {
    uses_of(plan, vec![true; plan.states.len()])
}

fn marked<'a>(plan: &'a Plan, marks: &[u8; 16]) -> impl Iterator<Item = &'a State> {
    let marked = plan.states.iter().zip(*marks);
    marked
        .filter(|(_, mark)| *mark == 1)
        .map(|(state, _)| state)
}

fn read_by(state: &State, is_read: fn(&Node) -> bool, conditions: bool) -> Vec<u16> {
    let nodes = state.nodes.iter().filter(|node| is_read(node));
    let blended = nodes.filter_map(|node| match node {
        Node::Clip(_) => None,
        Node::Lerp(inputs) | Node::Additive(inputs) => Some(inputs.parameter),
    });
    let transitions = state.transitions.iter().filter(|_| conditions);
    blended.chain(transitions.map(|go| go.parameter)).collect()
}

/// Where so many transitions lead at the most.
fn within(plan: &Plan, first: u16, most: usize) -> Vec<bool> {
    let mut marks = vec![false; plan.states.len()];
    marks[usize::from(first)] = true;
    for _ in 0..most {
        let before = marks.clone();
        let from = plan.states.iter().zip(before).filter(|(_, mark)| *mark);
        for target in from.flat_map(|(state, _)| targets(state)) {
            marks[usize::from(target)] = true;
        }
    }
    marks
}
