//! What of a figure can ever matter: which states are reachable, which parameters a reachable state
//! reads and which clips it plays. By document 02's Card 3 and document 01's list of what is unseen.

use crate::texts::figure::{Figure, Refusal};
use crate::texts::plan::{check, Node, Plan, State};

/// A mark for each state, parameter and clip of a figure.
#[derive(Clone, Debug, PartialEq, Eq)]
pub struct Uses {
    pub states: Vec<bool>,
    pub parameters: Vec<bool>,
    pub clips: Vec<bool>,
}

impl Uses {
    /// The marks of states, of parameters and of clips.
    pub fn kinds(&self) -> [&[bool]; 3] {
        [&self.states, &self.parameters, &self.clips]
    }
}

/// The marks, or the refusal that a start gives.
pub fn uses(figure: &Figure) -> Result<Uses, Refusal> {
    let plan = check(figure)?;
    Ok(uses_of(&plan, reachable(&plan)))
}

/// What these states use.
pub fn uses_of(plan: &Plan, states: Vec<bool>) -> Uses {
    let mut uses = Uses {
        states,
        parameters: vec![false; usize::from(plan.parameters)],
        clips: vec![false; plan.clips.len()],
    };
    for (number, state) in plan.states.iter().enumerate() {
        if uses.states[number] {
            mark(&mut uses.parameters, read_by(state));
            mark(&mut uses.clips, played_by(state));
        }
    }
    uses
}

fn mark(marks: &mut [bool], numbers: impl Iterator<Item = u16>) {
    for number in numbers {
        marks[usize::from(number)] = true;
    }
}

/// The initial state and every target of a reachable state's transitions, and no other.
fn reachable(plan: &Plan) -> Vec<bool> {
    let mut marks = vec![false; plan.states.len()];
    let mut waiting = vec![plan.initial];
    while let Some(number) = waiting.pop() {
        let number = usize::from(number);
        if !marks[number] {
            marks[number] = true;
            waiting.extend(targets(&plan.states[number]));
        }
    }
    marks
}

pub fn targets(state: &State) -> impl Iterator<Item = u16> + '_ {
    state.transitions.iter().map(|go| go.target)
}

/// The parameters of its lerp and additive nodes, and of its conditions. A clip node has none: its p
/// is 0 whatever the parameters are.
fn read_by(state: &State) -> impl Iterator<Item = u16> + '_ {
    let blended = state.nodes.iter().filter_map(|node| match node {
        Node::Clip(_) => None,
        Node::Lerp(inputs) | Node::Additive(inputs) => Some(inputs.parameter),
    });
    let conditions = state.transitions.iter().map(|go| go.parameter);
    blended.chain(conditions)
}

/// The clips that its clip nodes name, empty ones too.
fn played_by(state: &State) -> impl Iterator<Item = u16> + '_ {
    state.nodes.iter().filter_map(|node| match node {
        Node::Clip(clip) => Some(*clip),
        Node::Lerp(_) | Node::Additive(_) => None,
    })
}
