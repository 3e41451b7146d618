//! The marks of figures that are known, and a second way to them: by all chains of transitions.

use super::uses::{targets, uses, uses_of, Uses};
use crate::generator::Generator;
use crate::texts::draft::Draft;
use crate::texts::figure::Figure;
use crate::texts::known_uses::{known, refused};
use crate::texts::plan::{check, Plan};
use crate::texts::printed::LONGEST;
use crate::texts::random_figure::accepted;
use crate::texts::sparse_figure::sparse;
use crate::texts::uses::printed;

/// More chains than that are too many to follow.
const MANY_CHAINS: usize = 20_000;

/// Where all chains of at most so many transitions lead, each followed for itself. None where there
/// are too many.
fn by_chains(plan: &Plan, most: usize) -> Option<Vec<bool>> {
    let mut ends = vec![plan.initial];
    let mut all = ends.clone();
    for _ in 0..most {
        let step = |&end: &u16| targets(&plan.states[usize::from(end)]);
        ends = ends.iter().flat_map(step).collect();
        all.extend(&ends);
        if all.len() > MANY_CHAINS {
            return None;
        }
    }
    let is_end = |number: usize| all.iter().any(|&end| usize::from(end) == number);
    Some((0..plan.states.len()).map(is_end).collect())
}

fn plan_of(draft: &Draft) -> Plan {
    check(&draft.figure()).ok().expect("a figure for a start")
}

fn digits(marks: &[bool]) -> String {
    let digit = |&mark: &bool| if mark { '1' } else { '0' };
    marks.iter().map(digit).collect()
}

#[test]
fn known_figures_have_their_marks() {
    for known in known() {
        let found = uses(&known.draft.figure()).unwrap();
        assert_eq!(found.kinds().map(digits), known.marks, "{}", known.name);
    }
}

#[test]
fn refused_figures_are_refused_as_at_a_start() {
    for (text, (number, place)) in refused() {
        let expected = format!("refused,{number},{place}\n");
        assert_eq!(printed(&text), expected);
    }
    let short = Figure {
        plan: vec![1, 1, 0, 1],
        numbers: Vec::new(),
    };
    let refusal = uses(&short).unwrap_err();
    assert_eq!((refusal.number, refusal.place), (1, 4));
}

/// A state is marked exactly when a chain of at most S - 1 transitions leads to it; longer chains lead
/// nowhere else.
#[test]
fn marked_is_where_chains_lead() {
    let mut generator = Generator::new(9);
    let random = (0..3000).flat_map(|_| [accepted(&mut generator), sparse(&mut generator)]);
    let random: Vec<Draft> = random.collect();
    let known = known().into_iter().map(|known| known.draft);
    let mut followed = 0;
    for draft in known.chain(random) {
        let Ok(plan) = check(&draft.figure()) else {
            continue;
        };
        let marks = uses(&draft.figure()).unwrap().states;
        let states = plan.states.len();
        for most in [states - 1, states, states + 2] {
            let Some(ends) = by_chains(&plan, most) else {
                continue;
            };
            followed += usize::from(most == states - 1);
            assert_eq!(ends, marks, "{}", draft.text());
        }
    }
    assert!(followed >= 4000, "{followed} figures");
}

/// The last state of a chain of 16 is reached by exactly 15 transitions.
#[test]
fn a_chain_takes_one_transition_less_than_it_has_states() {
    for known in known().iter().take(3) {
        let plan = plan_of(&known.draft);
        let count = |most: usize| {
            let marks = by_chains(&plan, most).unwrap();
            marks.iter().filter(|&&mark| mark).count()
        };
        assert_eq!([13, 14, 15, 16].map(count), [14, 15, 16, 16]);
    }
}

/// Read and played by a state that one by one is taken as the only one.
#[test]
fn uses_are_those_of_the_marked_states() {
    let mut generator = Generator::new(10);
    for _ in 0..500 {
        let draft = sparse(&mut generator);
        let plan = plan_of(&draft);
        let found = uses(&draft.figure()).unwrap();
        let mut sum = Uses {
            states: vec![false; plan.states.len()],
            parameters: vec![false; found.parameters.len()],
            clips: vec![false; found.clips.len()],
        };
        let marked = (0..plan.states.len()).filter(|&state| found.states[state]);
        for state in marked {
            let only = (0..plan.states.len()).map(|other| other == state);
            let own = uses_of(&plan, only.collect());
            sum = either(&sum, &own);
        }
        assert_eq!(sum, found, "{}", draft.text());
        assert_eq!(own_words(&draft, &found), (found.parameters, found.clips));
    }
}

fn either(one: &Uses, other: &Uses) -> Uses {
    let both = |one: &[bool], other: &[bool]| one.iter().zip(other).map(|(a, b)| a | b).collect();
    Uses {
        states: both(&one.states, &other.states),
        parameters: both(&one.parameters, &other.parameters),
        clips: both(&one.clips, &other.clips),
    }
}

/// Parameters and clips once more, by the words of the draft: for each number whether some word names it.
fn own_words(draft: &Draft, found: &Uses) -> (Vec<bool>, Vec<bool>) {
    let states = || draft.states.iter().zip(&found.states);
    let marked = || states().filter(|(_, mark)| **mark).map(|(state, _)| state);
    let is_read = |number: u16| {
        marked().any(|state| {
            let nodes = state.nodes.iter().any(|n| n[0] != 0 && n[3] == number);
            nodes || state.transitions.iter().any(|go| go.words[0] == number)
        })
    };
    let is_played = |number: u16| {
        let mut nodes = marked().flat_map(|state| &state.nodes);
        nodes.any(|node| node[0] == 0 && node[1] == number)
    };
    let parameters = (0..draft.parameters).map(is_read).collect();
    let clips = (0..draft.clips.len() as u16).map(is_played).collect();
    (parameters, clips)
}

#[test]
fn lines_are_in_the_order_states_parameters_clips() {
    let lines = |name: &str| {
        let all = known();
        let known = all.iter().find(|known| known.name == name).unwrap();
        printed(known.draft.text().as_bytes())
    };
    let apart = "ok\nstate,0,1\nstate,1,0\nparameter,0,1\nparameter,1,0\nparameter,2,0\n\
        clip,0,1\nclip,1,0\nclip,2,0\n";
    assert_eq!(lines("apart"), apart);
    assert_eq!(lines("least"), "ok\nstate,0,1\nclip,0,1\n");
    assert_eq!(printed(b""), "refused,11,1\n");
    assert_eq!(printed(&[0; LONGEST + 1]), "refused,13,65536\n");
}
