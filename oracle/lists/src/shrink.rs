//! Makes a mismatching case small for its reader.

use crate::evaluator::Evaluator;
use crate::run::{run, Case, Counts, Mismatch};
use crate::smaller_draft::{plainer_drafts, smaller_drafts};
use crate::step::Step;
use compare::lists::call::Call;
use compare::texts::draft::Draft;
use std::time::{Duration, Instant};

/// A case is small enough after this time.
const PATIENCE: Duration = Duration::from_secs(20);

/// Takes something away while a mismatch stays, whichever it is.
pub fn shrunk(case: &Case, evaluator: &dyn Evaluator) -> (Case, Mismatch) {
    let what = |case: &Case| run(case, evaluator, &mut Counts::default());
    let mut least = case.clone();
    let mut found = what(case).expect("a case that shows a mismatch");
    // What comes after the mismatch has no part in it.
    least.steps.truncate(found.step);
    let begun = Instant::now();
    let passes = [fewer_steps, smaller_figures, plainer_steps, plainer_figures];
    let mut changed = true;
    while changed {
        changed = false;
        for pass in passes {
            while let Some((smaller, mismatch)) = pass(&least)
                .into_iter()
                .take_while(|_| begun.elapsed() < PATIENCE)
                .find_map(|case| what(&case).map(|mismatch| (case, mismatch)))
            {
                (least, found) = (smaller, mismatch);
                least.steps.truncate(found.step);
                changed = true;
            }
        }
    }
    (least, found)
}

fn with_steps(case: &Case, steps: Vec<Step>) -> Case {
    Case {
        draft: case.draft.clone(),
        steps,
    }
}

/// Without half of the steps, without one, or with one of a step's stores less.
fn fewer_steps(case: &Case) -> Vec<Case> {
    let steps = &case.steps;
    let half = steps.len() / 2;
    let mut cases = Vec::new();
    if half > 0 {
        cases.push(with_steps(case, steps[half..].to_vec()));
    }
    for (i, step) in steps.iter().enumerate() {
        let mut fewer = steps.clone();
        fewer.remove(i);
        cases.push(with_steps(case, fewer));
        if let Step::Store(edits) = step {
            for edit in 0..edits.len() {
                let mut edits = edits.clone();
                edits.remove(edit);
                let mut fewer = steps.clone();
                fewer[i] = Step::Store(edits);
                cases.push(with_steps(case, fewer));
            }
        }
    }
    cases
}

/// Plainer doubles than this one, the plainest first.
fn plainer_doubles(bits: u64) -> Vec<u64> {
    let plain = [0.0, 1.0, 0.5, 2.0, -1.0].map(f64::to_bits);
    let place = plain.iter().position(|&other| other == bits);
    plain[..place.unwrap_or(plain.len())].to_vec()
}

fn plainer_calls(call: Call) -> Vec<Call> {
    let doubles = |bits: u64| plainer_doubles(bits).into_iter();
    match call {
        Call::Update(delta) => doubles(delta).map(Call::Update).collect(),
        Call::Speed(speed) => doubles(speed).map(Call::Speed).collect(),
        Call::Set(parameter, value) => {
            let words = compare::simplify::simpler_words(value).into_iter();
            words.map(|word| Call::Set(parameter, word)).collect()
        }
        Call::Frame(ext, length) => doubles(ext).map(|ext| Call::Frame(ext, length)).collect(),
        Call::Page(ext, length) => {
            let mut calls = vec![Call::Frame(ext, length)];
            calls.extend(doubles(ext).map(|ext| Call::Page(ext, length)));
            calls
        }
        Call::Loops(state, node, time) => plainer_questions(state, node, time),
    }
}

fn plainer_questions(state: usize, node: usize, time: u32) -> Vec<Call> {
    let times = compare::simplify::simpler_words(time).into_iter();
    let states = smaller_numbers(state).into_iter();
    let nodes = smaller_numbers(node).into_iter();
    let times = times.map(|time| Call::Loops(state, node, time));
    let states = states.map(|state| Call::Loops(state, node, time));
    let nodes = nodes.map(|node| Call::Loops(state, node, time));
    states.chain(nodes).chain(times).collect()
}

fn smaller_numbers(number: usize) -> Vec<usize> {
    let mut numbers = vec![0, 1, number / 2, number.saturating_sub(1)];
    numbers.retain(|&smaller| smaller < number);
    numbers
}

fn plainer_steps(case: &Case) -> Vec<Case> {
    let mut cases = Vec::new();
    for (i, step) in case.steps.iter().enumerate() {
        let steps: Vec<Step> = match step {
            Step::Call(call) => plainer_calls(*call).into_iter().map(Step::Call).collect(),
            Step::Other(_, call) => vec![Step::Call(*call)],
            Step::Store(_) => Vec::new(),
        };
        for step in steps {
            let mut plainer = case.steps.clone();
            plainer[i] = step;
            cases.push(with_steps(case, plainer));
        }
    }
    cases
}

fn smaller_figures(case: &Case) -> Vec<Case> {
    let drafts = smaller_drafts(&case.draft).into_iter();
    drafts.flat_map(|draft| fitting(case, draft)).collect()
}

fn plainer_figures(case: &Case) -> Vec<Case> {
    let drafts = plainer_drafts(&case.draft).into_iter();
    drafts.flat_map(|draft| fitting(case, draft)).collect()
}

/// The case with another figure. Outputs that were just long enough are so again.
fn fitting(case: &Case, draft: Draft) -> Vec<Case> {
    let lengths = [&case.draft, &draft].map(|draft| 16 * draft.parents.len());
    let with = |asked: Renumbered| {
        let steps = case.steps.iter().map(|step| match step {
            Step::Call(call) => Step::Call(fitted(*call, lengths, asked)),
            other => other.clone(),
        });
        Case {
            steps: steps.collect(),
            draft: draft.clone(),
        }
    };
    renumberings(case, &draft).into_iter().map(with).collect()
}

/// The state and node of a question, in another figure.
type Renumbered = fn(usize, usize) -> (usize, usize);

/// As they were; and where the figure has a state less or a smaller tree, as what has moved down.
fn renumberings(case: &Case, draft: &Draft) -> Vec<Renumbered> {
    let is_question = |step: &Step| matches!(step, Step::Call(Call::Loops(..)));
    let mut all: Vec<Renumbered> = vec![|state, node| (state, node)];
    if !case.steps.iter().any(is_question) {
        return all;
    }
    let [old, new] = [&case.draft, draft].map(|draft| {
        let states = draft.states.iter();
        states
            .map(|state| state.nodes.len())
            .collect::<Vec<usize>>()
    });
    if new.len() < old.len() {
        all.push(|state, node| (state.saturating_sub(1), node));
    } else if new < old {
        all.push(|state, _| (state, 0));
    }
    all
}

fn fitted(call: Call, [old, new]: [usize; 2], asked: Renumbered) -> Call {
    let fitted = |length: usize| if length == old { new } else { length };
    match call {
        Call::Frame(ext, length) => Call::Frame(ext, fitted(length)),
        Call::Page(ext, length) => Call::Page(ext, fitted(length)),
        Call::Loops(state, node, time) => {
            let (state, node) = asked(state, node);
            Call::Loops(state, node, time)
        }
        other => other,
    }
}

#[cfg(test)]
mod tests {
    use super::*;
    use crate::abi::Library;
    use crate::faults::{Fault, Faulty};
    use crate::loops_sweep;

    /// Node 1 of state 1, in a figure of three states, is found again as the only node of the only state.
    #[test]
    fn a_question_stays_with_its_clip() {
        let faulty = Faulty {
            library: &Library,
            fault: Fault::LoopsByCeiling,
        };
        let is_asked = |case: &Case| {
            let last = case.steps.last();
            let is_node = matches!(last, Some(Step::Call(Call::Loops(1, 1, _))));
            is_node && case.draft.states.len() == 3
        };
        let shows = |case: &Case| run(case, &faulty, &mut Counts::default()).is_some();
        let mut cases = loops_sweep::cases().filter(is_asked);
        let (least, _) = shrunk(&cases.find(shows).unwrap(), &faulty);
        let nodes: Vec<usize> = least.draft.states.iter().map(|s| s.nodes.len()).collect();
        assert_eq!(nodes, [1]);
        assert_eq!(least.steps.len(), 1);
        assert!(matches!(
            least.steps[0],
            Step::Call(Call::Loops(0, 0, time)) if time > 0
        ));
    }
}
