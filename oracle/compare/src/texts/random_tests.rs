//! Random cases are of all sorts, and wrong answers to them are found, whichever kind they are of.

use super::case::{Case, Kind};
use super::figure::Refusal;
use super::plan::{check, Node, Plan};
use super::printed::{printed, read, LONGEST};
use super::random::{mismatches, random_cases};
use super::shares::{unused, Shares};
use super::shrink;
use super::uses::{marks, shown};
use crate::model::uses::{targets, uses, uses_of, Uses};
use std::io;

const SEED: u64 = 5;

const HEADER: usize = "uses,00000000\n".len();

fn reference(cases: &[Case]) -> io::Result<Vec<Vec<u8>>> {
    let answer = |case: &Case| case.answer().into_bytes();
    Ok(cases.iter().map(answer).collect())
}

#[test]
fn enough_texts_are_read_and_played() {
    let shares = Shares::of(Kind::Text, &random_cases(6000, SEED));
    let (read, played) = (shares.read(), shares.accepted());
    assert!(read * 3 >= shares.cases, "{}", shares.sentence());
    assert!(played * 5 >= shares.cases, "{}", shares.sentence());
    let numbers: Vec<u8> = shares.refused.into_keys().collect();
    assert_eq!(numbers, [2, 3, 4, 5, 11, 13, 14]);
}

/// About a third of the cases are for uses. Of these enough are accepted, with marks of 0 too, and there
/// is each refusal that a text can get.
#[test]
fn enough_uses_are_asked_for() {
    let cases = random_cases(12000, SEED);
    let shares = Shares::of(Kind::Uses, &cases);
    let unused = unused(&cases);
    let sentence = shares.uses_sentence(unused);
    assert!((3800..4200).contains(&shares.cases), "{sentence}");
    assert!(shares.accepted() * 3 >= shares.cases, "{sentence}");
    assert!(unused.iter().all(|&count| count * 8 >= shares.cases));
    let numbers: Vec<u8> = shares.refused.into_keys().collect();
    assert_eq!(numbers, [2, 3, 4, 5, 11, 13, 14]);
}

#[test]
fn cases_are_as_long_as_the_format_allows() {
    let cases = random_cases(4000, SEED);
    assert!(cases.iter().all(|case| case.bytes.len() <= LONGEST + 1));
}

/// How many mismatches there are in 400 cases with spoiled answers.
fn found(spoil: impl Fn(&[Case], &mut Vec<Vec<u8>>)) -> Option<usize> {
    let subject = |cases: &[Case]| {
        let mut answers = reference(cases)?;
        spoil(cases, &mut answers);
        Ok(answers)
    };
    let found = mismatches(&random_cases(400, SEED), &subject);
    found.ok().map(|found| found.len())
}

#[test]
fn wrong_answers_are_found() {
    assert_eq!(found(|_, _| {}), Some(0));
    for kind in [Kind::Text, Kind::Uses] {
        let spoil = |cases: &[Case], answers: &mut Vec<Vec<u8>>| {
            let first = cases.iter().position(|case| case.kind == kind).unwrap();
            answers[first].push(b'\n');
        };
        assert_eq!(found(spoil), Some(1));
    }
    assert_eq!(found(|_, answers| drop(answers.pop())), Some(1));
    assert_eq!(found(|_, answers| answers.truncate(10)), Some(1));
    assert_eq!(found(|_, answers| answers.push(b"text,\n".to_vec())), None);
}

/// A program that minds no CR: the smallest text that shows it has nothing but one, of either kind.
#[test]
fn the_shown_cases_are_small() {
    let careless = |cases: &[Case]| {
        let mut answers = reference(cases)?;
        for (case, answer) in cases.iter().zip(&mut answers) {
            if case.bytes.contains(&b'\r') {
                answer.extend(b"joint,0\n");
            }
        }
        Ok(answers)
    };
    let found = mismatches(&random_cases(400, SEED), &careless).unwrap();
    let shown = shrink::shown(found, &careless).unwrap();
    let shown: Vec<Case> = shown.into_iter().map(|mismatch| mismatch.case).collect();
    assert_eq!(shown, [Case::text(*b"\r"), Case::uses(*b"\r")]);
}

/// What a faulty program makes of the marks.
type Fault = (&'static str, fn(Plan, Uses) -> Uses);

const FAULTS: [Fault; 13] = [
    ("every state reached", |plan, uses| {
        uses_of(&plan, vec![true; uses.states.len()])
    }),
    ("from state 0", |plan, _| {
        let most = plan.states.len();
        uses_of(&plan, within(&plan, 0, most))
    }),
    ("no step", |plan, _| {
        uses_of(&plan, within(&plan, plan.initial, 0))
    }),
    ("a step too few", |plan, _| {
        let most = plan.states.len().saturating_sub(2);
        uses_of(&plan, within(&plan, plan.initial, most))
    }),
    ("unreachable states read", |plan, uses| Uses {
        parameters: uses_of(&plan, vec![true; uses.states.len()]).parameters,
        ..uses
    }),
    ("unreachable states play", |plan, uses| Uses {
        clips: uses_of(&plan, vec![true; uses.states.len()]).clips,
        ..uses
    }),
    ("conditions not read", |mut plan, uses| {
        let states = plan.states.iter_mut();
        states.for_each(|state| state.transitions.clear());
        uses_of(&plan, uses.states)
    }),
    ("lerp nodes not read", |plan, uses| {
        kept(plan, uses, |node| !matches!(node, Node::Lerp(_)))
    }),
    ("additive nodes not read", |plan, uses| {
        kept(plan, uses, |node| !matches!(node, Node::Additive(_)))
    }),
    ("empty clips not played", |plan, mut uses| {
        let clips = uses.clips.iter_mut().zip(&plan.clips);
        clips.for_each(|(mark, clip)| *mark &= !clip.is_empty());
        uses
    }),
    ("no last parameter", |_, mut uses| {
        uses.parameters.pop();
        uses
    }),
    ("one more clip", |_, mut uses| {
        uses.clips.push(false);
        uses
    }),
    ("other order", |_, uses| Uses {
        parameters: uses.clips,
        clips: uses.parameters,
        ..uses
    }),
];

/// Where so many transitions lead at the most.
fn within(plan: &Plan, first: u16, most: usize) -> Vec<bool> {
    let mut marks = vec![false; plan.states.len()];
    marks[usize::from(first)] = true;
    for _ in 0..most {
        let before = marks.clone();
        let from = plan.states.iter().zip(before).filter(|(_, mark)| *mark);
        for target in from.flat_map(|(state, _)| targets(state)) {
            marks[usize::from(target)] = true;
        }
    }
    marks
}

/// The marks by these nodes alone.
fn kept(mut plan: Plan, uses: Uses, is_kept: fn(&Node) -> bool) -> Uses {
    let states = plan.states.iter_mut();
    states.for_each(|state| state.nodes.retain(is_kept));
    uses_of(&plan, uses.states)
}

/// The smallest case that shows a program which answers uses cases so and all others right. None where
/// 1,200 cases show nothing.
fn smallest_shown(wrong: &dyn Fn(&[u8]) -> String) -> Option<Case> {
    let subject = |cases: &[Case]| {
        let mut answers = reference(cases)?;
        for (case, answer) in cases.iter().zip(&mut answers) {
            if case.kind == Kind::Uses {
                answer.truncate(HEADER);
                answer.extend(wrong(&case.bytes).bytes());
            }
        }
        Ok(answers)
    };
    let found = mismatches(&random_cases(1200, SEED), &subject).unwrap();
    let mut shown = shrink::shown(found, &subject).unwrap();
    assert!(shown.len() <= 1, "one kind alone is answered wrongly");
    shown.pop().map(|mismatch| mismatch.case)
}

#[test]
fn right_uses_have_no_mismatch() {
    assert_eq!(smallest_shown(&super::uses::printed), None);
}

#[test]
fn wrong_marks_are_found() {
    for (name, fault) in FAULTS {
        let wrong = |text: &[u8]| match read(text).map(|figure| (check(&figure), uses(&figure))) {
            Ok((Ok(plan), Ok(uses))) => shown(&fault(plan, uses)),
            _ => super::uses::printed(text),
        };
        let case = smallest_shown(&wrong).expect(name);
        assert_eq!(case.kind, Kind::Uses, "{name}");
        assert!(marks(&case.bytes).is_ok(), "{name}");
        assert!(
            case.bytes.len() <= 400,
            "{name}: {} bytes",
            case.bytes.len()
        );
    }
}

/// What is printed wrongly: as for a text, without the first line or the last, a refusal at another
/// place, and marks where the figure is refused.
#[test]
fn wrong_lines_are_found() {
    let right = super::uses::printed;
    let refused_elsewhere = |text: &[u8]| match marks(text) {
        Err(Refusal { number: 4, place }) => format!("refused,4,{}\n", place + 1),
        _ => right(text),
    };
    let never_refused = |text: &[u8]| match marks(text) {
        Err(Refusal { number: 14, .. }) => "ok\n".to_string(),
        _ => right(text),
    };
    let wrong: [&dyn Fn(&[u8]) -> String; 6] = [
        &printed,
        &|text| right(text).replace("ok\n", ""),
        &|text| right(text).replace("clip,0,1\n", "clip,0,1"),
        &|text| right(text).replace("state,1,", "state,01,"),
        &refused_elsewhere,
        &never_refused,
    ];
    for (i, wrong) in wrong.into_iter().enumerate() {
        let case = smallest_shown(wrong).map(|case| case.kind);
        assert_eq!(case, Some(Kind::Uses), "{i}");
    }
}
