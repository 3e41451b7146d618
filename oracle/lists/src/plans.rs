//! Plans of all sorts with number counts of all sorts, put to the start.

use crate::endings::clip_words;
use crate::evaluator::{Answer, Evaluator, HostLoops, HostPlayer, Question};
use crate::parents::parent_words;
use crate::run::{difference, floats, same, Counts};
use compare::generator::Generator;
use compare::reference::Reference;
use compare::texts::figure::Figure;
use compare::texts::joints::{ROOT, RUST_ROOT};
use compare::texts::random_figure::{accepted, figure};

/// At the limits of counts, and beside them.
const ODD_WORDS: [u16; 29] = [
    0, 1, 2, 3, 4, 5, 6, 7, 15, 16, 17, 30, 31, 32, 33, 63, 64, 65, 254, 255, 256, 257, 399, 400,
    401, 4096, 4097, 65534, 65535,
];

/// A figure as a host may hold it: right, with a wrong word, cut, or nothing but words.
pub fn random_plan(generator: &mut Generator) -> Figure {
    let mut plan = match generator.below(8) {
        0 => return words(generator),
        1..=4 => accepted(generator).figure(),
        _ => figure(generator).figure(),
    };
    let times = generator.below(4).saturating_sub(1);
    for _ in 0..times {
        damage(generator, &mut plan);
    }
    plan
}

/// Small words mostly, by which a plan goes on for a while.
fn words(generator: &mut Generator) -> Figure {
    let length = generator.below(40);
    let limit = 1 + generator.below(4);
    let word = |_| match generator.below(12) {
        0 => generator.pick(&ODD_WORDS),
        1 => generator.pick(&[RUST_ROOT, ROOT]),
        _ => generator.below(limit) as u16,
    };
    let plan = (0..length).map(word).collect();
    let numbers = vec![0; generator.below(40) as usize];
    Figure { plan, numbers }
}

fn place(generator: &mut Generator, length: usize) -> usize {
    generator.below(length.max(1) as u64) as usize
}

fn odd_word(generator: &mut Generator) -> u16 {
    match generator.below(8) {
        0 => generator.draw() as u16,
        _ => generator.pick(&ODD_WORDS),
    }
}

pub fn damage(generator: &mut Generator, figure: &mut Figure) {
    let Figure { plan, numbers } = figure;
    // The first words say how the others are read.
    let front = if generator.below(3) == 0 { 9 } else { 999 };
    let at = place(generator, plan.len().min(front));
    match generator.below(14) {
        0 => plan.truncate(at),
        1 => plan.insert(at.min(plan.len()), odd_word(generator)),
        2 if !plan.is_empty() => drop(plan.remove(at)),
        3 => plan.push(odd_word(generator)),
        4 => drop(plan.pop()),
        5 => numbers.push(0),
        6 => drop(numbers.pop()),
        7 => numbers.truncate(place(generator, numbers.len())),
        8 if !plan.is_empty() => {
            let other = place(generator, plan.len());
            plan.swap(at, other);
        }
        9 => damage_clips(generator, plan),
        10 => damage_parents(generator, plan),
        _ if plan.is_empty() => {}
        _ => plan[at] = odd_word(generator),
    }
}

/// Words for roots and for joints about this one, some of them wrong. Above 64 joints 255 is no root.
fn damage_parents(generator: &mut Generator, plan: &mut [u16]) {
    let places = parent_words(plan);
    if places.is_empty() {
        return;
    }
    for _ in 0..=generator.below(3) {
        let joint = place(generator, places.len());
        let number = joint as u16;
        let about = [number, number.saturating_sub(1), number + 1];
        let words = [RUST_ROOT, RUST_ROOT, ROOT, 254, 256, ROOT - 1];
        plan[places.start + joint] = generator.pick(&[&about[..], &words].concat());
    }
}

/// Counts and endings about their limits: of several wrong ones the first decides.
fn damage_clips(generator: &mut Generator, plan: &mut [u16]) {
    let places: Vec<usize> = clip_words(plan).collect();
    if places.is_empty() {
        return;
    }
    for _ in 0..=generator.below(3) {
        let place = generator.pick(&places);
        let is_count = (place - places[0]).is_multiple_of(2);
        plan[place] = if is_count {
            generator.pick(&[0, 1, 4096, 4097, 4097, 65535])
        } else {
            generator.pick(&[0, 1, 2, 2, 3, 255, 4097, 65535])
        };
    }
}

/// Asked of a refused figure, where 16 would be the answer of any other.
const NOWHERE: Question = Question {
    state: 16,
    node: 31,
    time: 1.5,
};

/// Whether the start answers the figure as the reference does, and stores the same player; where it is
/// refused, a question for loops has to be refused alike.
pub fn same_start(
    figure: &Figure,
    evaluator: &dyn Evaluator,
    counts: &mut Counts,
) -> Result<(), String> {
    let mut player = HostPlayer::UNUSED;
    let answer = evaluator.start(&figure.plan, &floats(figure), &mut player);
    let reference = Reference::start(figure);
    let expected = Answer::of(reference.answer());
    counts.calls += 1;
    same("the answer", &expected, &answer)?;
    if let Err(refusal) = reference.answer() {
        *counts.refused.entry(expected.number).or_default() += 1;
        let asked = evaluator.loops(&figure.plan, &floats(figure), &mut player, NOWHERE);
        let expected = HostLoops::of(Err(refusal));
        same("a question for loops", &expected, &asked)?;
    }
    let (expected, actual) = (reference.player().seen(), player.player().seen());
    if expected != actual || !player.is_tidy() {
        return Err(difference(&expected, &actual));
    }
    let joints = figure.plan.first().map_or(0, |&word| usize::from(word));
    let length = evaluator.output_length(&figure.plan);
    same("the output length", &(16 * joints), &length)
}

/// The figure with less in it, while the start's answer or player is wrong.
pub fn smallest(figure: &Figure, evaluator: &dyn Evaluator) -> (Figure, String) {
    let what = |figure: &Figure| same_start(figure, evaluator, &mut Counts::default()).err();
    let mut least = figure.clone();
    let mut found = what(figure).unwrap_or_default();
    while let Some((smaller, what)) = smaller_figures(&least)
        .into_iter()
        .find_map(|figure| what(&figure).map(|what| (figure, what)))
    {
        (least, found) = (smaller, what);
    }
    (least, found)
}

/// Without one of its words, with a word as a smaller one, or with other number counts.
pub fn smaller_figures(figure: &Figure) -> Vec<Figure> {
    let mut figures = Vec::new();
    for length in [
        0,
        figure.numbers.len() / 2,
        figure.numbers.len().saturating_sub(1),
    ] {
        if length < figure.numbers.len() {
            let mut smaller = figure.clone();
            smaller.numbers.truncate(length);
            figures.push(smaller);
        }
    }
    for (i, &word) in figure.plan.iter().enumerate().rev() {
        let mut smaller = figure.clone();
        smaller.plan.remove(i);
        figures.push(smaller);
        for less in [0, word / 2, word.saturating_sub(1)] {
            if less < word {
                let mut smaller = figure.clone();
                smaller.plan[i] = less;
                figures.push(smaller);
            }
        }
    }
    figures
}
