//! A figure with steps, put to the evaluator and to the reference side by side.

use crate::endings::Looping;
use crate::evaluator::{Answer, Evaluator, HostLoops, HostPlayer, Question, Shown};
use crate::loops::{Asked, LoopsCounts};
use crate::output::Output;
use crate::pauses::Pauses;
use crate::step::{Edit, Step};
use compare::lists::call::Call;
use compare::lists::report::player_line;
use compare::model::figure::Checked;
use compare::model::loops::Played;
use compare::player::Seen;
use compare::reference::Reference;
use compare::texts::draft::Draft;
use compare::texts::figure::{Figure, Refusal};
use compare::texts::joints::RUST_JOINTS;
use std::collections::BTreeMap;

#[derive(Clone, Debug)]
pub struct Case {
    pub draft: Draft,
    pub steps: Vec<Step>,
}

/// Where a case shows a difference, and which.
#[derive(Clone, Debug)]
pub struct Mismatch {
    /// 0 is the start, 1 the first step.
    pub step: usize,
    pub what: String,
}

/// What was compared so far.
#[derive(Clone, Debug, Default)]
pub struct Counts {
    pub figures: usize,
    /// Those that the Rust plays too.
    pub rusts: usize,
    /// Those of more joints than the Rust has.
    pub wide: usize,
    pub calls: usize,
    /// Accepted frames and page frames.
    pub frames: usize,
    /// Those in which no float was NaN.
    pub clean: usize,
    /// Those in which a held clip shows: they would be others if all clips looped.
    pub held: usize,
    /// Those in which a state is shown that plays an empty clip.
    pub paused: usize,
    pub begun: usize,
    pub ended: usize,
    pub stores: usize,
    pub refused: BTreeMap<usize, usize>,
    /// How many marks were 0 and 1, of states, of parameters and of clips.
    pub marks: [[usize; 2]; 3],
    /// Answers to questions for loops.
    pub loops: LoopsCounts,
}

/// The case's first difference.
pub fn run(case: &Case, evaluator: &dyn Evaluator, counts: &mut Counts) -> Option<Mismatch> {
    run_steps(&case.draft.figure(), &case.steps, evaluator, counts)
}

pub fn run_steps(
    figure: &Figure,
    steps: &[Step],
    evaluator: &dyn Evaluator,
    counts: &mut Counts,
) -> Option<Mismatch> {
    counts.figures += 1;
    let (mut run, mut done) = Run::start(evaluator, figure, counts);
    let mut step = 0;
    while done.is_ok() && step < steps.len() {
        done = run.step(&steps[step]);
        step += 1;
    }
    done.err().map(|what| Mismatch { step, what })
}

struct Run<'a> {
    evaluator: &'a dyn Evaluator,
    figure: &'a Figure,
    numbers: Vec<f32>,
    player: HostPlayer,
    reference: Reference,
    looping: Looping,
    pauses: Pauses,
    counts: &'a mut Counts,
}

pub fn floats(figure: &Figure) -> Vec<f32> {
    let numbers = figure.numbers.iter();
    numbers.map(|&bits| f32::from_bits(bits)).collect()
}

type Matrices = Vec<[[f32; 4]; 4]>;

impl<'a> Run<'a> {
    fn start(
        evaluator: &'a dyn Evaluator,
        figure: &'a Figure,
        counts: &'a mut Counts,
    ) -> (Run<'a>, Result<(), String>) {
        let numbers = floats(figure);
        let mut player = HostPlayer::UNUSED;
        let answer = evaluator.start(&figure.plan, &numbers, &mut player);
        let reference = Reference::start(figure);
        let expected = Answer::of(reference.answer());
        counts.rusts += usize::from(expected.is_accepted() && reference.is_rust());
        let is_wide = figure.plan.first() > Some(&RUST_JOINTS);
        counts.wide += usize::from(expected.is_accepted() && is_wide);
        let mut run = Run {
            evaluator,
            figure,
            numbers,
            player,
            reference,
            looping: Looping::new(figure),
            pauses: Pauses::new(figure),
            counts,
        };
        let done = run.same_answer(answer, expected);
        let done = done.and_then(|()| run.same_player(true));
        (run, done)
    }

    fn step(&mut self, step: &Step) -> Result<(), String> {
        match step {
            Step::Call(call) => self.call(*call),
            Step::Store(edits) => {
                self.store(edits);
                Ok(())
            }
            Step::Other(figure, Call::Loops(state, node, time)) => {
                self.other_loops(figure, question(*state, *node, *time))
            }
            Step::Other(figure, call) => self.other(figure, *call),
        }
    }

    fn store(&mut self, edits: &[Edit]) {
        for edit in edits {
            edit.store(&mut self.player);
        }
        self.reference.store(&self.player.player());
        self.counts.stores += 1;
    }

    fn call(&mut self, call: Call) -> Result<(), String> {
        let answers = match call {
            Call::Update(delta) => {
                let delta = f64::from_bits(delta);
                self.evaluator.update(&mut self.player, delta);
                self.reference.update(delta);
                [Answer::of(Ok(())); 2]
            }
            Call::Speed(speed) => {
                let speed = f64::from_bits(speed);
                self.evaluator.speed(&mut self.player, speed);
                self.reference.speed(speed);
                [Answer::of(Ok(())); 2]
            }
            Call::Set(parameter, value) => {
                let value = f32::from_bits(value);
                let answer = self.evaluator.set(&mut self.player, parameter, value);
                let expected = self.reference.set(parameter, value);
                [answer, Answer::of(expected)]
            }
            Call::Frame(..) | Call::Page(..) => return self.frame(call),
            Call::Loops(state, node, time) => return self.loops(question(state, node, time)),
        };
        self.same_answer(answers[0], answers[1])?;
        self.same_player(answers[1].is_accepted())
    }

    fn frame(&mut self, call: Call) -> Result<(), String> {
        let (shown, ext, length) = frame_arguments(call);
        let mut output = Output::new(length);
        let answer = self.evaluator.frame(
            shown,
            &self.figure.plan,
            &self.numbers,
            &mut self.player,
            ext,
            output.slice(),
        );
        let before = self.reference.player();
        let expected = shown_by(&mut self.reference, call);
        self.count_steps(before.transition.is_some());
        if let Ok(matrices) = &expected {
            let is_held = self.looping.differs(&before, (shown, ext), matrices);
            self.counts.held += usize::from(is_held);
            let is_paused = self.pauses.are_shown(&self.reference.player());
            self.counts.paused += usize::from(is_paused);
        }
        self.same_frame(answer, expected, &output)
    }

    /// The player is lent to another figure for a frame.
    fn other(&mut self, figure: &Figure, call: Call) -> Result<(), String> {
        let (shown, ext, length) = frame_arguments(call);
        let mut output = Output::new(length);
        let numbers = floats(figure);
        let (plan, player) = (&figure.plan, &mut self.player);
        let answer = self
            .evaluator
            .frame(shown, plan, &numbers, player, ext, output.slice());
        let mut reference = Reference::resumed(figure, &self.reference.player());
        let expected = shown_by(&mut reference, call);
        self.reference.store(&reference.player());
        self.same_frame(answer, expected, &output)
    }

    fn loops(&mut self, question: Question) -> Result<(), String> {
        let expected = told_by(&self.reference, question);
        self.same_loops(self.figure, question, expected)
    }

    /// The player is shown to another figure.
    fn other_loops(&mut self, figure: &Figure, question: Question) -> Result<(), String> {
        let reference = Reference::resumed(figure, &self.reference.player());
        self.same_loops(figure, question, told_by(&reference, question))
    }

    /// Nothing of the player may change, so the reference's stays as it is.
    fn same_loops(
        &mut self,
        figure: &Figure,
        question: Question,
        expected: Result<Played, Refusal>,
    ) -> Result<(), String> {
        let before = self.player;
        let (plan, numbers) = (&figure.plan, floats(figure));
        let answer = self
            .evaluator
            .loops(plan, &numbers, &mut self.player, question);
        self.count_loops(figure, question, expected);
        self.same_answer(answer.answer(), Answer::of(expected.map(|_| ())))?;
        same("loops and rest", &HostLoops::of(expected), &answer)?;
        if before.bits() != self.player.bits() {
            let [before, after] = [before, self.player].map(|player| player.player().seen());
            let what = difference(&before, &after);
            return Err(format!("a player that is only read: {what}"));
        }
        Ok(())
    }

    fn count_loops(
        &mut self,
        figure: &Figure,
        question: Question,
        expected: Result<Played, Refusal>,
    ) {
        let counts = &mut self.counts.loops;
        if let Err(refusal) = expected {
            return counts.count_refused(refusal);
        }
        let figure = Checked::new(figure).ok();
        let asked = figure
            .as_ref()
            .and_then(|figure| Asked::new(figure, question));
        let asked = asked.expect("what is accepted is a clip node");
        counts.count_accepted(&asked, &self.reference.player());
    }

    fn same_frame(
        &mut self,
        answer: Answer,
        expected: Result<Matrices, Refusal>,
        output: &Output,
    ) -> Result<(), String> {
        self.same_answer(
            answer,
            Answer::of(expected.as_ref().map(|_| ()).map_err(|r| *r)),
        )?;
        if let Ok(matrices) = &expected {
            let is_nan = matrices.iter().flatten().flatten().any(|x| x.is_nan());
            self.counts.frames += 1;
            self.counts.clean += usize::from(!is_nan);
        }
        output.same(expected.as_ref().map_or(&[][..], |matrices| matrices))?;
        self.same_player(expected.is_ok())
    }

    fn count_steps(&mut self, before: bool) {
        let after = self.reference.is_running();
        self.counts.begun += usize::from(!before && after);
        self.counts.ended += usize::from(before && !after);
    }

    fn same_answer(&mut self, actual: Answer, expected: Answer) -> Result<(), String> {
        self.counts.calls += 1;
        if !expected.is_accepted() {
            *self.counts.refused.entry(expected.number).or_default() += 1;
        }
        same("the answer", &expected, &actual)
    }

    fn same_player(&self, written: bool) -> Result<(), String> {
        let (expected, actual) = (self.reference.player().seen(), self.player.player().seen());
        if expected != actual {
            return Err(difference(&expected, &actual));
        }
        if written && !self.player.is_tidy() {
            return Err("fields without meaning are not as calls write them".to_string());
        }
        Ok(())
    }
}

fn frame_arguments(call: Call) -> (Shown, f64, usize) {
    match call {
        Call::Frame(ext, length) => (Shown::Frame, f64::from_bits(ext), length),
        Call::Page(ext, length) => (Shown::Page, f64::from_bits(ext), length),
        _ => unreachable!("only frames show something"),
    }
}

fn question(state: usize, node: usize, time: u32) -> Question {
    let time = f32::from_bits(time);
    Question { state, node, time }
}

fn told_by(reference: &Reference, question: Question) -> Result<Played, Refusal> {
    reference.loops(question.state, question.node, question.time)
}

fn shown_by(reference: &mut Reference, call: Call) -> Result<Matrices, Refusal> {
    match frame_arguments(call) {
        (Shown::Frame, ext, length) => reference.frame(ext, length),
        (Shown::Page, ext, length) => reference.page_frame(ext, length),
    }
}

pub fn same<T: PartialEq + std::fmt::Debug>(
    what: &str,
    expected: &T,
    actual: &T,
) -> Result<(), String> {
    if expected == actual {
        return Ok(());
    }
    Err(format!(
        "{what}\n  reference  {expected:x?}\n  library    {actual:x?}"
    ))
}

/// Says where two players differ.
pub fn difference(expected: &Seen, actual: &Seen) -> String {
    let [reference, library] = [expected, actual].map(player_line);
    if reference != library {
        return format!(
            "the player\n  reference  {reference}  library    {}",
            library.trim_end()
        );
    }
    let mut checks = Vec::new();
    for (i, (a, b)) in expected
        .parameters
        .iter()
        .zip(&actual.parameters)
        .enumerate()
    {
        checks.push(same(&format!("parameter {i}"), a, b));
    }
    for (i, (a, b)) in expected.instances.iter().zip(&actual.instances).enumerate() {
        checks.push(same(&format!("clip instance {i}"), a, b));
    }
    let first = checks.into_iter().find_map(Result::err);
    first.unwrap_or_else(|| "fields without meaning".to_string())
}
