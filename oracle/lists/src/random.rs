//! Random figures with random steps, random plans and random texts, and behind each the fixed ones.

use crate::evaluator::{Evaluator, HostPlayer};
use crate::loops;
use crate::loops_sweep;
use crate::page_sweep;
use crate::plans::{self, random_plan, same_start};
use crate::run::{run, run_steps, same, Case, Counts, Mismatch};
use crate::shrink::shrunk;
use crate::step::{random_steps, Step};
use crate::sweep;
use crate::texts::{self, random_reading, same_reading};
use crate::uses::{self, same_uses};
use compare::generator::Generator;
use compare::lists::call::parsed;
use compare::lists::recorded::lists;
use compare::texts::figure::Figure;
use compare::texts::printed::read;
use compare::texts::random_figure::accepted;
use std::path::Path;
use std::{fs, io};

/// How many cases are tried for one that can be replayed.
const SOME_CASES: usize = 4000;

/// How much is compared.
#[derive(Clone, Copy)]
pub struct Amounts {
    /// Accepted frames at least.
    pub frames: usize,
    pub plans: usize,
    pub texts: usize,
}

/// What a comparison found first.
pub enum Found {
    Nothing,
    List(Box<Case>),
    Plan(Figure),
    /// A figure whose uses are others.
    Uses(Figure),
    /// Marks of a kind that were all alike, which shows nothing.
    Alike(&'static str),
    /// A kind of question for loops that did not come, which shows nothing either.
    Missing(&'static str),
    Text(texts::Reading),
    /// A recorded list, by its name.
    Recorded(String, Mismatch),
    Size(String),
}

pub fn random_case(generator: &mut Generator) -> Case {
    let draft = accepted(generator);
    let steps = random_steps(generator, &draft, random_plan);
    Case { draft, steps }
}

/// The recorded lists that can be read, through the library's calls.
fn recorded(evaluator: &dyn Evaluator, counts: &mut Counts) -> Option<Found> {
    for list in lists() {
        let (Ok(figure), Ok(calls)) = (read(&list.figure), parsed(&list.calls)) else {
            continue;
        };
        let steps: Vec<Step> = calls.into_iter().map(Step::Call).collect();
        if let Some(mismatch) = run_steps(&figure, &steps, evaluator, counts) {
            return Some(Found::Recorded(list.name, mismatch));
        }
    }
    None
}

/// So many plans, and those that no seed changes: the start of each and what it uses.
fn plans(
    evaluator: &dyn Evaluator,
    count: usize,
    generator: &mut Generator,
    [starts, asked]: [&mut Counts; 2],
) -> Option<Found> {
    let random = (0..count).map(|_| random_plan(generator));
    for figure in random.chain(sweep::plans()) {
        if same_start(&figure, evaluator, starts).is_err() {
            return Some(Found::Plan(figure));
        }
        if same_uses(&figure, evaluator, asked).is_err() {
            return Some(Found::Uses(figure));
        }
    }
    None
}

/// The first mismatch, and what was compared up to it: lists, plans, texts and uses.
pub fn compare(evaluator: &dyn Evaluator, amounts: Amounts, seed: u64) -> (Found, [Counts; 4]) {
    let mut generator = Generator::new(seed);
    let mut counts = [(); 4].map(|_| Counts::default());
    let size = same(
        "the size of a player",
        &std::mem::size_of::<HostPlayer>(),
        &evaluator.player_size(),
    );
    if let Err(what) = size {
        return (Found::Size(what), counts);
    }
    let readings = (0..amounts.texts).map(|_| random_reading(&mut generator));
    for reading in readings.chain(sweep::readings()) {
        if same_reading(&reading, evaluator, &mut counts[2]).is_err() {
            return (Found::Text(reading), counts);
        }
    }
    let [_, starts, _, asked] = &mut counts;
    let found = plans(evaluator, amounts.plans, &mut generator, [starts, asked]);
    let found = found.or_else(|| uses::compare(evaluator, amounts.plans, seed, asked));
    if let Some(found) = found {
        return (found, counts);
    }
    let found = random_lists(evaluator, amounts.frames, &mut generator, &mut counts[0]);
    let found = found.or_else(|| fixed_lists(evaluator, &mut counts[0]));
    (found.unwrap_or(Found::Nothing), counts)
}

/// Until so many frames were accepted. Each kind of question for loops has to be among them; the fixed
/// lists would bring it in at once.
fn random_lists(
    evaluator: &dyn Evaluator,
    frames: usize,
    generator: &mut Generator,
    counts: &mut Counts,
) -> Option<Found> {
    while counts.frames < frames {
        let case = random_case(generator);
        if run(&case, evaluator, counts).is_some() {
            return Some(Found::List(Box::new(case)));
        }
    }
    let is_enough = frames >= loops::ENOUGH;
    let missing = is_enough.then(|| counts.loops.missing()).flatten();
    missing.map(Found::Missing)
}

/// Those that no seed changes.
fn fixed_lists(evaluator: &dyn Evaluator, counts: &mut Counts) -> Option<Found> {
    let cases = sweep::cases().chain(page_sweep::cases());
    for case in cases.chain(loops_sweep::cases()) {
        if run(&case, evaluator, counts).is_some() {
            return Some(Found::List(Box::new(case)));
        }
    }
    recorded(evaluator, counts)
}

/// Compares, and prints what was compared and the smallest form of what was found. A list goes into
/// two files in `folder`.
pub fn random(
    evaluator: &dyn Evaluator,
    amounts: Amounts,
    seed: u64,
    folder: &Path,
) -> io::Result<bool> {
    println!("lists: seed {seed}");
    let (found, [lists, plans, texts, asked]) = compare(evaluator, amounts, seed);
    println!("lists: {}", sentence(&lists));
    println!("lists: {}", lists.loops.sentence());
    println!(
        "lists: {} plans and {} texts; refused: {}; {}",
        plans.calls,
        texts.calls,
        refusals(&plans),
        refusals(&texts)
    );
    println!("lists: {}", uses::sentence(&asked));
    print_found(&found, evaluator, folder)?;
    Ok(matches!(found, Found::Nothing))
}

fn print_found(found: &Found, evaluator: &dyn Evaluator, folder: &Path) -> io::Result<()> {
    match found {
        Found::Nothing => println!("lists: no mismatch"),
        Found::List(case) => {
            let (case, mismatch) = shrunk(case, evaluator);
            let is_replayed = print_case(&case, &mismatch, folder)?;
            if let Some(other) = (!is_replayed).then(|| by_calls(evaluator)).flatten() {
                let (case, mismatch) = shrunk(&other, evaluator);
                print_case(&case, &mismatch, folder)?;
            }
        }
        Found::Plan(figure) => {
            let (least, what) = plans::smallest(figure, evaluator);
            let numbers = least.numbers.len();
            println!("start of the plan {:?} with {numbers} numbers", least.plan);
            println!("mismatch in {what}");
        }
        Found::Uses(figure) => uses::print(figure, evaluator, folder)?,
        Found::Alike(kind) => println!("lists: the marks of {kind} were all alike"),
        Found::Missing(kind) => println!("lists: 0 questions for loops {kind}"),
        Found::Text(reading) => {
            let (least, what) = texts::smallest(reading, evaluator);
            let (words, numbers) = (least.words, least.numbers);
            println!("reading into {words} words and {numbers} numbers of the text");
            println!("{}", least.text.escape_ascii());
            println!("mismatch in {what}");
        }
        Found::Recorded(name, Mismatch { step, what }) => {
            println!("recorded list {name}, mismatch after call {step}\nin {what}");
        }
        Found::Size(what) => println!("mismatch in {what}"),
    }
    Ok(())
}

/// A case that shows some mismatch by calls alone, which a host can replay from files.
fn by_calls(evaluator: &dyn Evaluator) -> Option<Case> {
    let mut generator = Generator::new(0);
    let plain = |mut case: Case| {
        case.steps.retain(|step| step.has_text());
        case
    };
    (0..SOME_CASES)
        .map(|_| plain(random_case(&mut generator)))
        .find(|case| run(case, evaluator, &mut Counts::default()).is_some())
}

pub fn refusals(counts: &Counts) -> String {
    let refusal = |(number, count): (&usize, &usize)| format!("{number} {count} times");
    let all: Vec<String> = counts.refused.iter().map(refusal).collect();
    all.join(", ")
}

fn sentence(counts: &Counts) -> String {
    let Counts {
        figures,
        rusts,
        wide,
        calls,
        frames,
        clean,
        held,
        paused,
        begun,
        ended,
        stores,
        ..
    } = counts;
    format!(
        "{frames} accepted frames ({clean} without NaN, {held} that show a held clip, {paused} an empty one) \
         in {calls} calls to {figures} figures, {rusts} of them played by the Rust too, {wide} of more than 64 joints, \
         {begun} transitions begun, {ended} ended, {stores} players changed by the host; refused: {}",
        refusals(counts)
    )
}

/// Prints the case, and writes it to files where it can be replayed from these.
fn print_case(case: &Case, mismatch: &Mismatch, folder: &Path) -> io::Result<bool> {
    let figure = case.draft.text();
    let steps: String = case.steps.iter().map(|step| step.line()).collect();
    println!(
        "figure\n{figure}calls\n{steps}mismatch after call {}",
        mismatch.step
    );
    println!("in {}", mismatch.what);
    if !case.steps.iter().all(|step| step.has_text()) {
        println!("lists: what stands in brackets cannot be replayed from files");
        return Ok(false);
    }
    fs::create_dir_all(folder)?;
    let [figure_file, calls_file] = ["mismatch.figure", "mismatch.calls"].map(|f| folder.join(f));
    fs::write(&figure_file, figure)?;
    fs::write(&calls_file, steps)?;
    for command in ["target/bin/replay", "compare replay"] {
        println!(
            "{command} {} {}",
            figure_file.display(),
            calls_file.display()
        );
    }
    Ok(true)
}
