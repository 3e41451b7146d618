//! Random texts, put to the program and to the reference: what is printed for them, or what they use.

use super::case::{answers, Case};
use super::draft::Draft;
use super::limits::{long_text, Long};
use super::printed::LONGEST;
use super::random_figure::figure;
use super::shares;
use super::shrink;
use super::sparse_figure::sparse;
use super::spoil::spoiled;
use crate::generator::Generator;
use crate::program::output;
use std::io;
use std::path::Path;

/// What answers cases: the program, or in a test a stand-in for it.
pub type Subject<'a> = &'a dyn Fn(&[Case]) -> io::Result<Vec<Vec<u8>>>;

/// Runs the program on all cases at once.
pub fn run(program: &Path, cases: &[Case]) -> io::Result<Vec<Vec<u8>>> {
    let input = cases.iter().flat_map(Case::input).collect();
    Ok(answers(&output(program, input)?))
}

pub fn compare(subject: Subject, count: usize, seed: u64) -> io::Result<bool> {
    println!("compare: seed {seed}");
    let cases = random_cases(count, seed);
    let found = mismatches(&cases, subject)?;
    let total = found.len();
    for mismatch in shrink::shown(found, subject)? {
        print_mismatch(&mismatch);
    }
    for sentence in shares::sentences(&cases) {
        println!("compare: {sentence}");
    }
    println!("compare: {count} texts, seed {seed}, {total} mismatches");
    Ok(total == 0)
}

pub(super) fn random_cases(count: usize, seed: u64) -> Vec<Case> {
    let mut generator = Generator::new(seed);
    (0..count).map(|_| random_case(&mut generator)).collect()
}

fn random_case(generator: &mut Generator) -> Case {
    match generator.below(3) {
        0 => Case::uses(random_text(generator, figure_or_sparse)),
        _ => Case::text(random_text(generator, figure)),
    }
}

/// Of the first kind alone, few figures would have states that are not reachable.
fn figure_or_sparse(generator: &mut Generator) -> Draft {
    match generator.below(2) {
        0 => figure(generator),
        _ => sparse(generator),
    }
}

fn random_text(generator: &mut Generator, figure: fn(&mut Generator) -> Draft) -> Vec<u8> {
    match generator.below(400) {
        0 => near_limit(generator),
        1..=3 => (0..generator.below(200))
            .map(|_| generator.draw() as u8)
            .collect(),
        4..=200 => figure(generator).text().into_bytes(),
        _ => {
            let text = figure(generator).text().into_bytes();
            spoiled(generator, text)
        }
    }
}

fn near_limit(generator: &mut Generator) -> Vec<u8> {
    let length = LONGEST - 1 + generator.below(3) as usize;
    let long = generator.pick(&[Long::Rusts, Long::Widest]);
    match generator.below(4) {
        0 => vec![generator.draw() as u8; length],
        1 => {
            let text = long_text(generator, long, length).into_bytes();
            spoiled(generator, text)
        }
        _ => long_text(generator, long, length).into_bytes(),
    }
}

/// A case whose answer is not the reference's.
pub struct Mismatch {
    pub case: Case,
    pub expected: String,
    pub actual: Vec<u8>,
}

/// All mismatches, in order. Where an answer is missing, the cases after it are not counted.
pub fn mismatches(cases: &[Case], subject: Subject) -> io::Result<Vec<Mismatch>> {
    let answers = subject(cases)?;
    if answers.len() > cases.len() {
        let message = format!("{} answers to {} cases", answers.len(), cases.len());
        return Err(io::Error::other(message));
    }
    let mut found = Vec::new();
    for (i, case) in cases.iter().enumerate() {
        let expected = case.answer();
        let actual = answers.get(i).cloned().unwrap_or_default();
        if actual != expected.as_bytes() {
            found.push(Mismatch {
                case: case.clone(),
                expected,
                actual,
            });
        }
        if i >= answers.len() {
            break;
        }
    }
    Ok(found)
}

/// Each line of the bytes with what is not printable escaped, its LF too.
fn print_lines(name: &str, bytes: &[u8]) {
    println!("{name}");
    for line in bytes.split_inclusive(|&byte| byte == b'\n') {
        println!("    {}", line.escape_ascii());
    }
}

fn print_mismatch(mismatch: &Mismatch) {
    print_lines("case", &mismatch.case.input());
    print_lines("reference", mismatch.expected.as_bytes());
    print_lines("program", &mismatch.actual);
}
