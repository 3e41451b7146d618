//! Texts put to the library's reader, with slices too short, long enough and longer.

use crate::evaluator::{Evaluator, TextAnswer};
use crate::run::{same, Counts};
use compare::generator::Generator;
use compare::texts::figure::{Figure, Refusal};
use compare::texts::limits::MOST_WORDS;
use compare::texts::random_figure::figure;
use compare::texts::reader::read;
use compare::texts::spoil::spoiled;

const OLD_WORD: u16 = 0xa5a5;
const OLD_NUMBER: u32 = 0x4b5a_5a5a;

/// A text, and how long the slices are.
#[derive(Clone, Debug)]
pub struct Reading {
    pub text: Vec<u8>,
    pub words: usize,
    pub numbers: usize,
}

pub fn random_reading(generator: &mut Generator) -> Reading {
    let text = figure(generator).text().into_bytes();
    let text = match generator.below(3) {
        0 => spoiled(generator, text),
        _ => text,
    };
    let Figure { plan, numbers } = read(&text).unwrap_or_default();
    Reading {
        text,
        words: about(generator, plan.len()),
        numbers: about(generator, numbers.len()),
    }
}

fn about(generator: &mut Generator, length: usize) -> usize {
    match generator.below(8) {
        0 => length.saturating_sub(1),
        1 => generator.below(length as u64 + 1) as usize,
        2 | 3 => length + generator.below(9) as usize,
        _ => length,
    }
}

/// What document 01 answers, and what the slices hold then.
fn expected(reading: &Reading) -> (TextAnswer, Figure) {
    let mut slices = Figure {
        plan: vec![OLD_WORD; reading.words],
        numbers: vec![OLD_NUMBER; reading.numbers],
    };
    let refused = |number: u8, place: usize| TextAnswer {
        number: usize::from(number),
        place,
        words: 0,
        numbers: 0,
    };
    let answer = match read(&reading.text) {
        Err(Refusal { number, place }) => refused(number, place),
        Ok(Figure { plan, numbers })
            if plan.len() > reading.words || numbers.len() > reading.numbers =>
        {
            refused(12, 0)
        }
        Ok(Figure { plan, numbers }) => {
            slices.plan[..plan.len()].copy_from_slice(&plan);
            slices.numbers[..numbers.len()].copy_from_slice(&numbers);
            TextAnswer {
                number: 0,
                place: 0,
                words: plan.len(),
                numbers: numbers.len(),
            }
        }
    };
    (answer, slices)
}

pub fn same_reading(
    reading: &Reading,
    evaluator: &dyn Evaluator,
    counts: &mut Counts,
) -> Result<(), String> {
    let mut plan = vec![OLD_WORD; reading.words];
    let mut floats = vec![f32::from_bits(OLD_NUMBER); reading.numbers];
    let actual = evaluator.read_text(&reading.text, &mut plan, &mut floats);
    let (answer, slices) = expected(reading);
    counts.calls += 1;
    if answer.number > 0 {
        *counts.refused.entry(answer.number).or_default() += 1;
    }
    same("the reader's answer", &answer, &actual)?;
    let bits = |float: &f32| compare::judge::bits(*float);
    let numbers: Vec<u32> = floats.iter().map(bits).collect();
    let canonical = |word: &u32| compare::judge::bits(f32::from_bits(*word));
    let kept: Vec<u32> = slices.numbers.iter().map(canonical).collect();
    same("the reader's words", &slices.plan, &plan)?;
    same("the reader's numbers", &kept, &numbers)?;
    let most = (
        evaluator.most_words(),
        evaluator.most_numbers(reading.text.len()),
    );
    same(
        "the greatest lengths",
        &(MOST_WORDS, reading.text.len() / 9),
        &most,
    )
}

/// The reading with fewer lines, while it is answered wrongly.
pub fn smallest(reading: &Reading, evaluator: &dyn Evaluator) -> (Reading, String) {
    let what = |reading: &Reading| same_reading(reading, evaluator, &mut Counts::default()).err();
    let mut least = reading.clone();
    let mut found = what(reading).unwrap_or_default();
    while let Some((smaller, what)) = fewer_lines(&least)
        .into_iter()
        .find_map(|reading| what(&reading).map(|what| (reading, what)))
    {
        (least, found) = (smaller, what);
    }
    (least, found)
}

fn fewer_lines(reading: &Reading) -> Vec<Reading> {
    let lines: Vec<&[u8]> = reading
        .text
        .split_inclusive(|&byte| byte == b'\n')
        .collect();
    let without = |i: usize| {
        let mut fewer = lines.clone();
        fewer.remove(i);
        Reading {
            text: fewer.concat(),
            ..reading.clone()
        }
    };
    (0..lines.len()).rev().map(without).collect()
}
