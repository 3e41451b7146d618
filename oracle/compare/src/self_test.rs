//! Shows that a comparison can fail: the program's answers are spoiled on the way, and each time
//! the comparison must say so.

use crate::program::{mismatches, Subject};
use crate::row::{Kind, Row};
use crate::rows::random_rows;
use crate::simplify;
use std::io;

const SEED: u64 = 1;
const ROWS: usize = 1400;

fn flip_last_digit(line: &mut String) {
    let last = line.pop();
    line.push(if last == Some('0') { '1' } else { '0' });
}

/// Negates the first zero.
fn negate_zero(answers: &mut [String]) {
    let place = |line: &String| line.split(',').position(|word| word == "00000000");
    let (i, word) = (0..answers.len())
        .find_map(|i| place(&answers[i]).map(|word| (i, word)))
        .expect("a zero among the answers");
    answers[i].replace_range(9 * word..9 * word + 1, "8");
}

/// How many mismatches the spoiled answers give.
fn spoiled(subject: Subject, spoil: &dyn Fn(&mut Vec<String>)) -> io::Result<usize> {
    let faulty = |rows: &[Row]| {
        let mut answers = subject(rows)?;
        spoil(&mut answers);
        Ok(answers)
    };
    Ok(mismatches(&random_rows(ROWS, SEED), &faulty)?.len())
}

/// A subject that is wrong for negative operands of inv_sqrt: the simplest such row is that of -1.
fn finds_simplest(subject: Subject) -> io::Result<bool> {
    let is_wrong = |row: &Row| row.kind == Kind::InvSqrt && row.words[0] >> 31 == 1;
    let faulty = |rows: &[Row]| {
        let mut answers = subject(rows)?;
        for (row, answer) in rows.iter().zip(&mut answers) {
            if is_wrong(row) {
                flip_last_digit(answer);
            }
        }
        Ok(answers)
    };
    let found = mismatches(&random_rows(ROWS, SEED), &faulty)?;
    let all = found.iter().all(|mismatch| is_wrong(&mismatch.row));
    let Some(last) = found.into_iter().last() else {
        return Ok(false);
    };
    let simple = simplify::simplified(last, &faulty)?;
    Ok(all && simple.row == Row::new(Kind::InvSqrt, &[0xbf80_0000]))
}

pub fn self_test(subject: Subject) -> io::Result<bool> {
    let results = [
        ("answers as they are", spoiled(subject, &|_| {})? == 0),
        (
            "a wrong digit",
            spoiled(subject, &|answers| flip_last_digit(&mut answers[ROWS / 2]))? == 1,
        ),
        (
            "a zero's wrong sign",
            spoiled(subject, &|answers| negate_zero(answers))? == 1,
        ),
        (
            "two answers exchanged",
            spoiled(subject, &|answers| answers.swap(0, 1))? == 2,
        ),
        (
            "a lost answer",
            spoiled(subject, &|answers| drop(answers.pop()))? == 1,
        ),
        (
            "an answer too many",
            spoiled(subject, &|answers| answers.push("00000000".into())).is_err(),
        ),
        ("a wrong branch", finds_simplest(subject)?),
    ];
    for (name, passed) in results {
        println!(
            "self-test: {name}: {}",
            if passed { "ok" } else { "FAILED" }
        );
    }
    Ok(results.iter().all(|result| result.1))
}

#[cfg(test)]
mod tests {
    use super::*;
    use crate::judge;

    #[test]
    fn passes_over_the_judge_itself() {
        let subject = |rows: &[Row]| Ok(rows.iter().map(judge::answer).collect());
        assert!(self_test(&subject).unwrap());
    }
}
