//! Rows put to the program `recorded_functions` and to the Rust.

use crate::generator::Generator;
use crate::program::{mismatches, Subject};
use crate::row::{lines, Kind, Row};
use crate::{judge, recorded, simplify};
use std::path::Path;
use std::{fs, io};

pub fn record(folder: &Path) -> io::Result<bool> {
    let rows = recorded::rows();
    fs::write(folder.join("stdin"), lines(&rows, Row::text))?;
    fs::write(folder.join("stdout"), lines(&rows, judge::answer))?;
    println!("compare: {} rows recorded", rows.len());
    Ok(true)
}

pub fn check(stdin: &Path, stdout: &Path) -> io::Result<bool> {
    let rows = recorded::rows();
    let same = fs::read_to_string(stdin)? == lines(&rows, Row::text)
        && fs::read_to_string(stdout)? == lines(&rows, judge::answer);
    if same {
        println!(
            "compare: the {} recorded rows and answers are the Rust's",
            rows.len()
        );
    } else {
        println!("compare: the recorded files are not what record writes");
    }
    Ok(same)
}

pub fn random_rows(count: usize, seed: u64) -> Vec<Row> {
    let mut generator = Generator::new(seed);
    let kinds = Kind::ALL.iter().cycle();
    kinds.take(count).map(|&kind| generator.row(kind)).collect()
}

pub fn random(subject: Subject, count: usize, seed: u64) -> io::Result<bool> {
    println!("compare: seed {seed}");
    let found = mismatches(&random_rows(count, seed), subject)?;
    let total = found.len();
    if let Some(mismatch) = simplify::simplest(found) {
        let simple = simplify::simplified(mismatch, subject)?;
        println!("row      {}", simple.row.text());
        println!("Rust     {}", simple.expected);
        println!("Rattle   {}", simple.actual);
    }
    let kinds = Kind::ALL.len();
    println!("compare: {count} rows, {kinds} kinds, seed {seed}, {total} mismatches");
    Ok(total == 0)
}
