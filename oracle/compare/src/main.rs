//! The commands by which the port is compared with the Rust, and the recorded files are made.

use compare::lists::{recorded as recorded_lists, report};
use compare::program::run;
use compare::texts::examples;
use compare::{rows, self_test, texts};
use std::io::{Read, Write};
use std::path::Path;
use std::process::ExitCode;
use std::time::{SystemTime, UNIX_EPOCH};
use std::{env, fs, io};

const USAGE: &str =
    "usage: compare record OUTDIR               write the recorded rows and the Rust's answers
       compare check STDIN STDOUT           hold these two files to what record would write
       compare random BINARY [--rows N] [--seed S]   compare BINARY with the Rust on random rows
       compare self-test BINARY             show that random finds wrong answers of BINARY
       compare print                        what gentianlathe must print for the text on standard input
       compare record-texts EXAMPLES OUTDIR write each example's .expected and .uses, the recorded texts and their answers
       compare check-texts EXAMPLES STDIN STDOUT     hold these to what record-texts would write
       compare random-texts BINARY [--cases N] [--seed S]   compare BINARY with the reference on random texts and what they use
       compare uses FIGURE                  what inspect uses must print for this file
       compare replay FIGURE CALLS          what replay must print for these two files
       compare record-lists OUTDIR          write the recorded figures with their call lists, and their answers
       compare check-lists STDIN STDOUT     hold these two files to what record-lists would write
       compare name-lists                   the names of the recorded lists, as a table";

const DEFAULT_ROWS: usize = 200_000;
const DEFAULT_CASES: usize = 20_000;

fn print() -> io::Result<bool> {
    let mut text = Vec::new();
    io::stdin().read_to_end(&mut text)?;
    write_out(&texts::printed::printed(&text))
}

fn replay(figure: &Path, calls: &Path) -> io::Result<bool> {
    write_out(&report::report(&fs::read(figure)?, &fs::read(calls)?))
}

fn uses(figure: &Path) -> io::Result<bool> {
    write_out(&texts::uses::printed(&fs::read(figure)?))
}

fn write_out(text: &str) -> io::Result<bool> {
    io::stdout().write_all(text.as_bytes())?;
    Ok(true)
}

/// How many, and from which seed: the defaults, or what the words after the program say.
fn options(words: &[&str], name: &str, default: usize) -> Result<(usize, u64), String> {
    let (mut count, mut seed) = (default, clock_seed());
    for pair in words.chunks(2) {
        match pair {
            ["--seed", number] => seed = parsed(number)?,
            [word, number] if *word == name => count = parsed(number)? as usize,
            _ => return Err(USAGE.to_string()),
        }
    }
    Ok((count, seed))
}

fn parsed(number: &str) -> Result<u64, String> {
    number
        .parse()
        .map_err(|_| format!("compare: {number} is no number"))
}

fn clock_seed() -> u64 {
    let elapsed = SystemTime::now().duration_since(UNIX_EPOCH);
    elapsed.map_or(0, |time| time.as_nanos() as u64)
}

fn command(arguments: &[String]) -> Result<bool, String> {
    let words: Vec<&str> = arguments.iter().map(String::as_str).collect();
    let done = match words[..] {
        ["record", folder] => rows::record(Path::new(folder)),
        ["check", stdin, stdout] => rows::check(Path::new(stdin), Path::new(stdout)),
        ["random", binary, ref rest @ ..] => {
            let (count, seed) = options(rest, "--rows", DEFAULT_ROWS)?;
            rows::random(&|rows| run(Path::new(binary), rows), count, seed)
        }
        ["self-test", binary] => self_test::self_test(&|rows| run(Path::new(binary), rows)),
        ["print"] => print(),
        ["record-texts", folder, out] => examples::record(Path::new(folder), Path::new(out)),
        ["check-texts", folder, stdin, stdout] => {
            examples::check(Path::new(folder), Path::new(stdin), Path::new(stdout))
        }
        ["random-texts", binary, ref rest @ ..] => {
            let (count, seed) = options(rest, "--cases", DEFAULT_CASES)?;
            let subject = |cases: &[_]| texts::random::run(Path::new(binary), cases);
            texts::random::compare(&subject, count, seed)
        }
        ["uses", figure] => uses(Path::new(figure)),
        ["replay", figure, calls] => replay(Path::new(figure), Path::new(calls)),
        ["record-lists", out] => recorded_lists::record(Path::new(out)),
        ["check-lists", stdin, stdout] => {
            recorded_lists::check(Path::new(stdin), Path::new(stdout))
        }
        ["name-lists"] => write_out(&recorded_lists::table()),
        _ => return Err(USAGE.to_string()),
    };
    done.map_err(|error| format!("compare: {error}"))
}

fn main() -> ExitCode {
    let arguments: Vec<String> = env::args().skip(1).collect();
    match command(&arguments) {
        Ok(true) => ExitCode::SUCCESS,
        Ok(false) => ExitCode::FAILURE,
        Err(message) => {
            eprintln!("{message}");
            ExitCode::from(2)
        }
    }
}
