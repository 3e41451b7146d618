//! Compares the static library with the Rust that it ports and with the oracle's own model, call by
//! call and bit for bit.

mod abi;
mod ending_faults;
mod endings;
mod evaluator;
mod fault;
mod faults;
mod frame;
mod joint_faults;
mod loops;
mod loops_faults;
mod loops_sweep;
mod output;
mod page_faults;
mod page_sweep;
mod parents;
mod pause_faults;
mod pauses;
mod plans;
mod random;
mod run;
mod self_test;
mod shrink;
mod smaller_draft;
mod step;
mod sweep;
mod texts;
mod uses;
mod uses_faults;

use abi::Library;
use random::Amounts;
use std::path::Path;
use std::process::ExitCode;
use std::time::{SystemTime, UNIX_EPOCH};
use std::{env, io};

const USAGE: &str =
    "usage: lists random [--frames N] [--plans M] [--texts T] [--seed S]   random figures with random calls
       lists self-test                                           show that faults are found";

const DEFAULT: Amounts = Amounts {
    frames: 100_000,
    plans: 20_000,
    texts: 2_000,
};

/// Where a mismatching list is written.
const FOLDER: &str = "target";

fn clock_seed() -> u64 {
    let elapsed = SystemTime::now().duration_since(UNIX_EPOCH);
    elapsed.map_or(0, |time| time.as_nanos() as u64)
}

fn options(words: &[&str]) -> Result<(Amounts, u64), String> {
    let (mut amounts, mut seed) = (DEFAULT, clock_seed());
    for pair in words.chunks(2) {
        let [name, number] = pair else {
            return Err(USAGE.to_string());
        };
        let number: u64 = number
            .parse()
            .map_err(|_| format!("lists: {number} is no number"))?;
        match *name {
            "--frames" => amounts.frames = number as usize,
            "--plans" => amounts.plans = number as usize,
            "--texts" => amounts.texts = number as usize,
            "--seed" => seed = number,
            _ => return Err(USAGE.to_string()),
        }
    }
    Ok((amounts, seed))
}

fn command(arguments: &[String]) -> Result<bool, String> {
    let words: Vec<&str> = arguments.iter().map(String::as_str).collect();
    let done: io::Result<bool> = match words[..] {
        ["random", ref rest @ ..] => {
            let (amounts, seed) = options(rest)?;
            random::random(&Library, amounts, seed, Path::new(FOLDER))
        }
        ["self-test"] => Ok(self_test::self_test(&Library)),
        _ => return Err(USAGE.to_string()),
    };
    done.map_err(|error| format!("lists: {error}"))
}

fn main() -> ExitCode {
    let arguments: Vec<String> = env::args().skip(1).collect();
    match command(&arguments) {
        Ok(true) => ExitCode::SUCCESS,
        Ok(false) => ExitCode::FAILURE,
        Err(message) => {
            eprintln!("{message}");
            ExitCode::from(2)
        }
    }
}
