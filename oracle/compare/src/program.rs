//! The compared program, and what a comparison finds.

use crate::judge;
use crate::row::{lines, Row};
use std::io::{self, Read, Write};
use std::path::Path;
use std::process::{Command, Stdio};
use std::thread;

/// What answers rows, a line for each: the program, or in a test a stand-in for it.
pub type Subject<'a> = &'a dyn Fn(&[Row]) -> io::Result<Vec<String>>;

/// Runs the program on the rows and gives the lines that it wrote.
pub fn run(program: &Path, rows: &[Row]) -> io::Result<Vec<String>> {
    let output = output(program, lines(rows, Row::text).into_bytes())?;
    let output = String::from_utf8(output).map_err(io::Error::other)?;
    Ok(output.lines().map(String::from).collect())
}

/// Runs the program on the input and gives what it wrote.
pub fn output(program: &Path, text: Vec<u8>) -> io::Result<Vec<u8>> {
    let mut child = Command::new(program)
        .stdin(Stdio::piped())
        .stdout(Stdio::piped())
        .spawn()?;
    let mut input = child.stdin.take().unwrap();
    // A thread of its own writes the text: the program answers while it still reads, and with both
    // pipes full each side would wait for the other.
    let writer = thread::spawn(move || input.write_all(&text));
    let mut output = Vec::new();
    child.stdout.take().unwrap().read_to_end(&mut output)?;
    let status = child.wait()?;
    // The program stops reading at what it calls malformed. Its answers then tell.
    match writer.join().unwrap() {
        Err(error) if error.kind() != io::ErrorKind::BrokenPipe => return Err(error),
        _ => {}
    }
    if !status.success() {
        return Err(io::Error::other(format!("{}: {status}", program.display())));
    }
    Ok(output)
}

/// A row whose answer is not the Rust's.
pub struct Mismatch {
    pub row: Row,
    pub expected: String,
    pub actual: String,
}

/// All mismatches, in order. A row without an answer is one, and the rows after it are not counted.
pub fn mismatches(rows: &[Row], subject: Subject) -> io::Result<Vec<Mismatch>> {
    let answers = subject(rows)?;
    if answers.len() > rows.len() {
        let message = format!("{} answers to {} rows", answers.len(), rows.len());
        return Err(io::Error::other(message));
    }
    let mut found = Vec::new();
    for (i, row) in rows.iter().enumerate() {
        let expected = judge::answer(row);
        let actual = answers.get(i);
        if actual == Some(&expected) {
            continue;
        }
        found.push(Mismatch {
            row: row.clone(),
            expected,
            actual: actual.map_or("no answer", |line| line).to_string(),
        });
        if actual.is_none() {
            break;
        }
    }
    Ok(found)
}
