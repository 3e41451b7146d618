//! The recorded lists: figures with calls by name, as the program `recorded_lists` takes them.

use super::call::{text, Call};
use super::cases::cases;
use super::report::report;
use crate::texts::draft::Draft;
use std::path::Path;
use std::{fs, io};

/// A figure's text and a list of calls.
pub struct List {
    pub name: String,
    pub purpose: &'static str,
    pub figure: Vec<u8>,
    pub calls: Vec<u8>,
}

impl List {
    pub fn new(name: &str, purpose: &'static str, draft: &Draft, calls: &[Call]) -> List {
        List::raw(name, purpose, draft.text(), text(calls))
    }

    /// Bytes that need not be a figure or a list.
    pub fn raw(
        name: &str,
        purpose: &'static str,
        figure: impl Into<Vec<u8>>,
        calls: impl Into<Vec<u8>>,
    ) -> List {
        List {
            name: name.to_string(),
            purpose,
            figure: figure.into(),
            calls: calls.into(),
        }
    }

    /// Both lengths in bytes.
    fn header(&self) -> String {
        format!("list,{:08x},{:08x}\n", self.figure.len(), self.calls.len())
    }

    fn input(&self) -> Vec<u8> {
        [self.header().as_bytes(), &self.figure, &self.calls].concat()
    }

    fn answer(&self) -> String {
        self.header() + &report(&self.figure, &self.calls)
    }
}

pub fn lists() -> Vec<List> {
    cases()
}

fn files() -> (usize, Vec<u8>, String) {
    let lists = lists();
    (
        lists.len(),
        lists.iter().flat_map(List::input).collect(),
        lists.iter().map(List::answer).collect(),
    )
}

pub fn record(folder: &Path) -> io::Result<bool> {
    let (count, stdin, stdout) = files();
    fs::write(folder.join("stdin"), stdin)?;
    fs::write(folder.join("stdout"), stdout)?;
    println!("compare: {count} lists recorded");
    Ok(true)
}

pub fn check(stdin: &Path, stdout: &Path) -> io::Result<bool> {
    let (count, input, answers) = files();
    let results = [
        (stdin, fs::read(stdin)? == input),
        (stdout, fs::read(stdout)? == answers.as_bytes()),
    ];
    for (path, _) in results.iter().filter(|(_, same)| !same) {
        println!(
            "compare: {} is not what record-lists writes",
            path.display()
        );
    }
    let all = results.iter().all(|(_, same)| *same);
    if all {
        println!("compare: the {count} recorded lists and their answers are the reference's");
    }
    Ok(all)
}

/// The lists by name, with what each is for, as a table.
pub fn table() -> String {
    let mut table = "| list | shows |\n|---|---|\n".to_string();
    for list in lists() {
        table += &format!("| {} | {} |\n", list.name, list.purpose);
    }
    table
}

#[cfg(test)]
mod tests {
    use super::*;
    use std::collections::BTreeSet;

    #[test]
    fn lists_are_many_and_have_names() {
        let lists = lists();
        let names: BTreeSet<&str> = lists.iter().map(|list| &list.name[..]).collect();
        assert_eq!(names.len(), lists.len());
        assert!(lists.len() >= 40);
    }

    #[test]
    fn the_page_beside_them_has_their_table() {
        let page = concat!(
            env!("CARGO_MANIFEST_DIR"),
            "/../../crates/recorded_lists/README.md"
        );
        assert!(fs::read_to_string(page).unwrap().contains(&table()));
    }

    #[test]
    fn a_header_line_has_23_bytes() {
        let list = List::raw("", "", *b"figure", *b"x\n");
        assert_eq!(list.header(), "list,00000006,00000002\n");
        assert_eq!(list.header().len(), 23);
        assert_eq!(list.input(), b"list,00000006,00000002\nfigurex\n");
        assert_eq!(list.answer(), "list,00000006,00000002\nrefused,11,1\n");
    }

    /// Each answer that a text can lead to is among the recorded ones.
    #[test]
    fn every_answer_is_there() {
        let (_, stdin, stdout) = files();
        let answers = ["ok", "refused,2,", "refused,3,", "refused,4,", "refused,5,"];
        let others = [
            "refused,14,",
            "refused,8,0",
            "refused,10,0",
            "refused,11,",
            "refused,13,65536",
            "refused,16,0",
            "refused,17,0",
        ];
        let lines = ["malformed,", "joint,", "loops,"];
        for start in answers.iter().chain(&others).chain(&lines) {
            assert!(
                stdout.lines().any(|line| line.starts_with(start)),
                "{start}"
            );
        }
        assert!(stdin.len() + stdout.len() < 2_000_000);
        // `rt try` lets a program write no more.
        assert!(stdout.len() <= 1 << 20);
    }
}
