//! The example figures, and the cases recorded from them and from the edges of the format.

use super::case::Case;
use super::edges::{edges, BLEND};
use super::limits::{full_text, long_text, most_words_text, pauses_text, shown_text, Long};
use super::printed::{printed, LONGEST};
use super::uses;
use crate::generator::Generator;
use std::collections::{BTreeMap, BTreeSet};
use std::fs;
use std::io;
use std::path::{Path, PathBuf};

const SEED: u64 = 0x5f37_59df;

/// The example of which every damage is recorded.
const DAMAGED: &str = "printed";

/// So many joints with poses: the most under either word for a root, one more, and one more than a
/// byte numbers. The longest text has 400.
const SHOWN: [u16; 3] = [64, 65, 257];

/// What stands beside each figure: a file of this extension, with what a program prints for the figure.
const BESIDE: [(&str, fn(&[u8]) -> String); 2] = [("expected", printed), ("uses", uses::printed)];

const DIFFERS: &str = "is not what record-texts writes";

/// A file, and what is wrong with it.
type Fault = (PathBuf, &'static str);

/// The contents of a folder's files with this extension, by name.
fn files(folder: &Path, extension: &str) -> io::Result<BTreeMap<String, Vec<u8>>> {
    let mut files = BTreeMap::new();
    for entry in fs::read_dir(folder)? {
        let path = entry?.path();
        if path.extension().is_some_and(|found| found == extension) {
            let name = path.file_stem().unwrap_or_default().to_string_lossy();
            files.insert(name.into_owned(), fs::read(&path)?);
        }
    }
    Ok(files)
}

/// What is printed for each of the figures, by name.
fn all_printed(
    figures: &BTreeMap<String, Vec<u8>>,
    print: fn(&[u8]) -> String,
) -> BTreeMap<String, Vec<u8>> {
    let one = |(name, text): (&String, &Vec<u8>)| (name.clone(), print(text).into());
    figures.iter().map(one).collect()
}

fn write_beside(examples: &Path, figures: &BTreeMap<String, Vec<u8>>) -> io::Result<()> {
    for (extension, print) in BESIDE {
        for (name, text) in all_printed(figures, print) {
            fs::write(examples.join(format!("{name}.{extension}")), text)?;
        }
    }
    Ok(())
}

/// The files beside the figures that are not as `write_beside` leaves them.
fn faults_beside(examples: &Path, figures: &BTreeMap<String, Vec<u8>>) -> io::Result<Vec<Fault>> {
    let mut faults = Vec::new();
    for (extension, print) in BESIDE {
        let found = files(examples, extension)?;
        let expected = all_printed(figures, print);
        let names: BTreeSet<&String> = found.keys().chain(expected.keys()).collect();
        for name in names {
            let path = examples.join(format!("{name}.{extension}"));
            match (found.get(name), expected.get(name)) {
                (None, _) => faults.push((path, "is missing")),
                (_, None) => faults.push((path, "has no figure")),
                (found, expected) if found != expected => faults.push((path, DIFFERS)),
                _ => {}
            }
        }
    }
    Ok(faults)
}

fn cases(figures: &BTreeMap<String, Vec<u8>>) -> io::Result<Vec<Case>> {
    let damaged = figures.get(DAMAGED);
    let damaged = damaged.ok_or_else(|| io::Error::other(format!("no {DAMAGED}.figure")))?;
    let mut generator = Generator::new(SEED);
    let longest = long_text(&mut generator, Long::Rusts, LONGEST);
    let mut cases: Vec<Case> = figures.values().cloned().map(Case::text).collect();
    cases.extend(edges().into_iter().map(|(text, _)| Case::text(text)));
    // One byte more, and what stands before it is a good text still.
    let too_long = longest.clone() + "\n";
    cases.extend([
        Case::text(full_text(&mut generator, 64)),
        Case::text(full_text(&mut generator, 65)),
        Case::text(pauses_text()),
        Case::text(most_words_text(1)),
        Case::text(most_words_text(2)),
    ]);
    cases.extend(SHOWN.map(|joints| Case::text(shown_text(&mut generator, joints))));
    cases.extend([
        Case::text(long_text(&mut generator, Long::Widest, LONGEST)),
        Case::text(longest),
        Case::text(too_long),
        Case::text([0; LONGEST]),
        Case::damage(damaged.clone()),
        Case::damage(BLEND),
    ]);
    cases.extend(uses::cases(figures));
    Ok(cases)
}

/// The recorded cases, and their answers.
struct Recording {
    count: usize,
    stdin: Vec<u8>,
    stdout: Vec<u8>,
}

fn recording(figures: &BTreeMap<String, Vec<u8>>) -> io::Result<Recording> {
    let cases = cases(figures)?;
    Ok(Recording {
        count: cases.len(),
        stdin: cases.iter().flat_map(Case::input).collect(),
        stdout: cases
            .iter()
            .flat_map(|case| case.answer().into_bytes())
            .collect(),
    })
}

pub fn record(examples: &Path, folder: &Path) -> io::Result<bool> {
    let figures = files(examples, "figure")?;
    write_beside(examples, &figures)?;
    let recording = recording(&figures)?;
    fs::write(folder.join("stdin"), &recording.stdin)?;
    fs::write(folder.join("stdout"), &recording.stdout)?;
    println!(
        "compare: {} examples, {} cases recorded",
        figures.len(),
        recording.count
    );
    Ok(true)
}

pub fn check(examples: &Path, stdin: &Path, stdout: &Path) -> io::Result<bool> {
    let figures = files(examples, "figure")?;
    let recording = recording(&figures)?;
    let mut faults = faults_beside(examples, &figures)?;
    for (path, expected) in [(stdin, &recording.stdin), (stdout, &recording.stdout)] {
        if fs::read(path)? != *expected {
            faults.push((path.into(), DIFFERS));
        }
    }
    for (path, fault) in &faults {
        println!("compare: {} {fault}", path.display());
    }
    if faults.is_empty() {
        println!(
            "compare: {} examples and {} recorded cases are the reference's",
            figures.len(),
            recording.count
        );
    }
    Ok(faults.is_empty())
}

#[cfg(test)]
mod tests {
    use super::*;
    use std::{env, process};

    /// A folder of this test run's own.
    fn folder() -> PathBuf {
        let folder = env::temp_dir().join(format!("compare-examples-{}", process::id()));
        fs::create_dir_all(&folder).unwrap();
        folder
    }

    /// A missing, a different and a left-over file are told by their names, of either kind.
    #[test]
    fn files_beside_the_figures_are_held_to_them() {
        let folder = folder();
        fs::write(folder.join("blend.figure"), BLEND).unwrap();
        fs::write(folder.join("empty.figure"), "").unwrap();
        let figures = files(&folder, "figure").unwrap();
        let faults = || faults_beside(&folder, &figures).unwrap();
        write_beside(&folder, &figures).unwrap();
        assert_eq!(faults(), []);
        for (extension, _) in BESIDE {
            let blend = folder.join(format!("blend.{extension}"));
            let empty = folder.join(format!("empty.{extension}"));
            let other = folder.join(format!("other.{extension}"));
            fs::remove_file(&blend).unwrap();
            fs::write(&empty, "refused,11,2\n").unwrap();
            fs::write(&other, "refused,11,1\n").unwrap();
            let expected = [
                (blend, "is missing"),
                (empty, DIFFERS),
                (other.clone(), "has no figure"),
            ];
            assert_eq!(faults(), expected);
            fs::remove_file(other).unwrap();
            write_beside(&folder, &figures).unwrap();
        }
        assert_eq!(faults(), []);
        fs::remove_dir_all(folder).unwrap();
    }
}
