//! Makes a mismatching row simple for its reader.

use crate::program::{mismatches, Mismatch, Subject};
use crate::row::Row;
use std::io;

/// 0 is the simplest word, then 1.0 and -1.0, then those with the fewest leading digits.
fn word_size(word: u32) -> u32 {
    match word {
        0 => 0,
        0x3f80_0000 => 1,
        0xbf80_0000 => 2,
        _ => 3 + 32 - word.trailing_zeros(),
    }
}

fn size(row: &Row) -> u32 {
    row.words.iter().map(|&word| word_size(word)).sum()
}

/// Words to try in a word's place: constants, and the word with its last digits cleared.
pub fn simpler_words(word: u32) -> Vec<u32> {
    let cleared = [1, 2, 4, 8, 12, 16, 20, 23, 24, 28, 31].map(|n| word >> n << n);
    let mut words = vec![0, 0x3f80_0000, 0xbf80_0000, 0x4000_0000, 0x3f00_0000];
    words.extend(cleared);
    words.retain(|&other| word_size(other) < word_size(word));
    words.dedup();
    words
}

fn simpler_rows(row: &Row) -> Vec<Row> {
    let mut rows = Vec::new();
    for (i, &word) in row.words.iter().enumerate() {
        for simpler in simpler_words(word) {
            let mut candidate = row.clone();
            candidate.words[i] = simpler;
            rows.push(candidate);
        }
    }
    rows
}

pub fn simplest(found: Vec<Mismatch>) -> Option<Mismatch> {
    found.into_iter().min_by_key(|mismatch| size(&mismatch.row))
}

/// Changes one word after the other while the mismatch stays. It ends, since the size falls.
pub fn simplified(mut mismatch: Mismatch, subject: Subject) -> io::Result<Mismatch> {
    loop {
        let candidates = simpler_rows(&mismatch.row);
        match simplest(mismatches(&candidates, subject)?) {
            Some(simpler) => mismatch = simpler,
            None => return Ok(mismatch),
        }
    }
}
