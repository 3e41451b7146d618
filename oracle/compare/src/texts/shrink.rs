//! Makes a mismatching text small for its reader.

use super::case::{Case, Kind};
use super::random::{mismatches, Mismatch, Subject};
use std::io;

/// Texts of more bytes lose whole lines only, or there would be too much to try.
const MOST_BYTES: usize = 600;

/// Shorter first, then the one with more zeros.
fn size(text: &[u8]) -> (usize, usize) {
    let others = text.iter().filter(|&&byte| byte != b'0').count();
    (text.len(), others)
}

fn without(text: &[u8], start: usize, end: usize) -> Vec<u8> {
    [&text[..start], &text[end..]].concat()
}

/// The text without one of its lines, or without all from one on.
fn fewer_lines(text: &[u8]) -> Vec<Vec<u8>> {
    let mut texts = Vec::new();
    let mut start = 0;
    for line in text.split_inclusive(|&byte| byte == b'\n') {
        texts.push(without(text, start, start + line.len()));
        texts.push(text[..start].to_vec());
        start += line.len();
    }
    texts
}

/// The text without one of its bytes, or with eight digits as zeros.
fn fewer_bytes(text: &[u8]) -> Vec<Vec<u8>> {
    let mut texts = Vec::new();
    for start in 0..text.len() {
        texts.push(without(text, start, start + 1));
        let end = (start + 8).min(text.len());
        if text[start..end].iter().all(u8::is_ascii_hexdigit) {
            let mut simpler = text.to_vec();
            simpler[start..end].fill(b'0');
            texts.push(simpler);
        }
    }
    texts
}

/// All of the case's kind: what shows a fault of one kind need not show it in another.
fn smaller_cases(case: &Case) -> Vec<Case> {
    let text = &case.bytes;
    let mut texts = fewer_lines(text);
    if text.len() <= MOST_BYTES {
        texts.extend(fewer_bytes(text));
    }
    texts.retain(|other| size(other) < size(text));
    let kind = case.kind;
    texts
        .into_iter()
        .map(|bytes| Case { kind, bytes })
        .collect()
}

pub fn smallest(found: Vec<Mismatch>) -> Option<Mismatch> {
    let key = |mismatch: &Mismatch| size(&mismatch.case.bytes);
    found.into_iter().min_by_key(key)
}

/// Takes something away while the mismatch stays. It ends, since the size falls.
pub fn shrunk(mut mismatch: Mismatch, subject: Subject) -> io::Result<Mismatch> {
    loop {
        let cases = smaller_cases(&mismatch.case);
        match smallest(mismatches(&cases, subject)?) {
            Some(smaller) => mismatch = smaller,
            None => return Ok(mismatch),
        }
    }
}

/// Of each kind that has mismatches, the smallest that is found.
pub fn shown(found: Vec<Mismatch>, subject: Subject) -> io::Result<Vec<Mismatch>> {
    let is_uses = |mismatch: &Mismatch| mismatch.case.kind == Kind::Uses;
    let (uses, texts): (Vec<_>, Vec<_>) = found.into_iter().partition(is_uses);
    let smallest = [texts, uses].into_iter().filter_map(smallest);
    smallest.map(|one| shrunk(one, subject)).collect()
}
