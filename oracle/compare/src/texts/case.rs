//! Cases as the program `recorded_texts` takes them: a header line with a length, then that many
//! bytes. Each is answered by its header line and what the reference prints.

use super::printed::printed;
use super::uses;

#[derive(Clone, Copy, Debug, PartialEq, Eq)]
pub enum Kind {
    /// What is printed for the bytes.
    Text,
    /// What is printed for the bytes with any one of them replaced by any other value.
    Damage,
    /// What `inspect uses` prints for the bytes.
    Uses,
}

#[derive(Clone, Debug, PartialEq, Eq)]
pub struct Case {
    pub kind: Kind,
    pub bytes: Vec<u8>,
}

impl Case {
    pub fn text(bytes: impl Into<Vec<u8>>) -> Case {
        Case {
            kind: Kind::Text,
            bytes: bytes.into(),
        }
    }

    pub fn damage(bytes: impl Into<Vec<u8>>) -> Case {
        Case {
            kind: Kind::Damage,
            bytes: bytes.into(),
        }
    }

    pub fn uses(bytes: impl Into<Vec<u8>>) -> Case {
        Case {
            kind: Kind::Uses,
            bytes: bytes.into(),
        }
    }

    fn header(&self) -> String {
        let name = match self.kind {
            Kind::Text => "text",
            Kind::Damage => "damage",
            Kind::Uses => "uses",
        };
        format!("{name},{:08x}\n", self.bytes.len())
    }

    pub fn input(&self) -> Vec<u8> {
        [self.header().as_bytes(), &self.bytes].concat()
    }

    pub fn answer(&self) -> String {
        let printed = match self.kind {
            Kind::Text => printed(&self.bytes),
            Kind::Damage => damages(&self.bytes),
            Kind::Uses => uses::printed(&self.bytes),
        };
        self.header() + &printed
    }
}

fn damages(text: &[u8]) -> String {
    (0..text.len())
        .map(|place| damages_at(text, place))
        .collect()
}

/// A line for each value that makes another output than the value before it.
fn damages_at(text: &[u8], place: usize) -> String {
    let mut damaged = text.to_vec();
    let mut lines = String::new();
    let mut before = String::new();
    for value in 0..=255 {
        damaged[place] = value;
        let output = printed(&damaged);
        if output != before {
            lines += &format!("{place},{value},{}\n", summary(&output));
        }
        before = output;
    }
    lines
}

fn summary(output: &str) -> String {
    match output.strip_suffix('\n') {
        Some(line) if line.starts_with("refused,") => line.to_string(),
        _ => format!("{:016x}", fnv_1a(output.as_bytes())),
    }
}

fn fnv_1a(bytes: &[u8]) -> u64 {
    bytes.iter().fold(0xcbf2_9ce4_8422_2325, |hash, &byte| {
        (hash ^ u64::from(byte)).wrapping_mul(0x0100_0000_01b3)
    })
}

/// The answers in an output, each from its header line on.
pub fn answers(output: &[u8]) -> Vec<Vec<u8>> {
    let mut answers: Vec<Vec<u8>> = Vec::new();
    for line in output.split_inclusive(|&byte| byte == b'\n') {
        let names: [&[u8]; 3] = [b"text,", b"damage,", b"uses,"];
        let is_header = names.iter().any(|name| line.starts_with(name));
        match answers.last_mut() {
            Some(answer) if !is_header => answer.extend(line),
            _ => answers.push(line.to_vec()),
        }
    }
    answers
}

#[cfg(test)]
mod tests {
    use super::*;

    #[test]
    fn hashes_are_the_published_ones() {
        assert_eq!(fnv_1a(b""), 0xcbf2_9ce4_8422_2325);
        assert_eq!(fnv_1a(b"a"), 0xaf63_dc4c_8601_ec8c);
        assert_eq!(fnv_1a(b"foobar"), 0x8594_4171_f739_67e8);
    }

    #[test]
    fn a_case_is_its_header_and_its_bytes() {
        let case = Case::text(*b"figure,1\n");
        assert_eq!(case.input(), b"text,00000009\nfigure,1\n");
        assert_eq!(case.answer(), "text,00000009\nrefused,11,1\n");
    }

    /// The same size field at the same place as a text's.
    #[test]
    fn uses_have_a_texts_header() {
        let case = Case::uses(*b"figure,1\n");
        assert_eq!(case.input(), b"uses,00000009\nfigure,1\n");
        assert_eq!(case.answer(), "uses,00000009\nrefused,11,1\n");
    }

    /// In `figure,0,0,0,0,0` a J from 1 on asks for a second line, and no digit refuses the first.
    #[test]
    fn damage_is_told_where_it_changes() {
        let answer = Case::damage(*b"figure,0,0,0,0,0\n").answer();
        let lines: Vec<&str> = answer.lines().collect();
        assert_eq!(lines[0], "damage,00000011");
        assert_eq!(lines[1], "0,0,refused,11,1");
        assert_eq!(lines[2], "0,102,refused,2,0");
        assert_eq!(lines[3], "0,103,refused,11,1");
        let joints: Vec<&&str> = lines.iter().filter(|l| l.starts_with("7,")).collect();
        let expected = [
            "7,0,refused,11,1",
            "7,48,refused,2,0",
            "7,49,refused,11,2",
            "7,58,refused,11,1",
        ];
        assert_eq!(joints.len(), 4);
        assert!(joints.iter().zip(expected).all(|(a, b)| **a == b));
    }

    #[test]
    fn an_output_is_cut_at_its_headers() {
        let output = b"text,00000000\nrefused,11,1\nuses,00000000\nrefused,11,1\n\
            damage,00000001\n0,0,refused,11,1\n";
        let cut = answers(output);
        assert_eq!(cut.len(), 3);
        assert_eq!(cut[0], Case::text(*b"").answer().as_bytes());
        assert_eq!(cut[1], Case::uses(*b"").answer().as_bytes());
        assert_eq!(cut[2], Case::damage(*b"\n").answer().as_bytes());
        assert!(answers(b"").is_empty());
    }
}
