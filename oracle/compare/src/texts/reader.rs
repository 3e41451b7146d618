//! The text reader, written from documents 01 and 02 alone.

use super::figure::{Figure, Refusal};
use super::joints::MOST_JOINTS;

const MOST_CLIPS: u16 = 16;
const MOST_PARAMETERS: u16 = 32;
const MOST_STATES: u16 = 16;
const MOST_SAMPLES: u16 = 4096;
const MOST_NODES: u16 = 31;
const MOST_TRANSITIONS: u16 = 16;

pub fn read(text: &[u8]) -> Result<Figure, Refusal> {
    let mut reader = Reader {
        rest: text,
        line: 0,
        figure: Figure::default(),
    };
    match reader.whole() {
        Some(()) => Ok(reader.figure),
        None => Err(Refusal {
            number: 11,
            place: reader.line,
        }),
    }
}

struct Reader<'a> {
    rest: &'a [u8],
    /// The number of the line last asked for. Where reading stops, that line is to blame.
    line: usize,
    figure: Figure,
}

impl<'a> Reader<'a> {
    fn whole(&mut self) -> Option<()> {
        let header = decimals(self.line("figure")?)?;
        let [joints, clips, parameters, states, _initial] = header;
        at_most(joints, MOST_JOINTS)?;
        at_most(clips, MOST_CLIPS)?;
        at_most(parameters, MOST_PARAMETERS)?;
        at_most(states, MOST_STATES)?;
        self.words(&header);
        for _ in 0..joints {
            let parent = decimals::<1>(self.line("joint")?)?;
            self.words(&parent);
        }
        let samples = self.clips(clips)?;
        for _ in 0..states {
            self.state()?;
        }
        for _ in 0..samples * usize::from(joints) {
            let pose = floats::<8>(self.line("pose")?)?;
            self.numbers(&pose);
        }
        self.line += 1;
        self.rest.is_empty().then_some(())
    }

    /// How many samples all clips have.
    fn clips(&mut self, count: u16) -> Option<usize> {
        let mut all = 0;
        for _ in 0..count {
            let [samples, rate, ending] = self.line("clip")?;
            let [samples, ending] = decimals([samples, ending])?;
            at_most(samples, MOST_SAMPLES)?;
            self.words(&[samples, ending]);
            self.numbers(&[float_bits(rate)?]);
            all += usize::from(samples);
        }
        Some(all)
    }

    fn state(&mut self) -> Option<()> {
        let [nodes, transitions] = decimals(self.line("state")?)?;
        at_most(nodes, MOST_NODES)?;
        at_most(transitions, MOST_TRANSITIONS)?;
        self.words(&[nodes]);
        for _ in 0..nodes {
            let node = decimals::<4>(self.line("node")?)?;
            self.words(&node);
        }
        self.words(&[transitions]);
        for _ in 0..transitions {
            let [parameter, operator, target, value, duration] = self.line("go")?;
            self.words(&decimals([parameter, operator, target])?);
            self.numbers(&floats([value, duration])?);
        }
        Some(())
    }

    /// The fields of the next line, which are so many behind its name.
    fn line<const F: usize>(&mut self, name: &str) -> Option<[&'a [u8]; F]> {
        self.line += 1;
        let end = self.rest.iter().position(|&byte| byte == b'\n')?;
        let mut fields = self.rest[..end].split(|&byte| byte == b',');
        self.rest = &self.rest[end + 1..];
        if fields.next()? != name.as_bytes() {
            return None;
        }
        fields.collect::<Vec<_>>().try_into().ok()
    }

    fn words(&mut self, words: &[u16]) {
        self.figure.plan.extend(words);
    }

    fn numbers(&mut self, numbers: &[u32]) {
        self.figure.numbers.extend(numbers);
    }
}

fn at_most(count: u16, limit: u16) -> Option<()> {
    (count <= limit).then_some(())
}

fn decimals<const F: usize>(fields: [&[u8]; F]) -> Option<[u16; F]> {
    all(fields, decimal)
}

fn floats<const F: usize>(fields: [&[u8]; F]) -> Option<[u32; F]> {
    all(fields, float_bits)
}

fn all<T, const F: usize>(fields: [&[u8]; F], one: fn(&[u8]) -> Option<T>) -> Option<[T; F]> {
    let values: Option<Vec<T>> = fields.into_iter().map(one).collect();
    values?.try_into().ok()
}

/// A decimal to 65535 without leading zeros.
pub fn decimal(field: &[u8]) -> Option<u16> {
    let has_leading_zero = field.len() > 1 && field[0] == b'0';
    // Rust's own parser would take a sign.
    if has_leading_zero || !field.iter().all(u8::is_ascii_digit) {
        return None;
    }
    std::str::from_utf8(field).ok()?.parse().ok()
}

fn float_bits(field: &[u8]) -> Option<u32> {
    hexadecimal(field, 8)?.try_into().ok()
}

/// So many lower-case hexadecimal digits, sixteen at the most.
pub fn hexadecimal(field: &[u8], digits: usize) -> Option<u64> {
    let is_digit = |byte: &u8| matches!(byte, b'0'..=b'9' | b'a'..=b'f');
    if field.len() != digits || !field.iter().all(is_digit) {
        return None;
    }
    u64::from_str_radix(std::str::from_utf8(field).ok()?, 16).ok()
}

#[cfg(test)]
mod tests {
    use super::*;
    use crate::texts::edges::BLEND;

    /// The words and numbers of `BLEND`, each clip's ending after its N, each state's T after its nodes.
    #[test]
    fn puts_words_and_numbers_in_the_order_of_the_plan() {
        let figure = read(BLEND.as_bytes()).unwrap();
        let plan = [
            &[1, 2, 1, 2, 0][..],
            &[255],
            &[1, 0, 1, 0],
            &[3],
            &[0, 0, 0, 0],
            &[0, 1, 0, 0],
            &[1, 0, 1, 0],
            &[1],
            &[0, 4, 1],
            &[1],
            &[0, 1, 0, 0],
            &[0],
        ];
        assert_eq!(figure.plan, plan.concat());
        let numbers = [
            &[1.0, 2.0][..],
            &[0.0, 0.5],
            &[1.0, 2.0, 3.0, 1.0, 0.707_106_77, 0.0, 0.0, 0.707_106_77],
            &[0.0, 1.0, 0.0, 1.0, 1.0, 0.0, 0.0, 0.0],
        ];
        assert_eq!(
            figure.numbers,
            numbers
                .concat()
                .into_iter()
                .map(f32::to_bits)
                .collect::<Vec<_>>()
        );
    }

    #[test]
    fn takes_every_decimal_written_in_one_way() {
        for value in 0..=u16::MAX {
            let digits = value.to_string();
            assert_eq!(decimal(digits.as_bytes()), Some(value));
            assert_eq!(decimal(format!("0{digits}").as_bytes()), None);
        }
        for digits in [
            "",
            "65536",
            "99999",
            "100000",
            "4294967295",
            "18446744073709551616",
        ] {
            assert_eq!(decimal(digits.as_bytes()), None);
        }
    }

    #[test]
    fn takes_float_bits_of_sixteen_digits_only() {
        for byte in 0..=255u8 {
            let value = char::from(byte).to_digit(16);
            let value = value.filter(|_| !byte.is_ascii_uppercase());
            for place in 0..8 {
                let mut field = *b"00000000";
                field[place] = byte;
                let bits = value.map(|digit| digit << (28 - 4 * place));
                assert_eq!(float_bits(&field), bits);
            }
        }
    }
}
