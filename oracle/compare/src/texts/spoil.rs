//! Texts with something wrong in them, most likely.

use super::printed::LONGEST;
use crate::generator::Generator;

/// Bytes that end something, or that stand beside a range of digits.
const ODD_BYTES: &[u8] = b"\0\t\n\r \"+,-./09:@AFG`afgxz\x7f\x80\xff";

/// At the limits of counts, of words and of machine integers.
const ODD_DECIMALS: [u64; 24] = [
    0, 1, 2, 6, 16, 17, 31, 32, 33, 64, 65, 255, 256, 399, 400, 401, 4096, 4097, 65534, 65535,
    65536, 65537, 65791, 4294967296,
];

/// What is no decimal.
const ODD_WORDS: [&str; 9] = [
    "", "00", "01", "-1", "+1", " 1", "1.0", "7FC00000", "ffffffff",
];

/// Lines that a text may have, at the wrong place.
const ODD_LINES: [&str; 11] = [
    "\n",
    "figure,1,1,0,1,0\n",
    "joint,255\n",
    "joint,65535\n",
    "clip,1,3f800000,0\n",
    "clip,0,3f800000,1\n",
    "clip,1,3f800000\n",
    "state,1,0\n",
    "node,0,0,0,0\n",
    "go,0,4,0,00000000,3f800000\n",
    "pose,00000000,00000000,00000000,3f800000,3f800000,00000000,00000000,00000000\n",
];

pub fn spoiled(generator: &mut Generator, mut text: Vec<u8>) -> Vec<u8> {
    let times = 1 + generator.below(4) / 3;
    for _ in 0..times {
        spoil(generator, &mut text);
    }
    // More bytes than that are no case.
    text.truncate(LONGEST + 1);
    text
}

fn spoil(generator: &mut Generator, text: &mut Vec<u8>) {
    match generator.below(8) {
        0 | 1 => spoil_byte(generator, text),
        2 | 3 => spoil_line(generator, text),
        4 => spoil_end(generator, text),
        5 => spoil_digit(generator, text),
        _ => spoil_field(generator, text),
    }
}

/// A place in something of this length, 0 where there is none.
fn place(generator: &mut Generator, length: usize) -> usize {
    generator.below(length.max(1) as u64) as usize
}

fn odd_byte(generator: &mut Generator) -> u8 {
    match generator.below(3) {
        0 => generator.draw() as u8,
        _ => generator.pick(ODD_BYTES),
    }
}

fn odd_field(generator: &mut Generator) -> Vec<u8> {
    match generator.below(3) {
        0 => generator.pick(&ODD_WORDS).into(),
        _ => generator.pick(&ODD_DECIMALS).to_string().into(),
    }
}

fn spoil_byte(generator: &mut Generator, text: &mut Vec<u8>) {
    let at = place(generator, text.len());
    let end = (at + 1).min(text.len());
    let byte = odd_byte(generator);
    let new: &[u8] = match generator.below(4) {
        0 => &[],
        1 => &[byte, byte],
        _ => &[byte],
    };
    // Replaced, or put in before.
    let old = if generator.below(3) == 0 {
        at..at
    } else {
        at..end
    };
    text.splice(old, new.iter().copied());
}

fn lines(text: &[u8]) -> Vec<Vec<u8>> {
    let lines = text.split_inclusive(|&byte| byte == b'\n');
    lines.map(<[u8]>::to_vec).collect()
}

fn spoil_line(generator: &mut Generator, text: &mut Vec<u8>) {
    let mut lines = lines(text);
    if lines.is_empty() {
        return;
    }
    let [one, other] = [(); 2].map(|_| place(generator, lines.len()));
    match generator.below(7) {
        0 => lines.swap(one, other),
        1 => lines.insert(other, lines[one].clone()),
        2 => lines.insert(one, lines[one].clone()),
        3 => drop(lines.remove(one)),
        4 => lines.insert(one, generator.pick(&ODD_LINES).into()),
        5 => put_carriage_return(&mut lines[one]),
        _ => lines.iter_mut().for_each(put_carriage_return),
    }
    *text = lines.concat();
}

fn put_carriage_return(line: &mut Vec<u8>) {
    line.insert(line.len() - 1, b'\r');
}

fn spoil_end(generator: &mut Generator, text: &mut Vec<u8>) {
    match generator.below(6) {
        0 => drop(text.pop()),
        1 => text.push(odd_byte(generator)),
        2 => text.extend(generator.pick(&ODD_LINES).bytes()),
        3 => text.truncate(place(generator, text.len())),
        4 => {
            let mut lines = lines(text);
            lines.truncate(place(generator, lines.len()));
            *text = lines.concat();
        }
        _ => text.extend(text.clone()),
    }
}

/// Another digit, which leaves a field of the same length and often a text that can be read.
fn spoil_digit(generator: &mut Generator, text: &mut [u8]) {
    let is_digit = |i: &usize| matches!(text[*i], b'0'..=b'9' | b'a'..=b'f');
    let digits: Vec<usize> = (0..text.len()).filter(is_digit).collect();
    if !digits.is_empty() {
        text[generator.pick(&digits)] = generator.pick(b"0123456789abcdefABCDEF");
    }
}

fn spoil_field(generator: &mut Generator, text: &mut Vec<u8>) {
    let mut lines = lines(text);
    if lines.is_empty() {
        return;
    }
    // Pose lines are many, and alike.
    let others = lines.iter().take_while(|line| !line.starts_with(b"pose"));
    let chosen = place(generator, others.count() + 1).min(lines.len() - 1);
    let line = lines[chosen].strip_suffix(b"\n").unwrap_or(&lines[chosen]);
    let mut fields: Vec<Vec<u8>> = line.split(|&b| b == b',').map(<[u8]>::to_vec).collect();
    let field = place(generator, fields.len());
    match generator.below(8) {
        0 => drop(fields.remove(field)),
        1 => fields.insert(field, odd_field(generator)),
        2 => fields[field].insert(0, b'0'),
        3 => fields[field].make_ascii_uppercase(),
        4 => fields[0] = generator.pick(&["pose", "go", "node", "joint"]).into(),
        _ => fields[field] = odd_field(generator),
    }
    lines[chosen] = [fields.join(&b','), b"\n".to_vec()].concat();
    *text = lines.concat();
}
