//! Calls after the start, and the text of a list of them.

use crate::texts::reader::{decimal, hexadecimal};

/// A call with its arguments, floats as bits.
#[derive(Clone, Copy, Debug, PartialEq, Eq)]
pub enum Call {
    /// Delta.
    Update(u64),
    /// The new speed.
    Speed(u64),
    /// Parameter and value.
    Set(usize, u32),
    /// Ext and output length.
    Frame(u64, usize),
    Page(u64, usize),
    /// State, node and time.
    Loops(usize, usize, u32),
}

impl Call {
    pub fn update(delta: f64) -> Call {
        Call::Update(delta.to_bits())
    }

    pub fn speed(speed: f64) -> Call {
        Call::Speed(speed.to_bits())
    }

    pub fn set(parameter: usize, value: f32) -> Call {
        Call::Set(parameter, value.to_bits())
    }

    pub fn frame(ext: f64, length: usize) -> Call {
        Call::Frame(ext.to_bits(), length)
    }

    pub fn page(ext: f64, length: usize) -> Call {
        Call::Page(ext.to_bits(), length)
    }

    pub fn loops(state: usize, node: usize, time: f32) -> Call {
        Call::Loops(state, node, time.to_bits())
    }

    /// Its line. One whose decimal is above 65535 cannot be read again.
    pub fn line(self) -> String {
        match self {
            Call::Update(delta) => format!("update,{delta:016x}\n"),
            Call::Speed(speed) => format!("speed,{speed:016x}\n"),
            Call::Set(parameter, value) => format!("set,{parameter},{value:08x}\n"),
            Call::Frame(ext, length) => format!("frame,{ext:016x},{length}\n"),
            Call::Page(ext, length) => format!("page,{ext:016x},{length}\n"),
            Call::Loops(state, node, time) => format!("loops,{state},{node},{time:08x}\n"),
        }
    }

    /// Whether its line can be read again.
    pub fn has_text(self) -> bool {
        let is_short = |number: usize| number <= usize::from(u16::MAX);
        match self {
            Call::Update(_) | Call::Speed(_) => true,
            Call::Set(number, _) | Call::Frame(_, number) | Call::Page(_, number) => {
                is_short(number)
            }
            Call::Loops(state, node, _) => is_short(state) && is_short(node),
        }
    }
}

pub fn text(calls: &[Call]) -> String {
    calls.iter().map(|call| call.line()).collect()
}

/// The calls of a list, or the number of the first malformed line, from 1.
pub fn parsed(list: &[u8]) -> Result<Vec<Call>, usize> {
    let lines = list.split_inclusive(|&byte| byte == b'\n');
    let call = |(i, line): (usize, &[u8])| parsed_line(line).ok_or(i + 1);
    lines.enumerate().map(call).collect()
}

fn parsed_line(line: &[u8]) -> Option<Call> {
    let line = line.strip_suffix(b"\n")?;
    let fields: Vec<&[u8]> = line.split(|&byte| byte == b',').collect();
    let double = |field: &[u8]| hexadecimal(field, 16);
    let float = |field: &[u8]| u32::try_from(hexadecimal(field, 8)?).ok();
    let number = |field: &[u8]| decimal(field).map(usize::from);
    Some(match fields[..] {
        [b"update", delta] => Call::Update(double(delta)?),
        [b"speed", speed] => Call::Speed(double(speed)?),
        [b"set", parameter, value] => Call::Set(number(parameter)?, float(value)?),
        [b"frame", ext, length] => Call::Frame(double(ext)?, number(length)?),
        [b"page", ext, length] => Call::Page(double(ext)?, number(length)?),
        [b"loops", state, node, time] => Call::Loops(number(state)?, number(node)?, float(time)?),
        _ => return None,
    })
}

#[cfg(test)]
mod tests {
    use super::*;
    use crate::generator::Generator;

    #[test]
    fn a_call_has_one_line() {
        let calls = [
            (Call::update(1.0), "update,3ff0000000000000\n"),
            (Call::speed(-0.5), "speed,bfe0000000000000\n"),
            (Call::set(31, 1.0), "set,31,3f800000\n"),
            (Call::frame(0.0, 16), "frame,0000000000000000,16\n"),
            (Call::page(2.0, 65535), "page,4000000000000000,65535\n"),
            (Call::loops(0, 30, -0.5), "loops,0,30,bf000000\n"),
            (Call::loops(65535, 0, 0.0), "loops,65535,0,00000000\n"),
        ];
        for (call, line) in calls {
            assert_eq!(call.line(), line);
            assert_eq!(parsed(line.as_bytes()), Ok(vec![call]));
        }
        let list = calls.map(|(call, _)| call);
        assert_eq!(parsed(text(&list).as_bytes()), Ok(list.to_vec()));
        assert_eq!(parsed(b""), Ok(Vec::new()));
    }

    /// Words, lengths, digits and ends that a line must not have.
    const MALFORMED: [&str; 46] = [
        "\n",
        "update\n",
        "update,\n",
        "update,3ff000000000000\n",
        "update,3ff00000000000000\n",
        "update,3FF0000000000000\n",
        "update,3ff0000000000000,\n",
        "update,3ff0000000000000\r\n",
        "update,3ff0000000000000",
        " update,3ff0000000000000\n",
        "Update,3ff0000000000000\n",
        "updates,3ff0000000000000\n",
        "speed,3ff0000000000000,0\n",
        "set,0\n",
        "set,00,3f800000\n",
        "set,65536,3f800000\n",
        "set,-1,3f800000\n",
        "set,0,3f80000\n",
        "set,0,3f8000000\n",
        "set,,3f800000\n",
        "frame,0000000000000000\n",
        "frame,0000000000000000,016\n",
        "frame,0000000000000000,65536\n",
        "page,16,0000000000000000\n",
        "loops\n",
        "loops,0,0\n",
        "loops,0,00000000\n",
        "loops,0,0,\n",
        "loops,0,0,0000000\n",
        "loops,0,0,000000000\n",
        "loops,0,0,0000000000000000\n",
        "loops,0,0,3F800000\n",
        "loops,00,0,00000000\n",
        "loops,0,01,00000000\n",
        "loops,65536,0,00000000\n",
        "loops,0,65536,00000000\n",
        "loops,-1,0,00000000\n",
        "loops,,0,00000000\n",
        "loops,0,,00000000\n",
        "loops,0,0,00000000,\n",
        "loops,0,0,00000000,0\n",
        "loops,0,0,00000000\r\n",
        "loops,0,0,00000000",
        "loop,0,0,00000000\n",
        "Loops,0,0,00000000\n",
        "joint,255\n",
    ];

    #[test]
    fn the_first_malformed_line_is_named() {
        let good = "update,3ff0000000000000\n";
        for bad in MALFORMED {
            assert_eq!(parsed(bad.as_bytes()), Err(1), "{bad:?}");
            let list = format!("{good}{good}{bad}");
            assert_eq!(parsed(list.as_bytes()), Err(3), "{bad:?}");
            let list = format!("{good}{bad}{bad}");
            assert_eq!(parsed(list.as_bytes()), Err(2), "{bad:?}");
        }
    }

    #[test]
    fn every_call_is_read_as_it_was_written() {
        let mut generator = Generator::new(3);
        for _ in 0..2000 {
            let bits = generator.draw();
            let number = generator.below(65536) as usize;
            for call in [
                Call::Update(bits),
                Call::Speed(bits),
                Call::Set(number, bits as u32),
                Call::Frame(bits, number),
                Call::Page(bits, number),
                Call::Loops(number, 65535 - number, bits as u32),
            ] {
                assert!(call.has_text());
                assert_eq!(parsed(call.line().as_bytes()), Ok(vec![call]));
            }
        }
        assert!(!Call::frame(0.0, 65536).has_text());
        assert!(!Call::set(65536, 0.0).has_text());
        assert!(!Call::loops(65536, 0, 0.0).has_text());
        assert!(!Call::loops(0, 65536, 0.0).has_text());
    }
}
