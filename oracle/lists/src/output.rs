//! A host's output buffer: what a frame must write, and what it must leave.

use compare::judge::{bits, matrix_bits};
use compare::row::joined;

/// What stands in a buffer before a frame.
const OLD: u32 = 0x4b5a_5a5a;

/// Floats behind the slice that the frame gets.
const BEHIND: usize = 20;

pub struct Output {
    buffer: Vec<f32>,
    length: usize,
}

impl Output {
    pub fn new(length: usize) -> Output {
        Output {
            buffer: vec![f32::from_bits(OLD); length + BEHIND],
            length,
        }
    }

    pub fn slice(&mut self) -> &mut [f32] {
        &mut self.buffer[..self.length]
    }

    /// Whether it starts with these matrices, and keeps its contents after them.
    pub fn same(&self, matrices: &[[[f32; 4]; 4]]) -> Result<(), String> {
        let (front, rest) = self.buffer.split_at(16 * matrices.len());
        for (joint, (matrix, shown)) in matrices.iter().zip(front.chunks(16)).enumerate() {
            let expected = matrix_bits(*matrix);
            let actual: Vec<u32> = shown.iter().map(|&float| bits(float)).collect();
            if expected != actual {
                let [expected, actual] = [expected, actual].map(|words| joined(&words));
                return Err(format!(
                    "the matrix of joint {joint}\n  reference  {expected}\n  library    {actual}"
                ));
            }
        }
        match rest.iter().position(|float| float.to_bits() != OLD) {
            None => Ok(()),
            Some(i) => Err(format!(
                "the output's float {} of {} is written",
                16 * matrices.len() + i,
                self.length
            )),
        }
    }
}
