//! Prints a figure's first frame as the program gentianlathe does.
//!
//!     cargo run --offline --example play [FIGURE]      (default: the repository's examples/printed.figure)
//!
//! Exit status: 0 shown, 1 refused, 2 the file cannot be read.

use gentianlathe::{Figure, Refusal, MATRIX_FLOATS};
use std::env;
use std::fmt::Write;
use std::fs;
use std::process::ExitCode;

const PRINTED: &str = concat!(env!("CARGO_MANIFEST_DIR"), "/../../examples/printed.figure");

/// A float's bits, every NaN alike.
fn bits(value: f32) -> u32 {
    if value.is_nan() {
        0x7fc0_0000
    } else {
        value.to_bits()
    }
}

/// The lines of a figure's first frame.
fn first_frame(text: &[u8]) -> Result<String, Refusal> {
    let figure = Figure::from_text(text)?;
    let mut output = vec![0.0; figure.output_len()];
    figure.start().frame(&figure, 0.0, &mut output)?;
    let mut lines = String::new();
    for (joint, matrix) in output.chunks_exact(MATRIX_FLOATS).enumerate() {
        write!(lines, "joint,{joint}").expect("a string takes all");
        for value in matrix {
            write!(lines, ",{:08x}", bits(*value)).expect("a string takes all");
        }
        lines.push('\n');
    }
    Ok(lines)
}

fn main() -> ExitCode {
    let path = env::args_os().nth(1).unwrap_or_else(|| PRINTED.into());
    let text = match fs::read(&path) {
        Ok(text) => text,
        Err(error) => {
            eprintln!("play: '{}' cannot be read: {error}", path.to_string_lossy());
            return ExitCode::from(2);
        }
    };
    match first_frame(&text) {
        Ok(lines) => {
            print!("{lines}");
            ExitCode::SUCCESS
        }
        Err(refusal) => {
            println!("refused,{},{}", refusal.number(), refusal.place());
            eprintln!("play: {refusal}");
            ExitCode::from(1)
        }
    }
}
