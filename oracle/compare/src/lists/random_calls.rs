//! Random calls for a figure.

use super::call::Call;
use crate::generator::{Generator, SPECIAL};
use crate::texts::draft::{Draft, State};

/// Doubles at which a clock or a comparison changes its course.
const SPECIAL_DOUBLES: [f64; 18] = [
    0.0,
    -0.0,
    5e-324,
    2.2250738585072014e-308,
    1e-45,
    0.5,
    1.0,
    -1.0,
    2.0,
    16_777_217.0,
    9_007_199_254_740_993.0,
    1.8446744073709552e19,
    3.4028235677973366e38,
    1e300,
    -1e300,
    f64::INFINITY,
    f64::NEG_INFINITY,
    f64::NAN,
];

/// How wild a list's arguments are.
#[derive(Clone, Copy)]
pub enum Calls {
    /// Steps of a screen that shows the figure.
    Sensible,
    /// Few times are special or any pattern.
    Sparse,
    /// Half of them are.
    Wild,
}

impl Calls {
    pub const ALL: [Calls; 3] = [Calls::Sensible, Calls::Sparse, Calls::Wild];
}

pub fn double(generator: &mut Generator, calls: Calls) -> u64 {
    let among = match calls {
        Calls::Sensible => return sensible(generator).to_bits(),
        Calls::Sparse => 40,
        Calls::Wild => 4,
    };
    match generator.below(among) {
        0 => generator.pick(&SPECIAL_DOUBLES).to_bits(),
        1 => generator.draw(),
        _ => sensible(generator).to_bits(),
    }
}

fn sensible(generator: &mut Generator) -> f64 {
    match generator.below(6) {
        0 => 0.0,
        1 => 1.0 / 60.0,
        2 => 0.25,
        3 => f64::from(generator.between(-0.5, 2.0)),
        _ => f64::from(generator.between(0.0, 0.5)),
    }
}

/// A value for a parameter: often one that a transition of the figure compares with.
pub fn value(generator: &mut Generator, draft: &Draft) -> u32 {
    let all = || draft.states.iter().flat_map(|state| &state.transitions);
    match generator.below(20) {
        0 => generator.draw() as u32,
        1 => generator.pick(&SPECIAL),
        2..=6 => {
            let count = all().count().max(1) as u64;
            let chosen = all().nth(generator.below(count) as usize);
            chosen.map_or(0, |transition| transition.numbers[0])
        }
        _ => generator.between(-1.0, 2.0).to_bits(),
    }
}

fn parameter(generator: &mut Generator, draft: &Draft) -> usize {
    let readable = u64::from(draft.parameters.max(1));
    match generator.below(16) {
        0 => generator.below(32) as usize,
        1 => 32 + generator.below(3) as usize,
        2 if generator.below(4) == 0 => generator.draw() as usize,
        _ => generator.below(readable) as usize,
    }
}

/// An output length: what the figure needs, most likely, or about that.
pub fn length(generator: &mut Generator, draft: &Draft) -> usize {
    let needed = 16 * draft.parents.len();
    match generator.below(24) {
        0 => generator.pick(&[0, 0, 1, 15, 65535]),
        1 | 2 => needed.saturating_sub(1 + generator.below(3) as usize),
        3..=6 => needed + generator.below(40) as usize,
        _ => needed,
    }
}

/// A number, most likely below `count`.
pub fn number(generator: &mut Generator, count: usize) -> usize {
    let random = generator.draw() as usize;
    match generator.below(16) {
        0 => count,
        1 => generator.pick(&[count + 1, 255, 65535, 65536, usize::MAX, random]),
        _ => generator.below(count.max(1) as u64) as usize,
    }
}

/// A node's number, most likely a clip node's.
fn node(generator: &mut Generator, state: Option<&State>) -> usize {
    let nodes = state.map_or(&[][..], |state| &state.nodes);
    let is_clip = |node: &usize| nodes[*node][0] == 0;
    let clips: Vec<usize> = (0..nodes.len()).filter(is_clip).collect();
    match generator.below(4) {
        0 => number(generator, nodes.len()),
        _ if clips.is_empty() => 0,
        _ => generator.pick(&clips),
    }
}

/// The time of a question for loops: soon, or so late that the index is large, or any pattern.
fn time(generator: &mut Generator) -> u32 {
    match generator.below(8) {
        0 => generator.pick(&SPECIAL),
        1 => generator.draw() as u32,
        2 | 3 => {
            let late = generator.between(0.5, 1.0);
            (late * 2f32.powi(generator.below(72) as i32)).to_bits()
        }
        4 => (generator.below(64) as f32 / 2.0).to_bits(),
        _ => generator.between(-2.0, 30.0).to_bits(),
    }
}

fn loops(generator: &mut Generator, draft: &Draft) -> Call {
    let state = number(generator, draft.states.len());
    let node = node(generator, draft.states.get(state));
    Call::Loops(state, node, time(generator))
}

pub fn call(generator: &mut Generator, draft: &Draft, calls: Calls) -> Call {
    match generator.below(14) {
        0..=2 => Call::Update(double(generator, calls)),
        3 => Call::Speed(double(generator, calls)),
        4 | 5 => Call::Set(parameter(generator, draft), value(generator, draft)),
        6 | 7 => Call::Page(double(generator, calls), length(generator, draft)),
        8 | 9 => loops(generator, draft),
        _ => Call::Frame(double(generator, calls), length(generator, draft)),
    }
}
