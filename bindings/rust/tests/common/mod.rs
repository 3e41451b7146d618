//! What the tests share: a random generator with a fixed seed, figures and players.
#![allow(dead_code)]

use gentianlathe::{ClipInstance, Figure, PlayerParts, Transition, MAX_JOINTS, ROOT};
use std::fs;

pub const PRINTED: &[u8] = include_bytes!("../../../../examples/printed.figure");

/// Joints that are evaluated together.
const BLOCK: usize = 32;

/// Numbers of joints at the edges: the fewest, each multiple of a block and beside it, the most. Among them is
/// where 255 stops marking a root (64 and 65), and where a byte stops numbering joints (255 to 257).
pub fn joint_counts() -> Vec<usize> {
    let multiples = (BLOCK..MAX_JOINTS).step_by(BLOCK);
    let near = multiples.flat_map(|multiple| [multiple - 1, multiple, multiple + 1]);
    let fewest = [1, 2].into_iter();
    fewest
        .chain(near)
        .chain([MAX_JOINTS - 1, MAX_JOINTS])
        .collect()
}

/// A small generator (xorshift64*), so that a failure comes again.
pub struct Random(u64);

impl Random {
    pub fn new(seed: u64) -> Random {
        Random(seed | 1)
    }

    pub fn bits(&mut self) -> u64 {
        self.0 ^= self.0 >> 12;
        self.0 ^= self.0 << 25;
        self.0 ^= self.0 >> 27;
        self.0.wrapping_mul(0x2545_f491_4f6c_dd1d)
    }

    pub fn below(&mut self, bound: usize) -> usize {
        ((self.bits() >> 33) as usize) % bound
    }

    pub fn between(&mut self, least: usize, most: usize) -> usize {
        least + self.below(most - least + 1)
    }

    /// Any bits, or a small number.
    pub fn float(&mut self) -> f32 {
        match self.below(4) {
            0 => f32::from_bits(self.bits() as u32),
            1 => *self.pick(&[0.0, -0.0, 1.0, f32::NAN, f32::INFINITY, f32::MAX, 1e-40]),
            _ => self.below(4096) as f32 / 1024.0 - 2.0,
        }
    }

    pub fn double(&mut self) -> f64 {
        match self.below(4) {
            0 => f64::from_bits(self.bits()),
            1 => *self.pick(&[0.0, -0.0, 1.0, f64::NAN, f64::NEG_INFINITY, 1e300, 5e-324]),
            _ => self.below(4096) as f64 / 512.0,
        }
    }

    pub fn pick<'a, T>(&mut self, from: &'a [T]) -> &'a T {
        &from[self.below(from.len())]
    }
}

/// The example figures that the program shows, as texts.
pub fn example_texts() -> Vec<Vec<u8>> {
    let folder = concat!(env!("CARGO_MANIFEST_DIR"), "/../../examples");
    let names = [
        "printed", "arm", "hand", "signs", "turn", "held", "pause", "face", "wave",
    ];
    let path = |name: &&str| format!("{folder}/{name}.figure");
    names
        .iter()
        .map(|name| fs::read(path(name)).expect("an example"))
        .collect()
}

/// Two joints, one clip, one parameter; state 0 has three nodes and one transition, state 1 one node.
pub fn two_states() -> (Vec<u16>, Vec<f32>) {
    let plan = vec![
        2, 1, 1, 2, 0, // J C P S I
        255, 0, // parents
        1, 0, // N, ending
        3, 0, 0, 0, 0, 0, 0, 0, 0, 1, 0, 1, 0, // K and nodes of state 0
        1, 0, 2, 1, // T, and to state 1 where parameter 0 is greater than ..
        1, 0, 0, 0, 0, 0, // K, node and T of state 1
    ];
    let mut numbers = vec![1.0, 0.5, 2.0];
    for x in [1.0, 2.0] {
        numbers.extend([x, 0.0, 0.0, 1.0, 0.5, 0.5, 0.5, 0.5]);
    }
    (plan, numbers)
}

/// A random tree: its clip nodes, and then nodes that take two which nobody took before.
fn tree(random: &mut Random, leaves: usize, clips: usize, parameters: usize) -> Vec<[u16; 4]> {
    let mut nodes = Vec::new();
    let mut open = Vec::new();
    for leaf in 0..leaves {
        nodes.push([0, random.below(clips) as u16, 0, 0]);
        open.push(leaf);
    }
    while open.len() > 1 {
        let a = open.swap_remove(random.below(open.len()));
        let b = open.swap_remove(random.below(open.len()));
        let parameter = random.below(parameters) as u16;
        open.push(nodes.len());
        nodes.push([random.between(1, 2) as u16, a as u16, b as u16, parameter]);
    }
    nodes
}

/// The words of a random state, and how many transitions it has.
fn state(random: &mut Random, clips: usize, parameters: usize, states: usize) -> (Vec<u16>, usize) {
    // Without a parameter there is nothing to blend or to wait for.
    let leaves = if parameters == 0 {
        1
    } else {
        random.between(1, 16)
    };
    let transitions = if parameters == 0 { 0 } else { random.below(4) };
    let nodes = tree(random, leaves, clips, parameters);
    let mut words = vec![nodes.len() as u16];
    words.extend(nodes.iter().flatten());
    words.push(transitions as u16);
    for _ in 0..transitions {
        let transition = [
            random.below(parameters),
            random.below(6),
            random.below(states),
        ];
        words.extend(transition.map(|word| word as u16));
    }
    (words, transitions)
}

/// A random figure that a start accepts.
pub fn random_figure(random: &mut Random) -> Figure {
    let joints = match random.below(4) {
        0 => *random.pick(&joint_counts()),
        _ => random.between(1, 40),
    };
    let (clips, parameters, states) = (random.between(1, 3), random.below(4), random.between(1, 4));
    let header = [joints, clips, parameters, states, random.below(states)];
    let mut plan: Vec<u16> = header.map(|word| word as u16).to_vec();
    for joint in 0..joints {
        let root = if joints > 64 {
            ROOT
        } else {
            *random.pick(&[255, ROOT])
        };
        let parent = random.below(joint + 1);
        plan.push(if parent == joint { root } else { parent as u16 });
    }
    let samples: Vec<usize> = (0..clips).map(|_| random.below(5)).collect();
    for count in &samples {
        plan.extend([*count as u16, random.below(2) as u16]);
    }
    let mut count = clips + 8 * joints * samples.iter().sum::<usize>();
    for _ in 0..states {
        let (words, transitions) = state(random, clips, parameters, states);
        plan.extend(words);
        count += 2 * transitions;
    }
    let numbers = (0..count).map(|_| random.float()).collect();
    Figure::new(plan, numbers).expect("a figure as documents 01 and 02 have it")
}

/// A player with any content; mostly one with a state that a figure may have.
pub fn random_parts(random: &mut Random) -> PlayerParts {
    let state = |random: &mut Random| match random.below(8) {
        0 => random.bits() as usize,
        _ => random.below(4),
    };
    let transition = match random.below(2) {
        0 => None,
        _ => Some(Transition {
            start: random.double(),
            target: state(random),
            duration: random.float(),
        }),
    };
    PlayerParts {
        clock: random.double(),
        speed: random.double(),
        state: state(random),
        transition,
        parameters: std::array::from_fn(|_| random.float()),
        instances: std::array::from_fn(|_| ClipInstance {
            start: random.float(),
            rate: random.float(),
            offset: random.float(),
        }),
    }
}

/// Bits, so that a NaN is equal to itself.
pub fn bits(floats: &[f32]) -> Vec<u32> {
    floats.iter().map(|x| x.to_bits()).collect()
}

/// Bits as demand 2 compares them: all NaNs alike.
pub fn seen(floats: &[f32]) -> Vec<u32> {
    let seen = |x: &f32| if x.is_nan() { 0x7fc0_0000 } else { x.to_bits() };
    floats.iter().map(seen).collect()
}
