//! The figures that are measured, made from their sizes alone; and how each is written down.

use std::fmt::Write;

/// Samples of each clip, unless said otherwise.
pub const SAMPLES: usize = 8;
/// Readable parameters, and what they are set to. A lerp in the middle is the dear case.
pub const VALUES: [f32; 4] = [0.7, 0.3, 0.4, 0.9];
/// So long that no transition ends while it is measured.
const DURATION: f32 = 1e9;

/// What a figure is made from.
#[derive(Clone, Copy)]
pub struct Size {
    pub joints: usize,
    /// Nodes of each state's tree: odd, 1 to 31.
    pub nodes: usize,
    pub states: usize,
    /// Transitions of each state whose conditions do not hold.
    pub waiting: usize,
    /// Whether state 0 also has a transition, to state 1, whose condition holds.
    pub moves: bool,
    pub samples: usize,
    /// Whether clips stop on their last pose. The Rust has no such clips.
    pub stops: bool,
}

impl Size {
    pub fn new(joints: usize, nodes: usize) -> Size {
        Size {
            joints,
            nodes,
            states: 1,
            waiting: 0,
            moves: false,
            samples: SAMPLES,
            stops: false,
        }
    }
}

#[derive(Clone, Copy)]
pub enum Node {
    Clip(u16),
    Lerp(u16, u16, u16),
    Additive(u16, u16, u16),
}

#[derive(Clone, Copy)]
pub struct Go {
    pub parameter: u16,
    pub target: u16,
    /// The transition is taken where the parameter is greater.
    pub value: f32,
    pub duration: f32,
}

pub struct State {
    pub nodes: Vec<Node>,
    pub goes: Vec<Go>,
}

pub struct Clip {
    pub rate: f32,
    /// 0 loops, 1 stops.
    pub ending: u16,
    /// Sample by sample, joint by joint: translation, scale, rotation w x y z.
    pub samples: Vec<Vec<[f32; 8]>>,
}

/// A figure before it is written down as plan and numbers, text, or the Rust's definitions.
pub struct Draft {
    pub parents: Vec<Option<u16>>,
    pub clips: Vec<Clip>,
    pub states: Vec<State>,
}

/// A linear congruential generator with a fixed seed: floats from -0.5 to 0.5.
struct Random(u32);

impl Random {
    fn float(&mut self) -> f32 {
        self.0 = self.0.wrapping_mul(1_664_525).wrapping_add(1_013_904_223);
        (self.0 >> 8) as f32 / 16_777_216.0 - 0.5
    }

    /// A pose with a rotation of length 1.
    fn pose(&mut self) -> [f32; 8] {
        let mut pose: [f32; 8] = std::array::from_fn(|_| self.float());
        pose[3] = 1.0;
        let length = pose[4..].iter().map(|x| x * x).sum::<f32>().sqrt();
        pose[4..].iter_mut().for_each(|x| *x /= length);
        pose
    }
}

/// A balanced tree: clip nodes first, then nodes over two of them each; every fifth node adds.
fn tree(count: usize, clips: usize) -> Vec<Node> {
    let leaves = count.div_ceil(2);
    let mut nodes: Vec<Node> = (0..leaves)
        .map(|n| Node::Clip((n % clips) as u16))
        .collect();
    for number in leaves..count {
        let first = 2 * (number - leaves) as u16;
        let parameter = (number % VALUES.len()) as u16;
        nodes.push(match number % 5 {
            4 => Node::Additive(first, first + 1, parameter),
            _ => Node::Lerp(first, first + 1, parameter),
        });
    }
    nodes
}

fn goes(size: Size, state: usize) -> Vec<Go> {
    let target = ((state + 1) % size.states) as u16;
    let waiting = (0..size.waiting).map(|n| Go {
        parameter: (n % VALUES.len()) as u16,
        target,
        value: 2.0,
        duration: DURATION,
    });
    let moving = (size.moves && state == 0).then_some(Go {
        parameter: 0,
        target,
        value: 0.5,
        duration: DURATION,
    });
    waiting.chain(moving).collect()
}

impl Draft {
    pub fn new(size: Size) -> Draft {
        let mut random = Random(12_345);
        let clips = size.nodes.div_ceil(2);
        let clip = |number| Clip {
            rate: 24.0 + number as f32,
            ending: u16::from(size.stops),
            samples: (0..size.samples)
                .map(|_| (0..size.joints).map(|_| random.pose()).collect())
                .collect(),
        };
        let state = |number| State {
            nodes: tree(size.nodes, clips),
            goes: goes(size, number),
        };
        Draft {
            parents: (0..size.joints as u16)
                .map(|joint| joint.checked_sub(1).map(|j| j / 2))
                .collect(),
            clips: (0..clips).map(clip).collect(),
            states: (0..size.states).map(state).collect(),
        }
    }

    /// A parent's word: the Rust's own 255 for a root as long as it can play the figure.
    fn parent_word(&self, parent: Option<u16>) -> u16 {
        let root = if self.parents.len() <= 64 {
            255
        } else {
            65_535
        };
        parent.unwrap_or(root)
    }

    fn header(&self) -> [u16; 5] {
        let counts = [
            self.parents.len(),
            self.clips.len(),
            VALUES.len(),
            self.states.len(),
            0,
        ];
        counts.map(|count| count as u16)
    }

    pub fn plan(&self) -> Vec<u16> {
        let mut plan = self.header().to_vec();
        plan.extend(self.parents.iter().map(|parent| self.parent_word(*parent)));
        let clips = self.clips.iter();
        plan.extend(clips.flat_map(|clip| [clip.samples.len() as u16, clip.ending]));
        for state in &self.states {
            plan.push(state.nodes.len() as u16);
            plan.extend(state.nodes.iter().flat_map(words));
            plan.push(state.goes.len() as u16);
            plan.extend(
                state
                    .goes
                    .iter()
                    .flat_map(|go| [go.parameter, 2, go.target]),
            );
        }
        plan
    }

    pub fn numbers(&self) -> Vec<f32> {
        let goes = self.states.iter().flat_map(|state| &state.goes);
        let rates = self.clips.iter().map(|clip| clip.rate);
        let mut numbers: Vec<f32> = rates
            .chain(goes.flat_map(|go| [go.value, go.duration]))
            .collect();
        numbers.extend(self.poses().flatten());
        numbers
    }

    fn poses(&self) -> impl Iterator<Item = &[f32; 8]> {
        self.clips
            .iter()
            .flat_map(|clip| clip.samples.iter().flatten())
    }

    pub fn text(&self) -> String {
        let [joints, clips, parameters, states, initial] = self.header();
        let mut text = format!("figure,{joints},{clips},{parameters},{states},{initial}\n");
        for parent in &self.parents {
            line(
                &mut text,
                format_args!("joint,{}", self.parent_word(*parent)),
            );
        }
        for clip in &self.clips {
            clip.write(&mut text);
        }
        for state in &self.states {
            line(
                &mut text,
                format_args!("state,{},{}", state.nodes.len(), state.goes.len()),
            );
            for [kind, a, b, p] in state.nodes.iter().map(words) {
                line(&mut text, format_args!("node,{kind},{a},{b},{p}"));
            }
            for go in &state.goes {
                let (value, duration) = (go.value.to_bits(), go.duration.to_bits());
                line(
                    &mut text,
                    format_args!(
                        "go,{},2,{},{value:08x},{duration:08x}",
                        go.parameter, go.target
                    ),
                );
            }
        }
        for pose in self.poses() {
            let fields: Vec<String> = pose
                .iter()
                .map(|x| format!("{:08x}", x.to_bits()))
                .collect();
            line(&mut text, format_args!("pose,{}", fields.join(",")));
        }
        text
    }
}

impl Clip {
    fn write(&self, text: &mut String) {
        let (samples, rate) = (self.samples.len(), self.rate.to_bits());
        line(
            text,
            format_args!("clip,{samples},{rate:08x},{}", self.ending),
        );
    }
}

fn line(text: &mut String, line: std::fmt::Arguments) {
    writeln!(text, "{line}").expect("a string takes all");
}

fn words(node: &Node) -> [u16; 4] {
    match *node {
        Node::Clip(clip) => [0, clip, 0, 0],
        Node::Lerp(a, b, parameter) => [1, a, b, parameter],
        Node::Additive(a, b, parameter) => [2, a, b, parameter],
    }
}
