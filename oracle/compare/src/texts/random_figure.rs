//! Random figures. The start takes most of them, and refuses the others for a word.

use super::draft::{Clip, Draft, State, Transition};
use super::random_joints::{joints, parents};
use super::wrong_figure::put_fault;
use crate::generator::{Generator, SPECIAL};

/// So many pose lines keep a text below the program's limit, whatever else there is. Above 280 joints
/// there is one sample.
const MOST_POSES: u16 = 560;

/// How a figure's numbers are chosen.
#[derive(Clone, Copy)]
pub enum Numbers {
    /// Unit rotations, positive rates, short distances.
    Sensible,
    Special,
    Pattern,
    /// Each number by one of the above.
    Mixed,
    /// Sensible, with few others among them, which then show what they do.
    Sparse,
}

const STYLES: [Numbers; 4] = [
    Numbers::Sensible,
    Numbers::Special,
    Numbers::Pattern,
    Numbers::Mixed,
];

pub fn figure(generator: &mut Generator) -> Draft {
    let style = generator.pick(&STYLES);
    let joints = joints(generator, 3);
    let mut draft = good(generator, style, joints);
    if generator.below(3) == 0 {
        put_fault(generator, &mut draft);
    }
    let poses = (0..draft.pose_count()).map(|_| pose(generator, style));
    draft.poses = poses.collect();
    draft
}

/// Where a number is NaN, so is much that comes of it: most figures are to show more than that.
const MOSTLY_SENSIBLE: [Numbers; 8] = [
    Numbers::Sensible,
    Numbers::Sensible,
    Numbers::Sensible,
    Numbers::Sparse,
    Numbers::Sparse,
    Numbers::Special,
    Numbers::Pattern,
    Numbers::Mixed,
];

/// A figure in which no fault is put. The start takes it, if it has not a 65th clip node by chance.
pub fn accepted(generator: &mut Generator) -> Draft {
    let style = generator.pick(&MOSTLY_SENSIBLE);
    let usual = generator.pick(&[3, 3, 3, 3, 3, 3, 3, 64]);
    let joints = joints(generator, usual);
    let mut draft = good(generator, style, joints);
    let poses = (0..draft.pose_count()).map(|_| pose(generator, style));
    draft.poses = poses.collect();
    draft
}

/// From 1 to `usual`, seldom to `most`.
pub(super) fn count(generator: &mut Generator, usual: u64, most: u64) -> u16 {
    let limit = if generator.below(16) == 0 {
        most
    } else {
        usual
    };
    1 + generator.below(limit) as u16
}

pub(super) fn below(generator: &mut Generator, limit: u16) -> u16 {
    generator.below(u64::from(limit)) as u16
}

fn good(generator: &mut Generator, style: Numbers, joints: u16) -> Draft {
    let mut draft = Draft {
        parameters: count(generator, 3, 33) - 1,
        parents: parents(generator, joints),
        ..Draft::default()
    };
    draft.clips = clips(generator, style, joints);
    let states = count(generator, 3, 16);
    draft.initial = below(generator, states);
    let leaves = leaves(generator, states);
    for leaves in leaves {
        let state = state(generator, &draft, states, leaves, style);
        draft.states.push(state);
    }
    draft
}

/// Which clips that the Rust has not, stopping and empty ones, may be among a figure's. More than half
/// of the figures have neither: these are put to the Rust too.
fn others(generator: &mut Generator) -> (bool, bool) {
    match generator.below(16) {
        0..=6 => (false, false),
        7..=10 => (true, false),
        11 | 12 => (false, true),
        _ => (true, true),
    }
}

fn clips(generator: &mut Generator, style: Numbers, joints: u16) -> Vec<Clip> {
    let most_samples = MOST_POSES / joints;
    let count_of_clips = count(generator, 3, 16).min(most_samples);
    let (stop, pause) = others(generator);
    let clip = |_| {
        let mut clip = Clip {
            rate: number(generator, style) & positive(style),
            samples: count(generator, 2, 16).min(most_samples / count_of_clips),
            ending: u16::from(stop && generator.below(2) == 0),
        };
        if pause && generator.below(2) == 0 {
            put_pause(generator, &mut clip);
        }
        clip
    };
    (0..count_of_clips).map(clip).collect()
}

/// Its rate shows nowhere, so that any will do among sensible numbers too.
fn put_pause(generator: &mut Generator, clip: &mut Clip) {
    clip.samples = 0;
    if generator.below(2) == 0 {
        clip.rate = generator.pick(&SPECIAL);
    }
}

/// How many clip nodes each state has: few, or close to 64 in all.
fn leaves(generator: &mut Generator, states: u16) -> Vec<u16> {
    if generator.below(40) > 0 {
        return (0..states).map(|_| count(generator, 3, 16)).collect();
    }
    let near = 63 + below(generator, 3);
    let each = |state: u16| (near * (state + 1) / states - near * state / states).clamp(1, 16);
    (0..states).map(each).collect()
}

fn state(
    generator: &mut Generator,
    draft: &Draft,
    states: u16,
    leaves: u16,
    style: Numbers,
) -> State {
    // What blends or goes reads a parameter.
    let readable = draft.parameters > 0;
    let leaves = if readable { leaves } else { 1 };
    let transitions = if readable {
        count(generator, 3, 17) - 1
    } else {
        0
    };
    State {
        nodes: tree(generator, draft, leaves),
        transitions: (0..transitions)
            .map(|_| transition(generator, draft.parameters, states, style))
            .collect(),
    }
}

/// Nodes in some order in which each comes after its inputs.
fn tree(generator: &mut Generator, draft: &Draft, leaves: u16) -> Vec<[u16; 4]> {
    let mut nodes = Vec::new();
    let mut unused = Vec::new();
    let mut left = leaves;
    while left > 0 || unused.len() > 1 {
        let joins = unused.len() > 1 && (left == 0 || generator.below(2) == 0);
        let node = if joins {
            let kind = 1 + below(generator, 2);
            let [a, b] = [(); 2].map(|_| taken(generator, &mut unused));
            [kind, a, b, below(generator, draft.parameters)]
        } else {
            left -= 1;
            [0, below(generator, draft.clips.len() as u16), 0, 0]
        };
        unused.push(nodes.len() as u16);
        nodes.push(node);
    }
    nodes
}

fn taken(generator: &mut Generator, items: &mut Vec<u16>) -> u16 {
    let i = generator.below(items.len() as u64) as usize;
    items.swap_remove(i)
}

fn transition(
    generator: &mut Generator,
    parameters: u16,
    states: u16,
    style: Numbers,
) -> Transition {
    // All parameters are 0 in the frame, so values around 0 tell the operators apart.
    let value = match generator.below(3) {
        0 => generator.pick(&[0x8000_0000, 0x0000_0001, 0x8000_0001]),
        1 => 0,
        _ => number(generator, style),
    };
    Transition {
        words: [
            below(generator, parameters),
            below(generator, 6),
            below(generator, states),
        ],
        numbers: [value, number(generator, style)],
    }
}

pub fn number(generator: &mut Generator, style: Numbers) -> u32 {
    match style {
        Numbers::Sensible => generator.ordinary(),
        Numbers::Special => generator.pick(&SPECIAL),
        Numbers::Pattern => generator.draw() as u32,
        Numbers::Mixed => {
            let style = generator.pick(&STYLES[..3]);
            number(generator, style)
        }
        Numbers::Sparse => {
            let style = match generator.below(32) {
                0 => Numbers::Special,
                1 => Numbers::Pattern,
                _ => Numbers::Sensible,
            };
            number(generator, style)
        }
    }
}

/// Masks a sensible rate's sign.
fn positive(style: Numbers) -> u32 {
    match style {
        Numbers::Sensible | Numbers::Sparse => 0x7fff_ffff,
        _ => 0xffff_ffff,
    }
}

pub fn pose(generator: &mut Generator, style: Numbers) -> [u32; 8] {
    let mut words = [(); 8].map(|_| number(generator, style));
    let keeps_unit = match style {
        Numbers::Sensible => true,
        Numbers::Sparse => generator.below(16) > 0,
        _ => false,
    };
    if keeps_unit {
        let rotation = generator.unit_quaternion().map(f32::to_bits);
        words[4..].copy_from_slice(&rotation);
    }
    words
}

#[cfg(test)]
mod tests {
    use super::*;
    use crate::texts::plan::check;

    fn drafts() -> Vec<Draft> {
        let mut generator = Generator::new(8);
        (0..4000).map(|_| accepted(&mut generator)).collect()
    }

    fn has(draft: &Draft, is: fn(&Clip) -> bool) -> bool {
        draft.clips.iter().any(is)
    }

    fn is_empty(clip: &Clip) -> bool {
        clip.samples == 0
    }

    /// Both players of the reference get enough to do.
    #[test]
    fn most_figures_are_the_rusts() {
        let drafts = drafts();
        let count = |is: fn(&Draft) -> bool| drafts.iter().filter(|draft| is(draft)).count();
        let rusts = count(|draft| !has(draft, |clip| is_empty(clip) || clip.ending == 1));
        let stopping = count(|draft| has(draft, |clip| clip.ending == 1));
        let empty = count(|draft| has(draft, is_empty));
        let counts = [rusts, stopping, empty];
        assert!((2100..=2500).contains(&rusts), "{counts:?}");
        assert!((1000..=1600).contains(&stopping), "{counts:?}");
        assert!((700..=1100).contains(&empty), "{counts:?}");
    }

    /// Whether the clip that a node plays is empty, where it plays one.
    fn pause(draft: &Draft, node: [u16; 4]) -> Option<bool> {
        let clip = draft.clips.get(usize::from(node[1]))?;
        (node[0] == 0).then_some(is_empty(clip))
    }

    /// Whether a node of this kind has such inputs.
    fn joins(draft: &Draft, kind: u16, inputs: [Option<bool>; 2]) -> bool {
        draft.states.iter().any(|state| {
            let input = |number: u16| pause(draft, state.nodes[usize::from(number)]);
            let mut nodes = state.nodes.iter();
            nodes.any(|&[k, a, b, _]| k == kind && [input(a), input(b)] == inputs)
        })
    }

    /// Whether a state shows nothing but an empty clip.
    fn is_pause(draft: &Draft, state: usize) -> bool {
        let nodes = &draft.states[state].nodes;
        nodes.len() == 1 && pause(draft, nodes[0]) == Some(true)
    }

    fn has_pause(draft: &Draft) -> bool {
        (0..draft.states.len()).any(|state| is_pause(draft, state))
    }

    /// Whether a transition goes between a state that is a pause and one that is not.
    fn goes(draft: &Draft, into: bool) -> bool {
        let leads = |(number, state): (usize, &State)| {
            let targets = state.transitions.iter().map(|t| usize::from(t.words[2]));
            let is_other = |target: usize| is_pause(draft, target) == into;
            is_pause(draft, number) != into && targets.into_iter().any(is_other)
        };
        draft.states.iter().enumerate().any(leads)
    }

    fn has_rate(draft: &Draft, is: fn(f32) -> bool) -> bool {
        let mut clips = draft.clips.iter().filter(|clip| is_empty(clip));
        clips.any(|clip| is(f32::from_bits(clip.rate)))
    }

    type Situation = (&'static str, fn(&Draft) -> bool);

    const EMPTY: Option<bool> = Some(true);
    const SAMPLED: Option<bool> = Some(false);

    const SITUATIONS: [Situation; 16] = [
        ("one joint", |d| d.parents.len() == 1 && has_pause(d)),
        ("33 joints", |d| d.parents.len() > 32 && has_pause(d)),
        ("lerp from", |d| joins(d, 1, [EMPTY, SAMPLED])),
        ("lerp to", |d| joins(d, 1, [SAMPLED, EMPTY])),
        ("lerp of two", |d| joins(d, 1, [EMPTY; 2])),
        ("additive to", |d| joins(d, 2, [EMPTY, SAMPLED])),
        ("additive of", |d| joins(d, 2, [SAMPLED, EMPTY])),
        ("additive of two", |d| joins(d, 2, [EMPTY; 2])),
        ("between", |d| {
            let mut three = d.clips.windows(3);
            three.any(|three| [0, 1, 2].map(|i| is_empty(&three[i])) == [false, true, false])
        }),
        ("stopping", |d| {
            has(d, |clip| is_empty(clip) && clip.ending == 1)
        }),
        ("all empty", |d| d.clips.iter().all(is_empty)),
        ("into", |d| goes(d, true)),
        ("out of", |d| goes(d, false)),
        ("rate 0", |d| has_rate(d, |rate| rate == 0.0)),
        ("rate NaN", |d| has_rate(d, f32::is_nan)),
        ("rate infinite", |d| has_rate(d, f32::is_infinite)),
    ];

    /// Each way in which an empty clip is met is met in one of 200 figures at least.
    #[test]
    fn empty_clips_are_met_in_all_situations() {
        let mut drafts = drafts();
        drafts.retain(|draft| check(&draft.figure()).is_ok());
        for (name, is) in SITUATIONS {
            let count = drafts.iter().filter(|draft| is(draft)).count();
            assert!(count >= 20, "{name}: {count} of {}", drafts.len());
        }
    }
}
