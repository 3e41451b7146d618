//! The figures of the recorded lists, put together from a few parts.

use crate::generator::{Generator, SPECIAL};
use crate::texts::draft::{Clip, Draft, State, Transition};
use crate::texts::joints::root_word;
use crate::texts::random_figure::{pose, Numbers};

const SEED: u64 = 0x5f37_59df;

pub const CLIP: [u16; 4] = [0, 0, 0, 0];
pub const SECOND: [u16; 4] = [0, 1, 0, 0];
pub const THIRD: [u16; 4] = [0, 2, 0, 0];

/// Operators.
pub const LESS: u16 = 0;
pub const GREATER: u16 = 2;
pub const AT_LEAST: u16 = 3;
pub const EQUAL: u16 = 4;

/// Three clips: four samples in two seconds, six in six, one in a second.
pub const THREE: [(u16, f32); 3] = [(4, 2.0), (6, 1.0), (1, 1.0)];

/// Parameter, operator, target, value, duration.
pub type Go = (u16, u16, u16, f32, f32);

pub fn state(nodes: &[[u16; 4]], goes: &[Go]) -> State {
    let transition = |&(parameter, operator, target, value, duration): &Go| Transition {
        words: [parameter, operator, target],
        numbers: [value.to_bits(), duration.to_bits()],
    };
    State {
        nodes: nodes.to_vec(),
        transitions: goes.iter().map(transition).collect(),
    }
}

/// A figure of so many joints, with looping clips of so many samples and such rates. Its poses are
/// sensible.
pub fn figure(joints: u16, clips: &[(u16, f32)], parameters: u16, states: Vec<State>) -> Draft {
    // A second root at every seventh joint; the others hang from the joint of half their number.
    let parent = |joint: u16| {
        if joint.is_multiple_of(7) {
            root_word(joints)
        } else {
            joint / 2
        }
    };
    let clip = |&(samples, rate): &(u16, f32)| Clip {
        samples,
        rate: rate.to_bits(),
        ending: 0,
    };
    let draft = Draft {
        parameters,
        initial: 0,
        parents: (0..joints).map(parent).collect(),
        clips: clips.iter().map(clip).collect(),
        states,
        poses: Vec::new(),
    };
    posed(draft, Numbers::Sensible)
}

/// The figure with poses of such numbers.
pub fn posed(mut draft: Draft, numbers: Numbers) -> Draft {
    let mut generator = Generator::new(SEED);
    let poses = (0..draft.pose_count()).map(|_| pose(&mut generator, numbers));
    draft.poses = poses.collect();
    draft
}

/// The figure with these of its clips stopping.
pub fn stopping(mut draft: Draft, clips: &[usize]) -> Draft {
    for &clip in clips {
        draft.clips[clip].ending = 1;
    }
    draft
}

/// The figure with these of its clips without samples.
pub fn emptied(mut draft: Draft, clips: &[usize]) -> Draft {
    for &clip in clips {
        draft.clips[clip].samples = 0;
    }
    posed(draft, Numbers::Sensible)
}

/// One state that plays a clip of so many samples.
pub fn one_clip(joints: u16, samples: u16, rate: f32) -> Draft {
    figure(joints, &[(samples, rate)], 0, vec![state(&[CLIP], &[])])
}

/// One state whose tree joins clips 0 and 1 by parameter 0: kind 1 lerp, 2 additive.
pub fn joined(joints: u16, kind: u16) -> Draft {
    let nodes = [CLIP, SECOND, [kind, 0, 1, 0]];
    figure(joints, &THREE[..2], 1, vec![state(&nodes, &[])])
}

/// State 0 goes to state 1, and has its clip; state 1 stays.
pub fn going(joints: u16, goes: &[Go]) -> Draft {
    let states = vec![state(&[CLIP], goes), state(&[SECOND], &[])];
    figure(joints, &THREE[..2], 1, states)
}

/// A tree of 31 nodes over one clip node after the other, lerp and additive in turn.
pub fn chain() -> Vec<[u16; 4]> {
    let mut nodes = vec![CLIP];
    for i in 1..16 {
        let top = nodes.len() as u16 - 1;
        nodes.push([0, i % 3, 0, 0]);
        // Either side may hold the longer branch.
        let (a, b) = if i % 3 == 0 {
            (top + 1, top)
        } else {
            (top, top + 1)
        };
        nodes.push([1 + i % 2, a, b, i % 4]);
    }
    nodes
}

/// A tree of 31 nodes, the clip nodes in front and not in the order in which the tree has them.
pub fn mixed() -> Vec<[u16; 4]> {
    let mut nodes: Vec<[u16; 4]> = (0..16).map(|i| [0, i % 3, 0, 0]).collect();
    for i in 0..15 {
        let (a, b) = (2 * i + 1, 2 * i);
        nodes.push([1 + i / 2 % 2, a, b, i % 4]);
    }
    // The first two joins exchange an input.
    nodes[16][2] = 3;
    nodes[17][1] = 0;
    nodes
}

/// Every number that is no pose's is special, and poses too.
pub fn special(joints: u16) -> Draft {
    let goes = [(0, EQUAL, 1, 0.0, 1.0)];
    let states = vec![
        state(&[CLIP, SECOND, [1, 0, 1, 0]], &goes),
        state(&[SECOND, THIRD, [2, 0, 1, 0]], &goes),
    ];
    let mut draft = posed(figure(joints, &THREE, 2, states), Numbers::Special);
    let mut generator = Generator::new(SEED);
    for clip in &mut draft.clips {
        clip.rate = generator.pick(&SPECIAL);
    }
    draft
}
