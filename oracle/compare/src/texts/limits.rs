//! Good figures at the limits: of a text's length, and of the counts.

use super::draft::{Clip, Draft, State, Transition};
use super::joints::{mixed_parents, root_word, MOST_JOINTS, RUST_JOINTS};
use super::random_figure::{pose, Numbers};
use crate::generator::Generator;

const CLIPS: u16 = 16;
const ONE: u32 = 0x3f80_0000;

/// The most words that a plan of at most so many joints, clips, states, nodes and transitions has.
pub const MOST_WORDS: usize = 5 + MOST_JOINTS as usize + 2 * 16 + 16 * (2 + 4 * 31 + 3 * 16);

/// Either figure fits into a text of the greatest length, with about 500 bytes left.
#[derive(Clone, Copy, Debug)]
pub enum Long {
    /// 13 samples of 64 joints.
    Rusts,
    /// Two samples of 400.
    Widest,
}

impl Long {
    pub fn joints(self) -> u16 {
        match self {
            Long::Rusts => RUST_JOINTS,
            Long::Widest => MOST_JOINTS,
        }
    }

    fn draft(self) -> Draft {
        let (samples, leaves): (&[u16], &[u16]) = match self {
            Long::Rusts => (&[5, 4, 3, 1], &[8, 4, 1]),
            Long::Widest => (&[1, 1], &[4, 2]),
        };
        let tree = |&leaves: &u16| balanced(leaves, samples.len() as u16, 2);
        Draft {
            parameters: 2,
            parents: (0..self.joints()).map(|joint| self.parent(joint)).collect(),
            clips: samples.iter().map(|&samples| clip(samples, 0)).collect(),
            states: leaves.iter().map(tree).collect(),
            ..Draft::default()
        }
    }

    /// Of one digit mostly.
    fn parent(self, joint: u16) -> u16 {
        match joint.checked_sub(1) {
            None => root_word(self.joints()),
            Some(before) if is_crossing(joint) => before,
            Some(before) => before % 9,
        }
    }
}

/// Whether it has the joint before it for a parent.
fn is_crossing(joint: u16) -> bool {
    joint.is_multiple_of(32)
}

/// A text of this length: about the greatest that the program takes.
pub fn long_text(generator: &mut Generator, long: Long, length: usize) -> String {
    let mut draft = long.draft();
    put_poses(generator, &mut draft);
    lengthen(&mut draft, length);
    draft.text()
}

/// All counts but J and N at their upper limits, and so many clip nodes in all, from 61 to 76.
pub fn full_text(generator: &mut Generator, clip_nodes: u16) -> String {
    let mut draft = full(1, 1, clip_nodes);
    put_poses(generator, &mut draft);
    draft.text()
}

/// All counts but N at their upper limits: without samples this text is short enough.
pub fn pauses_text() -> String {
    full(MOST_JOINTS, 0, 64).text()
}

fn full(joints: u16, samples: u16, clip_nodes: u16) -> Draft {
    let mut leaves = [1; 16];
    leaves[..3].fill(16);
    leaves[15] = clip_nodes - 60;
    let mut draft = Draft {
        parameters: 32,
        parents: vec![root_word(joints); usize::from(joints)],
        clips: (0..CLIPS).map(|number| clip(samples, number % 2)).collect(),
        states: leaves.map(|leaves| balanced(leaves, CLIPS, 32)).to_vec(),
        ..Draft::default()
    };
    for state in &mut draft.states {
        state.transitions = vec![transition(31, false, 15); 15];
        state.transitions.push(transition(31, true, 15));
    }
    draft
}

/// As many words as a text can have. There are no samples, so that the text is short enough; the
/// first clip's ending is given.
pub fn most_words_text(ending: u16) -> String {
    let mut clips = vec![clip(0, 1); usize::from(CLIPS)];
    clips[0].ending = ending;
    let mut state = balanced(16, CLIPS, 32);
    state.transitions = vec![transition(31, true, 15); 16];
    let draft = Draft {
        parameters: 32,
        parents: vec![root_word(MOST_JOINTS); usize::from(MOST_JOINTS)],
        clips,
        states: vec![state; 16],
        ..Draft::default()
    };
    draft.text()
}

/// One sample, under parents of all sorts.
pub fn shown_text(generator: &mut Generator, joints: u16) -> String {
    let mut draft = Draft {
        parents: mixed_parents(joints),
        clips: vec![clip(1, 0)],
        states: vec![balanced(1, 1, 1)],
        ..Draft::default()
    };
    put_poses(generator, &mut draft);
    draft.text()
}

fn clip(samples: u16, ending: u16) -> Clip {
    Clip {
        samples,
        rate: ONE,
        ending,
    }
}

fn put_poses(generator: &mut Generator, draft: &mut Draft) {
    let poses = (0..draft.pose_count()).map(|_| pose(generator, Numbers::Sensible));
    draft.poses = poses.collect();
}

/// A tree of so many clip nodes; its other nodes are lerp and additive in turn.
fn balanced(leaves: u16, clips: u16, parameters: u16) -> State {
    let clip_nodes = (0..leaves).map(|i| [0, i % clips, 0, 0]);
    let others = (0..leaves - 1).map(|i| [1 + i % 2, 2 * i, 2 * i + 1, (i + 1) % parameters]);
    State {
        nodes: clip_nodes.chain(others).collect(),
        transitions: Vec::new(),
    }
}

/// Every parameter is 0, so one equal to 0 passes and one greater does not.
fn transition(parameter: u16, passes: bool, target: u16) -> Transition {
    let operator = if passes { 4 } else { 2 };
    Transition {
        words: [parameter, operator, target],
        numbers: [0, ONE],
    }
}

/// Adds transitions while they fit, then bytes one by one: a second digit in a parent's number.
fn lengthen(draft: &mut Draft, length: usize) {
    let bytes = "go,1,4,1,00000000,3f800000\n".len();
    let mut missing = length - draft.text().len();
    for State { transitions, .. } in &mut draft.states {
        while missing > bytes && transitions.len() < 9 {
            let passes = transitions.is_empty();
            transitions.insert(0, transition(1, passes, 1));
            missing -= bytes;
        }
    }
    let joints = (11..RUST_JOINTS).rev().filter(|&joint| !is_crossing(joint));
    for joint in joints.take(missing) {
        draft.parents[usize::from(joint)] = joint - 1;
    }
}

#[cfg(test)]
mod tests {
    use super::*;
    use crate::texts::figure::Refusal;
    use crate::texts::printed::{played, read, LONGEST};

    #[test]
    fn a_long_text_has_its_length_and_is_played() {
        for long in [Long::Rusts, Long::Widest] {
            for length in LONGEST - 500..=LONGEST + 1 {
                let text = long_text(&mut Generator::new(1), long, length);
                assert_eq!(text.len(), length, "{long:?}");
            }
            let text = long_text(&mut Generator::new(1), long, LONGEST);
            let shown = played(text.as_bytes()).unwrap();
            assert_eq!(shown.len(), usize::from(long.joints()));
        }
    }

    #[test]
    fn a_full_text_has_room_for_64_clip_nodes() {
        let text = |clip_nodes| full_text(&mut Generator::new(1), clip_nodes).into_bytes();
        assert!(played(&text(64)).is_ok());
        // Before the last state: header, parent and counts; three big trees and twelve small ones.
        let state = 5 + 1 + 2 * 16 + 3 * (2 + 4 * 31 + 3 * 16) + 12 * (2 + 4 + 3 * 16);
        let refusal = Refusal {
            number: 2,
            place: state + 1 + 4 * 4,
        };
        assert_eq!(played(&text(65)), Err(refusal));
    }

    #[test]
    fn a_full_text_without_samples_is_played() {
        let text = pauses_text().into_bytes();
        assert!(text.len() <= LONGEST);
        assert_eq!(played(&text).unwrap().len(), usize::from(MOST_JOINTS));
    }

    /// Clips begin at place 405, and the first has an ending that passes, or does not. The fifth state's
    /// first node is the 65th clip node.
    #[test]
    fn the_longest_plan_is_read_and_refused() {
        let kind = 5 + 400 + 2 * 16 + 4 * (2 + 4 * 31 + 3 * 16) + 1;
        for (ending, number, place) in [(0, 2, kind), (1, 2, kind), (2, 14, 406)] {
            let text = most_words_text(ending).into_bytes();
            let figure = read(&text).unwrap();
            assert_eq!(figure.plan.len(), MOST_WORDS);
            assert_eq!(MOST_WORDS, 3221);
            assert_eq!(played(&text), Err(Refusal { number, place }));
        }
    }
}
