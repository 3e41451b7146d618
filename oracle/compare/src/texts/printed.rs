//! What the program prints for a text.

use super::figure::{Figure, Refusal};
use super::joints::MOST_JOINTS;
use super::reader;
use crate::judge::matrix_bits;
use crate::reference::Reference;
use crate::row::joined;
use skeletal_animation::math::Matrix4;

/// The longest text that is read, in bytes.
pub const LONGEST: usize = 65_536;

pub fn printed(text: &[u8]) -> String {
    match played(text) {
        Ok(joints) => joints.iter().enumerate().map(joint_line).collect(),
        Err(Refusal { number, place }) => format!("refused,{number},{place}\n"),
    }
}

/// Each joint's matrix, or the first refusal.
pub fn played(text: &[u8]) -> Result<Vec<Matrix4<f32>>, Refusal> {
    let mut player = Reference::start(&read(text)?);
    player.answer()?;
    player.frame(0.0, 16 * usize::from(MOST_JOINTS))
}

/// What a program reads: the figure of a text that is not too long.
pub fn read(text: &[u8]) -> Result<Figure, Refusal> {
    if text.len() > LONGEST {
        return Err(Refusal {
            number: 13,
            place: LONGEST,
        });
    }
    reader::read(text)
}

pub fn joint_line((number, matrix): (usize, &Matrix4<f32>)) -> String {
    format!("joint,{number},{}\n", joined(&matrix_bits(*matrix)))
}

#[cfg(test)]
mod tests {
    use super::*;
    use crate::texts::draft::{Clip, Draft, State, Transition};
    use crate::texts::edges::BLEND;

    const ONE: u32 = 0x3f80_0000;

    #[test]
    fn the_printed_example_is_printed() {
        let text = "figure,1,1,0,1,0\njoint,255\nclip,1,3f800000,0\nstate,1,0\nnode,0,0,0,0\n\
            pose,3f800000,40000000,40400000,3f800000,3f800000,00000000,00000000,00000000\n";
        let line = "joint,0,3f800000,00000000,00000000,3f800000,00000000,3f800000,00000000,\
            40000000,00000000,00000000,3f800000,40400000,00000000,00000000,00000000,3f800000\n";
        assert_eq!(printed(text.as_bytes()), line);
    }

    #[test]
    fn length_alone_is_judged_first() {
        assert_eq!(printed(&[0; LONGEST]), "refused,11,1\n");
        assert_eq!(printed(&[0; LONGEST + 1]), "refused,13,65536\n");
        assert_eq!(printed(&[b'\n'; 3 * LONGEST]), "refused,13,65536\n");
    }

    #[test]
    fn every_nan_is_printed_alike() {
        let text = BLEND.replace(",3f000000", ",00000000");
        let expected = format!("joint,0{}\n", ",7fc00000".repeat(16));
        assert_eq!(printed(text.as_bytes()), expected);
    }

    /// Two joints, two clips of two samples: x is 100, 200 for the clips, 10, 20 for the samples and
    /// 1, 2 for the joints.
    fn draft(states: Vec<State>) -> Draft {
        let x = |i: u16| f32::from((i / 4 + 1) * 100 + (i / 2 % 2 + 1) * 10 + i % 2 + 1);
        let clip = Clip {
            samples: 2,
            rate: ONE,
            ending: 0,
        };
        Draft {
            parameters: 1,
            initial: 0,
            parents: vec![255, 255],
            clips: vec![clip.clone(), clip],
            states,
            poses: (0..8)
                .map(|i| [x(i).to_bits(), 0, 0, ONE, ONE, 0, 0, 0])
                .collect(),
        }
    }

    fn state(nodes: &[[u16; 4]], transitions: &[(u16, f32, f32)]) -> State {
        let transition = |&(operator, value, duration): &(u16, f32, f32)| Transition {
            words: [0, operator, 0],
            numbers: [value.to_bits(), duration.to_bits()],
        };
        State {
            nodes: nodes.to_vec(),
            transitions: transitions.iter().map(transition).collect(),
        }
    }

    /// The x of each joint.
    fn shown(draft: &Draft) -> Vec<f32> {
        let joints = played(draft.text().as_bytes()).unwrap();
        joints.iter().map(|matrix| matrix[0][3]).collect()
    }

    const FIRST: [u16; 4] = [0, 0, 0, 0];
    const SECOND: [u16; 4] = [0, 1, 0, 0];

    #[test]
    fn numbers_are_of_their_clip_sample_and_joint() {
        let mut draft = draft(vec![state(&[FIRST], &[]), state(&[SECOND], &[])]);
        assert_eq!(shown(&draft), [111.0, 112.0]);
        draft.initial = 1;
        assert_eq!(shown(&draft), [211.0, 212.0]);
        draft.parents[1] = 0;
        assert_eq!(shown(&draft), [211.0, 423.0]);
    }

    #[test]
    fn by_a_parameter_of_0_nodes_show_their_first_input() {
        for (a, b, x) in [(0, 1, 111.0), (1, 0, 211.0)] {
            for kind in [1, 2] {
                let nodes = [FIRST, SECOND, [kind, a, b, 0]];
                assert_eq!(shown(&draft(vec![state(&nodes, &[])]))[0], x);
            }
        }
    }

    /// A begun transition is seen by the NaN that a duration of 0 makes.
    #[test]
    fn the_first_transition_that_passes_begins() {
        for operator in 0..6 {
            for (value, passing) in [(-1.0, [2, 3, 5]), (-0.0, [1, 3, 4]), (1.0, [0, 1, 5])] {
                let transitions = [(operator, value, 0.0), (1, 0.0, 1.0)];
                let draft = draft(vec![state(&[FIRST], &transitions)]);
                let begun = shown(&draft)[0].is_nan();
                assert_eq!(begun, passing.contains(&operator), "{operator} {value}");
            }
        }
    }
}
