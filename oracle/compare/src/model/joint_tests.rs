//! The model on up to 400 joints, by what document 02 decides, and by the Rust up to 64.

use super::Model;
use crate::judge::matrix_bits;
use crate::reference::Reference;
use crate::texts::draft::{Clip, Draft, State};
use crate::texts::figure::Refusal;
use crate::texts::joints::{edges, mixed_parents, MOST_JOINTS};

const ONE: u32 = 0x3f80_0000;

/// Joint j stands at x = j + 1 from its parent, unturned: its own x is exactly the sum over the joints
/// that it hangs from and itself.
fn placed(parents: Vec<u16>) -> Draft {
    let pose = |joint: usize| [(joint as f32 + 1.0).to_bits(), 0, 0, ONE, ONE, 0, 0, 0];
    let clip = Clip {
        samples: 1,
        rate: ONE,
        ending: 0,
    };
    let state = State {
        nodes: vec![[0; 4]],
        transitions: Vec::new(),
    };
    Draft {
        poses: (0..parents.len()).map(pose).collect(),
        parents,
        clips: vec![clip],
        states: vec![state],
        ..Draft::default()
    }
}

/// The x of each joint, or why there is none.
fn shown(parents: Vec<u16>) -> Result<Vec<f32>, (u8, usize)> {
    let length = 16 * parents.len();
    let mut model = Model::start(&placed(parents).figure());
    let refused = |refusal: Refusal| (refusal.number, refusal.place);
    let matrices = model.frame(0.0, length).map_err(refused)?;
    Ok(matrices.iter().map(|matrix| matrix[0][3]).collect())
}

/// The x of each joint, where `above` is the joint that it hangs from.
fn sums(joints: u16, above: impl Fn(u16) -> Option<u16>) -> Vec<f32> {
    let sum = |joint: u16| {
        let chain = std::iter::successors(Some(joint), |&joint| above(joint));
        chain.map(|joint| f32::from(joint) + 1.0).sum()
    };
    (0..joints).map(sum).collect()
}

fn with(joints: u16, joint: u16, parent: u16) -> Vec<u16> {
    let mut parents = vec![65535; usize::from(joints)];
    parents[usize::from(joint)] = parent;
    parents
}

#[test]
fn from_1_to_400_joints_are_played() {
    for joints in 1..=400 {
        let roots = vec![65535; usize::from(joints)];
        assert_eq!(shown(roots), Ok(sums(joints, |_| None)), "{joints}");
        let chain = (0..joints).map(|joint| joint.wrapping_sub(1)).collect();
        let expected = sums(joints, |joint| joint.checked_sub(1));
        assert_eq!(shown(chain), Ok(expected), "{joints}");
    }
    for joints in [0, 401, 402, 512, 65535] {
        let roots = vec![65535; joints];
        assert_eq!(shown(roots), Err((2, 0)), "{joints}");
    }
}

#[test]
fn at_64_joints_either_word_is_a_root() {
    for joint in 0..64 {
        for word in [255, 65535] {
            let expected = sums(64, |_| None);
            assert_eq!(shown(with(64, joint, word)), Ok(expected));
        }
        for word in [254, 256, 65534, joint, joint + 1] {
            let place = 5 + usize::from(joint);
            assert_eq!(shown(with(64, joint, word)), Err((3, place)), "{word}");
        }
    }
}

#[test]
fn above_64_joints_255_is_a_joint() {
    for joints in [65, 66, 255, 256, 257, 400] {
        for joint in 0..joints {
            let under = (joint > 255).then(|| sums(joints, |j| (j == joint).then_some(255)));
            let expected = under.ok_or((3, 5 + usize::from(joint)));
            assert_eq!(shown(with(joints, joint, 255)), expected, "{joint}");
        }
    }
}

/// None of the numbers is taken for its low byte.
#[test]
fn joints_may_hang_from_joints_that_no_byte_numbers() {
    for (joint, parent) in [(257, 256), (399, 256), (399, 398), (300, 258)] {
        let expected = sums(400, |other| (other == joint).then_some(parent));
        assert_eq!(shown(with(400, joint, parent)), Ok(expected));
    }
    for parent in [399, 400, 655, 65279, 65534] {
        assert_eq!(shown(with(400, 399, parent)), Err((3, 404)));
    }
}

#[test]
fn parents_of_all_sorts_are_followed() {
    for joints in edges() {
        let parents = mixed_parents(joints);
        let above = |joint: u16| match parents[usize::from(joint)] {
            65535 => None,
            255 if joints <= 64 => None,
            parent => Some(parent),
        };
        assert_eq!(shown(parents.clone()), Ok(sums(joints, above)), "{joints}");
    }
}

/// Page frames too, whose matrices are others.
#[test]
fn an_output_of_16_floats_a_joint_is_asked_for() {
    for joints in edges() {
        let mut model = Model::start(&placed(mixed_parents(joints)).figure());
        let needed = 16 * usize::from(joints);
        for length in [0, 16, needed - 16, needed - 1] {
            let refused = [model.frame(0.0, length), model.page_frame(0.0, length)];
            assert!(refused
                .iter()
                .all(|r| r.as_ref().is_err_and(|r| r.number == 10)));
        }
        for length in [needed, needed + 1, 16 * usize::from(MOST_JOINTS)] {
            assert_eq!(model.frame(0.0, length).map(|m| 16 * m.len()), Ok(needed));
        }
    }
}

/// The reference compares each frame with the Rust's, and asserts that they are alike.
#[test]
fn up_to_64_joints_the_rust_shows_the_same_by_either_word() {
    for joints in [1, 2, 31, 32, 33, 63, 64] {
        let mixed = mixed_parents(joints);
        let is_root = |parent: u16| parent == 255 || parent == 65535;
        let shown = [None, Some(255), Some(65535)].map(|word| {
            let named = |&parent: &u16| word.filter(|_| is_root(parent)).unwrap_or(parent);
            let draft = placed(mixed.iter().map(named).collect());
            let mut player = Reference::start(&draft.figure());
            assert!(player.is_rust());
            let matrices = player.frame(0.0, 16 * usize::from(joints)).unwrap();
            matrices.into_iter().map(matrix_bits).collect::<Vec<_>>()
        });
        assert_eq!(shown[0], shown[1], "{joints}");
        assert_eq!(shown[0], shown[2], "{joints}");
    }
}
