//! Faults about the number of joints, and about the words for a root.

use crate::evaluator::{Answer, HostPlayer, TextAnswer};
use crate::faults::{Fault, Faulty};
use crate::frame::Frame;
use crate::parents::{parent_words, with_parents};
use compare::texts::joints::{MOST_JOINTS, ROOT, RUST_JOINTS, RUST_ROOT};

/// Joints that are evaluated together.
const BLOCK: usize = 32;

/// What a byte can number.
const BYTES: usize = 256;

fn is_wide(joints: u16) -> bool {
    joints > RUST_JOINTS
}

impl Faulty<'_> {
    /// The plan that the library gets to see.
    pub fn joints_handed_on(&self, plan: &[u16]) -> Vec<u16> {
        let joints = plan.first().copied().unwrap_or(0);
        let with =
            |old: u16, new: u16| with_parents(plan, |_, word| if word == old { new } else { word });
        match self.fault {
            Fault::ByteRootAt65 if joints == RUST_JOINTS + 1 => with(RUST_ROOT, ROOT),
            Fault::ByteRootLater if is_wide(joints) => with_parents(plan, |joint, word| {
                let is_joint = word == RUST_ROOT && joint > usize::from(word);
                if is_joint {
                    ROOT
                } else {
                    word
                }
            }),
            Fault::ByteRootRefused if joints == RUST_JOINTS => with(RUST_ROOT, RUST_ROOT - 1),
            Fault::RootRefused if !is_wide(joints) => with(ROOT, ROOT - 1),
            Fault::ByteParent => with_parents(plan, |joint, word| {
                let is_joint = usize::from(word) < joint;
                if is_joint {
                    word % BYTES as u16
                } else {
                    word
                }
            }),
            // No joints are refused as too many are.
            Fault::OldJointLimit if is_wide(joints) => [&[0], &plan[1..]].concat(),
            Fault::JointLimitPassed if joints == MOST_JOINTS + 1 => one_joint_less(plan),
            _ => plan.to_vec(),
        }
    }

    /// The library's frame; for the fault an output is long enough that holds 64 joints.
    pub fn library_frame(
        &self,
        frame: Frame,
        player: &mut HostPlayer,
        output: &mut [f32],
    ) -> Answer {
        let Frame {
            shown,
            plan,
            numbers,
            ext,
        } = frame;
        let length = output.len();
        let mut lent = output.to_vec();
        if self.fault == Fault::ShortOutputTaken && length >= 16 * usize::from(RUST_JOINTS) {
            lent.resize(length.max(16 * usize::from(MOST_JOINTS)), 0.0);
        }
        let answer = self
            .library
            .frame(shown, plan, numbers, player, ext, &mut lent);
        output.copy_from_slice(&lent[..length]);
        answer
    }

    /// What the fault does to the matrices of an accepted frame.
    pub fn spoil_joints(&self, joints: usize, before: &[f32], output: &mut [f32]) {
        let most = usize::from(RUST_JOINTS);
        let first_kept = match self.fault {
            Fault::LateJointsKept if joints > most => most,
            Fault::LastBlockKept if joints > most => (joints - 1) / BLOCK * BLOCK,
            Fault::ByteJoint if joints > BYTES => {
                return output.copy_within(..16 * (joints - BYTES), 16 * BYTES);
            }
            _ => return,
        };
        let kept = 16 * first_kept..16 * joints;
        output[kept.clone()].copy_from_slice(&before[kept]);
    }

    /// The text that the library gets to see.
    pub fn text_handed_on(&self, text: &[u8]) -> Vec<u8> {
        let header = format!("figure,{},", MOST_JOINTS + 1);
        let is_passed = self.fault == Fault::TextLimitPassed && text.starts_with(header.as_bytes());
        if !is_passed {
            return text.to_vec();
        }
        let text = String::from_utf8_lossy(text);
        let fewer = text.replacen(&header, &format!("figure,{MOST_JOINTS},"), 1);
        let mut lines: Vec<&str> = fewer.split_inclusive('\n').collect();
        // The first joint's.
        lines.remove(1);
        lines.concat().into_bytes()
    }

    /// What the fault does to the answer of a text that is read.
    pub fn spoil_limit(&self, plan: &[u16], answer: &mut TextAnswer) {
        if self.fault == Fault::TextOldLimit && is_wide(plan[0]) {
            *answer = TextAnswer {
                number: 11,
                place: 1,
                words: 0,
                numbers: 0,
            };
        }
    }
}

/// Without the last of its joints.
fn one_joint_less(plan: &[u16]) -> Vec<u16> {
    let mut fewer = plan.to_vec();
    if let Some(last) = parent_words(plan).last() {
        fewer.remove(last);
        fewer[0] -= 1;
    }
    fewer
}
