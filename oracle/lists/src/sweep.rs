//! What every run compares, whatever its seed: figures at each count of joints at which something
//! changes, and starts and texts about the limit of J and the words for a root.

use crate::run::Case;
use crate::step::Step;
use crate::texts::Reading;
use compare::generator::Generator;
use compare::lists::call::Call;
use compare::texts::draft::{Clip, Draft, State, Transition};
use compare::texts::figure::Figure;
use compare::texts::joints::{edges, mixed_parents, MOST_JOINTS, ROOT, RUST_JOINTS, RUST_ROOT};
use compare::texts::random_figure::{pose, Numbers};

/// Counts at which each joint's parent is tried.
const ROOTED: [u16; 5] = [RUST_JOINTS, RUST_JOINTS + 1, 256, 257, MOST_JOINTS];

/// Counts that are no J; two of them have a low byte that would be one.
const NO_COUNTS: [u16; 6] = [MOST_JOINTS + 1, MOST_JOINTS + 2, 511, 513, 4096 + 64, 65535];

/// Frames and page frames of a state, of a transition and of its target.
pub fn cases() -> impl Iterator<Item = Case> {
    edges().map(|joints| Case {
        draft: going(joints),
        steps: calls(joints).map(Step::Call).to_vec(),
    })
}

/// Outputs one joint and one float too short, just long enough, and longer.
fn calls(joints: u16) -> [Call; 11] {
    let needed = 16 * usize::from(joints);
    [
        Call::frame(0.0, needed - 1),
        Call::frame(0.0, needed),
        Call::page(0.25, needed + 19),
        Call::set(0, 0.75),
        Call::frame(0.0, needed),
        Call::update(0.5),
        Call::page(0.0, needed),
        Call::page(0.25, needed - 16),
        Call::frame(0.125, needed + 1),
        Call::update(1.0),
        Call::frame(0.0, needed),
    ]
}

fn clip(samples: u16, rate: f32) -> Clip {
    Clip {
        samples,
        rate: rate.to_bits(),
        ending: 0,
    }
}

/// A lerp of two clips goes to an additive node of the same when parameter 0 is above a half.
pub fn going(joints: u16) -> Draft {
    let go = Transition {
        words: [0, 2, 1],
        numbers: [0.5f32, 1.0].map(f32::to_bits),
    };
    let state = |kind: u16, transitions| State {
        nodes: vec![[0; 4], [0, 1, 0, 0], [kind, 0, 1, 0]],
        transitions,
    };
    let mut draft = Draft {
        parameters: 1,
        parents: mixed_parents(joints),
        clips: vec![clip(2, 2.0), clip(1, 1.0)],
        states: vec![state(1, vec![go]), state(2, Vec::new())],
        ..Draft::default()
    };
    let mut generator = Generator::new(u64::from(joints));
    let poses = (0..draft.pose_count()).map(|_| pose(&mut generator, Numbers::Sensible));
    draft.poses = poses.collect();
    draft
}

/// A figure of a clip without samples.
fn still(parents: Vec<u16>) -> Draft {
    Draft {
        parents,
        clips: vec![clip(0, 1.0)],
        states: vec![State {
            nodes: vec![[0; 4]],
            transitions: Vec::new(),
        }],
        ..Draft::default()
    }
}

/// So many roots by this word.
fn roots(joints: u16, word: u16) -> Vec<u16> {
    vec![word; usize::from(joints)]
}

/// The plan check at each J, and with each joint in turn under parents about the rules for them.
pub fn plans() -> Vec<Figure> {
    let by_root = (0..=MOST_JOINTS).chain(NO_COUNTS).map(|j| roots(j, ROOT));
    let by_rusts = (1..=RUST_JOINTS + 2).map(|j| roots(j, RUST_ROOT));
    let parents = by_root
        .chain(by_rusts)
        .chain(ROOTED.into_iter().flat_map(one_other));
    parents.map(|parents| still(parents).figure()).collect()
}

/// So many roots, of which one at a time has another word for its parent.
fn one_other(joints: u16) -> Vec<Vec<u16>> {
    let with = |joint: u16, word: u16| {
        let mut parents = roots(joints, ROOT);
        parents[usize::from(joint)] = word;
        parents
    };
    let last = joints - 1;
    let words = [last, joints, last - 1, 254, 256, ROOT - 1];
    let each = (0..joints).map(|joint| with(joint, RUST_ROOT));
    each.chain(words.map(|word| with(last, word))).collect()
}

/// Texts of so many joints, into slices that are just long enough.
pub fn readings() -> impl Iterator<Item = Reading> {
    let counts = edges().chain([MOST_JOINTS + 1]);
    counts.map(|joints| {
        let draft = still(roots(joints, ROOT));
        let Figure { plan, numbers } = draft.figure();
        Reading {
            text: draft.text().into_bytes(),
            words: plan.len(),
            numbers: numbers.len(),
        }
    })
}

#[cfg(test)]
mod tests {
    use super::*;
    use crate::abi::Library;
    use crate::faults::{Fault, Faulty};
    use crate::random::{compare as compared, Amounts, Found};
    use compare::lists::report::{done, Output};
    use compare::reference::Reference;
    use compare::texts::plan::check;
    use std::collections::BTreeMap;

    /// Nothing here is random.
    #[test]
    fn faults_about_joints_are_found_by_any_seed() {
        let none = Amounts {
            frames: 0,
            plans: 0,
            texts: 0,
        };
        for fault in Fault::OF_JOINTS {
            let library = &Library;
            let (found, _) = compared(&Faulty { library, fault }, none, 0);
            assert!(!matches!(found, Found::Nothing), "{fault:?}");
        }
        let (found, [lists, plans, texts, _]) = compared(&Library, none, 0);
        assert!(matches!(found, Found::Nothing));
        let joints = edges().filter(|&joints| joints > 64);
        assert!(lists.wide >= joints.count());
        assert_eq!(plans.calls, super::plans().len());
        assert_eq!(texts.calls, readings().count());
    }

    /// What is refused is 10 for the two outputs that are too short, and nothing else.
    #[test]
    fn all_else_is_played() {
        for Case { draft, .. } in cases() {
            let joints = draft.parents.len() as u16;
            let mut player = Reference::start(&draft.figure());
            assert_eq!(player.answer(), Ok(()), "{joints}");
            assert_eq!(player.is_rust(), joints <= 64);
            let shown = calls(joints).map(|call| match done(&mut player, call) {
                Ok(Output::Matrices(matrices)) => Ok(matrices.len()),
                Ok(_) => Ok(0),
                Err(refusal) => Err(refusal.number),
            });
            let all = Ok(usize::from(joints));
            let expected = [
                Err(10),
                all,
                all,
                Ok(0),
                all,
                Ok(0),
                all,
                Err(10),
                all,
                Ok(0),
                all,
            ];
            assert_eq!(shown, expected, "{joints}");
            assert_eq!(player.player().state, 1);
        }
    }

    /// Up to 64 joints 255 is right everywhere, above it from joint 256 on.
    #[test]
    fn starts_are_answered_as_document_02_says() {
        let mut refused: BTreeMap<(u8, usize), usize> = BTreeMap::new();
        let plans = plans();
        for figure in &plans {
            if let Err(refusal) = check(figure) {
                *refused.entry((refusal.number, refusal.place)).or_default() += 1;
            }
        }
        // No joints, and the counts that are no J.
        assert_eq!(refused[&(2, 0)], 1 + NO_COUNTS.len());
        // J 65 and 66 with 255 throughout; 65, 256, 257 and 400 with joint 0 under 255.
        assert_eq!(refused[&(3, 5)], 2 + 4);
        // Joint 64: under 255 at each J above 64; at J 65 under itself, 65, 254, 256 and 65534 too.
        assert_eq!(refused[&(3, 69)], 4 + 5);
        // Joint 255 of 256, 257 and 400; at J 256 under 255 as itself, 256 twice and 65534 too.
        assert_eq!(refused[&(3, 260)], 3 + 4);
        // Joint 256 of 257 under itself, 257, 256 again and 65534, and not under 255.
        assert_eq!(refused[&(3, 261)], 4);
        assert_eq!(refused.get(&(3, 262)), None);
    }
}
