//! Figures with less in them than a given one.

use compare::simplify::simpler_words;
use compare::texts::draft::Draft;
use compare::texts::joints::{is_root, ROOT};

const IDENTITY: [u32; 8] = [0, 0, 0, 0x3f80_0000, 0x3f80_0000, 0, 0, 0];

/// Figures of more poses get plainer pose by pose only.
const FEW_POSES: usize = 12;

/// Figures of more do not get plainer pose by pose: that would take too long.
const MANY_POSES: usize = 96;

/// Without a state, a joint, a clip, samples, a transition, or with a tree cut down.
pub fn smaller_drafts(draft: &Draft) -> Vec<Draft> {
    let joints = (0..draft.parents.len()).rev();
    let clips = (0..draft.clips.len()).rev();
    let states = (0..draft.states.len()).rev();
    let mut drafts: Vec<Draft> = states.clone().filter_map(|i| no_state(draft, i)).collect();
    drafts.extend(first_joints(draft));
    drafts.extend(joints.filter_map(|i| no_joint(draft, i)));
    drafts.extend(clips.clone().filter_map(|i| no_clip(draft, i)));
    for count in [1, 2] {
        drafts.extend(clips.clone().filter_map(|i| first_samples(draft, i, count)));
    }
    for i in states {
        drafts.extend(smaller_trees(draft, i));
        for transition in 0..draft.states[i].transitions.len() {
            let mut fewer = draft.clone();
            fewer.states[i].transitions.remove(transition);
            drafts.push(fewer);
        }
    }
    drafts
}

/// A number that stays the same thing's once what had number `gone` is away.
fn closed_up(number: u16, gone: usize) -> u16 {
    number - u16::from(usize::from(number) > gone)
}

fn no_state(draft: &Draft, gone: usize) -> Option<Draft> {
    if draft.states.len() == 1 {
        return None;
    }
    let mut fewer = draft.clone();
    fewer.states.remove(gone);
    let is_gone = |number: u16| usize::from(number) == gone;
    for state in &mut fewer.states {
        state.transitions.retain(|t| !is_gone(t.words[2]));
        for transition in &mut state.transitions {
            transition.words[2] = closed_up(transition.words[2], gone);
        }
    }
    fewer.initial = match fewer.initial {
        initial if is_gone(initial) => 0,
        initial => closed_up(initial, gone),
    };
    Some(fewer)
}

/// The places of a clip's poses, joint by joint within sample by sample.
fn poses_of(draft: &Draft, clip: usize) -> std::ops::Range<usize> {
    let samples = |clips: &[compare::texts::draft::Clip]| -> usize {
        clips.iter().map(|clip| usize::from(clip.samples)).sum()
    };
    let joints = draft.parents.len();
    let first = joints * samples(&draft.clips[..clip]);
    first..first + joints * usize::from(draft.clips[clip].samples)
}

/// With the first half of the joints, the first three quarters, and so on to all but one.
fn first_joints(draft: &Draft) -> Vec<Draft> {
    let joints = draft.parents.len();
    let parts = (1..).map(|power| joints >> power);
    let parts = parts.take_while(|&gone| gone > 0);
    let first = |gone: usize| {
        let mut fewer = draft.clone();
        fewer.parents.truncate(joints - gone);
        let poses = draft.poses.chunks(joints);
        fewer.poses = poses
            .flat_map(|sample| &sample[..joints - gone])
            .copied()
            .collect();
        fewer
    };
    parts.map(first).collect()
}

fn no_joint(draft: &Draft, gone: usize) -> Option<Draft> {
    let joints = draft.parents.len();
    if joints == 1 {
        return None;
    }
    let mut fewer = draft.clone();
    fewer.parents.remove(gone);
    for parent in &mut fewer.parents {
        *parent = match *parent {
            root if is_root(joints, root) => root,
            parent if usize::from(parent) == gone => ROOT,
            parent => closed_up(parent, gone),
        };
    }
    let mut place = 0;
    fewer.poses.retain(|_| {
        place += 1;
        (place - 1) % joints != gone
    });
    Some(fewer)
}

fn no_clip(draft: &Draft, gone: usize) -> Option<Draft> {
    if draft.clips.len() == 1 {
        return None;
    }
    let mut fewer = draft.clone();
    fewer.poses.drain(poses_of(draft, gone));
    fewer.clips.remove(gone);
    let nodes = fewer.states.iter_mut().flat_map(|state| &mut state.nodes);
    for node in nodes.filter(|node| node[0] == 0) {
        node[1] = match node[1] {
            clip if usize::from(clip) == gone => 0,
            clip => closed_up(clip, gone),
        };
    }
    Some(fewer)
}

/// With so many samples of a clip that has more.
fn first_samples(draft: &Draft, clip: usize, count: u16) -> Option<Draft> {
    if draft.clips[clip].samples <= count {
        return None;
    }
    let mut fewer = draft.clone();
    let poses = poses_of(draft, clip);
    fewer
        .poses
        .drain(poses.start + usize::from(count) * draft.parents.len()..poses.end);
    fewer.clips[clip].samples = count;
    Some(fewer)
}

/// The tree of a state cut down to one of its own nodes.
fn smaller_trees(draft: &Draft, state: usize) -> Vec<Draft> {
    let nodes = &draft.states[state].nodes;
    let cut = |root: usize| {
        let mut fewer = draft.clone();
        fewer.states[state].nodes = subtree(nodes, root);
        fewer
    };
    (0..nodes.len().saturating_sub(1)).map(cut).collect()
}

/// The nodes that a node stands on and itself, numbered anew.
fn subtree(nodes: &[[u16; 4]], root: usize) -> Vec<[u16; 4]> {
    let mut used = vec![false; root + 1];
    used[root] = true;
    for i in (0..=root).rev().filter(|&i| nodes[i][0] > 0) {
        if used[i] {
            used[usize::from(nodes[i][1])] = true;
            used[usize::from(nodes[i][2])] = true;
        }
    }
    let new = |number: u16| used[..usize::from(number)].iter().filter(|&&u| u).count() as u16;
    let renumbered = |i: usize| match nodes[i] {
        [0, clip, b, p] => [0, clip, b, p],
        [kind, a, b, p] => [kind, new(a), new(b), p],
    };
    (0..=root).filter(|&i| used[i]).map(renumbered).collect()
}

/// With a looping clip for a stopping one or a sample in an empty one, poses as the identity, or with a
/// number as a plainer one.
pub fn plainer_drafts(draft: &Draft) -> Vec<Draft> {
    let mut drafts = looping_drafts(draft);
    drafts.extend(sampled_drafts(draft));
    let mut plain = draft.clone();
    plain.poses.fill(IDENTITY);
    if plain.poses != draft.poses {
        drafts.push(plain);
    }
    drafts.extend(plainer_poses(draft));
    let count = numbers(&mut draft.clone()).len();
    for i in 0..count {
        let number = *numbers(&mut draft.clone())[i];
        for simpler in simpler_words(number) {
            let mut plainer = draft.clone();
            *numbers(&mut plainer)[i] = simpler;
            drafts.push(plainer);
        }
    }
    drafts
}

/// With one pose as the identity, or where there are many an eighth of them.
fn plainer_poses(draft: &Draft) -> Vec<Draft> {
    let count = draft.poses.len();
    let size = if count > MANY_POSES {
        count.div_ceil(8)
    } else {
        1
    };
    let starts = (0..count).step_by(size);
    let plainer = |start: usize| {
        let mut plainer = draft.clone();
        plainer.poses[start..count.min(start + size)].fill(IDENTITY);
        (plainer.poses != draft.poses).then_some(plainer)
    };
    starts.filter_map(plainer).collect()
}

fn looping_drafts(draft: &Draft) -> Vec<Draft> {
    let stopping = (0..draft.clips.len()).filter(|&clip| draft.clips[clip].ending != 0);
    let looping = |clip: usize| {
        let mut plainer = draft.clone();
        plainer.clips[clip].ending = 0;
        plainer
    };
    stopping.map(looping).collect()
}

/// A clip with samples is plainer, so `smaller_drafts` leaves each clip one.
fn sampled_drafts(draft: &Draft) -> Vec<Draft> {
    let empty = (0..draft.clips.len()).filter(|&clip| draft.clips[clip].samples == 0);
    let sampled = |clip: usize| {
        let mut plainer = draft.clone();
        let poses = vec![IDENTITY; draft.parents.len()];
        plainer.poses.splice(poses_of(draft, clip), poses);
        plainer.clips[clip].samples = 1;
        plainer
    };
    empty.map(sampled).collect()
}

/// All numbers, those of poses only where these are few. The identity is plain already.
fn numbers(draft: &mut Draft) -> Vec<&mut u32> {
    let few = draft.poses.len() <= FEW_POSES;
    let mut all: Vec<&mut u32> = draft.clips.iter_mut().map(|clip| &mut clip.rate).collect();
    for state in &mut draft.states {
        let transitions = state.transitions.iter_mut();
        all.extend(transitions.flat_map(|transition| &mut transition.numbers));
    }
    if few {
        let poses = draft.poses.iter_mut().filter(|pose| **pose != IDENTITY);
        all.extend(poses.flatten());
    }
    all
}

#[cfg(test)]
mod tests {
    use super::*;
    use crate::sweep::going;
    use compare::generator::Generator;
    use compare::texts::plan::check;
    use compare::texts::random_figure::accepted;

    #[test]
    fn smaller_figures_are_accepted_too() {
        let mut generator = Generator::new(6);
        let drafts = (0..60).map(|_| accepted(&mut generator));
        for draft in drafts.filter(|draft| check(&draft.figure()).is_ok()) {
            for smaller in smaller_drafts(&draft) {
                let size = |draft: &Draft| draft.figure().plan.len() + draft.pose_count();
                assert!(check(&smaller.figure()).is_ok());
                assert!(size(&smaller) < size(&draft));
            }
        }
    }

    /// 255 and 256 are joints here, which go away too.
    #[test]
    fn many_joints_are_soon_few() {
        let mut draft = going(300);
        let counts = first_joints(&draft)
            .into_iter()
            .map(|one| one.parents.len());
        let expected = [150, 225, 263, 282, 291, 296, 298, 299];
        assert_eq!(counts.collect::<Vec<_>>(), expected);
        for smaller in smaller_drafts(&draft) {
            assert!(check(&smaller.figure()).is_ok());
        }
        assert_eq!(plainer_poses(&draft).len(), 8);
        draft.poses[1..].fill(IDENTITY);
        assert_eq!(plainer_poses(&draft).len(), 1);
    }

    #[test]
    fn a_plainer_figure_has_one_stopping_clip_less() {
        let mut generator = Generator::new(7);
        for draft in (0..60).map(|_| accepted(&mut generator)) {
            let stops = |draft: &Draft| draft.clips.iter().filter(|clip| clip.ending > 0).count();
            let plainer = looping_drafts(&draft);
            assert_eq!(plainer.len(), stops(&draft));
            assert!(plainer.iter().all(|one| stops(one) + 1 == stops(&draft)));
        }
    }

    #[test]
    fn a_plainer_figure_has_one_empty_clip_less() {
        let mut generator = Generator::new(7);
        let drafts = (0..200).map(|_| accepted(&mut generator));
        for draft in drafts.filter(|draft| check(&draft.figure()).is_ok()) {
            let empty = |draft: &Draft| draft.clips.iter().filter(|clip| clip.samples == 0).count();
            let plainer = sampled_drafts(&draft);
            assert_eq!(plainer.len(), empty(&draft));
            for one in plainer {
                assert!(check(&one.figure()).is_ok());
                assert_eq!(empty(&one) + 1, empty(&draft));
                assert!(smaller_drafts(&one)
                    .iter()
                    .all(|less| empty(less) <= empty(&one)));
            }
        }
    }

    #[test]
    fn a_subtree_is_numbered_anew() {
        let nodes = [
            [0, 3, 0, 0],
            [0, 4, 0, 0],
            [0, 5, 0, 0],
            [1, 2, 0, 7],
            [2, 3, 1, 8],
        ];
        let cut = subtree(&nodes, 3);
        assert_eq!(cut, [[0, 3, 0, 0], [0, 5, 0, 0], [1, 1, 0, 7]]);
        assert_eq!(subtree(&nodes, 4), nodes);
        assert_eq!(subtree(&nodes, 1), [nodes[1]]);
    }
}
