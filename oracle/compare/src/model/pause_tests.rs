//! The model on clips without samples, by what document 02 decides.

use super::pose::Pose;
use super::rotation::{product, Matrix};
use super::tests::done;
use super::Model;
use crate::generator::Generator;
use crate::judge::matrix_bits;
use crate::lists::figures::{
    emptied, figure, going, joined, one_clip, state, CLIP, EQUAL, SECOND, THIRD,
};
use crate::lists::random_calls::{call, Calls};
use crate::player::BLANK_INSTANCE;
use crate::texts::draft::{Clip, Draft};
use crate::texts::random_figure::accepted;

const LERP: u16 = 1;
const ADDITIVE: u16 = 2;

const UNIT: Matrix = [
    [1.0, 0.0, 0.0, 0.0],
    [0.0, 1.0, 0.0, 0.0],
    [0.0, 0.0, 1.0, 0.0],
    [0.0, 0.0, 0.0, 1.0],
];

fn started(draft: &Draft) -> Model {
    let model = Model::start(&draft.figure());
    assert_eq!(model.answer(), Ok(()));
    model
}

/// The joints' matrices as bits.
fn shown(model: &mut Model, ext: f64) -> Vec<Vec<u32>> {
    let matrices = model.frame(ext, 16 * 64).unwrap();
    matrices.into_iter().map(matrix_bits).collect()
}

/// The matrix of a joint without parents, as bits.
fn root(pose: Pose) -> Vec<u32> {
    matrix_bits(product(&UNIT, &pose.matrix()))
}

/// What a clip of this one sample shows at position 0.
fn still(numbers: [u32; 8]) -> Pose {
    let pose = Pose::new(numbers.map(f32::from_bits));
    pose.lerp(pose, 0.0)
}

#[test]
fn a_pause_shows_the_identity_at_every_joint() {
    let special = [f64::INFINITY, f64::NEG_INFINITY, f64::NAN];
    for rate in [1.0, 0.0, -0.0, -2.0, f32::INFINITY, f32::NAN] {
        for (joints, ending) in [(1, 0), (1, 1), (2, 0), (33, 1), (64, 0)] {
            let mut draft = one_clip(joints, 0, rate);
            draft.clips[0].ending = ending;
            let mut model = started(&draft);
            for time in [0.0, -0.0, 0.5, -1.0, -1.5, 3.0, 1e30]
                .into_iter()
                .chain(special)
            {
                let expected = vec![matrix_bits(UNIT); usize::from(joints)];
                assert_eq!(shown(&mut model, time), expected, "{rate} {time}");
            }
        }
    }
}

/// Lengths 2 and 6 by 0.5 are case i of the bench sheet.
#[test]
fn a_lerp_is_synchronised_only_where_both_inputs_have_samples() {
    let mut model = started(&joined(1, LERP));
    model.set(0, 0.5).unwrap();
    shown(&mut model, 8.0);
    let rates = [0, 1].map(|n| model.player().instances[n][1]);
    assert_eq!(rates, [0.5, 1.5]);
    for empty in [&[0][..], &[1], &[0, 1]] {
        let mut model = started(&emptied(joined(1, LERP), empty));
        assert_eq!(model.player().instances, [BLANK_INSTANCE; 64]);
        for (value, time) in [(0.0, 1.0), (0.5, 8.0), (1.0, -2.0), (2.0, 3.0)] {
            model.set(0, value).unwrap();
            shown(&mut model, time);
            assert_eq!(model.player().instances, [BLANK_INSTANCE; 64], "{empty:?}");
        }
        let mut moved = model.player().clone();
        moved.instances[..2].fill([1.0, 0.25, 3.0]);
        model.store(&moved);
        shown(&mut model, 8.0);
        assert_eq!(model.player().instances, moved.instances, "{empty:?}");
    }
}

/// The root is approximate. Alone that does not show, since w has no part in a matrix without x, y
/// and z, but in a lerp it does.
#[test]
fn the_identity_lerped_with_itself_is_another_pose() {
    let lerped = Pose::IDENTITY.lerp(Pose::IDENTITY, 0.0);
    assert_eq!(lerped.rotation[0].to_bits(), 0x3f7f_910f);
    assert_eq!(root(lerped), root(Pose::IDENTITY));
    let draft = figure(
        1,
        &[(0, 1.0), (1, 1.0)],
        1,
        vec![state(&[CLIP, SECOND, [LERP, 0, 1, 0]], &[])],
    );
    let other = still(draft.poses[0]);
    let mut model = started(&draft);
    model.set(0, 0.25).unwrap();
    let shown = shown(&mut model, 0.0);
    assert_eq!(shown, [root(Pose::IDENTITY.lerp(other, 0.25))]);
    assert_ne!(shown, [root(lerped.lerp(other, 0.25))]);
}

/// Lerp and additive nodes of an empty clip and one of one sample, in each order.
#[test]
fn nodes_take_the_identity_like_any_other_pose() {
    for (a, b) in [(0, 0), (0, 1), (1, 0), (1, 1)] {
        for kind in [LERP, ADDITIVE] {
            let nodes = [[0, a, 0, 0], [0, b, 0, 0], [kind, 0, 1, 0]];
            let clips = [(0, 1.0), (1, 1.0)];
            let draft = figure(1, &clips, 1, vec![state(&nodes, &[])]);
            let pose = |clip: u16| match clip {
                0 => Pose::IDENTITY,
                _ => still(draft.poses[0]),
            };
            for p in [0.0, 0.25, 1.0, -1.0] {
                let expected = match kind {
                    LERP => pose(a).lerp(pose(b), p),
                    _ => pose(a).concat(Pose::IDENTITY.lerp(pose(b), p)),
                };
                let mut model = started(&draft);
                model.set(0, p).unwrap();
                assert_eq!(shown(&mut model, 0.0), [root(expected)], "{kind} {a} {b}");
            }
        }
    }
}

/// In 4 seconds from state 0 to state 1, each with a clip of one sample or none.
#[test]
fn transitions_go_from_the_identity_and_to_it() {
    for samples in [[0, 1], [1, 0], [0, 0]] {
        let mut draft = going(1, &[(0, EQUAL, 1, 0.0, 4.0)]);
        draft.clips[0].samples = samples[0];
        draft.clips[1].samples = samples[1];
        draft = emptied(draft, &[]);
        let mut left = draft.poses.iter();
        let [from, to] = samples.map(|count| match count {
            0 => Pose::IDENTITY,
            _ => still(*left.next().unwrap()),
        });
        let mut model = started(&draft);
        // Held at the clips' position 0, since nothing but now is to move.
        model.speed(0.0);
        for (now, factor) in [(0.0, 0.0), (1.0, 0.25), (3.0, 0.75)] {
            assert_eq!(shown(&mut model, now), [root(from.lerp(to, factor))]);
        }
        assert_eq!(shown(&mut model, 4.0), [root(to)], "{samples:?}");
    }
}

/// Clip 2 has the second of the poses, or the first where clip 0 is empty too.
#[test]
fn an_empty_clip_takes_no_place_among_the_samples() {
    for (clips, place) in [
        ([(1, 1.0), (0, 1.0), (1, 1.0)], 1),
        ([(0, 1.0), (0, 1.0), (1, 1.0)], 0),
        ([(0, 1.0), (3, 1.0), (1, 1.0)], 3),
    ] {
        let draft = figure(1, &clips, 0, vec![state(&[THIRD], &[])]);
        let expected = root(still(draft.poses[place]));
        assert_eq!(shown(&mut started(&draft), 0.0), [expected], "{clips:?}");
    }
    let clips = [(1, 1.0), (0, 1.0), (1, 1.0)];
    for nodes in [[CLIP], [SECOND]] {
        let draft = figure(1, &clips, 0, vec![state(&nodes, &[])]);
        let expected = match nodes[0] {
            CLIP => still(draft.poses[0]),
            _ => Pose::IDENTITY,
        };
        assert_eq!(shown(&mut started(&draft), 0.0), [root(expected)]);
    }
}

/// The figure with one empty clip more, which nothing plays.
fn with_unplayed(generator: &mut Generator, draft: &Draft) -> Draft {
    let place = generator.below(draft.clips.len() as u64 + 1) as usize;
    let mut more = draft.clone();
    let clip = Clip {
        samples: 0,
        rate: generator.draw() as u32,
        ending: generator.below(2) as u16,
    };
    more.clips.insert(place, clip);
    let nodes = more.states.iter_mut().flat_map(|state| &mut state.nodes);
    for node in nodes.filter(|node| node[0] == 0) {
        node[1] += u16::from(usize::from(node[1]) >= place);
    }
    more
}

#[test]
fn a_pause_that_nothing_plays_is_not_seen() {
    let mut generator = Generator::new(14);
    for _ in 0..300 {
        let draft = accepted(&mut generator);
        if draft.clips.len() == 16 {
            continue;
        }
        let more = with_unplayed(&mut generator, &draft);
        let mut models = [&draft, &more].map(|draft| Model::start(&draft.figure()));
        for _ in 0..12 {
            let call = call(&mut generator, &draft, Calls::Sparse);
            let [one, other] = models.each_mut().map(|model| {
                let shown = done(model, call);
                let shown = shown.map(|all| all.into_iter().map(matrix_bits).collect::<Vec<_>>());
                // The states' words stand two places further on.
                shown.map_err(|refusal| refusal.number)
            });
            assert_eq!(one, other);
            let [one, other] = models.each_ref().map(|model| model.player().seen());
            assert_eq!(one, other);
        }
    }
}
