//! Clips without samples: a pause shows the identity pose itself, and no lerp node is synchronised with it.

mod common;

use common::{bits, seen};
use gentianlathe::{ClipInstance, Figure, Player, PlayerParts, ROOT};
use std::f32::consts::FRAC_1_SQRT_2;

const IDENTITY: [f32; 16] = [
    1.0, 0.0, 0.0, 0.0, 0.0, 1.0, 0.0, 0.0, 0.0, 0.0, 1.0, 0.0, 0.0, 0.0, 0.0, 1.0,
];

/// A plan with these joints, clips (N, ending), readable parameters and states' words, the first state being initial.
fn plan(parents: &[u16], clips: &[[u16; 2]], parameters: u16, states: &[&[u16]]) -> Vec<u16> {
    let counts = [parents.len() as u16, clips.len() as u16];
    let header = [counts[0], counts[1], parameters, states.len() as u16, 0];
    [&header[..], parents, &clips.concat(), &states.concat()].concat()
}

fn shown(figure: &Figure, player: &mut Player) -> Vec<f32> {
    let mut output = vec![9.0; figure.output_len()];
    player
        .frame(figure, 0.0, &mut output)
        .expect("its own player");
    output
}

/// Roots, children of the root and children of children.
fn parents(joints: u16) -> Vec<u16> {
    (0..joints)
        .map(|joint| match joint % 3 {
            0 => ROOT,
            _ => joint - 1,
        })
        .collect()
}

#[test]
fn a_pause_shows_the_identity() {
    let times = [
        0.0,
        0.25,
        -3.0,
        1e300,
        f64::INFINITY,
        f64::NEG_INFINITY,
        f64::NAN,
    ];
    for (joints, ending) in [(1, 0), (1, 1), (40, 0), (40, 1), (64, 0), (400, 1)] {
        for rate in [1.0, 0.0, -1.0, f32::INFINITY, f32::NAN] {
            let words = plan(&parents(joints), &[[0, ending]], 0, &[&[1, 0, 0, 0, 0, 0]]);
            let figure = Figure::new(words, vec![rate]).expect("its rate is its only number");
            for time in times {
                let mut player = figure.start();
                player.update(time);
                let expected = bits(&IDENTITY.repeat(joints.into()));
                assert_eq!(
                    bits(&shown(&figure, &mut player)),
                    expected,
                    "{rate} {time}"
                );
                let mut page = vec![9.0; figure.output_len()];
                player.page_frame(&figure, 0.0, &mut page).expect("a page");
                assert_eq!(bits(&page), expected, "page, {rate} {time}");
            }
        }
    }
}

/// The refusal of two clips in a figure of one joint and one state, with as many numbers as these samples need.
fn judged(clips: [[u16; 2]; 2], samples: usize) -> (usize, usize) {
    let words = plan(&[255], &clips, 0, &[&[1, 0, 1, 0, 0, 0]]);
    let refusal = Figure::new(words, vec![1.0; 2 + 8 * samples]).err();
    refusal.map_or((0, 0), |refusal| (refusal.number(), refusal.place()))
}

#[test]
fn how_many_samples_are_judged() {
    assert_eq!(judged([[0, 0], [2, 0]], 2), (0, 0));
    assert_eq!(judged([[0, 1], [0, 1]], 0), (0, 0), "no clip has samples");
    assert_eq!(judged([[0, 0], [2, 0]], 3), (7, 0), "no pose of a pause");
    assert_eq!(judged([[4096, 0], [0, 0]], 4096), (0, 0));
    assert_eq!(judged([[4097, 0], [0, 0]], 4097), (2, 6));
    assert_eq!(
        judged([[0, 0], [u16::MAX, 2]], 0),
        (2, 8),
        "N before its ending"
    );
    assert_eq!(
        judged([[0, 2], [4097, 0]], 0),
        (14, 7),
        "an ending before the next N"
    );
    assert_eq!(judged([[0, 1], [0, 2]], 0), (14, 9));
    let text = |clip: &str| {
        let text = format!("figure,1,1,0,1,0\njoint,255\n{clip}\nstate,1,0\nnode,0,0,0,0\n");
        Figure::from_text(text.as_bytes()).map(|figure| figure.into_parts())
    };
    let refused = |clip| text(clip).map_err(|refusal| (refusal.number(), refusal.place()));
    let paused = vec![1, 1, 0, 1, 0, 255, 0, 1, 1, 0, 0, 0, 0, 0];
    assert_eq!(refused("clip,0,40000000,1"), Ok((paused, vec![2.0])));
    assert_eq!(refused("clip,0,40000000,2"), Err((14, 7)));
    assert_eq!(refused("clip,4097,40000000,0"), Err((11, 3)));
}

/// A pose with this x and no rotation.
fn at(x: f32) -> [f32; 8] {
    [x, 0.0, 0.0, 1.0, 1.0, 0.0, 0.0, 0.0]
}

/// One state with a lerp node by parameter 0 of two clips: clip 0 has 8 samples, x 0 to 7, at two a second; clip 1 has
/// `rest` samples with x 0 at one a second. `inputs` names the clip of each input.
fn blended(rest: u16, inputs: [u16; 2]) -> Figure {
    let [a, b] = inputs;
    let state = [3, 0, a, 0, 0, 0, b, 0, 0, 1, 0, 1, 0, 0];
    let words = plan(&[255], &[[8, 0], [rest, 0]], 1, &[&state]);
    let samples = (0..8)
        .map(|x| at(x as f32))
        .chain((0..rest).map(|_| at(0.0)));
    let numbers = [vec![2.0, 1.0], samples.flatten().collect()].concat();
    Figure::new(words, numbers).expect("two clips")
}

/// x after each of three steps of 0.75 seconds, by parameter 0.5 from the first on.
fn x_over_time(figure: &Figure, mut player: Player) -> (Vec<f32>, Player) {
    player.set_parameter(0, 0.5).expect("a parameter");
    let step = |player: &mut Player| {
        player.update(0.75);
        shown(figure, player)[3]
    };
    ((0..3).map(|_| step(&mut player)).collect(), player)
}

/// The clip goes on at its own rate, 1.5 samples in 0.75 seconds, and half of its x is shown.
#[test]
fn a_lerp_with_a_pause_is_not_synchronised() {
    let expected = [0.5 * 1.5, 0.5 * 3.0, 0.5 * 4.5];
    for inputs in [[0, 1], [1, 0]] {
        let figure = blended(0, inputs);
        let (x, player) = x_over_time(&figure, figure.start());
        assert_eq!(x, expected, "{inputs:?}");
        assert_eq!(player.instances()[..2], figure.start().instances()[..2]);
    }
    // With one sample in place of none the lengths are 4 and 1, so by 0.5 the clip goes at 4 / 2.5 of its rate.
    let (x, player) = x_over_time(&blended(1, [0, 1]), blended(1, [0, 1]).start());
    assert!(x[2] > expected[2], "{x:?}");
    assert_eq!(
        player.instances().map(|instance| instance.rate)[..2],
        [1.6, 0.4]
    );
}

/// What a host stored stays, in either place and where both inputs are pauses.
#[test]
fn a_lerp_with_a_pause_leaves_instances_alone() {
    let rates = [0.5, 1.5];
    for inputs in [[0, 1], [1, 0], [1, 1]] {
        let figure = blended(0, inputs);
        let stored = |rate| ClipInstance {
            start: -1.0,
            rate,
            offset: 0.25,
        };
        let parts = PlayerParts {
            instances: std::array::from_fn(|i| stored(rates[i % 2])),
            ..figure.start().parts()
        };
        let (x, player) = x_over_time(&figure, Player::from_parts(&parts));
        assert_eq!(player.parts().instances, parts.instances, "{inputs:?}");
        // x is twice the local time, the loop lasts 4 seconds of it, and half of x is shown.
        let half_x = |time: f32| match inputs.iter().position(|clip| *clip == 0) {
            Some(input) => ((time + 1.0) * rates[input] + 0.25) % 4.0,
            None => 0.0,
        };
        assert_eq!(x, [0.75, 1.5, 2.25].map(half_x), "{inputs:?}");
    }
}

/// Document 01's inv_sqrt.
fn inv_sqrt(x: f32) -> f32 {
    let shifted = (x.to_bits() as i32) >> 1;
    let y = f32::from_bits(0x5f37_59df_i32.wrapping_sub(shifted) as u32);
    y * (1.5 - (0.5 * x * y) * y)
}

/// A pose that only moves along x and turns about z: x, and the rotation's w and z.
type Turned = [f32; 3];

const STILL: Turned = [0.0, 1.0, 0.0];

/// Document 01's lerp of two such poses.
fn lerp(a: Turned, b: Turned, by: f32) -> Turned {
    let second = if a[1] * b[1] + a[2] * b[2] > 0.0 {
        by
    } else {
        -by
    };
    let sum = |i: usize| (1.0 - by) * a[i] + second * b[i];
    let (w, z) = (sum(1), sum(2));
    let root = inv_sqrt(w * w + z * z);
    [a[0] + (b[0] - a[0]) * by, w * root, z * root]
}

/// The entries of its matrix: on the diagonal, and at row 0 column 1.
fn entries([_, w, z]: Turned) -> [f32; 2] {
    [1.0 - (z + z) * z, (z + z) * w]
}

/// The pose that its matrix is made into, as at the end of a concat: the trace is above 0.
fn through_a_matrix(pose: Turned) -> Turned {
    let [diagonal, corner] = entries(pose);
    let t = diagonal + diagonal + 1.0 + 1.0;
    let s = inv_sqrt(t) * 0.5;
    [pose[0], s * t, (corner + corner) * s]
}

/// That the matrix of each joint, a root, is that of the pose.
fn assert_shows(output: &[f32], pose: Turned, what: &str) {
    let [diagonal, corner] = entries(pose);
    let mut expected = IDENTITY;
    // A corner of 0 has either sign, and a product with the root's parent makes it +0.
    let above = [
        diagonal,
        corner + 0.0,
        0.0,
        pose[0],
        -corner + 0.0,
        diagonal,
    ];
    expected[..6].copy_from_slice(&above);
    for matrix in output.chunks(16) {
        assert_eq!(seen(matrix), seen(&expected), "{what}");
    }
}

/// A right angle at x 4.
const RIGHT: Turned = [4.0, FRAC_1_SQRT_2, -FRAC_1_SQRT_2];

/// Roots alone. Clip 0 has one sample, and rate 0, so that its factor is always 0; clip 1 is a pause.
fn with_a_sign(joints: usize, transitions: &[f32], states: &[&[u16]]) -> Figure {
    let poses = [RIGHT[0], 0.0, 0.0, 1.0, RIGHT[1], 0.0, 0.0, RIGHT[2]].repeat(joints);
    let words = plan(&vec![ROOT; joints], &[[1, 0], [0, 0]], 1, states);
    Figure::new(words, [&[0.0, 1.0], transitions, &poses].concat()).expect("a sign and a pause")
}

/// What the clip shows: its sample blended with itself.
fn sign() -> Turned {
    lerp(RIGHT, RIGHT, 0.0)
}

/// Into the pause and out of it, by the parameter; poses on the way are expected as document 01 blends them.
fn there_and_back(joints: usize) {
    let states: [&[u16]; 2] = [
        &[1, 0, 0, 0, 0, 1, 0, 2, 1], // to the pause where parameter 0 is above 0
        &[1, 0, 1, 0, 0, 1, 0, 1, 0], // and back where it is at most 0
    ];
    let figure = with_a_sign(joints, &[0.0, 0.5, 0.0, 0.5], &states);
    let mut player = figure.start();
    let mut step = |parameter: f32, seconds: f64, pose: Turned, what: &str| {
        player.set_parameter(0, parameter).expect("a parameter");
        player.update(seconds);
        assert_shows(&shown(&figure, &mut player), pose, what);
    };
    step(0.0, 0.0, sign(), "the sign");
    step(1.0, 0.25, lerp(sign(), STILL, 0.0), "the way there");
    step(1.0, 0.25, lerp(sign(), STILL, 0.5), "half way");
    step(1.0, 0.25, STILL, "the pause");
    step(1.0, 100.0, STILL, "the pause still");
    step(0.0, 0.25, lerp(STILL, sign(), 0.0), "the way back");
    step(0.0, 0.25, lerp(STILL, sign(), 0.5), "half way back");
    step(0.0, 0.25, sign(), "the sign again");
    assert_eq!((player.state(), player.transition()), (0, None));
}

#[test]
fn a_transition_into_a_pause_and_out_of_it() {
    there_and_back(1);
    there_and_back(40);
    // A sample with the identity pose would be blended with itself first, and show another matrix half way.
    let half_way = |still| entries(lerp(sign(), still, 0.5));
    assert_ne!(half_way(lerp(STILL, STILL, 0.0)), half_way(STILL));
}

/// That a lerp (1) or additive (2) node of these clips shows the pose, by parameter 0.25.
fn assert_node_shows(kind: u16, [a, b]: [u16; 2], pose: Turned) {
    for joints in [1, 40] {
        let state = [3, 0, a, 0, 0, 0, b, 0, 0, kind, 0, 1, 0, 0];
        let figure = with_a_sign(joints, &[], &[&state]);
        let mut player = figure.start();
        player.set_parameter(0, 0.25).expect("a parameter");
        let what = format!("kind {kind} of {a} and {b}, {joints} joints");
        assert_shows(&shown(&figure, &mut player), pose, &what);
    }
}

#[test]
fn a_pause_in_a_tree_is_a_pose_like_any_other() {
    assert_node_shows(1, [0, 1], lerp(sign(), STILL, 0.25));
    assert_node_shows(1, [1, 0], lerp(STILL, sign(), 0.25));
    assert_node_shows(1, [1, 1], lerp(STILL, STILL, 0.25));
    assert_node_shows(2, [0, 1], through_a_matrix(sign())); // nothing is added
    assert_node_shows(2, [1, 0], through_a_matrix(lerp(STILL, sign(), 0.25)));
    assert_node_shows(2, [1, 1], through_a_matrix(STILL));
}
