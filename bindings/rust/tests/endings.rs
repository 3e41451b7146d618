//! Clips that loop and clips that stop on their last pose.

mod common;

use common::{random_figure, seen, Random};
use gentianlathe::{ClipInstance, Figure, Player, PlayerParts};

const LOOP: u16 = 0;
const STOP: u16 = 1;

/// A pose with this x, turned by a right angle: the approximate root shows in its matrix.
fn pose(x: f32) -> [f32; 8] {
    let half = f32::from_bits(0x3f35_04f3);
    [x, 0.0, 0.0, 1.0, half, 0.0, 0.0, -half]
}

/// One joint, and one state that plays a clip of three samples at two a second: x is 1, 2 and 4.
fn three_samples(ending: u16) -> Figure {
    let plan = vec![1, 1, 0, 1, 0, 255, 3, ending, 1, 0, 0, 0, 0, 0];
    let mut numbers = vec![2.0];
    numbers.extend([1.0, 2.0, 4.0].map(pose).concat());
    Figure::new(plan, numbers).expect("three samples")
}

fn shown(figure: &Figure, player: &mut Player) -> Vec<f32> {
    let mut output = vec![0.0; figure.output_len()];
    player
        .frame(figure, 0.0, &mut output)
        .expect("its own player");
    output
}

/// What the clip with this ending shows after so many seconds; the fourth float is x.
fn after(ending: u16, seconds: f64) -> Vec<f32> {
    let figure = three_samples(ending);
    let mut player = figure.start();
    player.update(seconds);
    shown(&figure, &mut player)
}

#[test]
fn a_stopping_clip_holds_its_last_pose() {
    let below_the_last = f64::from(f32::from_bits(0x3f7f_ffff));
    let expected = [
        (0.25, 1.5, 1.5),
        (below_the_last, 3.999_999_8, 3.999_999_8),
        (1.0, 4.0, 4.0),
        (1.25, 2.5, 4.0), // half way from the last sample to the first
        (1.5, 1.0, 4.0),
        (100.25, 2.5, 4.0),
        (1e30, 1.0, 4.0),          // sample 2^64 − 1 modulo 3, which is 0
        (f64::MAX, f32::NAN, 4.0), // as 32 bits an infinity
        (f64::INFINITY, f32::NAN, 4.0),
        (f64::NAN, f32::NAN, f32::NAN),
        (-0.25, 1.0, 1.0),
        (f64::NEG_INFINITY, f32::NAN, f32::NAN),
    ];
    for (seconds, looping, stopping) in expected {
        let x = [LOOP, STOP].map(|ending| after(ending, seconds)[3]);
        assert_eq!(seen(&x), seen(&[looping, stopping]), "{seconds}");
    }
}

/// The factor is 0 and not left out: the same floats as a looping clip shows on that sample.
#[test]
fn a_held_pose_is_blended_with_itself() {
    let on_the_sample = after(LOOP, 1.0);
    assert_eq!(on_the_sample[0].to_bits(), 0x3b5d_b100);
    for seconds in [1.0, 1.125, 7.0, 1e9] {
        assert_eq!(seen(&after(STOP, seconds)), seen(&on_the_sample));
    }
}

#[test]
fn one_sample_is_held_from_the_start() {
    for ending in [LOOP, STOP] {
        let plan = vec![1, 1, 0, 1, 0, 255, 1, ending, 1, 0, 0, 0, 0, 0];
        let figure = Figure::new(plan, [&[1.0][..], &pose(1.0)].concat()).expect("one sample");
        let mut player = figure.start();
        player.update(f64::INFINITY);
        let x = shown(&figure, &mut player)[3];
        assert_eq!(x.is_nan(), ending == LOOP, "{x}");
    }
}

/// Document 01's bench i: lengths 2 and 6 by 0.5 give rates 0.5 and 1.5.
#[test]
fn a_stopping_clip_keeps_its_length() {
    for endings in [[LOOP, LOOP], [LOOP, STOP], [STOP, LOOP], [STOP, STOP]] {
        let mut plan = vec![1, 2, 1, 1, 0, 255, 2, endings[0], 6, endings[1], 3];
        plan.extend([0, 0, 0, 0, 0, 1, 0, 0, 1, 0, 1, 0, 0]);
        let numbers = vec![1.0; 2 + 8 * 8];
        let figure = Figure::new(plan, numbers).expect("two clips");
        let mut player = figure.start();
        player.update(20.0);
        player.set_parameter(0, 0.5).expect("a parameter");
        shown(&figure, &mut player);
        let rates: Vec<f32> = player.instances().map(|instance| instance.rate).to_vec();
        assert_eq!(rates[..2], [0.5, 1.5], "{endings:?}");
    }
}

/// Two states that play the same stopping clip, and a way between them by parameter 0.
fn there_and_back() -> Figure {
    let mut plan = vec![1, 1, 1, 2, 0, 255, 3, STOP];
    plan.extend([1, 0, 0, 0, 0, 1, 0, 2, 1]); // to state 1 where parameter 0 is above 0
    plan.extend([1, 0, 0, 0, 0, 1, 0, 1, 0]); // and back where it is at most 0
    let mut numbers = vec![2.0, 0.0, 0.25, 0.0, 0.25];
    numbers.extend([1.0, 2.0, 4.0].map(pose).concat());
    Figure::new(plan, numbers).expect("two states")
}

/// Entering a state does not rewind its clips; a host can, by the instance's start.
#[test]
fn a_stopped_clip_does_not_begin_anew() {
    let figure = there_and_back();
    let mut player = figure.start();
    player.update(10.0);
    player.set_parameter(0, 1.0).expect("a parameter");
    shown(&figure, &mut player);
    player.update(0.25);
    let entered = shown(&figure, &mut player);
    assert_eq!((player.state(), player.transition()), (1, None));
    assert_eq!(
        entered[3], 4.0,
        "its last pose, in the first frame of the state"
    );
    let mut instances = player.parts().instances;
    instances[1] = ClipInstance {
        start: player.clock() as f32,
        rate: 1.0,
        offset: 0.0,
    };
    let mut rewound = Player::from_parts(&PlayerParts {
        instances,
        ..player.parts()
    });
    assert_eq!(shown(&figure, &mut rewound)[3], 1.0);
    rewound.update(0.25);
    assert_eq!(shown(&figure, &mut rewound)[3], 1.5);
    rewound.update(5.0);
    assert_eq!(shown(&figure, &mut rewound)[3], 4.0);
}

/// A figure's plan as it was before clips had endings; `None` where a clip has no samples, which was refused then.
fn without_endings(plan: &[u16]) -> Option<Vec<u16>> {
    let first = 5 + usize::from(plan[0]);
    let behind = first + 2 * usize::from(plan[1]);
    let counts: Vec<u16> = plan[first..behind].iter().copied().step_by(2).collect();
    let old = [&plan[..first], &counts, &plan[behind..]].concat();
    (!counts.contains(&0)).then_some(old)
}

/// A plan of a few clips from before they had endings is not taken for one of today.
#[test]
fn plans_without_endings_are_refused() {
    let mut random = Random::new(6);
    let mut numbers_seen = [0; 15];
    for _ in 0..4_000 {
        let (plan, numbers) = random_figure(&mut random).into_parts();
        if let Some(old) = without_endings(&plan) {
            let refusal = Figure::new(old, numbers).expect_err("no endings");
            numbers_seen[refusal.number()] += 1;
        }
    }
    assert!(numbers_seen.iter().sum::<usize>() > 1_000);
    assert!(
        numbers_seen[2] > 0 && numbers_seen[14] > 0,
        "{numbers_seen:?}"
    );
}

/// docs/FORMAT.md warns of such plans: with 16 clips of one sample, both readings have as many words and numbers.
#[test]
fn a_plan_that_reads_with_and_without_endings() {
    let behind_the_old_counts = [
        1, 0, 1, 0, 0, 1, 0, 0, 1, // state 0: a clip node and one transition, to state 1
        1, 0, 0, 0, 0, 7, 0, 3, 0, 4, 0, 0, 0, 3, 0, 0, 2, 1, 0, 5, 0, 1, 0, 1, 0, 0, 0,
    ];
    let header = [1, 16, 6, 2, 0, 255];
    let old = [&header[..], &[1; 16], &behind_the_old_counts].concat();
    let brought_over = [&header[..], &[1, 0].repeat(16), &behind_the_old_counts].concat();
    let numbers = vec![1.0; 16 + 2 * 8 + 8 * 16];
    for plan in [brought_over, old] {
        Figure::new(plan, numbers.clone()).expect("a figure, either way");
    }
}
