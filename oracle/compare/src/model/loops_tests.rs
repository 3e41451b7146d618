//! Loops and rests by what documents 01 and 02 decide.

use super::loops::Played;
use super::Model;
use crate::lists::figures::{
    emptied, figure, going, joined, one_clip, state, stopping, CLIP, EQUAL, SECOND, THIRD, THREE,
};
use crate::player::{Player, Running, BLANK_INSTANCE};
use crate::texts::draft::Draft;
use crate::texts::figure::{Figure, Refusal};

const LERP: u16 = 1;
const ADDITIVE: u16 = 2;
const TWO_TO_64: f32 = 18_446_744_073_709_551_616.0;

type Answer = Result<(usize, usize), (u8, usize)>;

/// Loops and rest, or the refusal's number and place.
fn asked(model: &Model, state: usize, node: usize, time: f32) -> Answer {
    let answer = model.loops(state, node, time);
    let told = answer.map(|Played { loops, rest }| (loops, rest));
    told.map_err(|Refusal { number, place }| (number, place))
}

fn started(draft: &Draft) -> Model {
    let model = Model::start(&draft.figure());
    assert_eq!(model.answer(), Ok(()));
    model
}

/// What a clip of so many samples, one a second, has played.
fn at(samples: u16, position: f32) -> (usize, usize) {
    let model = started(&one_clip(1, samples, 1.0));
    asked(&model, 0, 0, position).unwrap()
}

#[test]
fn a_loop_is_over_at_n() {
    for (position, expected) in [
        (0.0, (0, 0)),
        (0.5, (0, 0)),
        (1.0, (0, 1)),
        (3.0, (0, 3)),
        (4f32.next_down(), (0, 3)),
        (4.0, (1, 0)),
        (4f32.next_up(), (1, 0)),
        (7.75, (1, 3)),
        (8.0, (2, 0)),
        (400.0, (100, 0)),
        (403.5, (100, 3)),
    ] {
        assert_eq!(at(4, position), expected, "{position}");
    }
    assert_eq!(at(3, 16_777_216.0), (5_592_405, 1));
    assert_eq!(at(4096, 4095.5), (0, 4095));
    assert_eq!(at(4096, 4096.0), (1, 0));
}

#[test]
fn one_sample_leaves_no_rest() {
    for (position, loops) in [(0.0, 0), (0.75, 0), (1.0, 1), (7.5, 7), (1e6, 1_000_000)] {
        assert_eq!(at(1, position), (loops, 0), "{position}");
    }
    assert_eq!(at(1, f32::INFINITY), (usize::MAX, 0));
}

#[test]
fn negative_and_nan_positions_have_played_nothing() {
    let small = [-0.0, -1e-45, -0.5, -1.0, -4.0, -7.5];
    let others = [
        -TWO_TO_64,
        -f32::MAX,
        f32::NEG_INFINITY,
        f32::NAN,
        -f32::NAN,
    ];
    for position in small.into_iter().chain(others) {
        for samples in [1, 3, 4, 4096] {
            assert_eq!(at(samples, position), (0, 0), "{position} {samples}");
        }
    }
}

/// 2^64 - 1 is a multiple of 3, and one less than a multiple of 4 and of 4,096.
#[test]
fn from_2_to_64_on_the_index_is_one_less() {
    for position in [TWO_TO_64, TWO_TO_64.next_up(), 3e38, f32::INFINITY] {
        assert_eq!(at(4, position), (4_611_686_018_427_387_903, 3));
        assert_eq!(at(3, position), (6_148_914_691_236_517_205, 0));
        assert_eq!(at(7, position), (2_635_249_153_387_078_802, 1));
        assert_eq!(at(4096, position), (4_503_599_627_370_495, 4095));
    }
    // 2^64 - 2^40, and 2^63.
    let below = TWO_TO_64.next_down();
    assert_eq!(at(4, below), (4_611_685_743_549_480_960, 0));
    assert_eq!(at(4, TWO_TO_64 / 2.0), (2_305_843_009_213_693_952, 0));
    assert_eq!(at(3, TWO_TO_64 / 2.0), (3_074_457_345_618_258_602, 2));
}

/// The model's only state plays clip 0.
fn with_instance(draft: &Draft, instance: [f32; 3]) -> Model {
    let mut model = started(draft);
    let mut player = model.player().clone();
    player.instances[0] = instance;
    model.store(&player);
    model
}

#[test]
fn the_position_is_the_instances() {
    // (5 - 1) * 0.5 + 2 is 4 seconds, and by a rate of 2 position 8.
    let model = with_instance(&one_clip(1, 3, 2.0), [1.0, 0.5, 2.0]);
    assert_eq!(asked(&model, 0, 0, 5.0), Ok((2, 2)));
    // 2^24 + 1 is no 32-bit float: the sum is 2^24.
    let model = with_instance(&one_clip(1, 4, 1.0), [-1.0, 1.0, 0.0]);
    assert_eq!(asked(&model, 0, 0, 16_777_216.0), Ok((4_194_304, 0)));
    // Infinity less infinity, and 0 times infinity.
    let model = with_instance(&one_clip(1, 4, 1.0), [f32::INFINITY, 1.0, 0.0]);
    assert_eq!(asked(&model, 0, 0, f32::INFINITY), Ok((0, 0)));
    let model = started(&one_clip(1, 4, f32::INFINITY));
    assert_eq!(asked(&model, 0, 0, 0.0), Ok((0, 0)));
    assert_eq!(asked(&model, 0, 0, 1e-45), Ok((usize::MAX / 4, 3)));
    // Two negatives: a clip that is played backwards, before its start.
    let model = started(&one_clip(1, 4, -2.0));
    assert_eq!(asked(&model, 0, 0, -4.5), Ok((2, 1)));
    assert_eq!(asked(&model, 0, 0, 4.5), Ok((0, 0)));
}

/// State 0 has clip nodes 0, 1 and 3, state 1 only a join behind two, state 2 one.
fn three_states() -> Draft {
    let states = vec![
        state(
            &[CLIP, SECOND, [LERP, 0, 1, 0], THIRD, [ADDITIVE, 2, 3, 0]],
            &[],
        ),
        state(&[SECOND, SECOND, [ADDITIVE, 1, 0, 0]], &[]),
        state(&[THIRD], &[]),
    ];
    figure(1, &THREE, 1, states)
}

/// Instance n has played 10 n samples and one. The clips have 4, 6 and 1.
#[test]
fn instances_are_counted_over_all_states() {
    let mut draft = three_states();
    draft.clips[0].rate = 1f32.to_bits();
    let mut model = started(&draft);
    let mut player = model.player().clone();
    for (n, instance) in player.instances.iter_mut().enumerate() {
        *instance = [0.0, 1.0, 10.0 * n as f32 + 1.0];
    }
    model.store(&player);
    for (state, node, expected) in [
        (0, 0, Ok((0, 1))),
        (0, 1, Ok((1, 5))),
        (0, 2, Err((16, 0))),
        (0, 3, Ok((21, 0))),
        (0, 4, Err((16, 0))),
        (1, 0, Ok((5, 1))),
        (1, 1, Ok((6, 5))),
        (1, 2, Err((16, 0))),
        (2, 0, Ok((51, 0))),
        (2, 1, Err((16, 0))),
        (3, 0, Err((16, 0))),
    ] {
        assert_eq!(asked(&model, state, node, 0.0), expected, "{state} {node}");
    }
}

/// Lengths 2 and 6 (clips of 4 and 6 samples): by 0 rates 1 and 3, by 0.5 rates 0.5 and 1.5.
#[test]
fn nothing_is_synchronised_first() {
    let both = |model: &Model, time: f32| [0, 1].map(|node| asked(model, 0, node, time));
    let mut model = started(&joined(1, LERP));
    let first = [Ok((2, 0)), Ok((2, 0))];
    assert_eq!(both(&model, 4.0), first);
    model.set(0, 0.5).unwrap();
    assert_eq!(both(&model, 4.0), first);
    model.frame(0.0, 16).unwrap();
    assert_eq!(both(&model, 4.0), [Ok((1, 0)), Ok((1, 0))]);
    // Synchronised at 4, the new rates show at other times only.
    let mut model = started(&joined(1, LERP));
    model.set(0, 0.5).unwrap();
    assert_eq!(both(&model, 8.0), [Ok((4, 0)), Ok((4, 0))]);
    model.update(4.0);
    model.frame(0.0, 16).unwrap();
    assert_eq!(both(&model, 4.0), first);
    assert_eq!(both(&model, 8.0), [Ok((3, 0)), Ok((3, 0))]);
}

/// The time is the question's: neither clock nor speed has a part in it.
#[test]
fn clock_and_speed_are_not_asked() {
    let mut model = started(&one_clip(1, 4, 1.0));
    model.speed(3.0);
    model.update(100.0);
    assert_eq!(asked(&model, 0, 0, 9.0), Ok((2, 1)));
}

fn in_states(fresh: &Player, current: usize, target: Option<usize>) -> Player {
    let running = |target| Running {
        start: 0.0,
        target,
        duration: 1.0,
    };
    Player {
        state: current,
        transition: target.map(running),
        ..fresh.clone()
    }
}

#[test]
fn the_starts_refusals_and_9_come_first() {
    let mut model = started(&going(1, &[(0, EQUAL, 1, 0.0, 1.0)]));
    let fresh = model.player().clone();
    let absent = [
        in_states(&fresh, 2, None),
        in_states(&fresh, usize::MAX, Some(0)),
        in_states(&fresh, 0, Some(2)),
    ];
    for player in &absent {
        model.store(player);
        for (state, node) in [(0, 0), (2, 0), (0, 1)] {
            assert_eq!(asked(&model, state, node, 0.0), Err((9, 0)));
        }
        // A plan that ends before its first word.
        let mut none = Model::start(&Figure::default());
        none.store(player);
        assert_eq!(asked(&none, 9, 9, 0.0), Err((1, 0)));
    }
    let mut wrong = going(1, &[(0, EQUAL, 1, 0.0, 1.0)]);
    wrong.clips[1].ending = 2;
    let model = Model::start(&wrong.figure());
    assert_eq!(asked(&model, 0, 0, 0.0), Err((14, 9)));
}

/// What is asked for need not be what the player shows.
#[test]
fn other_states_than_the_players_are_told_of() {
    let mut model = started(&going(1, &[]));
    let fresh = model.player().clone();
    for player in [
        in_states(&fresh, 0, None),
        in_states(&fresh, 1, None),
        in_states(&fresh, 0, Some(1)),
    ] {
        model.store(&player);
        assert_eq!(asked(&model, 0, 0, 2.5), Ok((1, 1)));
        assert_eq!(asked(&model, 1, 0, 6.5), Ok((1, 0)));
    }
}

#[test]
fn what_is_absent_or_no_clip_is_refused_with_16() {
    for kind in [LERP, ADDITIVE] {
        let model = started(&joined(1, kind));
        for (state, node) in [(0, 2), (0, 3), (1, 0), (1, 9), (65536, 0), (0, 65536)] {
            assert_eq!(asked(&model, state, node, 1.0), Err((16, 0)));
        }
        for number in [usize::MAX, 1 << 32, 1 << 63] {
            assert_eq!(asked(&model, number, 0, 1.0), Err((16, 0)));
            assert_eq!(asked(&model, 0, number, 1.0), Err((16, 0)));
        }
    }
}

#[test]
fn empty_and_stopping_clips_are_refused_with_17() {
    let empty = emptied(joined(1, LERP), &[0]);
    let stops = stopping(joined(1, LERP), &[0]);
    let both = stopping(empty.clone(), &[0]);
    for draft in [empty, stops, both] {
        let model = started(&draft);
        for time in [0.0, 1.5, -1.0, 1e30, f32::NAN] {
            assert_eq!(asked(&model, 0, 0, time), Err((17, 0)));
            assert!(asked(&model, 0, 1, time).is_ok());
        }
    }
}

/// All clips are such as 17 refuses.
#[test]
fn seventeen_never_comes_before_16() {
    for draft in [
        emptied(joined(1, LERP), &[0, 1]),
        stopping(joined(1, ADDITIVE), &[0, 1]),
    ] {
        let model = started(&draft);
        for node in [2, 3, 4] {
            assert_eq!(asked(&model, 0, node, 0.0), Err((16, 0)));
        }
        assert_eq!(asked(&model, 1, 0, 0.0), Err((16, 0)));
    }
}

#[test]
fn a_fresh_player_has_played_nothing_at_0() {
    let model = started(&three_states());
    assert_eq!(model.player().instances[5], BLANK_INSTANCE);
    for (state, node) in [(0, 0), (0, 1), (0, 3), (1, 0), (1, 1), (2, 0)] {
        assert_eq!(asked(&model, state, node, 0.0), Ok((0, 0)));
    }
}
