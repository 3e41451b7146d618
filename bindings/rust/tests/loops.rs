//! How many whole loops a clip has played, and the rest.

mod common;

use common::{random_figure, random_parts, Random};
use gentianlathe::{
    ClipInstance, Figure, Loops, Player, PlayerParts, Refusal, Transition, MAX_STATES, ROOT,
};

const LOOP: u16 = 0;
const STOP: u16 = 1;

/// A clip's samples, ending and rate.
type Clip = (u16, u16, f32);

const fn clip(number: u16) -> [u16; 4] {
    [0, number, 0, 0]
}

/// One joint, one parameter, and states of these nodes without transitions. All poses are zeros.
fn figure(clips: &[Clip], states: &[&[[u16; 4]]]) -> Figure {
    let counts = [1, clips.len() as u16, 1, states.len() as u16, 0, ROOT];
    let mut plan = counts.to_vec();
    plan.extend(clips.iter().flat_map(|clip| [clip.0, clip.1]));
    for nodes in states {
        plan.push(nodes.len() as u16);
        plan.extend(nodes.iter().flatten());
        plan.push(0);
    }
    let mut numbers: Vec<f32> = clips.iter().map(|clip| clip.2).collect();
    let samples: usize = clips.iter().map(|clip| usize::from(clip.0)).sum();
    numbers.resize(clips.len() + 8 * samples, 0.0);
    Figure::new(plan, numbers).expect("a figure")
}

/// Loops and rest, or the refusal's number. Its place is 0, and the player stays as it is.
fn asked(
    player: &Player,
    figure: &Figure,
    [state, node]: [usize; 2],
    time: f32,
) -> Result<(usize, usize), usize> {
    let before = player.clone();
    let answer = player.loops(figure, state, node, time);
    assert_eq!(*player, before);
    assert_eq!(answer.err().map_or(0, |refusal| refusal.place()), 0);
    let Loops { loops, rest } = answer.map_err(|refusal| refusal.number())?;
    Ok((loops, rest))
}

/// What a clip of so many samples, one a second, has played.
fn at(samples: u16, position: f32) -> (usize, usize) {
    let figure = figure(&[(samples, LOOP, 1.0)], &[&[clip(0)]]);
    asked(&figure.start(), &figure, [0, 0], position).expect("a looping clip")
}

#[test]
fn a_loop_is_over_at_n() {
    assert_eq!(at(4, 0.0), (0, 0));
    assert_eq!(at(4, 1.5), (0, 1));
    assert_eq!(at(4, 3.9999998), (0, 3), "the float before 4");
    assert_eq!(at(4, 4.0), (1, 0));
    assert_eq!(at(4, 7.75), (1, 3));
    assert_eq!(at(4, 8.0), (2, 0));
    assert_eq!(at(4, 403.5), (100, 3));
    assert_eq!(at(1, 7.5), (7, 0), "one sample leaves no rest");
    assert_eq!(at(4096, 4095.5), (0, 4095));
    assert_eq!(at(4096, 4096.0), (1, 0));
    assert_eq!(at(3, 16_777_216.0), (5_592_405, 1));
}

#[test]
fn positions_without_an_index() {
    for position in [-0.0, -1e-45, -0.5, -4.0, f32::NEG_INFINITY, f32::NAN] {
        assert_eq!(at(4, position), (0, 0), "{position}");
    }
    let below = f32::from_bits(f32::to_bits(2f32.powi(64)) - 1); // 2^64 - 2^40
    assert_eq!(at(4, below), (4_611_685_743_549_480_960, 0));
    for position in [2f32.powi(64), f32::MAX, f32::INFINITY] {
        assert_eq!(at(4, position), (4_611_686_018_427_387_903, 3));
        assert_eq!(at(1, position), (usize::MAX, 0));
    }
}

/// A player with this as instance `n`.
fn with_instance(figure: &Figure, n: usize, [start, rate, offset]: [f32; 3]) -> Player {
    let mut parts = figure.start().parts();
    parts.instances[n] = ClipInstance {
        start,
        rate,
        offset,
    };
    Player::from_parts(&parts)
}

#[test]
fn the_position_comes_from_the_instance() {
    let figure = figure(&[(3, LOOP, 2.0)], &[&[clip(0)]]);
    // (5 - 1) * 0.5 + 2 is 4 seconds, and by the clip's rate position 8.
    let player = with_instance(&figure, 0, [1.0, 0.5, 2.0]);
    assert_eq!(asked(&player, &figure, [0, 0], 5.0), Ok((2, 2)));
    // The clock and the speed do not count, only the time that is given.
    let mut later = player.clone();
    later.set_speed(3.0);
    later.update(100.0);
    assert_eq!(asked(&later, &figure, [0, 0], 5.0), Ok((2, 2)));
    // Infinity less infinity.
    let player = with_instance(&figure, 0, [f32::INFINITY, 1.0, 0.0]);
    assert_eq!(asked(&player, &figure, [0, 0], f32::INFINITY), Ok((0, 0)));
    // Before its start a clip has played nothing, but for one that is played backwards.
    let player = with_instance(&figure, 0, [10.0, -1.0, 0.0]);
    assert_eq!(asked(&player, &figure, [0, 0], 7.5), Ok((1, 2)));
    assert_eq!(asked(&player, &figure, [0, 0], 12.5), Ok((0, 0)));
}

/// Clip nodes are counted over all states: they are 0 and 1 of state 0, and 0 of states 1 and 2. Each has an instance
/// that is 10 samples further than the last one's.
#[test]
fn every_clip_node_has_its_own_instance() {
    let clips = [(4, LOOP, 1.0), (6, LOOP, 1.0)];
    let additive = [2, 1, 0, 0];
    let figure = figure(
        &clips,
        &[&[clip(1), clip(0), additive], &[clip(0)], &[clip(1)]],
    );
    let mut parts = figure.start().parts();
    for (n, instance) in parts.instances.iter_mut().enumerate() {
        instance.offset = 10.0 * n as f32;
    }
    let player = Player::from_parts(&parts);
    assert_eq!(asked(&player, &figure, [0, 0], 1.0), Ok((0, 1)), "1 of 6");
    assert_eq!(asked(&player, &figure, [0, 1], 1.0), Ok((2, 3)), "11 of 4");
    assert_eq!(asked(&player, &figure, [1, 0], 1.0), Ok((5, 1)), "21 of 4");
    assert_eq!(asked(&player, &figure, [2, 0], 1.0), Ok((5, 1)), "31 of 6");
}

/// Clips of 2 and of 6 seconds behind a lerp. A start has them play at rates 1 and 3; half way between them the rates
/// are 0.5 and 1.5, but only from the next frame on.
#[test]
fn nothing_is_synchronised_first() {
    let lerp = [1, 0, 1, 0];
    let clips = [(4, LOOP, 2.0), (6, LOOP, 1.0)];
    let figure = figure(&clips, &[&[clip(0), clip(1), lerp]]);
    let mut player = figure.start();
    player.update(3.0);
    player.set_parameter(0, 0.5).expect("parameter 0");
    let both = |player: &Player| [0, 1].map(|node| asked(player, &figure, [0, node], 7.0));
    assert_eq!(both(&player), [Ok((3, 2)), Ok((3, 3))], "14 of 4, 21 of 6");
    player
        .frame(&figure, 0.0, &mut [0.0; 16])
        .expect("its own player");
    // Local time went on from 3 and from 9, by 4 seconds at the new rates: to 5 and 15.
    assert_eq!(both(&player), [Ok((2, 2)), Ok((2, 3))], "10 of 4, 15 of 6");
}

/// What examples/wave.md tells: of the two nodes before and behind a frame that synchronises them.
#[test]
fn the_wave_of_the_examples() {
    let text = include_bytes!("../../../examples/wave.figure");
    let figure = Figure::from_text(text).expect("an example");
    let mut player = figure.start();
    let wave = |player: &Player, time| asked(player, &figure, [0, 0], time);
    assert_eq!(wave(&player, 2.0), Ok((3, 0)));
    assert_eq!(wave(&player, 2.3), Ok((3, 1)));
    assert_eq!(asked(&player, &figure, [0, 1], 2.3), Ok((3, 1)));
    player.update(2.3);
    player.set_parameter(0, 1.0).expect("parameter 0");
    assert_eq!(wave(&player, 5.0), Ok((7, 2)));
    player
        .frame(&figure, 0.0, &mut [0.0; 32])
        .expect("its own player");
    assert_eq!(wave(&player, 5.0), Ok((5, 1)));
    assert_eq!(wave(&player, 2.3), Ok((3, 1)));
    assert_eq!(wave(&player, -3.0), Ok((0, 0)));
    let infinite = wave(&player, f32::INFINITY);
    assert_eq!(infinite, Ok((4_611_686_018_427_387_903, 3)));
    for (about, number) in [([0, 2], 16), ([2, 0], 16), ([1, 0], 17)] {
        assert_eq!(asked(&player, &figure, about, 2.0), Err(number));
    }
}

/// State 0 plays a looping, a stopping and two empty clips; state 1 the looping one.
fn mixed() -> Figure {
    let clips = [
        (4, LOOP, 1.0),
        (4, STOP, 1.0),
        (0, LOOP, 1.0),
        (0, STOP, 1.0),
    ];
    let nodes = [
        clip(0),
        clip(1),
        clip(2),
        clip(3),
        [1, 0, 1, 0],
        [2, 2, 3, 0],
        [1, 4, 5, 0],
    ];
    figure(&clips, &[&nodes, &[clip(0)]])
}

#[test]
fn refused_with_16_then_17() {
    let figure = mixed();
    let player = figure.start();
    let number = |state, node| asked(&player, &figure, [state, node], 5.0);
    assert_eq!(number(0, 0), Ok((1, 1)));
    assert_eq!(number(1, 0), Ok((1, 1)));
    for node in [1, 2, 3] {
        assert_eq!(number(0, node), Err(17), "stopping or empty: {node}");
    }
    for node in [4, 5, 6, 7, 31, usize::MAX] {
        assert_eq!(number(0, node), Err(16), "no clip, or no node: {node}");
    }
    for state in [2, MAX_STATES, 1 << 32, usize::MAX] {
        assert_eq!(number(state, 0), Err(16), "no state: {state}");
    }
    assert_eq!(number(1, 1), Err(16), "a node of another state");
}

#[test]
fn refused_with_9_before_16_and_17() {
    let figure = mixed();
    let to = |target| {
        Some(Transition {
            start: 0.0,
            target,
            duration: 1.0,
        })
    };
    for (state, transition) in [(2, None), (0, to(2)), (usize::MAX, to(1))] {
        let parts = PlayerParts {
            state,
            transition,
            ..figure.start().parts()
        };
        let player = Player::from_parts(&parts);
        for about in [[0, 0], [0, 1], [0, 4], [9, 9]] {
            assert_eq!(asked(&player, &figure, about, 5.0), Err(9), "{about:?}");
        }
    }
    // On its way to a state that is there, a player is asked as ever.
    let parts = PlayerParts {
        transition: to(1),
        ..figure.start().parts()
    };
    let player = Player::from_parts(&parts);
    assert_eq!(asked(&player, &figure, [0, 0], 5.0), Ok((1, 1)));
}

#[test]
fn what_the_refusals_say() {
    let figure = mixed();
    let refusal = |node| figure.start().loops(&figure, 0, node, 0.0).unwrap_err();
    assert_eq!(refusal(4), Refusal::ClipNode);
    let said = refusal(4).to_string();
    assert!(said.starts_with("refusal 16: there is no such clip node"));
    assert_eq!(refusal(1), Refusal::LoopingClip);
    let said = refusal(1).to_string();
    assert!(said.starts_with("refusal 17: the clip is empty or stops"));
    for (number, refusal) in [(16, Refusal::ClipNode), (17, Refusal::LoopingClip)] {
        assert_eq!(Refusal::from_answer(number, 0), Some(refusal));
        let other = Refusal::from_answer(number, 1).expect("a refusal");
        assert!(matches!(other, Refusal::Other { .. }), "its place is 0");
    }
}

/// The clip of a node and the instance that the node has, by the plan's words; `None` where there is no such clip node.
fn clip_node(plan: &[u16], state: usize, node: usize) -> Option<(usize, usize)> {
    let word = |at: usize| usize::from(plan[at]);
    let (mut at, mut instance) = (5 + word(0) + 2 * word(1), 0);
    for s in 0..word(3) {
        let nodes = word(at);
        for n in 0..nodes {
            let is_clip = word(at + 1 + 4 * n) == 0;
            if [s, n] == [state, node] {
                return is_clip.then_some((word(at + 2 + 4 * n), instance));
            }
            instance += usize::from(is_clip);
        }
        at += 1 + 4 * nodes;
        at += 1 + 3 * word(at);
    }
    None
}

/// What documents 01 and 02 say of this player's answer.
fn worked_out(
    figure: &Figure,
    parts: &PlayerParts,
    [state, node]: [usize; 2],
    time: f32,
) -> Result<(usize, usize), usize> {
    let plan = figure.plan();
    let target = parts.transition.map_or(0, |transition| transition.target);
    if parts.state.max(target) >= usize::from(plan[3]) {
        return Err(9);
    }
    let (clip, instance) = clip_node(plan, state, node).ok_or(16usize)?;
    let words = &plan[5 + figure.joints() + 2 * clip..];
    let (samples, ending) = (usize::from(words[0]), words[1]);
    if samples == 0 || ending == STOP {
        return Err(17);
    }
    let played = parts.instances[instance];
    let local = (time - played.start) * played.rate + played.offset;
    let index = (local * figure.numbers()[clip]).floor() as usize;
    Ok((index / samples, index % samples))
}

#[test]
fn any_player_state_node_and_time() {
    let mut random = Random::new(12);
    let mut told = [0; 18];
    let mut looped = 0;
    for _ in 0..1_000 {
        let figure = random_figure(&mut random);
        let parts = random_parts(&mut random);
        let player = Player::from_parts(&parts);
        for _ in 0..20 {
            let about = match random.below(8) {
                0 => [random.bits() as usize, random.bits() as usize],
                _ => [random.below(4), random.below(8)],
            };
            let time = random.float();
            let answer = asked(&player, &figure, about, time);
            assert_eq!(answer, worked_out(&figure, &parts, about, time));
            told[answer.err().unwrap_or(0)] += 1;
            looped += usize::from(matches!(answer, Ok((loops, rest)) if loops > 0 && rest > 0));
        }
    }
    for number in [0, 9, 16, 17] {
        assert!(told[number] > 1_000, "{number}: {told:?}");
    }
    assert!(looped > 100, "some have loops and a rest: {looped}");
}
