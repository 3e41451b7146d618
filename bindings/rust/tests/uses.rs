//! What a figure can ever use: reachable states, the parameters that they read, the clips that they play.

mod common;

use common::{random_figure, seen, two_states, Random};
use gentianlathe::{uses, Figure, Player, Uses, MAX_CLIPS, MAX_STATES, PARAMETERS, ROOT};

/// A state's nodes (kind, a, b, parameter) and transitions (parameter, operator, target).
type State<'a> = (&'a [[u16; 4]], &'a [[u16; 3]]);
type OwnState = (Vec<[u16; 4]>, Vec<[u16; 3]>);

fn lent(states: &[OwnState]) -> Vec<State<'_>> {
    let states = states.iter();
    states
        .map(|(nodes, goes)| (&nodes[..], &goes[..]))
        .collect()
}

const fn clip(number: u16) -> [u16; 4] {
    [0, number, 0, 0]
}

const fn lerp(a: u16, b: u16, parameter: u16) -> [u16; 4] {
    [1, a, b, parameter]
}

const fn additive(a: u16, b: u16, parameter: u16) -> [u16; 4] {
    [2, a, b, parameter]
}

const fn go(parameter: u16, target: usize) -> [u16; 3] {
    [parameter, 2, target as u16]
}

/// One joint, so many clips of one sample each and parameters; `value` is each number.
fn parts(
    [clips, parameters, initial]: [usize; 3],
    states: &[State],
    value: f32,
) -> (Vec<u16>, Vec<f32>) {
    let header = [1, clips, parameters, states.len(), initial].map(|word| word as u16);
    let mut plan = [&header[..], &[ROOT], &[1, 0].repeat(clips)].concat();
    let mut count = 9 * clips;
    for (nodes, goes) in states {
        plan.push(nodes.len() as u16);
        plan.extend(nodes.iter().flatten());
        plan.push(goes.len() as u16);
        plan.extend(goes.iter().flatten());
        count += 2 * goes.len();
    }
    (plan, vec![value; count])
}

/// Marks from their digits.
fn marks(digits: &str) -> Vec<bool> {
    digits.chars().map(|digit| digit == '1').collect()
}

/// That a figure with C clips, P parameters and this initial state has these marks: of states, parameters, clips.
fn expect(counts: [usize; 3], states: &[State], expected: [&str; 3]) {
    let (plan, numbers) = parts(counts, states, 1.0);
    let [states, parameters, clips] = expected.map(marks);
    let expected = Uses {
        states,
        parameters,
        clips,
    };
    assert_eq!(uses(&plan, &numbers).as_ref(), Ok(&expected));
    let figure = Figure::new(plan, numbers).expect("a figure");
    assert_eq!(figure.uses(), expected);
}

#[test]
fn one_state() {
    expect([1, 0, 0], &[(&[clip(0)], &[])], ["1", "", "1"]);
    expect([3, 2, 0], &[(&[clip(1)], &[])], ["1", "00", "010"]);
}

/// State 2 has a clip and parameters of its own, and leads to the others.
#[test]
fn a_state_that_nothing_leads_to() {
    let first: State = (&[clip(0)], &[go(0, 1)]);
    let second: State = (&[clip(1)], &[go(0, 0)]);
    let third: State = (
        &[clip(0), clip(2), lerp(0, 1, 1)],
        &[go(0, 0), go(2, 1), go(3, 2)],
    );
    let states = [first, second, third];
    expect([3, 4, 0], &states, ["110", "1000", "110"]);
    expect([3, 4, 1], &states, ["110", "1000", "110"]);
    expect([3, 4, 2], &states, ["111", "1111", "111"]);
}

/// From where a chain begins, all behind is reachable and nothing before, whichever way the states are numbered.
#[test]
fn a_chain_of_16_states() {
    const LAST: usize = MAX_STATES - 1;
    for backwards in [false, true] {
        let number = |place: usize| if backwards { LAST - place } else { place };
        let state = |state: usize| {
            let goes = match number(state) {
                LAST => vec![],
                place => vec![go(state as u16, number(place + 1)); 16],
            };
            (vec![clip(state as u16)], goes)
        };
        let states: Vec<OwnState> = (0..MAX_STATES).map(state).collect();
        for begin in 0..MAX_STATES {
            let digit = |is_marked: bool| if is_marked { '1' } else { '0' };
            let all = 0..MAX_STATES;
            let reached: String = all.clone().map(|s| digit(number(s) >= begin)).collect();
            let read = all.map(|s| digit((begin..LAST).contains(&number(s))));
            let read: String = read.collect();
            let counts = [MAX_CLIPS, MAX_STATES, number(begin)];
            expect(counts, &lent(&states), [&reached, &read, &reached]);
        }
    }
}

/// From state 7 all others by one transition each, and from these nothing.
#[test]
fn all_states_at_once() {
    let goes: Vec<[u16; 3]> = (0..MAX_STATES).map(|target| go(31, target)).collect();
    let mut states: Vec<State> = vec![(&[[0, 15, 0, 0]], &[]); MAX_STATES];
    states[7].1 = &goes;
    let none = "0".repeat(31);
    let expected = [&"1".repeat(16), &format!("{none}1"), "0000000000000001"];
    expect([MAX_CLIPS, PARAMETERS, 7], &states, expected);
    let alone = ["0000000010000000", &"0".repeat(32), "0000000000000001"];
    expect([MAX_CLIPS, PARAMETERS, 8], &states, alone);
}

/// Only lerp and additive nodes and conditions read parameters, and only clip nodes play: the other words of a node,
/// among them the zeros of a clip node, are no parameter or clip.
#[test]
fn each_word_of_a_node() {
    let states: [State; 1] = [(&[clip(3), clip(3), lerp(0, 1, 2)], &[])];
    expect([4, 4, 0], &states, ["1", "0010", "0001"]);
    let states: [State; 1] = [(&[clip(3), clip(2), additive(1, 0, 1)], &[])];
    expect([4, 4, 0], &states, ["1", "0100", "0011"]);
    let tree = [clip(2), clip(2), additive(0, 1, 3), clip(2), lerp(2, 3, 1)];
    expect([4, 4, 0], &[(&tree, &[])], ["1", "0101", "0010"]);
}

/// A condition reads also where its transition leads back; operator and target are no parameters.
#[test]
fn a_parameter_that_only_a_condition_reads() {
    expect([1, 3, 0], &[(&[clip(0)], &[go(1, 0)])], ["1", "010", "1"]);
    let states: [State; 2] = [(&[clip(0)], &[[2, 5, 1]]), (&[clip(0)], &[])];
    expect([1, 6, 0], &states, ["11", "001000", "1"]);
    expect([1, 6, 1], &states, ["01", "000000", "1"]);
}

/// The most of everything: 16 states that each lead on by 16 parameters, half of them by the others.
#[test]
fn the_most_of_everything() {
    let state = |state: u16| {
        let mut nodes: Vec<[u16; 4]> = (0..4).map(|n| clip((state + n) % 16)).collect();
        nodes.extend([lerp(0, 1, 0), additive(2, 3, 31), lerp(4, 5, 16)]);
        let target = usize::from(state + 5) % MAX_STATES;
        let parameters = (0..16).map(|n| 16 * (state % 2) + n);
        (nodes, parameters.map(|p| go(p, target)).collect())
    };
    let states: Vec<OwnState> = (0..16).map(state).collect();
    for initial in 0..MAX_STATES {
        let counts = [MAX_CLIPS, PARAMETERS, initial];
        let all = [16, 32, 16].map(|count| "1".repeat(count));
        expect(counts, &lent(&states), [&all[0], &all[1], &all[2]]);
    }
}

/// A pause that a reachable state names is played; one that none names is not.
#[test]
fn a_clip_without_samples() {
    let states: [State; 2] = [(&[clip(1)], &[]), (&[clip(0)], &[])];
    let (mut plan, _) = parts([2, 0, 0], &states, 1.0);
    plan[6..10].copy_from_slice(&[0, 0, 0, 1]);
    let both = |initial| {
        let mut plan = plan.clone();
        plan[4] = initial;
        uses(&plan, &[1.0, 1.0]).expect("rates alone").clips
    };
    assert_eq!(both(0), marks("01"));
    assert_eq!(both(1), marks("10"));
}

/// Conditions are not weighed: any numbers, so also values that no parameter compares with, give the same marks.
#[test]
fn numbers_do_not_matter() {
    let states: [State; 3] = [
        (&[clip(0)], &[go(0, 1), [1, 4, 2]]),
        (&[clip(1)], &[]),
        (&[clip(0)], &[]),
    ];
    for value in [0.0, -1.0, f32::NAN, f32::INFINITY, f32::NEG_INFINITY] {
        let (plan, numbers) = parts([2, 2, 0], &states, value);
        let marked = uses(&plan, &numbers).expect("a figure");
        assert_eq!(marked.states, marks("111"), "{value}");
        assert_eq!(marked.parameters, marks("11"), "{value}");
        assert_eq!(marked.clips, marks("11"), "{value}");
    }
}

fn random_state(random: &mut Random, [clips, parameters, states]: [usize; 3]) -> OwnState {
    let mut below = |bound: usize| random.below(bound) as u16;
    let nodes = match below(3) {
        0 => vec![clip(below(clips))],
        kind => {
            let [a, b] = [below(clips), below(clips)];
            vec![clip(a), clip(b), [kind, 1, 0, below(parameters)]]
        }
    };
    let count = below(4);
    let goes = (0..count).map(|_| [below(parameters), below(6), below(states)]);
    (nodes, goes.collect())
}

/// What the states use, worked out by going on from each state that is newly reached.
fn worked_out(states: &[OwnState], [clips, parameters, initial]: [usize; 3]) -> Uses {
    let mut open = vec![initial];
    let mut uses = Uses {
        states: vec![false; states.len()],
        parameters: vec![false; parameters],
        clips: vec![false; clips],
    };
    while let Some(state) = open.pop() {
        if uses.states[state] {
            continue;
        }
        uses.states[state] = true;
        for [kind, a, _, parameter] in states[state].0.iter().map(|node| node.map(usize::from)) {
            match kind {
                0 => uses.clips[a] = true,
                _ => uses.parameters[parameter] = true,
            }
        }
        for [parameter, _, target] in states[state].1.iter().map(|go| go.map(usize::from)) {
            uses.parameters[parameter] = true;
            open.push(target);
        }
    }
    uses
}

/// Up to 16 random states, and how many clips and parameters there are.
fn random_states(random: &mut Random) -> (Vec<OwnState>, [usize; 2]) {
    let count = random.between(1, MAX_STATES);
    let [clips, parameters] = [MAX_CLIPS, PARAMETERS].map(|most| random.between(1, most));
    let counts = [clips, parameters, count];
    let states = (0..count).map(|_| random_state(random, counts)).collect();
    (states, [clips, parameters])
}

#[test]
fn random_figures() {
    let mut random = Random::new(10);
    for _ in 0..3_000 {
        let (states, [clips, parameters]) = random_states(&mut random);
        for initial in 0..states.len() {
            let counts = [clips, parameters, initial];
            let (plan, numbers) = parts(counts, &lent(&states), 1.0);
            let expected = worked_out(&states, counts);
            assert_eq!(uses(&plan, &numbers), Ok(expected), "{plan:?}");
        }
    }
}

/// Every word replaced, every end cut off: the answer is the start's.
#[test]
fn refused_as_a_start_is() {
    let (plan, numbers) = two_states();
    let put = |plan: &[u16], numbers: &[f32]| {
        let started = Figure::new(plan.to_vec(), numbers.to_vec());
        assert_eq!(uses(plan, numbers).err(), started.as_ref().err().copied());
        started.map_or_else(|refusal| refusal.number(), |_| 0)
    };
    let mut told = [0; 15];
    for word in 0..plan.len() {
        for value in (0..40).chain([255, 4097, ROOT]) {
            let mut plan = plan.clone();
            plan[word] = value;
            told[put(&plan, &numbers)] += 1;
        }
        assert_eq!(put(&plan[..word], &numbers), 1);
    }
    for number in [0, 2, 3, 4, 5, 14] {
        assert!(told[number] > 0, "{number}: {told:?}");
    }
    assert_eq!(put(&[&plan[..], &[0]].concat(), &numbers), 6);
    assert_eq!(put(&plan, &numbers[1..]), 7);
    assert_eq!(put(&[], &[]), 1);
}

/// A figure of few states and many joints, or of many states and one joint.
fn any_figure(random: &mut Random) -> Figure {
    if random.below(2) == 0 {
        return random_figure(random);
    }
    let (states, [clips, parameters]) = random_states(random);
    let (plan, mut numbers) = parts([clips, parameters, 0], &lent(&states), 0.0);
    numbers.fill_with(|| random.float());
    Figure::new(plan, numbers).expect("a figure")
}

/// The figure with other numbers for the clips that nothing reachable plays.
fn with_other_clips(figure: &Figure, uses: &Uses, random: &mut Random) -> Figure {
    let (plan, mut numbers) = figure.clone().into_parts();
    let (joints, clips) = (figure.joints(), uses.clips.len());
    let samples = |clip: usize| usize::from(plan[5 + joints + 2 * clip]);
    let floats = |clip: usize| 8 * joints * samples(clip);
    let mut at = numbers.len() - (0..clips).map(floats).sum::<usize>();
    for clip in 0..clips {
        let next = at + floats(clip);
        if !uses.clips[clip] {
            numbers[clip] = random.float();
            numbers[at..next].fill_with(|| random.float());
        }
        at = next;
    }
    Figure::new(plan, numbers).expect("only numbers changed")
}

/// What a figure's player shows a quarter of a second on.
fn step(figure: &Figure, player: &mut Player, ext: f64) -> Vec<u32> {
    let mut output = vec![0.0; figure.output_len()];
    player.update(0.25);
    player
        .frame(figure, ext, &mut output)
        .expect("its own player");
    seen(&output)
}

/// What has no mark never matters: no player gets to such a state, and no frame changes by such a parameter or clip.
#[test]
fn what_is_not_marked_never_shows() {
    let mut random = Random::new(11);
    let (mut unmarked, mut moved) = ([0; 3], 0);
    for _ in 0..400 {
        let figure = any_figure(&mut random);
        let uses = figure.uses();
        let lists = [&uses.states, &uses.parameters, &uses.clips];
        for (count, list) in unmarked.iter_mut().zip(lists) {
            *count += list.iter().filter(|used| !**used).count();
        }
        let other = with_other_clips(&figure, &uses, &mut random);
        let (mut player, mut beside) = (figure.start(), other.start());
        for _ in 0..20 {
            for parameter in 0..PARAMETERS {
                let is_used = uses.parameters.get(parameter) == Some(&true);
                let value = random.float();
                let another = if is_used { value } else { random.float() };
                player.set_parameter(parameter, value).expect("below 32");
                beside.set_parameter(parameter, another).expect("below 32");
            }
            let ext = random.double();
            assert_eq!(
                step(&figure, &mut player, ext),
                step(&other, &mut beside, ext)
            );
            assert_eq!(player.state(), beside.state());
            assert_eq!(player.transition(), beside.transition());
            assert!(uses.states[player.state()]);
            moved += usize::from(player.state() != figure.start().state());
            assert!(player
                .transition()
                .map_or(true, |to| uses.states[to.target]));
        }
    }
    assert!(unmarked.iter().all(|count| *count > 500), "{unmarked:?}");
    assert!(moved > 500, "players get to other states: {moved}");
}
