//! Questions for loops that every run asks, whatever its seed: each node of each state of a few figures,
//! and some that are not there, at times of all sorts and with players of all sorts.

use crate::run::Case;
use crate::step::{Edit, Step};
use compare::lists::call::Call;
use compare::lists::figures::{
    emptied, figure, mixed, one_clip, state, stopping, CLIP, GREATER, SECOND, THIRD, THREE,
};
use compare::player::INSTANCES;
use compare::texts::draft::Draft;

/// Such as a byte, 16 bits or 32 would take for 0.
const FAR: [(usize, usize); 7] = [
    (256, 0),
    (65536, 0),
    (1 << 32, 0),
    (0, 256),
    (0, 65536),
    (0, 1 << 32),
    (usize::MAX, usize::MAX),
];

/// At and beside multiples of N, where 32 bits, 63 and 64 end, below 0 and without a number.
const TIMES: [f32; 30] = [
    0.0,
    -0.0,
    1e-45,
    0.5,
    1.75,
    2.0,
    2.5,
    3.0,
    4.0,
    6.0,
    7.5,
    12.0,
    100.25,
    -1e-45,
    -0.5,
    -3.25,
    -1e10,
    16_777_213.0,
    16_777_216.0,
    4_294_967_296.0,
    8_589_934_592.0,
    4.6e18,
    9_223_372_036_854_775_808.0,
    1.844_674_3e19,
    18_446_744_073_709_551_616.0,
    1e30,
    3e38,
    f32::INFINITY,
    f32::NEG_INFINITY,
    f32::NAN,
];

pub fn cases() -> impl Iterator<Item = Case> {
    let figures = [several(), without_loops(), rates(), one_clip(1, 4096, 30.0)];
    let by_players = figures.into_iter().flat_map(|draft| {
        let players = players(&draft).into_iter();
        players.flat_map(move |player| questions(&draft, player))
    });
    let full = figure(1, &THREE, 4, vec![state(&mixed(), &[]); 4]);
    let by_nodes = questions(&full, Step::Store(apart()));
    by_players.chain(by_nodes).chain([moving(several())])
}

/// Clips in trees of each kind, over three states of which the last is never reached.
fn several() -> Draft {
    let states = vec![
        state(
            &[CLIP, SECOND, [1, 0, 1, 0], THIRD, [2, 2, 3, 0]],
            &[(1, GREATER, 1, 0.5, 2.0)],
        ),
        state(&[SECOND, CLIP, [1, 1, 0, 0]], &[]),
        state(&[THIRD], &[]),
    ];
    figure(1, &THREE, 2, states)
}

/// Clip 0 is empty, clip 1 stops, and of clip 2 both hold. Nodes of other kinds name them as inputs.
fn without_loops() -> Draft {
    stopping(emptied(several(), &[0, 2]), &[1, 2])
}

/// A state for each rate.
fn rates() -> Draft {
    let rates = [-2.0, 0.0, 3e38, 1e-40, f32::INFINITY, f32::NAN];
    let states = (0..rates.len()).map(|clip| state(&[[0, clip as u16, 0, 0]], &[]));
    let clips = rates.map(|rate| (3, rate));
    figure(1, &clips, 0, states.collect())
}

/// Every instance by its number.
fn instances(instance: impl Fn(f32) -> [f32; 3]) -> Vec<Edit> {
    let edit = |n: usize| Edit::Instance(n, instance(n as f32).map(f32::to_bits));
    (0..INSTANCES).map(edit).collect()
}

/// No two are alike.
fn apart() -> Vec<Edit> {
    instances(|n| [0.25 * n, 0.5 + 0.125 * n, 3.0 * n])
}

/// What the host stores before it asks: nothing, parameters that nothing was synchronised by yet, other
/// instances, late clocks, and states that are there and not there.
fn players(draft: &Draft) -> Vec<Step> {
    let states = draft.states.len();
    let zero = 0f64.to_bits();
    let running = |running, target| Edit::Transition(running, zero, target, 0);
    let half = Edit::Parameter(0, 0.5f32.to_bits());
    let clock = |clock: f64| Edit::Clock(clock.to_bits());
    let infinite = |n: f32| [f32::INFINITY * (n - 1.0), 1.0, f32::NEG_INFINITY];
    let players = [
        vec![],
        vec![half, clock(5.0)],
        vec![half, clock(1e12), running(1, states - 1)],
        apart(),
        instances(|n| [-1e9 * n, 1e9, 1e18]),
        instances(|n| [n, -1.5, -0.5 * n]),
        instances(infinite),
        vec![running(0, states), Edit::State(states - 1)],
        vec![Edit::State(states)],
        vec![running(1, states)],
        vec![running(2, usize::MAX), Edit::State(usize::MAX)],
    ];
    players.into_iter().map(Step::Store).collect()
}

/// For each node of each state, and those behind them and far away, the player and all times.
fn questions(draft: &Draft, player: Step) -> Vec<Case> {
    let nodes = |state: usize| draft.states.get(state).map_or(1, |state| state.nodes.len());
    let asked = (0..=draft.states.len()).flat_map(|state| {
        let nodes = 0..=nodes(state);
        nodes.map(move |node| (state, node))
    });
    let case = |(state, node): (usize, usize)| {
        let times = TIMES.iter();
        let calls = times.map(|&time| Step::Call(Call::loops(state, node, time)));
        Case {
            draft: draft.clone(),
            steps: [player.clone()].into_iter().chain(calls).collect(),
        }
    };
    asked.chain(FAR).map(case).collect()
}

/// Frames between the questions: before, in and after a transition, parameters changing.
fn moving(draft: Draft) -> Case {
    let clips = [(0, 0), (0, 1), (0, 3), (1, 0), (1, 1), (2, 0)];
    let asked = || clips.map(|(state, node)| Call::loops(state, node, 9.5));
    let mut calls = Vec::new();
    for (first, second) in [(0.5, 0.0), (0.25, 1.0), (-0.5, 0.0), (2.0, 0.0)] {
        calls.extend([Call::set(0, first), Call::set(1, second)]);
        calls.extend(asked());
        calls.extend([Call::update(1.25), Call::frame(0.5, 16)]);
        calls.extend(asked());
        calls.push(Call::page(0.0, 16));
        calls.extend(asked());
    }
    Case {
        draft,
        steps: calls.into_iter().map(Step::Call).collect(),
    }
}

#[cfg(test)]
mod tests {
    use super::*;
    use crate::abi::Library;
    use crate::faults::{Fault, Faulty};
    use crate::plans::same_start;
    use crate::run::{run, Counts};
    use crate::sweep::plans;

    fn faulty(fault: Fault) -> Faulty<'static> {
        let library = &Library;
        Faulty { library, fault }
    }

    #[test]
    fn faults_about_loops_are_found_by_any_seed() {
        let finds = |fault: Fault| {
            let shows = |case: Case| run(&case, &faulty(fault), &mut Counts::default()).is_some();
            cases().any(shows)
        };
        for fault in Fault::OF_LOOPS {
            assert!(finds(fault), "{fault:?}");
        }
        assert!(!finds(Fault::None));
    }

    #[test]
    fn those_of_refused_figures_too() {
        let finds = |fault: Fault| {
            let mut plans = plans().into_iter();
            plans.any(|plan| same_start(&plan, &faulty(fault), &mut Counts::default()).is_err())
        };
        for fault in Fault::OF_REFUSED_LOOPS {
            assert!(finds(fault), "{fault:?}");
        }
        assert!(!finds(Fault::None));
    }

    /// The figures are all accepted, so nothing but the questions is refused.
    #[test]
    fn every_kind_is_there() {
        let mut counts = Counts::default();
        for case in cases() {
            assert!(run(&case, &Library, &mut counts).is_none());
        }
        assert_eq!(counts.loops.missing(), None);
        let refused: Vec<usize> = counts.refused.into_keys().collect();
        assert_eq!(refused, [9, 16, 17]);
    }
}
