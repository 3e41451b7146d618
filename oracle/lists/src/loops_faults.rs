//! Faults about loops played and the rest.

use crate::endings::with_endings;
use crate::evaluator::{HostLoops, HostPlayer, Question};
use crate::faults::{Fault, Faulty};
use crate::frame::checked;
use crate::loops::Asked;
use compare::model::clip::{floor_index, local_time};
use compare::model::figure::Checked;
use compare::model::loops::{played, Played};
use compare::player::Player;
use compare::texts::plan::Node;

impl Faulty<'_> {
    pub fn spoilt_loops(
        &self,
        (plan, numbers): (&[u16], &[f32]),
        player: &mut HostPlayer,
        question: Question,
    ) -> HostLoops {
        let Some(figure) = checked(plan, numbers) else {
            return self.spoilt_start(plan, numbers, player, question);
        };
        let lent = match self.fault {
            Fault::LoopsStopAccepted => with_endings(plan, |_, _| 0),
            _ => plan.to_vec(),
        };
        let put = self.question_handed_on(&figure, question);
        let mut seen = self.player_handed_on(&figure, player, put);
        let mut answer = self.library.loops(&lent, numbers, &mut seen, put);
        match Asked::new(&figure, put) {
            Some(asked) if answer.number == 0 => {
                self.spoil_loops(&asked, &seen.player(), &mut answer);
            }
            _ => {}
        }
        self.spoil_loops_refusal(&figure, question, &mut answer);
        self.spoil_nine(&figure, player, &mut answer);
        self.spoil_lent_player(&figure, player, question);
        answer
    }

    /// The answer to a question about a refused figure.
    fn spoilt_start(
        &self,
        plan: &[u16],
        numbers: &[f32],
        player: &mut HostPlayer,
        question: Question,
    ) -> HostLoops {
        let mut answer = self.library.loops(plan, numbers, player, question);
        match self.fault {
            Fault::LoopsStartPlace => answer.place = 0,
            Fault::LoopsSixteenFirst => (answer.number, answer.place) = (16, 0),
            _ => {}
        }
        answer
    }

    /// What the library is asked for.
    fn question_handed_on(&self, figure: &Checked, question: Question) -> Question {
        let states = &figure.plan.states;
        let Question { state, node, time } = question;
        let nodes = |state: usize| states.get(state).map_or(0, |state| state.nodes.len());
        let is_absent = state < states.len() && node >= nodes(state);
        let (state, node) = match self.fault {
            Fault::LoopsLastState => (state.min(states.len() - 1), node),
            Fault::LoopsLastNode if is_absent => (state, nodes(state) - 1),
            Fault::LoopsNextState if is_absent && state + 1 < states.len() => {
                (state + 1, node - nodes(state))
            }
            Fault::LoopsByteState => (state % 256, node),
            Fault::LoopsShortNode => (state, node % 65536),
            Fault::LoopsOfFirstInput => (state, first_input(figure, state, node)),
            _ => (state, node),
        };
        Question { state, node, time }
    }

    /// The player that the library gets to see.
    fn player_handed_on(
        &self,
        figure: &Checked,
        player: &HostPlayer,
        question: Question,
    ) -> HostPlayer {
        let mut seen = *player;
        match self.fault {
            Fault::LoopsNineNotAsked | Fault::LoopsNineLate => (seen.state, seen.running) = (0, 0),
            Fault::LoopsTargetNotAsked => seen.running = 0,
            Fault::LoopsIdleTargetAsked => seen.running = 1,
            _ => {}
        }
        if let Some(asked) = Asked::new(figure, question) {
            self.spoil_instances(&asked, &mut seen);
        }
        seen
    }

    fn spoil_instances(&self, asked: &Asked, player: &mut HostPlayer) {
        let Question { state, node, time } = asked.question;
        let own = asked.instance();
        let in_state = own - asked.figure.instance(state, 0);
        let held = player.player();
        let synchronised = |time: f32| asked.synchronised(&held, time).instances;
        let instances = &mut player.instances;
        match self.fault {
            Fault::LoopsSynchronised => *instances = synchronised(held.clock as f32),
            Fault::LoopsSynchronisedThen => *instances = synchronised(time),
            Fault::LoopsInstanceOfState => instances[own] = instances[in_state],
            Fault::LoopsInstanceOfNode => instances[own] = instances[node],
            Fault::LoopsInstanceOfClip => instances[own] = instances[asked.clip],
            Fault::LoopsWithoutStart => instances[own][0] = 0.0,
            Fault::LoopsWithoutPlayback => instances[own][1] = 1.0,
            Fault::LoopsWithoutOffset => instances[own][2] = 0.0,
            _ => {}
        }
    }

    /// What the fault makes of loops and rest.
    fn spoil_loops(&self, asked: &Asked, player: &Player, answer: &mut HostLoops) {
        let position = asked.position(player);
        let samples = asked.samples();
        let count = f32::from(samples);
        let ceiling = played(position.ceil() as usize, samples);
        match self.fault {
            Fault::LoopsByCeiling => answer.loops = ceiling.loops,
            Fault::LoopsRestByCeiling => answer.rest = ceiling.rest,
            Fault::LoopsByFloat => answer.loops = floor_index(position / count),
            Fault::LoopsRestByFloat => answer.rest = floor_index(position % count),
            Fault::LoopsNegativeBackwards if position < 0.0 => {
                let floor = position.floor() as i64;
                answer.loops = floor.div_euclid(samples.into()).unsigned_abs() as usize;
                answer.rest = floor.rem_euclid(samples.into()) as usize;
            }
            _ => {
                if let Some(Played { loops, rest }) = self.other_played(asked, player) {
                    (answer.loops, answer.rest) = (loops, rest);
                }
            }
        }
    }

    /// By another index, or by another count of samples.
    fn other_played(&self, asked: &Asked, player: &Player) -> Option<Played> {
        let position = asked.position(player);
        let floor = floor_index(position);
        let index = match self.fault {
            Fault::LoopsRounded => position.round() as usize,
            Fault::LoopsCutAt63 => floor.min(usize::MAX >> 1),
            Fault::LoopsCutAt32 => floor.min(usize::MAX >> 32),
            Fault::LoopsWrapAt32 => floor % (1 << 32),
            Fault::LoopsNegativeWraps => match floor {
                0 => position.floor() as i64 as usize,
                _ => floor,
            },
            Fault::LoopsAtClock | Fault::LoopsWithoutRate | Fault::LoopsInDoubles => {
                floor_index(self.other_position(asked, player))
            }
            Fault::LoopsOneSampleLess => {
                return Some(played(floor, (asked.samples() - 1).max(1)));
            }
            _ => return None,
        };
        Some(played(index, asked.samples()))
    }

    fn other_position(&self, asked: &Asked, player: &Player) -> f32 {
        let instance = player.instances[asked.instance()];
        let (time, rate) = (asked.question.time, asked.rate());
        match self.fault {
            Fault::LoopsAtClock => local_time(instance, player.clock as f32) * rate,
            Fault::LoopsWithoutRate => local_time(instance, time),
            _ => {
                let [start, playback, offset] = instance.map(f64::from);
                let local = (f64::from(time) - start) * playback + offset;
                (local * f64::from(rate)) as f32
            }
        }
    }

    /// What the fault makes of a refusal by 16 or 17.
    fn spoil_loops_refusal(&self, figure: &Checked, question: Question, answer: &mut HostLoops) {
        let Question { state, node, .. } = question;
        let asked = Asked::new(figure, question);
        let state_of = figure.plan.states.get(state);
        let node_of = state_of.and_then(|state| state.nodes.get(node));
        let accepted = HostLoops::of(Ok(played(0, 1)));
        match (self.fault, answer.number) {
            (Fault::LoopsEmptyAccepted, 17) if asked.is_some_and(|a| a.samples() == 0) => {
                *answer = accepted;
            }
            (Fault::LoopsAbsentNodeIs17, 16) if node_of.is_none() && state_of.is_some() => {
                answer.number = 17;
            }
            (Fault::LoopsAbsentNodeAccepted, 16) if node_of.is_none() && state_of.is_some() => {
                *answer = accepted;
            }
            (Fault::LoopsSeventeenFirst, 16) if names_no_loop(figure, node_of) => {
                answer.number = 17;
            }
            (Fault::LoopsNoLoopIs16, 17) => answer.number = 16,
            (Fault::LoopsRefusedLoops, 17) => answer.loops = 1,
            (Fault::LoopsRefusedRest, 9 | 16) => answer.rest = 1,
            (Fault::LoopsPlace, 16) => answer.place = node,
            _ => {}
        }
    }

    /// 9 only where neither 16 nor 17 comes.
    fn spoil_nine(&self, figure: &Checked, player: &HostPlayer, answer: &mut HostLoops) {
        let states = figure.plan.states.len();
        let is_absent = player.state >= states || (player.running != 0 && player.target >= states);
        if self.fault == Fault::LoopsNineLate && is_absent && answer.number == 0 {
            *answer = HostLoops {
                number: 9,
                place: 0,
                loops: 0,
                rest: 0,
            };
        }
    }

    /// What the fault does to the player that is only lent.
    fn spoil_lent_player(&self, figure: &Checked, player: &mut HostPlayer, question: Question) {
        match self.fault {
            Fault::LoopsMovesClock => player.clock = f64::from(question.time),
            Fault::LoopsMovesInstances => {
                if let Some(asked) = Asked::new(figure, question) {
                    let time = player.clock as f32;
                    player.instances = asked.synchronised(&player.player(), time).instances;
                }
            }
            Fault::LoopsTidiesPlayer => match player.running {
                0 => (player.start, player.target, player.duration) = (0.0, 0, 0.0),
                _ => player.running = 1,
            },
            _ => {}
        }
    }
}

/// The clip node below a node, by first inputs.
fn first_input(figure: &Checked, state: usize, node: usize) -> usize {
    let nodes = figure.plan.states.get(state).map(|state| &state.nodes);
    match nodes.and_then(|nodes| nodes.get(node)) {
        Some(Node::Lerp(inputs) | Node::Additive(inputs)) => {
            first_input(figure, state, usize::from(inputs.a))
        }
        _ => node,
    }
}

/// Whether a node that is no clip has the number of an empty or stopping clip for its first input.
fn names_no_loop(figure: &Checked, node: Option<&Node>) -> bool {
    let Some(Node::Lerp(inputs) | Node::Additive(inputs)) = node else {
        return false;
    };
    let clip = figure.plan.clips.get(usize::from(inputs.a));
    clip.is_some_and(|clip| clip.is_empty() || clip.stops)
}
