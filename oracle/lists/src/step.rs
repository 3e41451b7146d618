//! What a host does with its player: calls, and stores into the player's own fields.

use crate::evaluator::HostPlayer;
use compare::generator::{Generator, SPECIAL};
use compare::lists::call::Call;
use compare::lists::random_calls::{call, double, number, value, Calls};
use compare::texts::draft::Draft;
use compare::texts::figure::Figure;

#[derive(Clone, Debug)]
pub enum Step {
    Call(Call),
    /// The host writes its player's fields.
    Store(Vec<Edit>),
    /// A frame, a page frame or a question for loops with another figure than the player's own.
    Other(Box<Figure>, Call),
}

/// A store into one part of a player, floats as bits.
#[derive(Clone, Copy, Debug)]
pub enum Edit {
    Clock(u64),
    Speed(u64),
    State(usize),
    /// `running`, start, target, duration.
    Transition(usize, u64, usize, u32),
    Parameter(usize, u32),
    Instance(usize, [u32; 3]),
}

impl Edit {
    pub fn store(self, player: &mut HostPlayer) {
        match self {
            Edit::Clock(bits) => player.clock = f64::from_bits(bits),
            Edit::Speed(bits) => player.speed = f64::from_bits(bits),
            Edit::State(state) => player.state = state,
            Edit::Transition(running, start, target, duration) => {
                player.running = running;
                player.start = f64::from_bits(start);
                player.target = target;
                player.duration = f32::from_bits(duration);
            }
            Edit::Parameter(i, bits) => player.parameters[i] = f32::from_bits(bits),
            Edit::Instance(i, bits) => player.instances[i] = bits.map(f32::from_bits),
        }
    }
}

impl Step {
    /// Its line in a list of calls. What is no such call gets a line that says so.
    pub fn line(&self) -> String {
        match self {
            Step::Call(call) => call.line(),
            Step::Store(edits) => format!("(stores {edits:x?})\n"),
            Step::Other(figure, call) => {
                let Figure { plan, numbers } = figure.as_ref();
                let line = call.line();
                let line = line.trim_end();
                format!(
                    "({line} with the plan {plan:?} and {} numbers {numbers:x?})\n",
                    numbers.len()
                )
            }
        }
    }

    /// Whether the program `replay` can do it.
    pub fn has_text(&self) -> bool {
        matches!(self, Step::Call(call) if call.has_text())
    }
}

/// Random steps for a figure; `others` makes another figure.
pub fn random_steps(
    generator: &mut Generator,
    draft: &Draft,
    others: impl Fn(&mut Generator) -> Figure,
) -> Vec<Step> {
    let calls = generator.pick(&Calls::ALL);
    let count = 4 + generator.below(28);
    let step = |_| match generator.below(48) {
        0 => {
            let count = 1 + generator.below(3);
            Step::Store((0..count).map(|_| edit(generator, draft, calls)).collect())
        }
        1 => {
            let call = call(generator, draft, calls);
            match call {
                Call::Frame(..) | Call::Page(..) | Call::Loops(..) => {
                    Step::Other(Box::new(others(generator)), call)
                }
                _ => Step::Call(call),
            }
        }
        _ => Step::Call(call(generator, draft, calls)),
    };
    (0..count).map(step).collect()
}

fn float(generator: &mut Generator, draft: &Draft) -> u32 {
    match generator.below(8) {
        0 => generator.pick(&SPECIAL),
        _ => value(generator, draft),
    }
}

fn edit(generator: &mut Generator, draft: &Draft, calls: Calls) -> Edit {
    match generator.below(7) {
        0 => Edit::Clock(double(generator, calls)),
        1 => Edit::Speed(double(generator, calls)),
        2 => Edit::State(number(generator, draft.states.len())),
        3 | 4 => Edit::Transition(
            generator.pick(&[0, 1, 1, 1, 2, usize::MAX, 1 << 63]),
            double(generator, calls),
            number(generator, draft.states.len()),
            float(generator, draft),
        ),
        5 => Edit::Parameter(generator.below(32) as usize, float(generator, draft)),
        _ => Edit::Instance(
            generator.below(instances_in_use(draft)) as usize,
            [(); 3].map(|_| float(generator, draft)),
        ),
    }
}

/// How many of a player's instances are worth a store: those with a clip node, and one more.
fn instances_in_use(draft: &Draft) -> u64 {
    let nodes = draft.states.iter().flat_map(|state| &state.nodes);
    let leaves = nodes.filter(|node| node[0] == 0).count() as u64;
    (leaves + 1).min(64)
}
