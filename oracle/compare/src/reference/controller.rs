//! The Rust's own controller, made from a plan and its numbers.

use crate::texts::joints::RUST_ROOT;
use crate::texts::plan::{Inputs, Node, Plan, State, Transition};
use skeletal_animation::animation::{AnimationClip, AnimationSample};
use skeletal_animation::blend_tree::BlendTreeNodeDef;
use skeletal_animation::controller::{
    AnimationController, AnimationControllerDef, AnimationStateDef, AnimationTransition, Operator,
    TransitionCondition,
};
use skeletal_animation::math::Matrix4;
use skeletal_animation::skeleton::{Joint, Skeleton};
use skeletal_animation::transform::{QVTransform, Transform};
use std::collections::HashMap;
use std::rc::Rc;

type Clip = AnimationClip<QVTransform>;

pub type Controller = AnimationController<QVTransform>;

pub fn controller(plan: &Plan, numbers: &[u32]) -> Controller {
    let mut numbers = Numbers(numbers.iter());
    let rates: Vec<f32> = plan.clips.iter().map(|_| numbers.next()).collect();
    let definition = definition(plan, &mut numbers);
    let clips = clips(plan, &rates, &mut numbers);
    AnimationController::new(definition, Rc::new(skeleton(plan)), &clips)
}

/// The numbers from front to back, in which order everything here takes its own.
struct Numbers<'a>(std::slice::Iter<'a, u32>);

impl Numbers<'_> {
    fn next(&mut self) -> f32 {
        let bits = self.0.next().expect("as many numbers as the check counted");
        f32::from_bits(*bits)
    }
}

/// What has a number in the plan has a name in the Rust.
pub fn name(number: impl ToString) -> String {
    number.to_string()
}

fn definition(plan: &Plan, numbers: &mut Numbers) -> AnimationControllerDef {
    let states = plan.states.iter().enumerate();
    AnimationControllerDef {
        name: String::new(),
        parameters: (0..plan.parameters).map(name).collect(),
        states: states.map(|(i, s)| state(i, s, numbers)).collect(),
        initial_state: name(plan.initial),
    }
}

fn state(number: usize, state: &State, numbers: &mut Numbers) -> AnimationStateDef {
    let transitions = state.transitions.iter();
    AnimationStateDef {
        name: name(number),
        blend_tree: tree(&state.nodes, state.nodes.len() - 1),
        transitions: transitions.map(|t| transition(t, numbers)).collect(),
    }
}

fn tree(nodes: &[Node], root: usize) -> BlendTreeNodeDef {
    let input = |number: u16| Box::new(tree(nodes, usize::from(number)));
    let parts = |inputs: &Inputs| (input(inputs.a), input(inputs.b), name(inputs.parameter));
    match &nodes[root] {
        Node::Clip(clip) => BlendTreeNodeDef::ClipNode(name(clip)),
        Node::Lerp(inputs) => {
            let (a, b, parameter) = parts(inputs);
            BlendTreeNodeDef::LerpNode(a, b, parameter)
        }
        Node::Additive(inputs) => {
            let (a, b, parameter) = parts(inputs);
            BlendTreeNodeDef::AdditiveNode(a, b, parameter)
        }
    }
}

fn transition(transition: &Transition, numbers: &mut Numbers) -> AnimationTransition {
    AnimationTransition {
        target_state: name(transition.target),
        condition: TransitionCondition {
            parameter: name(transition.parameter),
            operator: operator(transition.operator),
            value: numbers.next(),
        },
        duration: numbers.next(),
    }
}

fn operator(number: u16) -> Operator {
    match number {
        0 => Operator::LessThan,
        1 => Operator::LessThanEqual,
        2 => Operator::GreaterThan,
        3 => Operator::GreaterThanEqual,
        4 => Operator::Equal,
        _ => Operator::NotEqual,
    }
}

fn clips(plan: &Plan, rates: &[f32], numbers: &mut Numbers) -> HashMap<String, Rc<Clip>> {
    let joints = plan.parents.len();
    let mut clips = HashMap::new();
    for (number, (clip, &rate)) in plan.clips.iter().zip(rates).enumerate() {
        let clip = AnimationClip {
            samples: (0..clip.samples).map(|_| sample(joints, numbers)).collect(),
            samples_per_second: rate,
        };
        clips.insert(name(number), Rc::new(clip));
    }
    clips
}

fn sample(joints: usize, numbers: &mut Numbers) -> AnimationSample<QVTransform> {
    AnimationSample {
        local_poses: (0..joints).map(|_| pose(numbers)).collect(),
    }
}

fn pose(numbers: &mut Numbers) -> QVTransform {
    let [x, y, z, scale, w, i, j, k] = std::array::from_fn(|_| numbers.next());
    QVTransform {
        translation: [x, y, z],
        scale,
        rotation: (w, [i, j, k]),
    }
}

fn skeleton(plan: &Plan) -> Skeleton {
    let joint = |(number, &parent): (usize, &Option<u16>)| Joint {
        name: name(number),
        parent_index: parent_index(parent),
        inverse_bind_pose: Matrix4::identity(),
    };
    Skeleton {
        joints: plan.parents.iter().enumerate().map(joint).collect(),
    }
}

/// The Rust has one word for a root, whichever the plan has.
fn parent_index(parent: Option<u16>) -> u8 {
    let word = parent.unwrap_or(RUST_ROOT);
    u8::try_from(word).expect("a joint of at most 64")
}
