//! The Rust's own controller, made from a draft.

use crate::draft::{Clip, Draft, Go, Node, State, VALUES};
use skeletal_animation::animation::{AnimationClip, AnimationSample};
use skeletal_animation::blend_tree::BlendTreeNodeDef;
use skeletal_animation::controller::{
    AnimationController, AnimationControllerDef, AnimationStateDef, AnimationTransition, Operator,
    TransitionCondition,
};
use skeletal_animation::math::Matrix4;
use skeletal_animation::skeleton::{Joint, Skeleton};
use skeletal_animation::transform::{QVTransform, Transform};
use std::rc::Rc;

/// A controller with its output.
pub struct Reference {
    controller: AnimationController<QVTransform>,
    pub output: Vec<Matrix4<f32>>,
}

impl Reference {
    pub fn new(draft: &Draft) -> Reference {
        let definition = AnimationControllerDef {
            name: String::new(),
            parameters: (0..VALUES.len()).map(name).collect(),
            states: draft.states.iter().enumerate().map(state).collect(),
            initial_state: name(0),
        };
        let clips = draft.clips.iter().enumerate();
        let clips = clips
            .map(|(number, c)| (name(number), Rc::new(clip(c))))
            .collect();
        let mut controller = AnimationController::new(definition, Rc::new(skeleton(draft)), &clips);
        for (number, value) in VALUES.iter().enumerate() {
            controller.set_param_value(&name(number), *value);
        }
        let output = vec![Matrix4::identity(); draft.parents.len()];
        Reference { controller, output }
    }

    pub fn play(&mut self, delta: f64, ext: f64) {
        self.controller.update(delta);
        self.controller.get_output_pose(ext, &mut self.output);
    }
}

/// What has a number in the plan has a name in the Rust.
fn name(number: impl ToString) -> String {
    number.to_string()
}

fn state((number, state): (usize, &State)) -> AnimationStateDef {
    AnimationStateDef {
        name: name(number),
        blend_tree: tree(&state.nodes, state.nodes.len() - 1),
        transitions: state.goes.iter().map(transition).collect(),
    }
}

fn tree(nodes: &[Node], root: usize) -> BlendTreeNodeDef {
    let input = |number: u16| Box::new(tree(nodes, usize::from(number)));
    match nodes[root] {
        Node::Clip(clip) => BlendTreeNodeDef::ClipNode(name(clip)),
        Node::Lerp(a, b, parameter) => {
            BlendTreeNodeDef::LerpNode(input(a), input(b), name(parameter))
        }
        Node::Additive(a, b, parameter) => {
            BlendTreeNodeDef::AdditiveNode(input(a), input(b), name(parameter))
        }
    }
}

fn transition(go: &Go) -> AnimationTransition {
    AnimationTransition {
        target_state: name(go.target),
        condition: TransitionCondition {
            parameter: name(go.parameter),
            operator: Operator::GreaterThan,
            value: go.value,
        },
        duration: go.duration,
    }
}

fn clip(clip: &Clip) -> AnimationClip<QVTransform> {
    let sample = |poses: &Vec<[f32; 8]>| AnimationSample {
        local_poses: poses.iter().map(pose).collect(),
    };
    AnimationClip {
        samples: clip.samples.iter().map(sample).collect(),
        samples_per_second: clip.rate,
    }
}

fn pose(pose: &[f32; 8]) -> QVTransform {
    let [x, y, z, scale, w, i, j, k] = *pose;
    QVTransform {
        translation: [x, y, z],
        scale,
        rotation: (w, [i, j, k]),
    }
}

fn skeleton(draft: &Draft) -> Skeleton {
    let joint = |(number, parent): (usize, &Option<u16>)| Joint {
        name: name(number),
        parent_index: parent.map_or(255, |parent| {
            u8::try_from(parent).expect("at most 64 joints")
        }),
        inverse_bind_pose: Matrix4::identity(),
    };
    Skeleton {
        joints: draft.parents.iter().enumerate().map(joint).collect(),
    }
}
