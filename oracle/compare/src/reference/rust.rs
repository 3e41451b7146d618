//! The Rust's controller behind the calls of document 01, with the refusals written from document 01
//! alone.

use super::controller::{self, name, Controller};
use super::page::PageMatrix;
use crate::model::loops::Played;
use crate::player::{Instance, Player, Running, BLANK_INSTANCE, INSTANCES, PARAMETERS};
use crate::texts::figure::{Figure, Refusal};
use crate::texts::plan::{check, Node, Plan};
use skeletal_animation::animation::access::local_time;
use skeletal_animation::animation::ClipInstance;
use skeletal_animation::blend_tree::access::{clip_places, instance, instance_mut};
use skeletal_animation::controller::access::{fields, fields_mut};
use skeletal_animation::controller::{AnimationTransition, Operator, TransitionCondition};
use skeletal_animation::math::Matrix4;
use skeletal_animation::transform::{FromTransform, QVTransform, Transform};

/// The smallest plan. Its fresh player is the blank one.
const SMALLEST: [u16; 14] = [1, 1, 0, 1, 0, 255, 1, 0, 1, 0, 0, 0, 0, 0];

pub struct RustPlayer {
    checked: Result<Plan, Refusal>,
    controller: Controller,
    /// The Rust's clip node for each clip node of the plan.
    leaves: Vec<Leaf>,
    /// The instances that belong to no clip node are kept here, at their own places.
    spare: [Instance; INSTANCES],
    names: Vec<String>,
}

/// Where the Rust keeps a clip node.
struct Leaf {
    state: String,
    /// Its number in the plan's state.
    node: usize,
    place: usize,
}

impl RustPlayer {
    /// A player of the figure, fresh where the figure is accepted and else blank.
    pub fn start(figure: &Figure) -> RustPlayer {
        let checked = check(figure);
        let (controller, leaves) = match &checked {
            Ok(plan) => playing(plan, &figure.numbers),
            Err(_) => blank(),
        };
        RustPlayer {
            checked,
            controller,
            leaves,
            spare: [BLANK_INSTANCE; INSTANCES],
            names: (0..PARAMETERS).map(name).collect(),
        }
    }

    /// The start's answer.
    pub fn answer(&self) -> Result<(), Refusal> {
        self.checked
            .as_ref()
            .map(|_| ())
            .map_err(|refusal| *refusal)
    }

    pub fn update(&mut self, delta: f64) {
        self.controller.update(delta);
    }

    pub fn speed(&mut self, speed: f64) {
        self.controller.set_playback_speed(speed);
    }

    pub fn set(&mut self, parameter: usize, value: f32) -> Result<(), Refusal> {
        let Some(name) = self.names.get(parameter) else {
            return refused(8);
        };
        self.controller.set_param_value(name, value);
        Ok(())
    }

    /// Each joint's matrix, for an output of so many floats.
    pub fn frame(&mut self, ext: f64, length: usize) -> Result<Vec<Matrix4<f32>>, Refusal> {
        self.output_pose(ext, length)
    }

    /// The same by the Rust's own walk over the skeleton, with page matrices for its output.
    pub fn page_frame(&mut self, ext: f64, length: usize) -> Result<Vec<Matrix4<f32>>, Refusal> {
        let matrices = self.output_pose::<PageMatrix>(ext, length)?;
        Ok(matrices.into_iter().map(|page| page.0).collect())
    }

    fn output_pose<T: Transform + FromTransform<QVTransform>>(
        &mut self,
        ext: f64,
        length: usize,
    ) -> Result<Vec<T>, Refusal> {
        let joints = self.playable()?.parents.len();
        if length < 16 * joints {
            return refused(10);
        }
        let mut output = vec![T::identity(); joints];
        self.controller.get_output_pose(ext, &mut output);
        Ok(output)
    }

    /// The plan, where the controller is in states of it.
    fn playable(&self) -> Result<&Plan, Refusal> {
        let plan = self.checked.as_ref().map_err(|refusal| *refusal)?;
        let states = plan.states.len();
        let held = fields(&self.controller);
        let target = held.transition.as_ref().map(|begun| running(begun).target);
        if number(held.current_state) >= states || target.is_some_and(|target| target >= states) {
            return refused(9);
        }
        Ok(plan)
    }

    /// The Rust has no such call: the position is its own, the division ours. All its clips loop and
    /// have samples, so 17 is never given.
    pub fn loops(&self, state: usize, node: usize, time: f32) -> Result<Played, Refusal> {
        self.playable()?;
        let state = name(state);
        let mut leaves = self.leaves.iter();
        let Some(leaf) = leaves.find(|leaf| leaf.state == state && leaf.node == node) else {
            return refused(16);
        };
        let tree = &fields(&self.controller).states[&leaf.state].blend_tree;
        let instance = instance(tree, leaf.place);
        let position = local_time(instance, time) * instance.clip.samples_per_second;
        let index = position.floor() as usize;
        let samples = instance.clip.samples.len();
        Ok(Played {
            loops: index / samples,
            rest: index % samples,
        })
    }

    /// The player that the controller holds.
    pub fn player(&self) -> Player {
        let fields = fields(&self.controller);
        let parameters = self.controller.get_parameters();
        let value = |i: usize| parameters.get(&self.names[i]).copied().unwrap_or(0.0);
        let mut instances = self.spare;
        for (held, leaf) in instances.iter_mut().zip(&self.leaves) {
            let tree = &fields.states[&leaf.state].blend_tree;
            *held = held_by(instance(tree, leaf.place));
        }
        Player {
            clock: fields.local_clock,
            speed: fields.playback_speed,
            state: number(fields.current_state),
            transition: fields.transition.as_ref().map(running),
            parameters: std::array::from_fn(value),
            instances,
        }
    }

    /// Puts another player into the controller, whatever it holds.
    pub fn store(&mut self, player: &Player) {
        for (name, &value) in self.names.iter().zip(&player.parameters) {
            self.controller.set_param_value(name, value);
        }
        self.controller.set_playback_speed(player.speed);
        self.spare = player.instances;
        let fields = fields_mut(&mut self.controller);
        *fields.local_clock = player.clock;
        *fields.current_state = name(player.state);
        *fields.transition = player.transition.map(begun);
        for (&held, leaf) in player.instances.iter().zip(&self.leaves) {
            let state = fields.states.get_mut(&leaf.state).expect("a leaf's state");
            let instance = instance_mut(&mut state.blend_tree, leaf.place);
            [
                instance.start_time,
                instance.playback_rate,
                instance.time_offset,
            ] = held;
        }
    }
}

fn refused<T>(number: u8) -> Result<T, Refusal> {
    Err(Refusal { number, place: 0 })
}

fn playing(plan: &Plan, numbers: &[u32]) -> (Controller, Vec<Leaf>) {
    assert!(
        plan.is_rusts(),
        "the Rust is given a clip that stops or is empty, or a 65th joint"
    );
    let controller = controller::controller(plan, numbers);
    let leaves = leaves(plan, &controller);
    (controller, leaves)
}

fn blank() -> (Controller, Vec<Leaf>) {
    let figure = Figure {
        plan: SMALLEST.to_vec(),
        numbers: vec![0; 9],
    };
    let plan = check(&figure).expect("a plan that passes");
    playing(&plan, &figure.numbers)
}

/// For each clip node in the order of the plan. The Rust's trees keep theirs in an order of their
/// own, so both trees are walked from the root, and what is met together belongs together.
fn leaves(plan: &Plan, controller: &Controller) -> Vec<Leaf> {
    let mut all = Vec::new();
    for (number, state) in plan.states.iter().enumerate() {
        let state_name = name(number);
        let places = clip_places(&fields(controller).states[&state_name].blend_tree);
        let mut nodes = Vec::new();
        clip_nodes(&state.nodes, state.nodes.len() - 1, &mut nodes);
        assert_eq!(nodes.len(), places.len(), "clip nodes of a state");
        let mut met: Vec<(usize, usize)> = nodes.into_iter().zip(places).collect();
        met.sort_unstable();
        all.extend(met.into_iter().map(|(node, place)| Leaf {
            state: state_name.clone(),
            node,
            place,
        }));
    }
    all
}

/// The clip nodes below a node, input a before input b.
fn clip_nodes(nodes: &[Node], root: usize, met: &mut Vec<usize>) {
    match &nodes[root] {
        Node::Clip(_) => met.push(root),
        Node::Lerp(inputs) | Node::Additive(inputs) => {
            clip_nodes(nodes, usize::from(inputs.a), met);
            clip_nodes(nodes, usize::from(inputs.b), met);
        }
    }
}

fn number(name: &str) -> usize {
    name.parse().expect("states have numbers for names")
}

fn held_by(instance: &ClipInstance<QVTransform>) -> Instance {
    [
        instance.start_time,
        instance.playback_rate,
        instance.time_offset,
    ]
}

fn running((start, transition): &(f64, AnimationTransition)) -> Running {
    Running {
        start: *start,
        target: number(&transition.target_state),
        duration: transition.duration,
    }
}

/// A transition as the controller holds it while it runs. It does not look at the condition again.
fn begun(running: Running) -> (f64, AnimationTransition) {
    let condition = TransitionCondition {
        parameter: String::new(),
        operator: Operator::Equal,
        value: 0.0,
    };
    let transition = AnimationTransition {
        target_state: name(running.target),
        condition,
        duration: running.duration,
    };
    (running.start, transition)
}
