//! Which state is shown: transitions, and the poses of a frame.

use super::figure::Checked;
use super::pose::Pose;
use super::tree::Tree;
use crate::player::{Player, Running, BLANK};

/// A player at the start of this figure.
pub fn fresh(figure: &Checked) -> Player {
    let mut player = BLANK;
    player.state = usize::from(figure.plan.initial);
    for state in 0..figure.plan.states.len() {
        let tree = Tree {
            figure,
            state,
            time: 0.0,
        };
        tree.synchronise(&mut player);
    }
    player
}

/// Ends the transition that is over, or begins the first whose condition holds.
pub fn step(figure: &Checked, player: &mut Player, now: f64) {
    match player.transition {
        Some(Running {
            start,
            target,
            duration,
        }) => {
            if now >= start + f64::from(duration) {
                player.state = target;
                player.transition = None;
            }
        }
        None => player.transition = first_passing(figure, player, now),
    }
}

fn first_passing(figure: &Checked, player: &Player, now: f64) -> Option<Running> {
    let transitions = figure.state(player.state).transitions.iter();
    for (number, transition) in transitions.enumerate() {
        let [value, duration] = figure.transition(player.state, number);
        let parameter = player.parameters[usize::from(transition.parameter)];
        if holds(transition.operator, parameter, value) {
            return Some(Running {
                start: now,
                target: usize::from(transition.target),
                duration,
            });
        }
    }
    None
}

fn holds(operator: u16, parameter: f32, value: f32) -> bool {
    match operator {
        0 => parameter < value,
        1 => parameter <= value,
        2 => parameter > value,
        3 => parameter >= value,
        4 => parameter == value,
        5 => parameter != value,
        _ => unreachable!("the check lets no other operator pass"),
    }
}

/// The pose of each joint, where the step of this frame is done.
pub fn poses(figure: &Checked, player: &mut Player, ext: f64) -> Vec<Pose> {
    let now = player.clock + ext;
    let time = (player.clock + ext * player.speed) as f32;
    let mut poses = state_poses(figure, player, player.state, time);
    if let Some(running) = player.transition {
        let targets = state_poses(figure, player, running.target, time);
        let factor = ((now - running.start) / f64::from(running.duration)) as f32;
        for (pose, target) in poses.iter_mut().zip(targets) {
            *pose = pose.lerp(target, factor);
        }
    }
    poses
}

fn state_poses(figure: &Checked, player: &mut Player, state: usize, time: f32) -> Vec<Pose> {
    let tree = Tree {
        figure,
        state,
        time,
    };
    tree.synchronise(player);
    let joints = 0..figure.joints();
    joints.map(|joint| tree.pose(player, joint)).collect()
}
