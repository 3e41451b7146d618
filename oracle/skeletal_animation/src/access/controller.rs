//! The state of a controller, which `controller.rs` keeps private.

use super::{AnimationController, AnimationState, AnimationTransition};
use std::collections::HashMap;
use transform::Transform;

/// A controller's fields to read. Its parameters have a public reader.
pub struct Fields<'a, T: Transform + 'a> {
    pub local_clock: f64,
    pub playback_speed: f64,
    pub states: &'a HashMap<String, AnimationState<T>>,
    pub current_state: &'a str,
    pub transition: &'a Option<(f64, AnimationTransition)>,
}

/// A controller's fields to set. Parameters and speed have public setters.
pub struct FieldsMut<'a, T: Transform + 'a> {
    pub local_clock: &'a mut f64,
    pub states: &'a mut HashMap<String, AnimationState<T>>,
    pub current_state: &'a mut String,
    pub transition: &'a mut Option<(f64, AnimationTransition)>,
}

pub fn fields<T: Transform>(controller: &AnimationController<T>) -> Fields<T> {
    Fields {
        local_clock: controller.local_clock,
        playback_speed: controller.playback_speed,
        states: &controller.states,
        current_state: &controller.current_state,
        transition: &controller.transition,
    }
}

pub fn fields_mut<T: Transform>(controller: &mut AnimationController<T>) -> FieldsMut<T> {
    FieldsMut {
        local_clock: &mut controller.local_clock,
        states: &mut controller.states,
        current_state: &mut controller.current_state,
        transition: &mut controller.transition,
    }
}
