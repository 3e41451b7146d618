//! The local time of a clip instance, which `animation.rs` keeps private.

use super::ClipInstance;
use transform::Transform;

pub fn local_time<T: Transform>(instance: &ClipInstance<T>, global_time: f32) -> f32 {
    instance.get_local_time(global_time)
}
