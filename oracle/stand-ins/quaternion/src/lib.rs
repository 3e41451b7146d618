//! Quaternions as (w, [x, y, z]). A frame calls `id`; the rest is left out.

pub type Quaternion<T> = (T, [T; 3]);

pub fn id() -> Quaternion<f32> {
    (1.0, [0.0, 0.0, 0.0])
}

pub fn mul(_: Quaternion<f32>, _: Quaternion<f32>) -> Quaternion<f32> {
    unimplemented!("left out of document 01")
}

pub fn conj(_: Quaternion<f32>) -> Quaternion<f32> {
    unimplemented!("left out of document 01")
}

pub fn rotate_vector(_: Quaternion<f32>, _: [f32; 3]) -> [f32; 3] {
    unimplemented!("left out of document 01")
}

pub fn rotation_from_to(_: [f32; 3], _: [f32; 3]) -> Quaternion<f32> {
    unimplemented!("left out of document 01")
}
