//! What the Rust's `get_output_pose` may be given for its output so that it shows a page frame: it
//! makes a matrix of each local pose, and multiplies parents' and own ones, by these functions.

use skeletal_animation::math::{Matrix4, Quaternion, Vector3};
use skeletal_animation::transform::{FromTransform, QVTransform, Transform};

#[derive(Clone, Copy)]
pub struct PageMatrix(pub Matrix4<f32>);

impl FromTransform<QVTransform> for PageMatrix {
    /// The pose's matrix with its upper 3x3 part transposed.
    fn from_transform(pose: QVTransform) -> PageMatrix {
        let [[a, b, c, x], [d, e, f, y], [g, h, i, z], last] = pose.to_matrix();
        PageMatrix([[a, d, g, x], [b, e, h, y], [c, f, i, z], last])
    }
}

/// Only what the walk over the skeleton calls.
impl Transform for PageMatrix {
    fn identity() -> PageMatrix {
        PageMatrix(Matrix4::identity())
    }

    fn concat(self, other: PageMatrix) -> PageMatrix {
        PageMatrix(self.0.concat(other.0))
    }

    fn inverse(self) -> PageMatrix {
        unreachable!()
    }

    fn lerp(self, _: PageMatrix, _: f32) -> PageMatrix {
        unreachable!()
    }

    fn transform_vector(self, _: Vector3<f32>) -> Vector3<f32> {
        unreachable!()
    }

    fn to_matrix(self) -> Matrix4<f32> {
        unreachable!()
    }

    fn from_matrix(_: Matrix4<f32>) -> PageMatrix {
        unreachable!()
    }

    fn set_rotation(&mut self, _: Quaternion<f32>) {
        unreachable!()
    }

    fn get_rotation(self) -> Quaternion<f32> {
        unreachable!()
    }

    fn set_translation(&mut self, _: Vector3<f32>) {
        unreachable!()
    }

    fn get_translation(self) -> Vector3<f32> {
        unreachable!()
    }
}
