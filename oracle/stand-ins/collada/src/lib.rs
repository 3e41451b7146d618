//! COLLADA files, which document 01 leaves out.

use vecmath::Matrix4;

pub struct Skeleton {
    pub joints: Vec<Joint>,
}

pub struct Joint {
    pub name: String,
    pub parent_index: u8,
    pub inverse_bind_pose: Matrix4<f32>,
}

pub struct Animation {
    pub target: String,
    pub sample_times: Vec<f32>,
    pub sample_poses: Vec<Matrix4<f32>>,
}

pub mod document {
    use super::{Animation, Skeleton};
    use std::path::Path;

    pub struct ColladaDocument;

    impl ColladaDocument {
        pub fn from_path(_: &Path) -> Result<ColladaDocument, &'static str> {
            unimplemented!("left out of document 01")
        }

        pub fn get_animations(&self) -> Option<Vec<Animation>> {
            unimplemented!("left out of document 01")
        }

        pub fn get_skeletons(&self) -> Option<Vec<Skeleton>> {
            unimplemented!("left out of document 01")
        }
    }
}
