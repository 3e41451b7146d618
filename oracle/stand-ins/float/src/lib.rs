//! Degrees and radians, which only the loading of COLLADA files uses.

pub trait Radians {
    fn deg_to_rad(self) -> Self;
}

impl Radians for f32 {
    fn deg_to_rad(self) -> f32 {
        unimplemented!("left out of document 01")
    }
}
