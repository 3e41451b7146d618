//! Dual quaternions, which document 01 leaves out: only what the files need to compile.

use quaternion::Quaternion;

pub type DualQuaternion<T> = (Quaternion<T>, Quaternion<T>);
type Dual = DualQuaternion<f32>;

macro_rules! left_out {
    ($($name:ident($($argument:ty),*) -> $result:ty;)*) => {
        $(pub fn $name($(_: $argument),*) -> $result {
            unimplemented!("left out of document 01")
        })*
    };
}

left_out! {
    add(Dual, Dual) -> Dual;
    conj(Dual) -> Dual;
    dot(Dual, Dual) -> f32;
    from_rotation_and_translation(Quaternion<f32>, [f32; 3]) -> Dual;
    get_rotation(Dual) -> Quaternion<f32>;
    get_translation(Dual) -> [f32; 3];
    id() -> Dual;
    mul(Dual, Dual) -> Dual;
    normalize(Dual) -> Dual;
    scale(Dual, f32) -> Dual;
}
