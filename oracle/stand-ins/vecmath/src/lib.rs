//! Vectors and matrices. A frame calls `mat4_id` and `row_mat4_mul`; the rest is left out.

pub type Vector2<T> = [T; 2];
pub type Vector3<T> = [T; 3];
pub type Vector4<T> = [T; 4];
pub type Matrix3<T> = [[T; 3]; 3];
pub type Matrix4<T> = [[T; 4]; 4];

pub fn mat4_id() -> Matrix4<f32> {
    [
        [1.0, 0.0, 0.0, 0.0],
        [0.0, 1.0, 0.0, 0.0],
        [0.0, 0.0, 1.0, 0.0],
        [0.0, 0.0, 0.0, 1.0],
    ]
}

/// Entry (i, j) is row i of `a` by column j of `b`, summed left to right.
pub fn row_mat4_mul(a: Matrix4<f32>, b: Matrix4<f32>) -> Matrix4<f32> {
    let entry = |i: usize, j: usize| {
        ((a[i][0] * b[0][j] + a[i][1] * b[1][j]) + a[i][2] * b[2][j]) + a[i][3] * b[3][j]
    };
    let row = |i| [entry(i, 0), entry(i, 1), entry(i, 2), entry(i, 3)];
    [row(0), row(1), row(2), row(3)]
}

macro_rules! left_out {
    ($($name:ident($($argument:ty),*) -> $result:ty;)*) => {
        $(pub fn $name($(_: $argument),*) -> $result {
            unimplemented!("left out of document 01")
        })*
    };
}

left_out! {
    mat3_inv(Matrix3<f32>) -> Matrix3<f32>;
    mat4_inv(Matrix4<f32>) -> Matrix4<f32>;
    mat4_transposed(Matrix4<f32>) -> Matrix4<f32>;
    row_mat3_transform(Matrix3<f32>, Vector3<f32>) -> Vector3<f32>;
    row_mat4_transform(Matrix4<f32>, Vector4<f32>) -> Vector4<f32>;
    vec2_normalized(Vector2<f32>) -> Vector2<f32>;
    vec2_scale(Vector2<f32>, f32) -> Vector2<f32>;
    vec3_add(Vector3<f32>, Vector3<f32>) -> Vector3<f32>;
    vec3_cross(Vector3<f32>, Vector3<f32>) -> Vector3<f32>;
    vec3_len(Vector3<f32>) -> f32;
    vec3_normalized(Vector3<f32>) -> Vector3<f32>;
    vec3_scale(Vector3<f32>, f32) -> Vector3<f32>;
    vec3_sub(Vector3<f32>, Vector3<f32>) -> Vector3<f32>;
}
