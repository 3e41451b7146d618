//! The Rust's answer to a row. Conversions are judged by the language's own, everything else by the
//! functions of the six files.

use crate::row::{joined, Kind, Row};
use skeletal_animation::math::{
    inv_sqrt, lerp_quaternion, matrix_to_quaternion, quaternion_to_matrix, row_mat4_mul, Matrix4,
    Quaternion,
};
use skeletal_animation::transform::{QVTransform, Transform};

/// The words of the answer as text, every NaN by one pattern.
pub fn answer(row: &Row) -> String {
    joined(&answer_words(row))
}

fn answer_words(row: &Row) -> Vec<u32> {
    let words = &row.words;
    match row.kind {
        Kind::InvSqrt => vec![bits(inv_sqrt(float(words)))],
        Kind::LerpQuaternion => quaternion_bits(lerp_quaternion(
            &quaternion(words),
            &quaternion(&words[4..]),
            &float(&words[8..]),
        )),
        Kind::QuaternionToMatrix => matrix_bits(quaternion_to_matrix(quaternion(words))),
        Kind::MatrixToQuaternion => quaternion_bits(matrix_to_quaternion(&matrix(words))),
        Kind::RowMat4Mul => matrix_bits(row_mat4_mul(matrix(words), matrix(&words[16..]))),
        Kind::PoseLerp => pose_bits(pose(words).lerp(pose(&words[8..]), float(&words[16..]))),
        Kind::PoseConcat => pose_bits(pose(words).concat(pose(&words[8..]))),
        Kind::PoseToMatrix => matrix_bits(pose(words).to_matrix()),
        Kind::PoseFromMatrix => pose_bits(QVTransform::from_matrix(matrix(words))),
        Kind::Widen => pair_bits(double_bits(float(words) as f64)),
        Kind::Narrow => vec![bits(f64::from_bits(pair(words)) as f32)],
        Kind::FloorIndex => pair_bits(float(words).floor() as usize as u64),
        Kind::CeilingIndex => pair_bits(float(words).ceil() as usize as u64),
        Kind::IndexToFloat => vec![bits(pair(words) as usize as f32)],
    }
}

fn float(words: &[u32]) -> f32 {
    f32::from_bits(words[0])
}

fn pair(words: &[u32]) -> u64 {
    u64::from(words[0]) << 32 | u64::from(words[1])
}

fn quaternion(words: &[u32]) -> Quaternion<f32> {
    let at = |i: usize| f32::from_bits(words[i]);
    (at(0), [at(1), at(2), at(3)])
}

fn pose(words: &[u32]) -> QVTransform {
    let at = |i: usize| f32::from_bits(words[i]);
    QVTransform {
        translation: [at(0), at(1), at(2)],
        scale: at(3),
        rotation: quaternion(&words[4..]),
    }
}

fn matrix(words: &[u32]) -> Matrix4<f32> {
    let mut m = [[0.0; 4]; 4];
    for (i, entry) in m.iter_mut().flatten().enumerate() {
        *entry = f32::from_bits(words[i]);
    }
    m
}

/// A float's bits, every NaN by one pattern.
pub fn bits(x: f32) -> u32 {
    if x.is_nan() {
        0x7fc0_0000
    } else {
        x.to_bits()
    }
}

pub fn double_bits(x: f64) -> u64 {
    if x.is_nan() {
        0x7ff8_0000_0000_0000
    } else {
        x.to_bits()
    }
}

fn pair_bits(value: u64) -> Vec<u32> {
    vec![(value >> 32) as u32, value as u32]
}

fn quaternion_bits(q: Quaternion<f32>) -> Vec<u32> {
    [q.0, q.1[0], q.1[1], q.1[2]].map(bits).to_vec()
}

fn pose_bits(p: QVTransform) -> Vec<u32> {
    let [x, y, z] = p.translation;
    let mut words = [x, y, z, p.scale].map(bits).to_vec();
    words.extend(quaternion_bits(p.rotation));
    words
}

pub fn matrix_bits(m: Matrix4<f32>) -> Vec<u32> {
    m.iter().flatten().map(|&entry| bits(entry)).collect()
}
