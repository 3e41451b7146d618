//! The model by what the documents decide, and its arithmetic by the Rust's.

use super::pose::Pose;
use super::rotation::{inv_sqrt, lerp, matrix, product, quaternion, Matrix, Quaternion};
use super::Model;
use crate::generator::Generator;
use crate::judge::{answer, bits, matrix_bits};
use crate::lists::call::Call;
use crate::lists::random_calls::{call, Calls};
use crate::row::{joined, Kind};
use crate::texts::draft::{Clip, Draft, State};
use crate::texts::figure::Refusal;
use crate::texts::random_figure::accepted;

const ONE: u32 = 0x3f80_0000;
const LOOP: u16 = 0;
const STOP: u16 = 1;

fn floats<const N: usize>(words: &[u32]) -> [f32; N] {
    std::array::from_fn(|i| f32::from_bits(words[i]))
}

fn a_matrix(words: &[u32]) -> Matrix {
    std::array::from_fn(|row| floats(&words[4 * row..]))
}

fn pose_bits(pose: Pose) -> Vec<u32> {
    let parts = [&pose.translation[..], &[pose.scale], &pose.rotation];
    parts.concat().into_iter().map(bits).collect()
}

fn quaternion_bits(quaternion: Quaternion) -> Vec<u32> {
    quaternion.map(bits).to_vec()
}

/// The model's answer to a row, where it has one.
fn computed(kind: Kind, words: &[u32]) -> Option<Vec<u32>> {
    let [one, other] = match words.len() {
        16.. => [0, 8].map(|at| Pose::new(floats(&words[at..]))),
        _ => [Pose::IDENTITY; 2],
    };
    let last = f32::from_bits(*words.last()?);
    Some(match kind {
        Kind::InvSqrt => vec![bits(inv_sqrt(last))],
        Kind::LerpQuaternion => quaternion_bits(lerp(floats(words), floats(&words[4..]), last)),
        Kind::QuaternionToMatrix => matrix_bits(matrix(floats(words))),
        Kind::MatrixToQuaternion => quaternion_bits(quaternion(&a_matrix(words))),
        Kind::RowMat4Mul => matrix_bits(product(&a_matrix(words), &a_matrix(&words[16..]))),
        Kind::PoseLerp => pose_bits(one.lerp(other, last)),
        Kind::PoseConcat => pose_bits(one.concat(other)),
        Kind::PoseToMatrix => matrix_bits(Pose::new(floats(words)).matrix()),
        _ => return None,
    })
}

#[test]
fn the_arithmetic_is_the_rusts() {
    let mut generator = Generator::new(9);
    let kinds = [
        Kind::InvSqrt,
        Kind::LerpQuaternion,
        Kind::QuaternionToMatrix,
        Kind::MatrixToQuaternion,
        Kind::RowMat4Mul,
        Kind::PoseLerp,
        Kind::PoseConcat,
        Kind::PoseToMatrix,
    ];
    for kind in kinds {
        for _ in 0..20_000 {
            let row = generator.row(kind);
            let computed = computed(kind, &row.words).expect("a row of the model's");
            assert_eq!(joined(&computed), answer(&row), "{kind:?} {:x?}", row.words);
        }
    }
}

/// Cases a and l of the bench sheet.
#[test]
fn the_bench_sheet_is_kept() {
    assert_eq!(inv_sqrt(0.0).to_bits(), 0x5f89_8367);
    assert_eq!(matrix([0.5; 4])[0][1], 1.0);
}

/// x goes 10, 20, 30 and so on; the last of the samples is turned.
fn one_clip(samples: u16, ending: u16) -> Draft {
    let pose = |sample: u16| {
        let x = 10.0 * f32::from(sample + 1);
        let rotation = if sample + 1 == samples {
            [0.6, 0.8, 0.0, 0.0]
        } else {
            [1.0, 0.0, 0.0, 0.0]
        };
        let [w, i, j, k] = rotation.map(f32::to_bits);
        [x.to_bits(), 0, 0, ONE, w, i, j, k]
    };
    Draft {
        parents: vec![255],
        clips: vec![Clip {
            samples,
            rate: ONE,
            ending,
        }],
        states: vec![State {
            nodes: vec![[0; 4]],
            transitions: Vec::new(),
        }],
        poses: (0..samples).map(pose).collect(),
        ..Draft::default()
    }
}

/// The only joint's matrix as bits, at a time.
fn shown(draft: &Draft, time: f64) -> Vec<u32> {
    let mut model = Model::start(&draft.figure());
    assert_eq!(model.answer(), Ok(()));
    matrix_bits(model.frame(time, 16).unwrap()[0])
}

#[test]
fn a_held_sample_is_lerped_with_itself() {
    let draft = one_clip(3, STOP);
    let last = Pose::new(draft.poses[2].map(f32::from_bits));
    let held = product(&Pose::IDENTITY.matrix(), &last.lerp(last, 0.0).matrix());
    let itself = product(&Pose::IDENTITY.matrix(), &last.matrix());
    assert_ne!(matrix_bits(held), matrix_bits(itself));
    for time in [2.0, 2.25, 3.0, 100.5, 1e30, 1e300, f64::INFINITY] {
        assert_eq!(shown(&draft, time), matrix_bits(held), "{time}");
    }
    // The factor is 0: others give other bits here.
    let with = |hundredths: u8| last.lerp(last, f32::from(hundredths) / 100.0);
    assert!((1..100).any(|hundredths| with(hundredths) != with(0)));
}

#[test]
fn elsewhere_endings_are_not_seen() {
    let [looping, stopping] = [LOOP, STOP].map(|ending| one_clip(3, ending));
    let below = f64::from(2f32.next_down());
    for time in [0.0, 0.25, 1.0, 1.5, below, -0.0, -0.5, -7.0, f64::NAN] {
        assert_eq!(shown(&looping, time), shown(&stopping, time), "{time}");
    }
    for time in [2.25, 2.5, 3.0, 4.0, 4.5, 1e30, f64::INFINITY] {
        assert_ne!(shown(&looping, time), shown(&stopping, time), "{time}");
    }
    // At the last sample itself the two are one.
    assert_eq!(shown(&looping, 2.0), shown(&stopping, 2.0));
}

/// The call's answer, and what a frame shows.
pub fn done(model: &mut Model, call: Call) -> Result<Vec<Matrix>, Refusal> {
    match call {
        Call::Update(delta) => model.update(f64::from_bits(delta)),
        Call::Speed(speed) => model.speed(f64::from_bits(speed)),
        Call::Set(parameter, value) => model.set(parameter, f32::from_bits(value))?,
        Call::Frame(ext, length) => return model.frame(f64::from_bits(ext), length),
        Call::Page(ext, length) => return model.page_frame(f64::from_bits(ext), length),
        Call::Loops(state, node, time) => {
            model.loops(state, node, f32::from_bits(time))?;
        }
    }
    Ok(Vec::new())
}

/// Time goes on for a held clip: no player shows its endings.
#[test]
fn players_do_not_depend_on_endings() {
    let mut generator = Generator::new(12);
    let mut unlike = 0;
    for _ in 0..400 {
        let draft = accepted(&mut generator);
        let mut looping = draft.clone();
        looping.clips.iter_mut().for_each(|clip| clip.ending = LOOP);
        let mut models = [&draft, &looping].map(|draft| Model::start(&draft.figure()));
        for _ in 0..16 {
            let call = call(&mut generator, &draft, Calls::Sparse);
            let [one, other] = models.each_mut().map(|model| done(model, call));
            // Loops are told of looping clips alone.
            if !matches!(call, Call::Loops(..)) {
                assert_eq!(one.as_ref().err(), other.as_ref().err());
            }
            let [one, other] = [one, other].map(|shown| {
                let matrices = shown.unwrap_or_default();
                matrices
                    .into_iter()
                    .flat_map(matrix_bits)
                    .collect::<Vec<_>>()
            });
            unlike += usize::from(one != other);
            let [one, other] = models.each_ref().map(|model| model.player().seen());
            assert_eq!(one, other);
        }
    }
    assert!(unlike > 100, "{unlike} frames show their endings");
}
