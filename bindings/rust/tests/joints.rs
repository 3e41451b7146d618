//! Figures of up to 400 joints: how many pass, what marks a root, and how long an output is.

mod common;

use common::{bits, joint_counts};
use gentianlathe::{Figure, Player, Refusal, MATRIX_FLOATS, MAX_JOINTS, ROOT};

/// Marks a root too, in figures of at most 64 joints.
const BYTE_ROOT: u16 = 255;

/// A plan with these parents, one clip of one sample, and one state that plays it.
fn plan(parents: &[u16]) -> Vec<u16> {
    let header = [parents.len() as u16, 1, 0, 1, 0];
    [&header, parents, &[1, 0], &[1, 0, 0, 0, 0, 0]].concat()
}

/// A figure with these parents, each joint 1 along x from its parent and not turned.
fn figure(parents: &[u16]) -> Result<Figure, Refusal> {
    let pose = [1.0, 0.0, 0.0, 1.0, 1.0, 0.0, 0.0, 0.0];
    let numbers = [&[1.0][..], &pose.repeat(parents.len())].concat();
    Figure::new(plan(parents), numbers)
}

/// The number and place of its refusal; 0 and 0 where it is accepted.
fn answer(parents: &[u16]) -> (usize, usize) {
    let refusal = figure(parents).err();
    refusal.map_or((0, 0), |refusal| (refusal.number(), refusal.place()))
}

/// Joint 0 is a root, and every other joint hangs on the one before.
fn chain(joints: usize) -> Vec<u16> {
    let parent = |joint: u16| joint.checked_sub(1).unwrap_or(ROOT);
    (0..joints as u16).map(parent).collect()
}

fn with(mut parents: Vec<u16>, joint: usize, parent: u16) -> Vec<u16> {
    parents[joint] = parent;
    parents
}

/// Where each joint is along x: how many joints there are from its root down to it.
fn depths(figure: &Figure) -> Vec<f32> {
    let mut output = vec![9.0; figure.output_len()];
    let mut player = figure.start();
    player
        .frame(figure, 0.0, &mut output)
        .expect("its own player");
    let matrices = output.chunks_exact(MATRIX_FLOATS);
    matrices.map(|matrix| matrix[3]).collect()
}

#[test]
fn from_1_to_400_joints() {
    for joints in 1..=MAX_JOINTS {
        assert_eq!(answer(&chain(joints)), (0, 0), "{joints}");
    }
    for joints in [0, MAX_JOINTS + 1, 1_000, 65_535] {
        let refusal = figure(&chain(joints)).expect_err("not 1 to 400");
        assert_eq!(refusal, Refusal::Count { word: 0 }, "{joints}");
        let said = refusal.to_string();
        assert!(said.contains(&format!("1 to {MAX_JOINTS}")), "{said}");
    }
}

#[test]
fn from_1_to_400_joints_in_a_text() {
    let text = |joints: usize| {
        let lines = "joint,65535\n".repeat(joints);
        format!("figure,{joints},1,0,1,0\n{lines}clip,0,3f800000,0\nstate,1,0\nnode,0,0,0,0\n")
    };
    for joints in [1, 65, MAX_JOINTS] {
        let figure = Figure::from_text(text(joints).as_bytes()).expect("a pause");
        assert_eq!(figure.joints(), joints);
        assert_eq!(figure.output_len(), 16 * joints);
    }
    let refusal = Figure::from_text(text(MAX_JOINTS + 1).as_bytes());
    assert_eq!(refusal.err(), Some(Refusal::Line { line: 1 }));
}

#[test]
fn each_joint_hangs_on_its_parent() {
    for joints in joint_counts() {
        let expected: Vec<f32> = (1..=joints).map(|depth| depth as f32).collect();
        let shown = depths(&figure(&chain(joints)).expect("a chain"));
        assert_eq!(shown, expected);
    }
}

#[test]
fn roots_of_any_figure() {
    for joints in joint_counts() {
        let shown = depths(&figure(&vec![ROOT; joints]).expect("roots alone"));
        assert_eq!(shown, vec![1.0; joints]);
    }
}

/// 255 marks a root up to 64 joints. Above it is joint 255, which joints 0 to 255 cannot hang on.
#[test]
fn a_byte_marks_a_root_up_to_64_joints() {
    for joints in joint_counts() {
        let edges = [0, 1, 31, 32, 63, 64, 254, 255];
        for joint in edges.into_iter().filter(|joint| *joint < joints) {
            let parents = with(chain(joints), joint, BYTE_ROOT);
            if joints <= 64 {
                let roots = with(chain(joints), joint, ROOT);
                let [by_byte, by_word] = [&parents, &roots]
                    .map(|parents| depths(&figure(parents).expect("either marks a root")));
                assert_eq!(by_byte, by_word);
                assert_eq!(by_byte[joint], 1.0);
            } else {
                assert_eq!(answer(&parents), (3, 5 + joint), "{joint} of {joints}");
            }
        }
    }
    let said = figure(&[BYTE_ROOT; 65]).expect_err("65 joints").to_string();
    assert!(said.contains("the parent of joint 0, is neither an earlier joint nor 65535"));
    assert!(
        said.contains("255 marks one only in a figure of at most 64 joints"),
        "{said}"
    );
}

/// From joint 256 on, 255 is an earlier joint: the matrix is joint 255's times its own.
#[test]
fn joint_255_is_a_parent_like_any_other() {
    for joints in [257, 258, 288, 289, MAX_JOINTS] {
        for joint in [256, joints - 1] {
            let shown = depths(&figure(&with(chain(joints), joint, BYTE_ROOT)).expect("earlier"));
            assert_eq!(
                (shown[255], shown[joint]),
                (256.0, 257.0),
                "{joint} of {joints}"
            );
        }
    }
}

#[test]
fn parents_that_are_neither() {
    for joints in joint_counts() {
        for joint in [0, joints / 2, joints - 1] {
            for parent in [joint, joint + 1, 400, 65_534] {
                let parents = with(chain(joints), joint, parent as u16);
                assert_eq!(answer(&parents), (3, 5 + joint), "{parent} of {joints}");
            }
        }
    }
}

/// Frames of both kinds into an output of this length; whether they were refused with 10 and nothing changed.
fn is_too_short(figure: &Figure, length: usize) -> bool {
    let kinds = [Player::frame, Player::page_frame];
    let too_short = kinds.map(|frame| {
        let mut output: Vec<f32> = (0..length).map(|place| -1.0 - place as f32).collect();
        let (before, mut player) = (output.clone(), figure.start());
        let answer = frame(&mut player, figure, 0.0, &mut output);
        let kept = if answer.is_ok() {
            figure.output_len()
        } else {
            0
        };
        assert_eq!(bits(&output[kept..]), bits(&before[kept..]), "{length}");
        assert!(output[..kept].iter().all(|float| *float >= 0.0), "{length}");
        assert_eq!(player, figure.start());
        answer == Err(Refusal::Output)
    });
    assert_eq!(too_short[0], too_short[1]);
    too_short[0]
}

#[test]
fn an_output_of_16_floats_a_joint() {
    for joints in joint_counts() {
        let figure = figure(&chain(joints)).expect("a chain");
        let length = 16 * joints;
        assert_eq!(figure.output_len(), length);
        assert!(is_too_short(&figure, length - 1));
        assert_eq!(is_too_short(&figure, 16 * 64), joints > 64, "{joints}");
        assert!(!is_too_short(&figure, length) && !is_too_short(&figure, length + 33));
    }
}

/// What a host in C builds plans by.
#[test]
fn limits_as_in_the_c_header() {
    let header = include_str!("../../c/gentianlathe.h");
    for line in [
        format!("#define GENTIANLATHE_MAX_JOINTS {MAX_JOINTS}"),
        format!("#define GENTIANLATHE_ROOT {ROOT}"),
        format!("#define GENTIANLATHE_MATRIX {MATRIX_FLOATS}"),
    ] {
        assert!(header.lines().any(|found| found == line), "{line}");
    }
}
