//! Page frames by cases that document 02 decides. Rotations by thirds of a turn have only 0 and 1 in
//! their matrices, so these are worked out by hand.

use super::pose::Pose;
use super::rotation::Matrix;
use super::skeleton::{matrices, page_matrix};

const LAST: [f32; 4] = [0.0, 0.0, 0.0, 1.0];

/// Half a unit along x, turned by a third about (1, 1, 1).
const ARM: [f32; 8] = [0.5, 0.0, 0.0, 1.0, 0.5, 0.5, 0.5, 0.5];

/// Half a unit along y, turned by a third about (-1, 1, 1).
const HAND: [f32; 8] = [0.0, 0.5, 0.0, 1.0, 0.5, -0.5, 0.5, 0.5];

fn own(poses: &[[f32; 8]]) -> Vec<Matrix> {
    poses.iter().map(|&pose| Pose::new(pose).matrix()).collect()
}

fn page(poses: &[[f32; 8]]) -> Vec<Matrix> {
    own(poses).iter().map(page_matrix).collect()
}

#[test]
fn a_hand_on_a_turned_arm() {
    let parents = [None, Some(0)];
    let ordinary = matrices(&parents, &own(&[ARM, HAND]));
    let arm = [[0., 1., 0., 0.5], [0., 0., 1., 0.], [1., 0., 0., 0.], LAST];
    let hand = [[-1., 0., 0., 1.], [0., 1., 0., 0.], [0., 0., -1., 0.], LAST];
    assert_eq!(ordinary, [arm, hand]);

    let shown = matrices(&parents, &page(&[ARM, HAND]));
    let arm = [[0., 0., 1., 0.5], [1., 0., 0., 0.], [0., 1., 0., 0.], LAST];
    let hand = [
        [-1., 0., 0., 0.5],
        [0., -1., 0., 0.],
        [0., 0., 1., 0.5],
        LAST,
    ];
    assert_eq!(shown, [arm, hand]);

    // Transposing in the end is right for the root alone.
    let late: Vec<Matrix> = ordinary.iter().map(page_matrix).collect();
    assert_eq!(late[0], shown[0]);
    assert_ne!(late[1], shown[1]);
}

/// From the second joint on each is turned back by what the one before it was turned.
#[test]
fn a_chain_comes_back() {
    let back = [0.0, 0.5, 0.0, 1.0, 0.5, -0.5, -0.5, -0.5];
    let parents = [None, Some(0), Some(1), Some(2)];
    let shown = matrices(&parents, &page(&[ARM, back, ARM, back]));
    let corner = |matrix: &Matrix| [0, 1, 2].map(|row| [0, 1, 2].map(|column| matrix[row][column]));
    let unturned = [[1., 0., 0.], [0., 1., 0.], [0., 0., 1.]];
    assert_eq!(corner(&shown[1]), unturned);
    assert_eq!(corner(&shown[3]), unturned);
    let place = |matrix: &Matrix| [0, 1, 2].map(|row| matrix[row][3]);
    assert_eq!(place(&shown[1]), [0.5, 0.0, 0.5]);
    assert_eq!(place(&shown[3]), [1.0, 0.0, 1.0]);
}

/// Zero times infinity is NaN, in the columns that the transposed matrix has infinities in.
#[test]
fn a_root_is_multiplied_too() {
    let far = [0.0, 0.0, 0.0, 1.0, 1.0, 1.8446744e19, 0.0, 0.0];
    let shown = matrices(&[None], &page(&[far]));
    let nan = shown[0].map(|row| row.map(f32::is_nan));
    let expected = [
        [false, true, true, false],
        [false, false, true, false],
        [false, true, false, false],
        [false, true, true, false],
    ];
    assert_eq!(nan, expected);
}
