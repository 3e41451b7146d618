//! Page frames: each joint's own 3×3 is transposed, and then its parent's matrix is multiplied on.

mod common;

use common::{bits, Random};
use gentianlathe::{Figure, Player};

/// One looping clip, in a chain or in a tree of joints.
struct Moving {
    parents: Vec<u16>,
    samples: u16,
    /// Of each joint at each sample: translation, scale, w, x, y, z.
    poses: Vec<[f32; 8]>,
}

impl Moving {
    fn random(random: &mut Random, parents: Vec<u16>) -> Moving {
        let samples = 3;
        let count = parents.len() * usize::from(samples);
        let mut between =
            |from: f32, to: f32| from + (to - from) * (random.below(1025) as f32 / 1024.0);
        let poses = (0..count).map(|_| {
            let [x, y, z] = [(); 3].map(|()| between(-2.0, 2.0));
            let [w, i, j, k] = [(); 4].map(|()| between(0.125, 1.0));
            [x, y, z, 1.0, w, i, -j, k]
        });
        let poses = poses.collect();
        Moving {
            parents,
            samples,
            poses,
        }
    }

    fn figure(&self) -> Figure {
        let joints = self.parents.len() as u16;
        let mut plan = vec![joints, 1, 0, 1, 0];
        plan.extend(&self.parents);
        plan.extend([self.samples, 0, 1, 0, 0, 0, 0, 0]);
        let mut numbers = vec![2.0];
        numbers.extend(self.poses.iter().flatten());
        Figure::new(plan, numbers).expect("a figure")
    }

    /// The same joints, all of them roots.
    fn apart(&self) -> Moving {
        Moving {
            parents: vec![u16::MAX; self.parents.len()],
            samples: self.samples,
            poses: self.poses.clone(),
        }
    }

    /// Every rotation the other way round.
    fn conjugated(&self) -> Moving {
        let turned = |&[x, y, z, scale, w, i, j, k]: &[f32; 8]| [x, y, z, scale, w, -i, -j, -k];
        Moving {
            parents: self.parents.clone(),
            samples: self.samples,
            poses: self.poses.iter().map(turned).collect(),
        }
    }
}

fn shown(figure: &Figure, clock: f64, is_page: bool) -> Vec<f32> {
    let mut player: Player = figure.start();
    player.update(clock);
    let mut output = vec![9.0; figure.output_len()];
    let shown = match is_page {
        true => player.page_frame(figure, 0.0, &mut output),
        false => player.frame(figure, 0.0, &mut output),
    };
    shown.expect("a fresh player is shown");
    output
}

/// Row by column, each sum from the left.
fn product(a: &[f32], b: &[f32]) -> Vec<f32> {
    let entry = |i: usize| {
        let (row, column) = (4 * (i / 4), i % 4);
        let parts = [0, 1, 2, 3].map(|k| a[row + k] * b[4 * k + column]);
        ((parts[0] + parts[1]) + parts[2]) + parts[3]
    };
    (0..16).map(entry).collect()
}

fn trees(random: &mut Random) -> Vec<Vec<u16>> {
    let chain = |joints: u16| (0..joints).map(|joint| joint.wrapping_sub(1)).collect();
    let mut trees: Vec<Vec<u16>> = [1, 2, 3, 6, 31, 32, 33, 70].map(chain).to_vec();
    for joints in [5u16, 40, 90] {
        let parent = |joint: u16| match joint {
            0 => u16::MAX,
            _ => random.below(usize::from(joint)) as u16,
        };
        trees.push((0..joints).map(parent).collect());
    }
    trees
}

/// The oracle's lines for `examples/page.calls`: a frame's two joints, then a page frame's.
#[test]
fn a_hand_on_a_turned_arm() {
    let examples = concat!(env!("CARGO_MANIFEST_DIR"), "/../../examples");
    let read = |name: &str| std::fs::read_to_string(format!("{examples}/{name}")).expect(name);
    let replayed = read("page.replayed");
    let joints = replayed.lines().filter(|line| line.starts_with("joint,"));
    let words = joints.flat_map(|line| line.split(',').skip(2));
    let expected: Vec<u32> = words
        .map(|bits| u32::from_str_radix(bits, 16).expect("a float's bits"))
        .collect();
    let figure = Figure::from_text(read("page.figure").as_bytes()).expect("a figure");
    let both = [false, true].map(|is_page| shown(&figure, 0.0, is_page));
    assert_eq!(bits(&both.concat()), expected);
}

/// With all joints roots a page frame shows their own matrices, since the identity changes no finite float
/// but a zero's sign; a joint's matrix is its parent's times that.
#[test]
fn own_matrices_are_transposed_and_then_multiplied() {
    let mut random = Random::new(5);
    for parents in trees(&mut random) {
        let moving = Moving::random(&mut random, parents);
        let (figure, apart) = (moving.figure(), moving.apart().figure());
        for clock in [0.0, 0.25, 0.6] {
            for is_page in [false, true] {
                let own = shown(&apart, clock, is_page);
                let all = shown(&figure, clock, is_page);
                for (joint, parent) in moving.parents.iter().enumerate() {
                    let own = &own[16 * joint..][..16];
                    let expected = match usize::from(*parent) {
                        parent if parent < joint => product(&all[16 * parent..][..16], own),
                        _ => own.to_vec(),
                    };
                    assert_eq!(
                        all[16 * joint..][..16],
                        expected,
                        "joint {joint} at {clock}"
                    );
                }
            }
            for (page, frame) in shown(&apart, clock, true)
                .chunks_exact(16)
                .zip(shown(&apart, clock, false).chunks_exact(16))
            {
                let turned = [0, 4, 8, 3, 1, 5, 9, 7, 2, 6, 10, 11, 12, 13, 14, 15];
                assert_eq!(page, turned.map(|at| frame[at]));
            }
        }
    }
}

/// What tools write, shown by page frames, is what ordinary frames show of the conjugated rotations.
#[test]
fn page_frames_are_those_of_conjugated_rotations() {
    let mut random = Random::new(6);
    for parents in trees(&mut random) {
        let moving = Moving::random(&mut random, parents);
        for clock in [0.0, 0.3, 0.75] {
            let page = shown(&moving.figure(), clock, true);
            let frame = shown(&moving.conjugated().figure(), clock, false);
            assert_eq!(page, frame, "{} joints at {clock}", moving.parents.len());
            assert_ne!(page, shown(&moving.figure(), clock, false));
        }
    }
}
