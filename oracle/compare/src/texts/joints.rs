//! How many joints there are, and which parents mark a root, by document 02's Card 11.

/// The greatest J.
pub const MOST_JOINTS: u16 = 400;

/// The Rust's greatest J: up to it figures are put to the Rust, and the Rust's word for a root counts.
pub const RUST_JOINTS: u16 = 64;

/// Marks a root, whatever J is.
pub const ROOT: u16 = 65535;

/// The Rust's word for a root. Above `RUST_JOINTS` it is the number of a joint.
pub const RUST_ROOT: u16 = 255;

pub fn is_root(joints: usize, parent: u16) -> bool {
    let is_rusts = joints <= usize::from(RUST_JOINTS);
    parent == ROOT || (is_rusts && parent == RUST_ROOT)
}

/// A word for a root: the Rust's wherever it counts.
pub fn root_word(joints: u16) -> u16 {
    if is_root(usize::from(joints), RUST_ROOT) {
        RUST_ROOT
    } else {
        ROOT
    }
}

/// Parents of all sorts: roots by each word that counts, the joint before at each multiple of 32, 255
/// and 256 as joints of more than a byte's, and others.
pub fn mixed_parents(joints: u16) -> Vec<u16> {
    let parent = |joint: u16| match joint % 7 {
        _ if joint > 0 && joint.is_multiple_of(32) => joint - 1,
        0 if joint.is_multiple_of(2) => root_word(joints),
        0 => ROOT,
        1 | 4 => joint - 1,
        5 if joint > 255 => 255,
        6 if joint > 256 => 256,
        _ => joint / 2,
    };
    (0..joints).map(parent).collect()
}

/// The counts at which something changes: at each multiple of 32 and beside it, since the library
/// takes joints in blocks of 32, and at the greatest. 64 with 65 is where 255 stops being a root, and
/// 255 to 257 where a byte stops holding a joint's number.
pub fn edges() -> impl Iterator<Item = u16> {
    let multiples = (32..MOST_JOINTS).step_by(32);
    let near = multiples.flat_map(|multiple| [multiple - 1, multiple, multiple + 1]);
    near.chain([MOST_JOINTS - 1, MOST_JOINTS])
}

#[cfg(test)]
mod tests {
    use super::*;

    #[test]
    fn roots_have_two_words_up_to_64_joints_and_one_above() {
        for joints in 1..=usize::from(MOST_JOINTS) {
            let roots: Vec<u16> = (0..=u16::MAX).filter(|&p| is_root(joints, p)).collect();
            let expected: &[u16] = if joints <= 64 {
                &[255, 65535]
            } else {
                &[65535]
            };
            assert_eq!(roots, expected, "{joints}");
        }
    }

    #[test]
    fn edges_are_at_blocks_and_bytes() {
        let edges: Vec<u16> = edges().collect();
        let some = [
            31, 32, 33, 63, 64, 65, 255, 256, 257, 383, 384, 385, 399, 400,
        ];
        assert!(some.iter().all(|joints| edges.contains(joints)));
        assert!(edges.is_sorted());
        assert_eq!(edges.len(), 3 * 12 + 2);
    }
}
