//! Random numbers of joints, and random parents.

use super::joints::{MOST_JOINTS, ROOT, RUST_JOINTS, RUST_ROOT};
use super::random_figure::{below, count};
use crate::generator::Generator;

/// As many as the Rust has; in one of 64 figures more, which take long.
pub fn joints(generator: &mut Generator, usual: u64) -> u16 {
    match generator.below(64) {
        0 => RUST_JOINTS + 1 + below(generator, MOST_JOINTS - RUST_JOINTS),
        _ => count(generator, usual, u64::from(RUST_JOINTS)),
    }
}

/// Roots are told by either word where both count; where 255 and 256 are joints, many hang from these.
pub fn parents(generator: &mut Generator, joints: u16) -> Vec<u16> {
    let roots = match joints {
        ..=RUST_JOINTS => [RUST_ROOT, ROOT],
        _ => [ROOT; 2],
    };
    let parent = |joint: u16| match generator.below(8) {
        0 | 1 => generator.pick(&roots),
        _ if joint == 0 => generator.pick(&roots),
        2 if joint > 256 => 255 + below(generator, 2),
        3 => joint - 1,
        _ => below(generator, joint),
    };
    (0..joints).map(parent).collect()
}

#[cfg(test)]
mod tests {
    use super::*;
    use crate::texts::plan::check;
    use crate::texts::random_figure::accepted;

    #[test]
    fn all_sorts_are_met() {
        let mut generator = Generator::new(8);
        let drafts = (0..4000).map(|_| accepted(&mut generator));
        let drafts = drafts.filter(|draft| check(&draft.figure()).is_ok());
        let parents: Vec<Vec<u16>> = drafts.map(|draft| draft.parents).collect();
        // Of more joints than `above`, with all these words among their parents.
        let count = |words: &[u16], above: usize| {
            let has_all = |all: &&Vec<u16>| words.iter().all(|word| all.contains(word));
            let wide = parents.iter().filter(|all| all.len() > above);
            wide.filter(has_all).count()
        };
        let either = count(&[RUST_ROOT, ROOT], 0);
        let wide = count(&[ROOT], 64);
        let bytes = count(&[255, 256], 256);
        assert!(either >= 400, "{either} by both words");
        assert!((40..=90).contains(&wide), "{wide} of more than 64 joints");
        assert!(bytes >= 10, "{bytes} with joints under 255 and 256");
    }
}
