//! The parents' words in a plan, right or wrong.

use std::ops::Range;

/// The places of the parents' words, joint by joint. A plan may end before them.
pub fn parent_words(plan: &[u16]) -> Range<usize> {
    let joints = plan.first().map_or(0, |&word| usize::from(word));
    let start = 5.min(plan.len());
    start..(5 + joints).min(plan.len())
}

/// The plan with other parents, each from its joint and the old one.
pub fn with_parents(plan: &[u16], parent: impl Fn(usize, u16) -> u16) -> Vec<u16> {
    let mut other = plan.to_vec();
    for (joint, place) in parent_words(plan).enumerate() {
        other[place] = parent(joint, plan[place]);
    }
    other
}

#[cfg(test)]
mod tests {
    use super::*;

    #[test]
    fn parents_stand_behind_the_header() {
        let plan = [3, 1, 0, 1, 0, 255, 0, 1, 9, 9];
        assert_eq!(parent_words(&plan), 5..8);
        let other = with_parents(&plan, |joint, old| 100 * joint as u16 + old);
        assert_eq!(other, [3, 1, 0, 1, 0, 255, 100, 201, 9, 9]);
        assert_eq!(parent_words(&plan[..7]), 5..7);
        assert_eq!(with_parents(&plan[..2], |_, _| 7), plan[..2]);
        assert!(parent_words(&[]).is_empty());
    }
}
