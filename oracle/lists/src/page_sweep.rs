//! Page frames that every run compares, whatever its seed: chains of turned joints and joints with
//! several children, by sensible numbers and by infinities, NaNs and any patterns.

use crate::run::Case;
use crate::step::Step;
use compare::generator::Generator;
use compare::lists::call::Call;
use compare::lists::figures::{going, joined, one_clip, GREATER};
use compare::texts::draft::Draft;
use compare::texts::joints::root_word;
use compare::texts::random_figure::{pose, Numbers};

/// A single joint, a hand on an arm, longer chains, and such as do not end in the block they begin in.
const CHAINS: [u16; 8] = [1, 2, 3, 6, 17, 33, 64, 100];

const STYLES: [Numbers; 5] = [
    Numbers::Sensible,
    Numbers::Sparse,
    Numbers::Special,
    Numbers::Mixed,
    Numbers::Pattern,
];

/// Numbers by chance, the same in every run.
const TIMES: u64 = 4;

pub fn cases() -> impl Iterator<Item = Case> {
    CHAINS.into_iter().flat_map(|joints| {
        let figures = [
            one_clip(joints, 3, 2.0),
            joined(joints, 1),
            joined(joints, 2),
            going(joints, &[(0, GREATER, 1, 0.5, 1.0)]),
        ];
        let chains = figures.into_iter().map(move |draft| chained(draft, joints));
        let branches = [going(joints, &[(0, GREATER, 1, 0.5, 1.0)])];
        let drafts = chains.chain(branches);
        drafts.flat_map(|draft| {
            STYLES
                .into_iter()
                .flat_map(move |style| posed(&draft, style))
        })
    })
}

/// Each joint under the one before it.
fn chained(mut draft: Draft, joints: u16) -> Draft {
    let others = 0..joints - 1;
    draft.parents = [root_word(joints)].into_iter().chain(others).collect();
    draft
}

fn posed(draft: &Draft, style: Numbers) -> impl Iterator<Item = Case> {
    let draft = draft.clone();
    (0..TIMES).map(move |seed| {
        let mut generator = Generator::new(seed);
        let mut draft = draft.clone();
        let poses = (0..draft.pose_count()).map(|_| pose(&mut generator, style));
        draft.poses = poses.collect();
        let steps = calls(draft.parents.len()).map(Step::Call).to_vec();
        Case { draft, steps }
    })
}

/// Page frames among ordinary ones: at and between samples, in a transition and after it.
fn calls(joints: usize) -> [Call; 10] {
    let needed = 16 * joints;
    [
        Call::page(0.0, needed),
        Call::frame(0.0, needed),
        Call::update(0.375),
        Call::page(0.125, needed + 5),
        Call::set(0, 0.75),
        Call::page(0.0, needed),
        Call::update(0.5),
        Call::page(0.0, needed),
        Call::update(1.0),
        Call::page(0.0, needed),
    ]
}

#[cfg(test)]
mod tests {
    use super::*;
    use crate::abi::Library;
    use crate::faults::{Fault, Faulty};
    use crate::run::{run, Counts};

    fn finds(fault: Fault, cases: impl Iterator<Item = Case>) -> bool {
        let library = &Library;
        let faulty = Faulty { library, fault };
        let mut cases = cases;
        cases.any(|case| run(&case, &faulty, &mut Counts::default()).is_some())
    }

    #[test]
    fn faults_about_pages_are_found_by_any_seed() {
        for fault in Fault::OF_PAGES {
            assert!(finds(fault, cases()), "{fault:?}");
        }
        assert!(!finds(Fault::None, cases()));
    }

    /// A single root shows neither a matrix transposed too late nor a transposed parent by sensible
    /// numbers: it takes a hand on an arm. That a root is multiplied is shown by infinities alone.
    #[test]
    fn what_each_figure_can_show() {
        let root = || posed(&one_clip(1, 3, 2.0), Numbers::Sensible);
        let hand = || posed(&chained(one_clip(2, 3, 2.0), 2), Numbers::Sensible);
        assert!(!finds(Fault::PageTransposedLate, root()));
        assert!(finds(Fault::PageTransposedLate, hand()));
        assert!(finds(Fault::PageParentTransposed, hand()));
        assert!(finds(Fault::PageRootLeftAlone, root()));
        assert!(!finds(Fault::PageRootNotMultiplied, hand()));
    }
}
