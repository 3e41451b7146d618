//! What becomes of random cases: how many of them are accepted, and which refusals the others get.

use super::case::{Case, Kind};
use super::figure::Refusal;
use super::printed::played;
use super::uses::marks;
use std::collections::BTreeMap;

/// How many cases of a kind there are, and how many of them get each refusal.
pub struct Shares {
    pub cases: usize,
    pub refused: BTreeMap<u8, usize>,
}

/// What a run says about its cases.
pub fn sentences(cases: &[Case]) -> [String; 2] {
    let uses = Shares::of(Kind::Uses, cases).uses_sentence(unused(cases));
    [Shares::of(Kind::Text, cases).sentence(), uses]
}

fn refusal(case: &Case) -> Option<Refusal> {
    match case.kind {
        Kind::Text | Kind::Damage => played(&case.bytes).err(),
        Kind::Uses => marks(&case.bytes).err(),
    }
}

/// In how many uses cases a state is marked 0, in how many a parameter and in how many a clip.
pub fn unused(cases: &[Case]) -> [usize; 3] {
    let mut counts = [0; 3];
    let of_kind = cases.iter().filter(|case| case.kind == Kind::Uses);
    for uses in of_kind.filter_map(|case| marks(&case.bytes).ok()) {
        for (count, marks) in counts.iter_mut().zip(uses.kinds()) {
            *count += usize::from(marks.contains(&false));
        }
    }
    counts
}

impl Shares {
    pub fn of(kind: Kind, cases: &[Case]) -> Shares {
        let of_kind: Vec<&Case> = cases.iter().filter(|case| case.kind == kind).collect();
        let mut refused = BTreeMap::new();
        for refusal in of_kind.iter().filter_map(|case| refusal(case)) {
            *refused.entry(refusal.number).or_default() += 1;
        }
        Shares {
            cases: of_kind.len(),
            refused,
        }
    }

    fn refused_by(&self, numbers: &[u8]) -> usize {
        numbers.iter().filter_map(|n| self.refused.get(n)).sum()
    }

    /// Those that the reader accepts.
    pub fn read(&self) -> usize {
        self.cases - self.refused_by(&[11, 13])
    }

    /// Those that no check refuses: they are played, or their marks told.
    pub fn accepted(&self) -> usize {
        self.cases - self.refused.values().sum::<usize>()
    }

    fn refusals(&self) -> String {
        let refusal = |(number, count): (&u8, &usize)| format!("{number} {count} times");
        let refusals: Vec<String> = self.refused.iter().map(refusal).collect();
        refusals.join(", ")
    }

    pub fn sentence(&self) -> String {
        let percent = |part: usize| 100.0 * part as f64 / self.cases.max(1) as f64;
        format!(
            "{} to be printed: {:.1} % accepted by the reader, {:.1} % played; refused: {}",
            self.cases,
            percent(self.read()),
            percent(self.accepted()),
            self.refusals()
        )
    }

    pub fn uses_sentence(&self, [states, parameters, clips]: [usize; 3]) -> String {
        format!(
            "{} for their uses: {} accepted, with a state marked 0 in {states}, a parameter in \
            {parameters}, a clip in {clips}; {} refused: {}",
            self.cases,
            self.accepted(),
            self.cases - self.accepted(),
            self.refusals()
        )
    }
}
