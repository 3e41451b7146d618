//! What a figure can ever use, put to the library and to the model.

use crate::evaluator::{Evaluator, HostUses};
use crate::plans::{damage, smaller_figures};
use crate::random::{refusals, Found};
use crate::run::{floats, same, Counts};
use crate::smaller_draft::smaller_drafts;
use compare::generator::Generator;
use compare::model::uses::uses;
use compare::texts::draft::Draft;
use compare::texts::figure::Figure;
use compare::texts::known_uses::{known, refused};
use compare::texts::printed::read;
use compare::texts::sparse_figure::sparse;
use std::path::Path;
use std::{fs, io};

const KINDS: [&str; 3] = ["states", "parameters", "clips"];

/// Of so many plans the marks have to be mixed. Fewer could be alike by chance.
const ENOUGH: usize = 100;

/// For so many plans there is one figure of many states and few transitions.
const SHARE: usize = 4;

/// Whether number, place and all marks are the model's.
pub fn same_uses(
    figure: &Figure,
    evaluator: &dyn Evaluator,
    counts: &mut Counts,
) -> Result<(), String> {
    let actual = evaluator.uses(&figure.plan, &floats(figure));
    let expected = uses(figure);
    counts.calls += 1;
    match &expected {
        Ok(uses) => {
            for (count, marks) in counts.marks.iter_mut().zip(uses.kinds()) {
                for &mark in marks {
                    count[usize::from(mark)] += 1;
                }
            }
        }
        Err(refusal) => *counts.refused.entry(refusal.number.into()).or_default() += 1,
    }
    same("what is used", &HostUses::of(expected), &actual)
}

/// Sparse figures, some of them damaged, and behind these the known ones. The marks of all figures by
/// chance, the plans before too, have to be mixed; the known ones would make them so at once.
pub fn compare(
    evaluator: &dyn Evaluator,
    plans: usize,
    seed: u64,
    counts: &mut Counts,
) -> Option<Found> {
    // Of its own, so that the lists of a seed do not depend on it.
    let mut generator = Generator::new(!seed);
    let sparse = (0..plans / SHARE).map(|_| random_sparse(&mut generator));
    let found = first_other(sparse, evaluator, counts);
    let alike = (plans >= ENOUGH).then(|| alike(counts)).flatten();
    let found = found.or_else(|| alike.map(Found::Alike));
    found.or_else(|| first_other(known_figures(), evaluator, counts))
}

fn first_other(
    mut figures: impl Iterator<Item = Figure>,
    evaluator: &dyn Evaluator,
    counts: &mut Counts,
) -> Option<Found> {
    let other = figures.find(|figure| same_uses(figure, evaluator, counts).is_err());
    other.map(Found::Uses)
}

fn random_sparse(generator: &mut Generator) -> Figure {
    let mut figure = sparse(generator).figure();
    if generator.below(8) == 0 {
        damage(generator, &mut figure);
    }
    figure
}

/// Those that no seed changes.
fn known_figures() -> impl Iterator<Item = Figure> {
    let known = known().into_iter().map(|known| known.draft.figure());
    let refused = refused().into_iter();
    known.chain(refused.filter_map(|(text, _)| read(&text).ok()))
}

/// A kind of which all marks were alike.
fn alike(counts: &Counts) -> Option<&'static str> {
    let mut kinds = KINDS.iter().zip(counts.marks);
    let (kind, _) = kinds.find(|(_, marks)| marks.contains(&0))?;
    Some(kind)
}

pub fn sentence(counts: &Counts) -> String {
    let kinds = KINDS.iter().zip(counts.marks);
    let kinds: Vec<String> = kinds
        .map(|(kind, [none, some])| format!("{some} of {} {kind}", none + some))
        .collect();
    format!(
        "{} figures asked for what they use: marked {}; refused: {}",
        counts.calls,
        kinds.join(", "),
        refusals(counts)
    )
}

/// The figure with less in it, while what it uses is answered wrongly.
pub fn smallest(figure: &Figure, evaluator: &dyn Evaluator) -> (Figure, String) {
    let what = |figure: &Figure| same_uses(figure, evaluator, &mut Counts::default()).err();
    let mut least = figure.clone();
    let mut found = what(figure).unwrap_or_default();
    while let Some((smaller, what)) = smaller(&least)
        .into_iter()
        .find_map(|figure| what(&figure).map(|what| (figure, what)))
    {
        (least, found) = (smaller, what);
    }
    (least, found)
}

/// Figures that a start takes where this is one, and then others.
fn smaller(figure: &Figure) -> Vec<Figure> {
    let drafts = Draft::of(figure).map_or(Vec::new(), |draft| smaller_drafts(&draft));
    let accepted = drafts.iter().map(Draft::figure);
    accepted.chain(smaller_figures(figure)).collect()
}

/// Prints the smallest form of it with both answers, and writes it to a file where it is accepted.
pub fn print(figure: &Figure, evaluator: &dyn Evaluator, folder: &Path) -> io::Result<()> {
    let (least, what) = smallest(figure, evaluator);
    let Some(draft) = Draft::of(&least) else {
        let Figure { plan, numbers } = least;
        println!("uses of the plan {plan:?} with {} numbers", numbers.len());
        println!("mismatch in {what}");
        return Ok(());
    };
    println!("figure\n{}mismatch in {what}", draft.text());
    fs::create_dir_all(folder)?;
    let file = folder.join("mismatch.figure");
    fs::write(&file, draft.text())?;
    for command in ["target/bin/inspect uses", "compare uses"] {
        println!("{command} {}", file.display());
    }
    Ok(())
}

#[cfg(test)]
mod tests {
    use super::*;
    use crate::abi::Library;
    use crate::faults::{Fault, Faulty};

    #[test]
    fn faults_about_uses_are_found_by_any_seed() {
        let finds = |fault: Fault| {
            let library = &Library;
            let faulty = Faulty { library, fault };
            first_other(known_figures(), &faulty, &mut Counts::default()).is_some()
        };
        for fault in Fault::OF_USES {
            assert!(finds(fault), "{fault:?}");
        }
        assert!(!finds(Fault::None));
    }

    #[test]
    fn marks_that_are_alike_are_told() {
        let counts = |marks| Counts {
            marks,
            ..Counts::default()
        };
        assert_eq!(alike(&counts([[1, 1]; 3])), None);
        assert_eq!(alike(&counts([[1, 1], [0, 5], [1, 1]])), Some("parameters"));
        assert_eq!(alike(&counts([[1, 1], [1, 5], [1, 0]])), Some("clips"));
    }
}
