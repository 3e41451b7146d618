//! What `inspect uses` prints for a text, and the texts on which it is recorded.

use super::case::Case;
use super::figure::Refusal;
use super::known_uses::{known, refused};
use super::limits::{long_text, pauses_text, Long};
use super::printed::{read, LONGEST};
use super::sparse_figure::sparse;
use crate::generator::Generator;
use crate::model::uses::{uses, Uses};
use std::collections::BTreeMap;

const SEED: u64 = 0x5f37_59df;

/// So many figures by chance.
const SPARSE: usize = 7;

/// The marks of a text's figure, or the first refusal.
pub fn marks(text: &[u8]) -> Result<Uses, Refusal> {
    uses(&read(text)?)
}

pub fn printed(text: &[u8]) -> String {
    match marks(text) {
        Ok(uses) => shown(&uses),
        Err(Refusal { number, place }) => format!("refused,{number},{place}\n"),
    }
}

/// What is printed for these marks.
pub fn shown(uses: &Uses) -> String {
    let [states, parameters, clips] = uses.kinds();
    let lines = [
        mark_lines("state", states),
        mark_lines("parameter", parameters),
        mark_lines("clip", clips),
    ];
    format!("ok\n{}", lines.concat())
}

fn mark_lines(name: &str, marks: &[bool]) -> String {
    let line = |(number, mark): (usize, &bool)| format!("{name},{number},{}\n", u8::from(*mark));
    marks.iter().enumerate().map(line).collect()
}

/// The recorded cases: the examples, the figures that are known, figures by chance, those at the limits
/// of counts and of a text's length, and refused ones.
pub fn cases(examples: &BTreeMap<String, Vec<u8>>) -> Vec<Case> {
    let mut generator = Generator::new(SEED);
    let mut texts: Vec<Vec<u8>> = examples.values().cloned().collect();
    texts.extend(known().iter().map(|known| known.draft.text().into()));
    let by_chance = (0..SPARSE).map(|_| sparse(&mut generator).text().into());
    texts.extend(by_chance.collect::<Vec<_>>());
    texts.push(pauses_text().into());
    texts.push(long_text(&mut generator, Long::Widest, LONGEST).into());
    texts.extend(refused().into_iter().map(|(text, _)| text));
    texts.into_iter().map(Case::uses).collect()
}
