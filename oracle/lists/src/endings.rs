//! The clips' words in a plan, right or wrong.

use crate::evaluator::Shown;
use compare::model::rotation::Matrix;
use compare::model::Model;
use compare::player::Player;
use compare::texts::figure::Figure;
use std::ops::Range;

/// The places of the clips' words: N and ending in turn. A plan may end before them.
pub fn clip_words(plan: &[u16]) -> Range<usize> {
    let count = |place: usize| plan.get(place).map_or(0, |&word| usize::from(word));
    let start = 5 + count(0);
    let end = start + 2 * count(1);
    start.min(plan.len())..end.min(plan.len())
}

/// The plan with other endings, each from its clip's sample count and the old one.
pub fn with_endings(plan: &[u16], ending: impl Fn(u16, u16) -> u16) -> Vec<u16> {
    let mut other = plan.to_vec();
    for place in clip_words(plan).skip(1).step_by(2) {
        other[place] = ending(plan[place - 1], plan[place]);
    }
    other
}

/// The plan with other sample counts.
pub fn with_counts(plan: &[u16], count: impl Fn(u16) -> u16) -> Vec<u16> {
    let mut other = plan.to_vec();
    for place in clip_words(plan).step_by(2) {
        other[place] = count(plan[place]);
    }
    other
}

/// A figure as if all its clips looped: whether a frame shows that they do not.
pub struct Looping(Option<Model>);

impl Looping {
    /// For a figure that is accepted, where a clip stops.
    pub fn new(figure: &Figure) -> Looping {
        let looping = || Figure {
            plan: with_endings(&figure.plan, |_, _| 0),
            numbers: figure.numbers.clone(),
        };
        let model = Model::start(figure);
        let clips = model.plan().map_or(&[][..], |plan| &plan.clips);
        let stops = clips.iter().any(|clip| clip.stops);
        Looping(stops.then(|| Model::start(&looping())))
    }

    /// Whether the same frame of the same player is another here.
    pub fn differs(&mut self, before: &Player, frame: (Shown, f64), shown: &[Matrix]) -> bool {
        let Some(model) = &mut self.0 else {
            return false;
        };
        model.store(before);
        let length = 16 * shown.len();
        let looped = match frame {
            (Shown::Frame, ext) => model.frame(ext, length),
            (Shown::Page, ext) => model.page_frame(ext, length),
        };
        let bits = |matrices: &[Matrix]| -> Vec<u32> {
            let entries = matrices.iter().flatten().flatten();
            entries.map(|&entry| compare::judge::bits(entry)).collect()
        };
        looped.is_ok_and(|looped| bits(&looped) != bits(shown))
    }
}

#[cfg(test)]
mod tests {
    use super::*;
    use compare::texts::edges::BLEND;
    use compare::texts::reader::read;

    #[test]
    fn endings_stand_behind_their_counts() {
        let plan = read(BLEND.as_bytes()).unwrap().plan;
        assert_eq!(plan[clip_words(&plan)], [1, 0, 1, 0]);
        let other = with_endings(&plan, |count, ending| ending + 6 + count);
        assert_eq!(other[clip_words(&other)], [1, 7, 1, 7]);
        let counted = with_counts(&other, |count| count + 2);
        assert_eq!(counted[clip_words(&counted)], [3, 7, 3, 7]);
        let text = BLEND
            .replace(",0\nclip", ",7\nclip")
            .replace(",0\nstate,3", ",7\nstate,3");
        assert_eq!(read(text.as_bytes()).unwrap().plan, other);
        for length in 0..plan.len() {
            let cut = with_endings(&plan[..length], |_, _| 0);
            assert_eq!(with_counts(&cut, |_| 1), plan[..length]);
        }
    }
}
