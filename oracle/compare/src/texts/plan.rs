//! The check of a plan, refusals 1 to 7 and 14, written from documents 01 and 02 alone.

use super::figure::{Figure, Refusal};
use super::joints::{is_root, MOST_JOINTS, RUST_JOINTS};
use std::ops::RangeInclusive;

const CLIP_NODES: usize = 64;

/// A plan that passed, taken apart.
pub struct Plan {
    /// None of a root.
    pub parents: Vec<Option<u16>>,
    pub clips: Vec<Clip>,
    pub parameters: u16,
    pub states: Vec<State>,
    pub initial: u16,
}

pub struct Clip {
    /// None is a pause.
    pub samples: u16,
    /// Whether it holds its last pose, and does not loop.
    pub stops: bool,
}

impl Clip {
    pub fn is_empty(&self) -> bool {
        self.samples == 0
    }

    /// Whether the Rust has such clips: with samples, and looping.
    fn is_rusts(&self) -> bool {
        !self.is_empty() && !self.stops
    }
}

pub struct State {
    pub nodes: Vec<Node>,
    pub transitions: Vec<Transition>,
}

pub enum Node {
    Clip(u16),
    Lerp(Inputs),
    Additive(Inputs),
}

pub struct Inputs {
    pub a: u16,
    pub b: u16,
    pub parameter: u16,
}

pub struct Transition {
    pub parameter: u16,
    pub operator: u16,
    pub target: u16,
}

pub fn check(figure: &Figure) -> Result<Plan, Refusal> {
    let mut words = Words {
        plan: &figure.plan,
        at: 0,
        clip_nodes: 0,
    };
    let plan = words.plan()?;
    if words.at < figure.plan.len() {
        return refused(6, words.at);
    }
    if figure.numbers.len() != plan.numbers() {
        return refused(7, 0);
    }
    Ok(plan)
}

fn refused<T>(number: u8, place: usize) -> Result<T, Refusal> {
    Err(Refusal { number, place })
}

impl Plan {
    /// Whether the Rust can play it.
    pub fn is_rusts(&self) -> bool {
        let joints = usize::from(RUST_JOINTS);
        self.parents.len() <= joints && self.clips.iter().all(Clip::is_rusts)
    }

    /// How many numbers belong to it.
    fn numbers(&self) -> usize {
        let transitions: usize = self.states.iter().map(|s| s.transitions.len()).sum();
        let samples = self.clips.iter().map(|clip| usize::from(clip.samples));
        let samples: usize = samples.sum();
        self.clips.len() + 2 * transitions + 8 * self.parents.len() * samples
    }
}

struct Words<'a> {
    plan: &'a [u16],
    at: usize,
    /// Clip nodes so far, over all states.
    clip_nodes: usize,
}

impl Words<'_> {
    fn plan(&mut self) -> Result<Plan, Refusal> {
        let joints = self.count(1..=MOST_JOINTS)?;
        let clips = self.count(1..=16)?;
        let parameters = self.count(0..=32)?;
        let states = self.count(1..=16)?;
        let initial = self.word(2, |word| word < states)?;
        let parent = |joint| self.parent(joint, joints);
        let parents = (0..joints).map(parent).collect::<Result<_, _>>()?;
        let played = (0..clips).map(|_| self.clip());
        let played = played.collect::<Result<_, _>>()?;
        let state = |_| self.state(clips, parameters, states);
        let states = (0..states).map(state).collect::<Result<_, _>>()?;
        Ok(Plan {
            parents,
            clips: played,
            parameters,
            states,
            initial,
        })
    }

    fn parent(&mut self, joint: u16, joints: u16) -> Result<Option<u16>, Refusal> {
        let is_root = |word| is_root(usize::from(joints), word);
        let word = self.word(3, |word| is_root(word) || word < joint)?;
        Ok((!is_root(word)).then_some(word))
    }

    fn clip(&mut self) -> Result<Clip, Refusal> {
        Ok(Clip {
            samples: self.count(0..=4096)?,
            stops: self.word(14, |word| word <= 1)? == 1,
        })
    }

    fn state(&mut self, clips: u16, parameters: u16, states: u16) -> Result<State, Refusal> {
        let place = self.at;
        let count = usize::from(self.count(1..=31)?);
        let mut used = vec![false; count];
        let node = |i| self.node(&mut used[..i], clips, parameters);
        let nodes = (0..count).map(node).collect::<Result<_, _>>()?;
        if used[..count - 1].contains(&false) {
            return refused(4, place);
        }
        let count = self.count(0..=16)?;
        let transition = |_| self.transition(parameters, states);
        let transitions = (0..count).map(transition).collect::<Result<_, _>>()?;
        Ok(State { nodes, transitions })
    }

    /// A node, where `used` says of each earlier one whether it is an input already.
    fn node(&mut self, used: &mut [bool], clips: u16, parameters: u16) -> Result<Node, Refusal> {
        let kind = self.kind()?;
        if kind == 0 {
            let clip = self.word(4, |word| word < clips)?;
            self.word(4, |b| b == 0)?;
            self.word(4, |p| p == 0)?;
            return Ok(Node::Clip(clip));
        }
        let inputs = Inputs {
            a: self.input(used)?,
            b: self.input(used)?,
            parameter: self.word(4, |word| word < parameters)?,
        };
        Ok(match kind {
            1 => Node::Lerp(inputs),
            _ => Node::Additive(inputs),
        })
    }

    fn kind(&mut self) -> Result<u16, Refusal> {
        let place = self.at;
        let kind = self.word(4, |word| word <= 2)?;
        if kind == 0 {
            self.clip_nodes += 1;
        }
        if self.clip_nodes > CLIP_NODES {
            return refused(2, place);
        }
        Ok(kind)
    }

    fn input(&mut self, used: &mut [bool]) -> Result<u16, Refusal> {
        let input = self.word(4, |word| used.get(usize::from(word)) == Some(&false))?;
        used[usize::from(input)] = true;
        Ok(input)
    }

    fn transition(&mut self, parameters: u16, states: u16) -> Result<Transition, Refusal> {
        Ok(Transition {
            parameter: self.word(5, |word| word < parameters)?,
            operator: self.word(5, |word| word <= 5)?,
            target: self.word(5, |word| word < states)?,
        })
    }

    fn count(&mut self, range: RangeInclusive<u16>) -> Result<u16, Refusal> {
        self.word(2, |word| range.contains(&word))
    }

    /// The next word: refused by 1 where the plan has ended, by `number` where it does not pass.
    fn word(&mut self, number: u8, passes: impl Fn(u16) -> bool) -> Result<u16, Refusal> {
        let place = self.at;
        match self.plan.get(place) {
            None => refused(1, self.plan.len()),
            Some(&word) if passes(word) => {
                self.at += 1;
                Ok(word)
            }
            Some(_) => refused(number, place),
        }
    }
}

#[cfg(test)]
mod tests {
    use super::*;

    /// Two joints, two clips, one parameter, two states: a lerp of two clips that goes to state 1,
    /// and a clip.
    const WORDS: [u16; 35] = [
        2, 2, 1, 2, 0, // header: 0 to 4
        255, 0, // parents: 5, 6
        1, 0, 3, 1, // samples and ending of each clip: 7 to 10
        3, 0, 0, 0, 0, 0, 1, 0, 0, 1, 0, 1, 0, // K: 11, nodes: 12 to 23
        1, 0, 5, 1, // T: 24, transition: 25 to 27
        1, 0, 1, 0, 0, // K: 28, node: 29 to 32
        0, // T: 33
        0, // left over: 34
    ];
    const LENGTH: usize = 34;
    const NUMBERS: usize = 2 + 2 + 8 * 2 * 4;

    fn answer(plan: &[u16], numbers: usize) -> Option<(u8, usize)> {
        let figure = Figure {
            plan: plan.to_vec(),
            numbers: vec![0; numbers],
        };
        let refusal = check(&figure).err();
        refusal.map(|refusal| (refusal.number, refusal.place))
    }

    #[test]
    fn a_plan_is_as_long_as_it_says() {
        assert_eq!(answer(&WORDS[..LENGTH], NUMBERS), None);
        for length in 0..LENGTH {
            assert_eq!(answer(&WORDS[..length], NUMBERS), Some((1, length)));
        }
        assert_eq!(answer(&WORDS, NUMBERS), Some((6, LENGTH)));
        assert_eq!(answer(&WORDS, 0), Some((6, LENGTH)));
        for numbers in [0, NUMBERS - 1, NUMBERS + 1] {
            assert_eq!(answer(&WORDS[..LENGTH], numbers), Some((7, 0)));
        }
    }

    /// A place, a word put there, and the refusal: its number where the place is the same.
    #[test]
    fn a_wrong_word_is_blamed() {
        let at_itself = [
            (0, [0, 401], 2),
            (1, [0, 17], 2),
            (2, [33, 65535], 2),
            (3, [0, 17], 2),
            (4, [2, 65535], 2),
            (5, [0, 65534], 3),
            (6, [1, 256], 3),
            (7, [4097, 65535], 2),
            (8, [2, 65535], 14),
            (9, [4097, 8192], 2),
            (10, [2, 256], 14),
            (11, [0, 32], 2),
            (12, [3, 65535], 4),
            (13, [2, 65535], 4),
            (14, [1, 255], 4),
            (15, [1, 255], 4),
            (20, [3, 256], 4),
            (21, [2, 256], 4),
            (22, [0, 2], 4), // the same input twice, a later one
            (23, [1, 255], 4),
            (24, [17, 65535], 2),
            (25, [1, 31], 5),
            (26, [6, 255], 5),
            (27, [2, 255], 5),
        ];
        for (place, words, number) in at_itself {
            for word in words {
                let mut plan = WORDS[..LENGTH].to_vec();
                plan[place] = word;
                assert_eq!(
                    answer(&plan, NUMBERS),
                    Some((number, place)),
                    "{word} at {place}"
                );
            }
        }
    }

    #[test]
    fn an_unused_node_is_blamed_on_its_count() {
        let mut plan = WORDS[..24].to_vec();
        plan[20..24].copy_from_slice(&[0, 1, 0, 0]);
        assert_eq!(answer(&plan, NUMBERS), Some((4, 11)));
        plan.push(17);
        assert_eq!(answer(&plan, NUMBERS), Some((4, 11)));
    }

    /// The plan with these words at 7 to 10: N and ending of one clip, then of the other.
    fn with_clips(words: [u16; 4]) -> Vec<u16> {
        [&WORDS[..7], &words, &WORDS[11..LENGTH]].concat()
    }

    /// The first wrong one decides.
    #[test]
    fn an_ending_is_judged_between_its_own_count_and_the_next() {
        for (words, refusal) in [
            ([1, 0, 3, 0], None),
            ([1, 1, 3, 0], None),
            ([1, 1, 3, 1], None),
            ([4097, 2, 3, 0], Some((2, 7))),
            ([1, 2, 4097, 2], Some((14, 8))),
            ([4097, 0, 3, 2], Some((2, 7))),
            ([1, 1, 4097, 2], Some((2, 9))),
            ([1, 1, 3, 2], Some((14, 10))),
            ([0, 2, 4, 0], Some((14, 8))),
            ([0, 2, 4097, 0], Some((14, 8))),
            ([0, 65535, 0, 2], Some((14, 8))),
            ([0, 0, 0, 2], Some((14, 10))),
            ([0, 1, 4097, 2], Some((2, 9))),
        ] {
            assert_eq!(answer(&with_clips(words), NUMBERS), refusal, "{words:?}");
        }
        // Later words, a plan that ends behind the ending, and numbers are judged after it.
        let wrong = [&WORDS[..8], &[2]].concat();
        assert_eq!(answer(&wrong, 0), Some((14, 8)));
        assert_eq!(answer(&WORDS[..8], 0), Some((1, 8)));
        let parent = [&WORDS[..6], &[1, 1, 2]].concat();
        assert_eq!(answer(&parent, 0), Some((3, 6)));
    }

    /// Without samples a clip has no poses, but its rate still: two rates and a transition's two.
    #[test]
    fn a_clip_may_have_no_samples() {
        for (words, samples) in [
            ([0, 0, 3, 1], 3),
            ([0, 1, 4096, 0], 4096),
            ([1, 0, 0, 1], 1),
            ([0, 0, 0, 0], 0),
            ([0, 1, 0, 1], 0),
        ] {
            let plan = with_clips(words);
            let numbers = 2 + 2 + 8 * 2 * samples;
            assert_eq!(answer(&plan, numbers), None, "{words:?}");
            for other in [numbers - 1, numbers + 1, numbers + 16] {
                assert_eq!(answer(&plan, other), Some((7, 0)), "{words:?}");
            }
        }
    }

    #[test]
    fn endings_are_kept_with_their_clips() {
        let figure = Figure {
            plan: WORDS[..LENGTH].to_vec(),
            numbers: vec![0; NUMBERS],
        };
        let plan = check(&figure).ok().unwrap();
        let clips = plan.clips.iter().map(|clip| (clip.samples, clip.stops));
        assert_eq!(clips.collect::<Vec<_>>(), [(1, false), (3, true)]);
    }

    /// Four states of 16 clip nodes each, and a fifth.
    #[test]
    fn the_65th_clip_node_is_blamed_at_its_kind() {
        let mut plan = vec![1, 1, 1, 5, 0, 255, 1, 0];
        for _ in 0..4 {
            plan.push(31);
            plan.extend([0; 64]);
            plan.extend((0..15).flat_map(|i| [1, 2 * i, 2 * i + 1, 0]));
            plan.push(0);
        }
        assert_eq!(answer(&plan, 0), Some((1, plan.len())));
        let kind = plan.len() + 1;
        plan.extend([1, 0, 9, 9, 9]);
        assert_eq!(answer(&plan, 0), Some((2, kind)));
        plan[kind] = 3;
        assert_eq!(answer(&plan, 0), Some((4, kind)));
    }
}
