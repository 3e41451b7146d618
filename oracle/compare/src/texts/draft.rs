//! A figure while it is put together, right or wrong, and its text.

use super::figure::Figure;
use super::plan::{self, check, Node};
use crate::row::joined;

/// The counts of its text are the lengths here.
#[derive(Clone, Debug, Default)]
pub struct Draft {
    pub parameters: u16,
    pub initial: u16,
    pub parents: Vec<u16>,
    pub clips: Vec<Clip>,
    pub states: Vec<State>,
    pub poses: Vec<[u32; 8]>,
}

#[derive(Clone, Debug)]
pub struct Clip {
    pub samples: u16,
    pub rate: u32,
    /// 0 loops, 1 stops; any other is wrong.
    pub ending: u16,
}

#[derive(Clone, Debug, Default)]
pub struct State {
    /// Kind, a, b, p.
    pub nodes: Vec<[u16; 4]>,
    pub transitions: Vec<Transition>,
}

#[derive(Clone, Debug)]
pub struct Transition {
    /// Parameter, operator, target.
    pub words: [u16; 3],
    /// Value, duration.
    pub numbers: [u32; 2],
}

impl Draft {
    /// The draft of a figure that the start takes.
    pub fn of(figure: &Figure) -> Option<Draft> {
        let plan = check(figure).ok()?;
        let mut numbers = figure.numbers.iter().copied();
        let mut next = || {
            numbers
                .next()
                .expect("as many numbers as the plan asks for")
        };
        let clips = plan.clips.iter().map(|clip| Clip {
            samples: clip.samples,
            rate: next(),
            ending: u16::from(clip.stops),
        });
        let clips = clips.collect();
        let states = plan.states.iter().map(|state| State {
            nodes: state.nodes.iter().map(node_words).collect(),
            transitions: transitions(state, &mut next),
        });
        let states = states.collect();
        let poses = numbers.collect::<Vec<u32>>();
        let poses = poses.chunks(8).map(|pose| pose.try_into());
        Some(Draft {
            parameters: plan.parameters,
            initial: plan.initial,
            // A root has two words, so these are the plan's own.
            parents: figure.plan[5..5 + plan.parents.len()].to_vec(),
            clips,
            states,
            poses: poses.collect::<Result<_, _>>().ok()?,
        })
    }

    /// How many pose lines the counts ask for.
    pub fn pose_count(&self) -> usize {
        let samples = self.clips.iter().map(|clip| usize::from(clip.samples));
        self.parents.len() * samples.sum::<usize>()
    }

    /// The plan with its numbers, as the text would be read.
    pub fn figure(&self) -> Figure {
        let counts = [self.parents.len(), self.clips.len()].map(|count| count as u16);
        let mut plan = counts.to_vec();
        plan.extend([self.parameters, self.states.len() as u16, self.initial]);
        plan.extend(&self.parents);
        let clips = self.clips.iter();
        plan.extend(clips.flat_map(|clip| [clip.samples, clip.ending]));
        let mut numbers: Vec<u32> = self.clips.iter().map(|clip| clip.rate).collect();
        for state in &self.states {
            plan.push(state.nodes.len() as u16);
            plan.extend(state.nodes.iter().flatten());
            plan.push(state.transitions.len() as u16);
            for transition in &state.transitions {
                plan.extend(transition.words);
                numbers.extend(transition.numbers);
            }
        }
        numbers.extend(self.poses.iter().flatten());
        Figure { plan, numbers }
    }

    pub fn text(&self) -> String {
        let mut text = format!(
            "figure,{},{},{},{},{}\n",
            self.parents.len(),
            self.clips.len(),
            self.parameters,
            self.states.len(),
            self.initial
        );
        for parent in &self.parents {
            text += &format!("joint,{parent}\n");
        }
        for clip in &self.clips {
            text += &clip.text();
        }
        for state in &self.states {
            text += &state.text();
        }
        for pose in &self.poses {
            text += &format!("pose,{}\n", joined(pose));
        }
        text
    }
}

fn node_words(node: &Node) -> [u16; 4] {
    match node {
        Node::Clip(clip) => [0, *clip, 0, 0],
        Node::Lerp(inputs) => [1, inputs.a, inputs.b, inputs.parameter],
        Node::Additive(inputs) => [2, inputs.a, inputs.b, inputs.parameter],
    }
}

fn transitions(state: &plan::State, next: &mut impl FnMut() -> u32) -> Vec<Transition> {
    let transition = |go: &plan::Transition| Transition {
        words: [go.parameter, go.operator, go.target],
        numbers: [next(), next()],
    };
    state.transitions.iter().map(transition).collect()
}

impl Clip {
    fn text(&self) -> String {
        let Clip {
            samples,
            rate,
            ending,
        } = self;
        format!("clip,{samples},{rate:08x},{ending}\n")
    }
}

impl State {
    fn text(&self) -> String {
        let mut text = format!("state,{},{}\n", self.nodes.len(), self.transitions.len());
        for [kind, a, b, p] in &self.nodes {
            text += &format!("node,{kind},{a},{b},{p}\n");
        }
        for Transition { words, numbers } in &self.transitions {
            let [parameter, operator, target] = words;
            text += &format!("go,{parameter},{operator},{target},{}\n", joined(numbers));
        }
        text
    }
}

#[cfg(test)]
mod tests {
    use super::*;
    use crate::generator::Generator;
    use crate::texts::random_figure::accepted;
    use crate::texts::reader::read;

    #[test]
    fn a_draft_is_the_figure_of_its_text() {
        let mut generator = Generator::new(2);
        for _ in 0..200 {
            let draft = accepted(&mut generator);
            assert_eq!(read(draft.text().as_bytes()), Ok(draft.figure()));
        }
    }

    #[test]
    fn a_figure_has_its_draft() {
        let mut generator = Generator::new(2);
        for _ in 0..200 {
            let figure = accepted(&mut generator).figure();
            let again = Draft::of(&figure).map(|draft| draft.figure());
            assert_eq!(again, check(&figure).is_ok().then_some(figure));
        }
    }
}
