//! Refusals: the numbers that a call can answer with, as an enum.

use std::error::Error;
use std::fmt;

/// How many words a plan has in front of its joints' parents.
const HEADER: usize = 5;

/// Why a call was refused. A refused call changes nothing.
///
/// Words of the plan are counted from 0, lines of the text from 1.
#[derive(Clone, Copy, Debug, PartialEq, Eq, Hash)]
#[non_exhaustive]
pub enum Refusal {
    /// 1: the plan ends too early.
    PlanEnded {
        /// How many words it has.
        length: usize,
    },
    /// 2: a count or the initial state is out of its range, or there is a 65th clip node.
    Count {
        /// The word of the count, or of the node's kind.
        word: usize,
    },
    /// 3: a parent is neither 65535 (a root; in a figure of at most 64 joints also 255) nor an earlier joint.
    Parent {
        /// The word of the parent; the joint has this number less 5.
        word: usize,
    },
    /// 4: a node's word is wrong, or a node is no input of another.
    Node {
        /// That word; for a node that is no input, the word K of its state.
        word: usize,
    },
    /// 5: a transition's parameter, operator or target is wrong.
    Transition {
        /// That word.
        word: usize,
    },
    /// 6: the plan goes on after its last state.
    WordsLeft {
        /// The first word too many.
        word: usize,
    },
    /// 7: there are not exactly as many numbers as the plan says.
    Numbers,
    /// 8: a parameter number of 32 or above.
    Parameter,
    /// 9: the figure has no such state as the player is in or on its way to.
    State,
    /// 10: the output is shorter than 16 floats a joint.
    Output,
    /// 11: a line of the text is malformed, missing or one too many, or has a count above its limit.
    Line {
        /// The number of that line.
        line: usize,
    },
    /// 12: the plan or the numbers do not fit into the slices that were lent for them.
    Slices,
    /// 14: a clip's ending is neither 0 (loop) nor 1 (stop).
    Ending {
        /// That word; the clip's N is the word before it.
        word: usize,
    },
    /// 16: the figure has no such state or node, or the node is no clip.
    ClipNode,
    /// 17: the clip has no samples, or stops, and so it has no loops.
    LoopingClip,
    /// A refusal that this version of the crate does not know.
    Other {
        /// Its number.
        number: usize,
        /// Its place.
        place: usize,
    },
}

impl Refusal {
    /// The refusal with this number and place; `None` for number 0, the acceptance.
    ///
    /// A pair that documents 01 and 02 do not have is [`Refusal::Other`], so that both can be read back.
    pub const fn from_answer(number: usize, place: usize) -> Option<Refusal> {
        Some(match (number, place) {
            (0, _) => return None,
            (1, length) => Refusal::PlanEnded { length },
            (2, word) => Refusal::Count { word },
            (3, word) => Refusal::Parent { word },
            (4, word) => Refusal::Node { word },
            (5, word) => Refusal::Transition { word },
            (6, word) => Refusal::WordsLeft { word },
            (7, 0) => Refusal::Numbers,
            (8, 0) => Refusal::Parameter,
            (9, 0) => Refusal::State,
            (10, 0) => Refusal::Output,
            (11, line) => Refusal::Line { line },
            (12, 0) => Refusal::Slices,
            (14, word) => Refusal::Ending { word },
            (16, 0) => Refusal::ClipNode,
            (17, 0) => Refusal::LoopingClip,
            (number, place) => Refusal::Other { number, place },
        })
    }

    /// Its number, as the program prints it.
    pub const fn number(&self) -> usize {
        match *self {
            Refusal::PlanEnded { .. } => 1,
            Refusal::Count { .. } => 2,
            Refusal::Parent { .. } => 3,
            Refusal::Node { .. } => 4,
            Refusal::Transition { .. } => 5,
            Refusal::WordsLeft { .. } => 6,
            Refusal::Numbers => 7,
            Refusal::Parameter => 8,
            Refusal::State => 9,
            Refusal::Output => 10,
            Refusal::Line { .. } => 11,
            Refusal::Slices => 12,
            Refusal::Ending { .. } => 14,
            Refusal::ClipNode => 16,
            Refusal::LoopingClip => 17,
            Refusal::Other { number, .. } => number,
        }
    }

    /// Its place, as the program prints it: 0 where a refusal has none.
    pub const fn place(&self) -> usize {
        match *self {
            Refusal::PlanEnded { length } => length,
            Refusal::Count { word }
            | Refusal::Parent { word }
            | Refusal::Node { word }
            | Refusal::Transition { word }
            | Refusal::WordsLeft { word }
            | Refusal::Ending { word } => word,
            Refusal::Line { line } => line,
            Refusal::Other { place, .. } => place,
            Refusal::Numbers
            | Refusal::Parameter
            | Refusal::State
            | Refusal::Output
            | Refusal::Slices
            | Refusal::ClipNode
            | Refusal::LoopingClip => 0,
        }
    }
}

/// What a word that is out of its range should be.
fn range(word: usize) -> &'static str {
    match word {
        0 => "the number of joints must be 1 to 400",
        1 => "the number of clips must be 1 to 16",
        2 => "the number of parameters must be 0 to 32",
        3 => "the number of states must be 1 to 16",
        4 => "the initial state must be below the number of states",
        _ => {
            "a clip has 0 to 4096 samples, a state 1 to 31 nodes and 0 to 16 transitions, \
             a plan at most 64 clip nodes"
        }
    }
}

/// What is wrong with a word of the plan.
fn wrong_word(refusal: Refusal, word: usize) -> String {
    match refusal {
        Refusal::Count { .. } => format!(" is out of range: {}", range(word)),
        Refusal::Parent { .. } => {
            let joint = word.saturating_sub(HEADER);
            format!(
                ", the parent of joint {joint}, is neither an earlier joint nor 65535, which marks a root \
                 (255 marks one only in a figure of at most 64 joints)"
            )
        }
        Refusal::Node { .. } => {
            " is wrong in a node, or counts nodes of which one is not used".into()
        }
        Refusal::Transition { .. } => " is wrong in a transition".into(),
        Refusal::Ending { .. } => ", a clip's ending, is neither 0 (loop) nor 1 (stop)".into(),
        _ => " is one too many: the last state ended before it".into(),
    }
}

impl fmt::Display for Refusal {
    fn fmt(&self, f: &mut fmt::Formatter<'_>) -> fmt::Result {
        write!(f, "refusal {}: ", self.number())?;
        match *self {
            Refusal::PlanEnded { length } => write!(f, "the plan ends too early, after {length} words"),
            Refusal::Count { word }
            | Refusal::Parent { word }
            | Refusal::Node { word }
            | Refusal::Transition { word }
            | Refusal::WordsLeft { word }
            | Refusal::Ending { word } => write!(f, "word {word} of the plan{}", wrong_word(*self, word)),
            Refusal::Numbers => write!(f, "there are not exactly as many numbers as the plan says"),
            Refusal::Parameter => write!(f, "there is no such parameter: they are numbered 0 to 31"),
            Refusal::State => write!(f, "the figure lacks the state that the player is in or on its way to"),
            Refusal::Output => write!(f, "the output is too short: a frame writes 16 floats a joint"),
            Refusal::Line { line } => write!(
                f,
                "line {line} of the text is malformed, missing or one too many, or has a count above its limit"
            ),
            Refusal::Slices => write!(f, "the slices are too short for the text's plan and numbers"),
            Refusal::ClipNode => write!(
                f,
                "there is no such clip node: name a state of the figure, and a node of it that plays a clip"
            ),
            Refusal::LoopingClip => write!(
                f,
                "the clip is empty or stops: only a clip with samples and the ending 0 has loops to count"
            ),
            Refusal::Other { place, .. } => write!(f, "unknown to this version of the crate, at place {place}"),
        }
    }
}

impl Error for Refusal {}
