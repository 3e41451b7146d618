//! Lists whose figure is refused, or whose bytes do not read.

use super::steps;
use crate::generator::Generator;
use crate::lists::call::{text, Call};
use crate::lists::figures::{figure, going, mixed, one_clip, state, CLIP, EQUAL, THREE};
use crate::lists::recorded::List;
use crate::texts::draft::Draft;
use crate::texts::edges::BLEND;
use crate::texts::limits::{long_text, Long};
use crate::texts::printed::LONGEST;

/// Calls of each kind, to the blank player.
fn calls() -> Vec<Call> {
    vec![
        Call::frame(0.0, 65535),
        Call::update(0.5),
        Call::speed(-2.0),
        Call::update(0.25),
        Call::set(31, 0.5),
        Call::set(32, 0.5),
        Call::frame(0.5, 0),
        Call::page(0.5, 65535),
        Call::loops(9, 9, 0.5),
    ]
}

/// A name, what is refused and why, and what is done to a good figure.
type Wrong = (&'static str, &'static str, fn(&mut Draft));

const STARTS: [Wrong; 13] = [
    ("start-no-joints", "2: no joints", |d| d.parents.clear()),
    ("start-no-states", "2: no states", |d| d.states.clear()),
    ("start-ending", "14: an ending 2", |d| d.clips[0].ending = 2),
    ("start-last-ending", "14: an ending 65535", |d| {
        d.clips[1].ending = 65535
    }),
    (
        "start-pause-ending",
        "14: an ending 2 of an empty clip",
        |d| {
            d.clips[1].samples = 0;
            d.clips[1].ending = 2
        },
    ),
    (
        "start-ending-and-pause",
        "14: an ending 2 behind an empty clip",
        |d| {
            d.clips[0].samples = 0;
            d.clips[1].ending = 2
        },
    ),
    ("start-initial", "2: an initial state 2 of 2", |d| {
        d.initial = 2
    }),
    ("start-parent", "3: a joint below itself", |d| {
        d.parents[1] = 1
    }),
    ("start-node", "4: a clip 2 of 2", |d| {
        d.states[1].nodes[0][1] = 2
    }),
    ("start-unused", "4: a node left unused", |d| {
        d.states[0].nodes.push(CLIP)
    }),
    ("start-parameter", "5: parameter 0 of 0", |d| {
        d.parameters = 0
    }),
    ("start-operator", "5: an operator 6", |d| {
        d.states[0].transitions[0].words[1] = 6
    }),
    ("start-target", "5: a target 2 of 2", |d| {
        d.states[0].transitions[0].words[2] = 2
    }),
];

pub fn starts() -> Vec<List> {
    let list = |(name, purpose, change): Wrong| {
        let mut draft = going(2, &[(0, EQUAL, 1, 0.0, 1.0)]);
        change(&mut draft);
        draft.poses.truncate(draft.pose_count());
        List::new(name, purpose, &draft, &calls())
    };
    let mut lists: Vec<List> = STARTS.into_iter().map(list).collect();
    let five = figure(1, &THREE, 4, vec![state(&mixed(), &[]); 5]);
    lists.push(List::new(
        "start-65-clip-nodes",
        "2: a 65th clip node",
        &five,
        &calls(),
    ));
    lists
}

pub fn unread_figures() -> Vec<List> {
    let good = text(&calls());
    let longest = long_text(&mut Generator::new(1), Long::Widest, LONGEST);
    let too_long = longest.clone() + "\n";
    let too_many = BLEND.replace("clip,1,4", "clip,4097,4");
    let a_pose = BLEND.replace("clip,1,4", "clip,0,4");
    let list = |name: &str, purpose, figure: &str| List::raw(name, purpose, figure, good.clone());
    // As much as 64 joints need, one float less than these 400 do, and all.
    let outputs = [16 * 64, 16 * 400 - 1, 16 * 400];
    let one_frame = text(&outputs.map(|length| Call::frame(0.5, length)));
    vec![
        list("figure-empty", "11: no text at all", ""),
        list("figure-cut", "11: no LF at the end", BLEND.trim_end()),
        list("figure-samples", "11: 4,097 samples", &too_many),
        list("figure-pose", "11: a pose without a sample", &a_pose),
        list("figure-too-long", "13: 65,537 bytes", &too_long),
        List::raw(
            "figure-longest",
            "65,536 bytes, 400 joints, are read and played",
            longest,
            one_frame,
        ),
        List::raw(
            "figure-and-calls",
            "11 comes before a malformed list",
            "figure\n",
            "x",
        ),
    ]
}

/// A name, what is malformed, and what stands behind good calls.
const MALFORMED: [(&str, &str, &str); 8] = [
    (
        "calls-without-lf",
        "no LF at the end",
        "speed,0000000000000000",
    ),
    ("calls-empty-line", "an empty line", "\n"),
    ("calls-name", "a call that is not there", "start\n"),
    (
        "calls-digits",
        "digits in capitals",
        "update,3FE0000000000000\n",
    ),
    (
        "calls-too-few-digits",
        "15 digits",
        "update,3fe000000000000\n",
    ),
    ("calls-leading-zero", "a leading zero", "set,00,00000000\n"),
    (
        "calls-decimal",
        "a decimal of 65536",
        "page,0000000000000000,65536\n",
    ),
    ("calls-fields", "a field too many", "set,0,00000000,\n"),
];

pub fn call_lists() -> Vec<List> {
    let draft = one_clip(1, 1, 1.0);
    let good = text(&steps(&draft, 0.5, 2));
    let list = |(name, purpose, end): (&str, &'static str, &str)| {
        List::raw(name, purpose, draft.text(), good.clone() + end)
    };
    let mut lists: Vec<List> = MALFORMED.into_iter().map(list).collect();
    let refused = BLEND.replace("joint,255", "joint,0");
    lists.extend([
        List::raw("calls-first", "line 1 malformed", draft.text(), "\n"),
        List::raw(
            "calls-and-start",
            "a malformed list comes before refusal 3",
            refused,
            "x\n",
        ),
        List::raw("calls-none", "an empty list", draft.text(), ""),
    ]);
    lists
}
