//! Figures written by hand, with the marks that document 02's Card 3 gives them, and such as are refused.

use super::draft::Draft;
use super::printed::LONGEST;
use crate::lists::figures::{chain as deep_tree, emptied, figure, state, stopping, Go};
use crate::lists::figures::{EQUAL, GREATER};

/// A figure, and its marks of states, parameters and clips.
pub struct Known {
    pub name: &'static str,
    pub draft: Draft,
    pub marks: [&'static str; 3],
}

const ALL: &str = "1111111111111111";

/// Goes to the target where the parameter is above a half.
fn go(parameter: u16, target: u16) -> Go {
    (parameter, GREATER, target, 0.5, 1.0)
}

fn clip(number: u16) -> [u16; 4] {
    [0, number, 0, 0]
}

/// So many clips of a sample each.
fn clips(count: usize) -> Vec<(u16, f32)> {
    vec![(1, 1.0); count]
}

/// State i plays clip i and has these transitions.
fn graph(parameters: u16, goes: &[&[Go]]) -> Draft {
    let states = goes.iter().zip(0..);
    let states = states.map(|(goes, number)| state(&[clip(number)], goes));
    figure(1, &clips(goes.len()), parameters, states.collect())
}

/// One state that joins two clips.
fn joined(kind: u16, inputs: [u16; 2], parameter: u16, parameters: u16) -> Draft {
    let nodes = [clip(inputs[0]), clip(inputs[1]), [kind, 0, 1, parameter]];
    figure(1, &clips(5), parameters, vec![state(&nodes, &[])])
}

fn from(initial: u16, mut draft: Draft) -> Draft {
    draft.initial = initial;
    draft
}

/// 16 states, each with a transition to the next in this order, which reads the parameter of its own
/// number. So the last is reached by 15 transitions and no fewer.
fn chain(order: impl Fn(u16) -> u16) -> Draft {
    let mut goes = vec![Vec::new(); 16];
    for i in 0..15 {
        goes[usize::from(order(i))].push(go(order(i), order(i + 1)));
    }
    let goes: Vec<&[Go]> = goes.iter().map(Vec::as_slice).collect();
    from(order(0), graph(17, &goes))
}

/// 16 states, each with a parameter for its lerp node and one for its transition.
fn everything(target: impl Fn(u16) -> u16) -> Draft {
    let one = |i: u16| {
        let nodes = [clip(i), clip(i), [1 + i % 2, 0, 1, 2 * i]];
        state(&nodes, &[go(2 * i + 1, target(i))])
    };
    figure(1, &clips(16), 32, (0..16).map(one).collect())
}

fn cut_chain() -> Draft {
    let mut draft = chain(|i| i);
    draft.states[7].transitions.clear();
    draft
}

/// The second state goes to itself, and has clips and parameters of its own.
fn apart() -> Draft {
    let states = vec![
        state(&[clip(0), clip(0), [1, 0, 1, 0]], &[]),
        state(&[clip(1), clip(2), [2, 0, 1, 1]], &[go(2, 1)]),
    ];
    figure(1, &clips(3), 3, states)
}

/// Empty clips, one of them stopping: under a lerp node, of a state that is gone to, of one that is not.
fn pauses() -> Draft {
    let states = vec![
        state(&[clip(0), clip(3), [1, 0, 1, 0]], &[go(0, 1)]),
        state(&[clip(1)], &[]),
        state(&[clip(2)], &[]),
    ];
    stopping(emptied(figure(1, &clips(5), 1, states), &[0, 1, 2]), &[1])
}

/// Clip 0 and parameter 0 are the second state's too, which is not reachable.
fn shared() -> Draft {
    let states = vec![
        state(&[clip(0)], &[go(0, 0)]),
        state(
            &[clip(0), clip(1), [1, 0, 1, 0]],
            &[go(0, 1), go(1, 1), go(1, 0)],
        ),
    ];
    figure(1, &clips(2), 2, states)
}

fn backwards() -> Draft {
    let states = vec![
        state(&[clip(0)], &[go(0, 2), go(0, 0)]),
        state(&[clip(1), clip(1), [1, 0, 1, 1]], &[]),
        state(&[clip(2)], &[go(2, 1)]),
    ];
    from(2, figure(1, &clips(3), 3, states))
}

fn sixteen_targets() -> Draft {
    let goes: Vec<Go> = (0..16).map(|i| go(i, 15 - i)).collect();
    let mut all: Vec<&[Go]> = vec![&[]; 16];
    all[0] = &goes;
    graph(32, &all)
}

pub fn known() -> Vec<Known> {
    let all = chains().into_iter().chain(graphs()).chain(nodes());
    let known = |(name, draft, marks)| Known { name, draft, marks };
    all.map(known).collect()
}

type Row = (&'static str, Draft, [&'static str; 3]);

fn chains() -> Vec<Row> {
    let steps = |i: u16| (3 + 7 * i) % 16;
    let middle = from(5, chain(|i| i));
    let half = ["0000011111111111", "00000111111111100", "0000011111111111"];
    let cut = ["1111111100000000", "11111110000000000", "1111111100000000"];
    let nine = from(9, everything(|i| i));
    let one = [
        "0000000001000000",
        "00000000000000000011000000000000",
        "0000000001000000",
    ];
    let both = "11111111111111111111111111111111";
    let first = "11111111111111110000000000000000";
    vec![
        ("chain", chain(|i| i), [ALL, "11111111111111100", ALL]),
        ("down", chain(|i| 15 - i), [ALL, "01111111111111110", ALL]),
        ("mixed", chain(steps), [ALL, "11111111111101110", ALL]),
        ("middle", middle, half),
        ("cut", cut_chain(), cut),
        ("everything", everything(|i| (i + 1) % 16), [ALL, both, ALL]),
        ("one of many", nine, one),
        ("sixteen targets", sixteen_targets(), [ALL, first, ALL]),
    ]
}

fn graphs() -> Vec<Row> {
    let inward = graph(2, &[&[], &[go(1, 0)]]);
    let own = graph(1, &[&[go(0, 0)], &[]]);
    let back = graph(
        5,
        &[&[go(0, 1)], &[go(1, 0), go(2, 2)], &[go(3, 0)], &[go(4, 0)]],
    );
    let islands = graph(4, &[&[go(0, 1)], &[go(1, 0)], &[go(2, 3)], &[go(3, 2)]]);
    let fork = graph(
        5,
        &[
            &[go(0, 1), go(0, 2)],
            &[go(1, 3)],
            &[go(2, 3)],
            &[],
            &[go(4, 1)],
        ],
    );
    // No value is equal to NaN.
    let never = graph(1, &[&[(0, EQUAL, 1, f32::NAN, 1.0)], &[]]);
    let twice = graph(2, &[&[go(1, 1), go(1, 1)], &[], &[]]);
    vec![
        ("apart", apart(), ["10", "100", "100"]),
        ("inward", inward, ["10", "00", "10"]),
        ("own loop", own, ["10", "1", "10"]),
        ("not state 0", backwards(), ["011", "011", "011"]),
        ("back", back, ["1110", "11110", "1110"]),
        ("islands", from(2, islands), ["0011", "0011", "0011"]),
        ("fork", fork, ["11110", "11100", "11110"]),
        ("never passes", never, ["11", "1", "11"]),
        ("twice", twice, ["110", "01", "110"]),
        ("shared", shared(), ["10", "10", "10"]),
    ]
}

fn nodes() -> Vec<Row> {
    let condition = graph(3, &[&[go(1, 1)], &[]]);
    let clip_alone = figure(1, &clips(2), 2, vec![state(&[clip(0)], &[])]);
    let deep = figure(1, &clips(4), 5, vec![state(&deep_tree(), &[])]);
    let least = figure(1, &[(0, 1.0)], 0, vec![state(&[clip(0)], &[])]);
    let wide = figure(
        400,
        &[(0, 1.0); 2],
        0,
        vec![state(&[clip(0)], &[]), state(&[clip(1)], &[])],
    );
    let empty = emptied(clip_alone.clone(), &[0]);
    vec![
        ("pauses", pauses(), ["110", "1", "11010"]),
        ("empty", empty, ["1", "00", "10"]),
        ("condition", condition, ["11", "010", "11"]),
        ("lerp", joined(1, [0, 0], 1, 4), ["1", "0100", "10000"]),
        ("additive", joined(2, [0, 0], 2, 4), ["1", "0010", "10000"]),
        // The inputs' numbers 0 and 1 are no clips'.
        ("inputs", joined(1, [3, 4], 1, 2), ["1", "01", "00011"]),
        // A clip node's p is 0, which is no parameter's.
        ("clip alone", clip_alone, ["1", "00", "10"]),
        ("deep", deep, ["1", "11110", "1110"]),
        ("least", least, ["1", "", "1"]),
        ("wide", wide, ["10", "", "10"]),
    ]
}

/// Texts, and the refusal's number and place. A plan that is read cannot end early or have words left over.
pub fn refused() -> Vec<(Vec<u8>, (u8, usize))> {
    let changed = |change: fn(&mut Draft)| {
        let mut draft = chain(|i| i);
        change(&mut draft);
        draft.text().into_bytes()
    };
    let whole = chain(|i| i).text();
    vec![
        (changed(|d| d.initial = 16), (2, 4)),
        (changed(|d| d.parents[0] = 0), (3, 5)),
        (changed(|d| d.clips[15].ending = 2), (14, 37)),
        (changed(|d| d.states[15].nodes[0][1] = 16), (4, 175)),
        (
            changed(|d| d.states[14].transitions[0].words[2] = 16),
            (5, 172),
        ),
        ((whole + "\n").into(), (11, 82)),
        (vec![b'0'; LONGEST + 1], (13, LONGEST)),
    ]
}
