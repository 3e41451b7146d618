//! Texts at the edges of what the reader takes, each with the answer that documents 01 and 02 give: a
//! refusal's number and place, or none where the figure is played.

use super::joints::ROOT;

/// A lerp node and a transition in 316 bytes. Parameter 0 is 0, so the transition begins.
pub const BLEND: &str = "\
figure,1,2,1,2,0
joint,255
clip,1,3f800000,0
clip,1,40000000,0
state,3,1
node,0,0,0,0
node,0,1,0,0
node,1,0,1,0
go,0,4,1,00000000,3f000000
state,1,0
node,0,1,0,0
pose,3f800000,40000000,40400000,3f800000,3f3504f3,00000000,00000000,3f3504f3
pose,00000000,3f800000,00000000,3f800000,3f800000,00000000,00000000,00000000
";

pub type Answer = Option<(u8, usize)>;

/// A line of `BLEND`, what stands in its place, and the answer. Line 14 comes after the last.
const LINES: [(usize, &str, Answer); 104] = [
    (1, "figure,1,2,1,2,0\n", None),
    // Lines that are not there, not whole, or too many.
    (1, "", Some((11, 1))),
    (6, "", Some((11, 8))),
    (9, "", Some((11, 9))),
    (12, "", Some((11, 13))),
    (13, "", Some((11, 13))),
    (13, POSE_WITHOUT_LF, Some((11, 13))),
    (13, "\n", Some((11, 13))),
    (14, "\n", Some((11, 14))),
    (14, "\0", Some((11, 14))),
    (14, "pose", Some((11, 14))),
    (14, "joint,255\n", Some((11, 14))),
    (1, "\nfigure,1,2,1,2,0\n", Some((11, 1))),
    (3, "joint,255\nclip,1,3f800000,0\n", Some((11, 3))),
    (5, "state,3,2\n", Some((11, 10))),
    // Only LF ends a line.
    (2, "joint,255\r\n", Some((11, 2))),
    (2, "joint,255\r", Some((11, 2))),
    (2, "joint,255\0\n", Some((11, 2))),
    (2, "joint,255\u{b}\n", Some((11, 2))),
    // Names.
    (2, "Joint,255\n", Some((11, 2))),
    (2, "joints,255\n", Some((11, 2))),
    (2, "join,255\n", Some((11, 2))),
    (2, ",255\n", Some((11, 2))),
    (2, " joint,255\n", Some((11, 2))),
    (1, "\u{feff}figure,1,2,1,2,0\n", Some((11, 1))),
    // How many fields.
    (2, "joint\n", Some((11, 2))),
    (2, "joint,\n", Some((11, 2))),
    (2, "joint,255,\n", Some((11, 2))),
    (2, "joint,255,0\n", Some((11, 2))),
    (2, "joint,,255\n", Some((11, 2))),
    (6, "node,0,0,0\n", Some((11, 6))),
    (6, "node,0,0,0,\n", Some((11, 6))),
    (6, "node,0,0,0,0,0\n", Some((11, 6))),
    (9, "go,0,4,1,00000000\n", Some((11, 9))),
    // Decimals.
    (6, "node,0,0,0,00\n", Some((11, 6))),
    (6, "node,00,0,0,0\n", Some((11, 6))),
    (7, "node,0,01,0,0\n", Some((11, 7))),
    (2, "joint,0255\n", Some((11, 2))),
    (2, "joint,+255\n", Some((11, 2))),
    (2, "joint,-1\n", Some((11, 2))),
    (2, "joint, 255\n", Some((11, 2))),
    (2, "joint,255 \n", Some((11, 2))),
    (2, "joint,2.5\n", Some((11, 2))),
    (2, "joint,ff\n", Some((11, 2))),
    (2, "joint,\"255\"\n", Some((11, 2))),
    (2, "joint,2/5\n", Some((11, 2))),
    (2, "joint,2:5\n", Some((11, 2))),
    (2, "joint,65534\n", Some((3, 5))),
    (2, "joint,65535\n", None),
    (2, "joint,65536\n", Some((11, 2))),
    (2, "joint,65791\n", Some((11, 2))),
    (2, "joint,18446744073709551871\n", Some((11, 2))),
    // Float bits.
    (3, "clip,1,ffffffff,0\n", None),
    (3, "clip,1,3F800000,0\n", Some((11, 3))),
    (3, "clip,1,3f80000,0\n", Some((11, 3))),
    (3, "clip,1,03f800000,0\n", Some((11, 3))),
    (3, "clip,1,0x3f8000,0\n", Some((11, 3))),
    (3, "clip,1,+f800000,0\n", Some((11, 3))),
    (3, "clip,1,3f80000g,0\n", Some((11, 3))),
    (3, "clip,1,3f80000`,0\n", Some((11, 3))),
    (3, "clip,1,,0\n", Some((11, 3))),
    // Endings: any decimal for the reader. The first form of the line had none.
    (3, "clip,1,3f800000,1\n", None),
    (4, "clip,1,40000000,1\n", None),
    (3, "clip,1,3f800000,2\n", Some((14, 7))),
    (4, "clip,1,40000000,2\n", Some((14, 9))),
    (3, "clip,1,3f800000,255\n", Some((14, 7))),
    (3, "clip,1,3f800000,4097\n", Some((14, 7))),
    (3, "clip,1,3f800000,65535\n", Some((14, 7))),
    (3, "clip,1,3f800000,65536\n", Some((11, 3))),
    (3, "clip,1,3f800000,65537\n", Some((11, 3))),
    (3, "clip,1,3f800000,00\n", Some((11, 3))),
    (3, "clip,1,3f800000,01\n", Some((11, 3))),
    (3, "clip,1,3f800000,-0\n", Some((11, 3))),
    (3, "clip,1,3f800000, 0\n", Some((11, 3))),
    (3, "clip,1,3f800000,00000000\n", Some((11, 3))),
    (3, "clip,1,3f800000,\n", Some((11, 3))),
    (3, "clip,1,3f800000\n", Some((11, 3))),
    (4, "clip,1,40000000\n", Some((11, 4))),
    (3, "clip,1,3f800000,0,\n", Some((11, 3))),
    (3, "clip,1,3f800000,0,0\n", Some((11, 3))),
    (3, "clip,1,0,3f800000\n", Some((11, 3))),
    (3, "clip,3f800000,1,0\n", Some((11, 3))),
    // Counts at their upper limits and above: the limit lets the line pass.
    (1, "figure,65,2,1,2,0\n", Some((11, 3))),
    (1, "figure,400,2,1,2,0\n", Some((11, 3))),
    (1, "figure,401,2,1,2,0\n", Some((11, 1))),
    (1, "figure,1,16,1,2,0\n", Some((11, 5))),
    (1, "figure,1,17,1,2,0\n", Some((11, 1))),
    (1, "figure,1,2,32,2,0\n", None),
    (1, "figure,1,2,33,2,0\n", Some((11, 1))),
    (1, "figure,1,2,1,16,0\n", Some((11, 12))),
    (1, "figure,1,2,1,17,0\n", Some((11, 1))),
    (3, "clip,4096,3f800000,0\n", Some((11, 14))),
    (3, "clip,4097,3f800000,2\n", Some((11, 3))),
    (3, "clip,0,3f800000,0\n", Some((11, 13))),
    (4, "clip,0,40000000,2\n", Some((11, 13))),
    (5, "state,31,1\n", Some((11, 9))),
    (5, "state,32,1\n", Some((11, 5))),
    (5, "state,3,16\n", Some((11, 10))),
    (5, "state,3,17\n", Some((11, 5))),
    // What is no count above its limit is left to the start.
    (1, "figure,1,2,1,2,2\n", Some((2, 4))),
    (1, "figure,1,2,1,2,65535\n", Some((2, 4))),
    (6, "node,9,65535,65535,65535\n", Some((4, 11))),
    (9, "go,32,4,1,00000000,3f000000\n", Some((5, 24))),
    (9, "go,0,4,16,00000000,3f000000\n", Some((5, 26))),
];

const POSE_WITHOUT_LF: &str =
    "pose,00000000,3f800000,00000000,3f800000,3f800000,00000000,00000000,00000000";

const WHOLE: [(&str, Answer); 11] = [
    ("", Some((11, 1))),
    ("\n", Some((11, 1))),
    ("figure", Some((11, 1))),
    ("figure,0,0,0,0,0", Some((11, 1))),
    ("figure,0,0,0,0,0\n", Some((2, 0))),
    ("figure,0,0,0,0,0\n\n", Some((11, 2))),
    ("figure,1,0,0,0,0\njoint,0\n", Some((2, 1))),
    (
        "figure,1,1,0,0,0\njoint,0\nclip,0,00000000,0\n",
        Some((2, 3)),
    ),
    (
        "figure,1,1,0,1,0\njoint,0\nclip,0,00000000,2\nstate,0,0\n",
        Some((3, 5)),
    ),
    (
        "figure,1,1,0,1,0\njoint,255\nclip,0,00000000,0\nstate,0,0\n",
        Some((2, 8)),
    ),
    ("figure,0,16,0,0,0\nclip,4096,00000000,0\n", Some((11, 3))),
];

/// J, a joint and its parent, and the answer. All other joints are roots.
const PARENTS: [(u16, u16, u16, Answer); 24] = [
    (2, 1, 255, None),
    (2, 1, 65535, None),
    (2, 1, 254, Some((3, 6))),
    (2, 1, 256, Some((3, 6))),
    (64, 63, 255, None),
    (64, 63, 254, Some((3, 68))),
    (64, 63, 256, Some((3, 68))),
    (64, 63, 65534, Some((3, 68))),
    (65, 64, 65535, None),
    (65, 0, 255, Some((3, 5))),
    (65, 32, 255, Some((3, 37))),
    (65, 64, 255, Some((3, 69))),
    (65, 64, 64, Some((3, 69))),
    (255, 254, 255, Some((3, 259))),
    (256, 255, 255, Some((3, 260))),
    (257, 0, 255, Some((3, 5))),
    (257, 255, 255, Some((3, 260))),
    (257, 256, 256, Some((3, 261))),
    (257, 256, 65534, Some((3, 261))),
    (400, 255, 255, Some((3, 260))),
    (400, 399, 399, Some((3, 404))),
    (400, 399, 400, Some((3, 404))),
    (400, 399, 65279, Some((3, 404))),
    (401, 400, 255, Some((11, 1))),
];

/// N and ending of two clips, and the answer. Their state has no nodes, which is found after them.
const CLIPS: [([u16; 4], Answer); 11] = [
    ([1, 0, 1, 0], Some((2, 10))),
    ([1, 1, 1, 1], Some((2, 10))),
    ([0, 0, 0, 1], Some((2, 10))),
    ([1, 2, 1, 0], Some((14, 7))),
    ([1, 0, 1, 2], Some((14, 9))),
    ([1, 2, 1, 2], Some((14, 7))),
    ([0, 2, 1, 0], Some((14, 7))),
    ([0, 2, 0, 2], Some((14, 7))),
    ([0, 0, 1, 2], Some((14, 9))),
    ([1, 2, 0, 0], Some((14, 7))),
    ([1, 1, 0, 65535], Some((14, 9))),
];

const BETWEEN: [&str; 3] = [
    "clip,2,3f800000,0",
    "clip,0,3f800000,1",
    "clip,1,3f800000,0",
];

/// Clip lines of a figure that plays its last clip, how many pose lines follow, and the answer. The
/// pose lines begin behind the state's two.
const PAUSES: [(&[&str], usize, Answer); 12] = [
    (&["clip,0,3f800000,0"], 0, None),
    (&["clip,0,3f800000,1"], 0, None),
    (&["clip,0,7fc00000,1"], 0, None),
    (&["clip,0,3f800000,2"], 0, Some((14, 7))),
    (&["clip,0,3f800000,65536"], 0, Some((11, 3))),
    (&["clip,00,3f800000,0"], 0, Some((11, 3))),
    (&["clip,0,,0"], 0, Some((11, 3))),
    (&["clip,0,3f800000,0"], 1, Some((11, 6))),
    (&["clip,0,3f800000,0", "clip,0,00000000,1"], 0, None),
    (&BETWEEN, 3, None),
    (&BETWEEN, 2, Some((11, 10))),
    (&BETWEEN, 4, Some((11, 11))),
];

pub fn edges() -> Vec<(Vec<u8>, Answer)> {
    let lines = LINES.map(|(number, line, answer)| (with_line(number, line).into(), answer));
    let whole = WHOLE.map(|(text, answer)| (text.into(), answer));
    let clips = CLIPS.map(|(words, answer)| (two_clips(words).into(), answer));
    let pauses = PAUSES.map(|(clips, poses, answer)| (paused(clips, poses).into(), answer));
    let parents = PARENTS.map(|(joints, joint, parent, answer)| {
        let text = with_parent(joints, joint, parent);
        (text.into(), answer)
    });
    let edges = lines.into_iter().chain(whole).chain(clips);
    edges.chain(pauses).chain(parents).collect()
}

fn with_parent(joints: u16, joint: u16, parent: u16) -> String {
    let words = (0..joints).map(|other| if other == joint { parent } else { ROOT });
    let lines: String = words.map(|word| format!("joint,{word}\n")).collect();
    format!("figure,{joints},1,0,1,0\n{lines}clip,0,3f800000,0\nstate,1,0\nnode,0,0,0,0\n")
}

fn paused(clips: &[&str], poses: usize) -> String {
    let (count, last) = (clips.len(), clips.len() - 1);
    let clips: String = clips.iter().map(|line| format!("{line}\n")).collect();
    let poses = format!("{POSE_WITHOUT_LF}\n").repeat(poses);
    format!("figure,1,{count},0,1,0\njoint,255\n{clips}state,1,0\nnode,0,{last},0,0\n{poses}")
}

fn two_clips([samples, ending, others, other]: [u16; 4]) -> String {
    let clips = format!("clip,{samples},3f800000,{ending}\nclip,{others},3f800000,{other}\n");
    let poses = format!("{POSE_WITHOUT_LF}\n").repeat(usize::from(samples + others));
    format!("figure,1,2,0,1,0\njoint,255\n{clips}state,0,0\n{poses}")
}

fn with_line(number: usize, line: &str) -> String {
    let mut lines: Vec<&str> = BLEND.split_inclusive('\n').collect();
    lines.push("");
    lines[number - 1] = line;
    lines.concat()
}

#[cfg(test)]
mod tests {
    use super::*;
    use crate::texts::printed::{played, printed};

    #[test]
    fn are_answered_as_the_tables_say() {
        for (text, expected) in edges() {
            let refusal = played(&text).err();
            let answer = refusal.map(|refusal| (refusal.number, refusal.place));
            assert_eq!(answer, expected, "{}", text.escape_ascii());
        }
    }

    /// In the pauses' table all that is played shows the identity, but where the last clip has a sample.
    #[test]
    fn pauses_show_the_identity() {
        let (one, none) = ("3f800000", "00000000");
        let entries = (0..16).map(|i| if i % 5 == 0 { one } else { none });
        let line = format!("joint,0,{}\n", entries.collect::<Vec<_>>().join(","));
        for (clips, poses, _) in PAUSES.iter().filter(|(_, _, answer)| answer.is_none()) {
            let text = paused(clips, *poses);
            assert_eq!(printed(text.as_bytes()) == line, *poses == 0, "{text}");
        }
    }
}
