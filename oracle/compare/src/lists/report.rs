//! What the program `replay` prints for a figure's text and a list of calls.

use super::call::{parsed, Call};
use crate::model::loops::Played;
use crate::player::Seen;
use crate::reference::Reference;
use crate::row::joined;
use crate::texts::figure::Refusal;
use crate::texts::printed::{joint_line, read};
use skeletal_animation::math::Matrix4;

pub fn report(figure: &[u8], list: &[u8]) -> String {
    let figure = match read(figure) {
        Ok(figure) => figure,
        Err(refusal) => return answer_line(Err(refusal)),
    };
    let calls = match parsed(list) {
        Ok(calls) => calls,
        Err(line) => return format!("malformed,{line}\n"),
    };
    let mut player = Reference::start(&figure);
    let mut text = answer_line(player.answer()) + &player_line(&player.player().seen());
    for call in calls {
        let done = done(&mut player, call);
        text += &answer_line(done.as_ref().map(|_| ()).map_err(|refusal| *refusal));
        text += &player_line(&player.player().seen());
        text += &done.map_or(String::new(), |output| output.lines());
    }
    text + &ending(&player.player().seen())
}

/// What an accepted call gives beside the player.
pub enum Output {
    Nothing,
    /// Each joint's.
    Matrices(Vec<Matrix4<f32>>),
    Loops(Played),
}

impl Output {
    fn lines(&self) -> String {
        match self {
            Output::Nothing => String::new(),
            Output::Matrices(matrices) => matrices.iter().enumerate().map(joint_line).collect(),
            Output::Loops(Played { loops, rest }) => format!("loops,{loops},{rest}\n"),
        }
    }
}

pub fn done(player: &mut Reference, call: Call) -> Result<Output, Refusal> {
    match call {
        Call::Update(delta) => player.update(f64::from_bits(delta)),
        Call::Speed(speed) => player.speed(f64::from_bits(speed)),
        Call::Set(parameter, value) => player.set(parameter, f32::from_bits(value))?,
        Call::Frame(ext, length) => {
            let matrices = player.frame(f64::from_bits(ext), length)?;
            return Ok(Output::Matrices(matrices));
        }
        Call::Page(ext, length) => {
            let matrices = player.page_frame(f64::from_bits(ext), length)?;
            return Ok(Output::Matrices(matrices));
        }
        Call::Loops(state, node, time) => {
            let played = player.loops(state, node, f32::from_bits(time))?;
            return Ok(Output::Loops(played));
        }
    }
    Ok(Output::Nothing)
}

pub fn answer_line(answer: Result<(), Refusal>) -> String {
    match answer {
        Ok(()) => "ok\n".to_string(),
        Err(Refusal { number, place }) => format!("refused,{number},{place}\n"),
    }
}

pub fn player_line(player: &Seen) -> String {
    let transition = match player.transition {
        None => "idle".to_string(),
        Some((start, target, duration)) => {
            format!("running,{start:016x},{target},{duration:08x}")
        }
    };
    let Seen {
        clock,
        speed,
        state,
        ..
    } = player;
    format!("player,{clock:016x},{speed:016x},{state},{transition}\n")
}

/// The parameters' line and the instances' lines.
pub fn ending(player: &Seen) -> String {
    let mut text = format!("parameters,{}\n", joined(&player.parameters));
    for (n, instance) in player.instances.iter().enumerate() {
        text += &format!("instance,{n},{}\n", joined(instance));
    }
    text
}

#[cfg(test)]
mod tests {
    use super::*;
    use crate::lists::call::text;
    use crate::texts::edges::BLEND;
    use crate::texts::printed::LONGEST;

    fn lines(calls: &[Call]) -> Vec<String> {
        let report = report(BLEND.as_bytes(), text(calls).as_bytes());
        report.lines().map(String::from).collect()
    }

    #[test]
    fn what_does_not_read_is_told_alone() {
        let calls = text(&[Call::update(1.0)]);
        assert_eq!(report(b"", calls.as_bytes()), "refused,11,1\n");
        assert_eq!(report(b"", b"x"), "refused,11,1\n");
        assert_eq!(report(&[b'x'; LONGEST + 1], b""), "refused,13,65536\n");
        assert_eq!(report(BLEND.as_bytes(), b"x"), "malformed,1\n");
        let refused = BLEND.replace("joint,255", "joint,0");
        assert_eq!(report(refused.as_bytes(), b"\n"), "malformed,1\n");
    }

    #[test]
    fn an_empty_list_shows_the_fresh_player() {
        let lines = lines(&[]);
        assert_eq!(lines.len(), 2 + 1 + 64);
        assert_eq!(lines[0], "ok");
        assert_eq!(lines[1], "player,0000000000000000,3ff0000000000000,0,idle");
        let zeros = vec!["00000000"; 32].join(",");
        assert_eq!(lines[2], format!("parameters,{zeros}"));
        // Lengths 1 and 0.5, by a parameter of 0: rates 1 and 0.5.
        assert_eq!(lines[3], "instance,0,00000000,3f800000,00000000");
        assert_eq!(lines[4], "instance,1,00000000,3f000000,00000000");
        assert_eq!(lines[5], "instance,2,00000000,3f800000,00000000");
        assert_eq!(lines[66], "instance,63,00000000,3f800000,00000000");
    }

    /// In BLEND the transition begins in the first frame and is over half a second later.
    #[test]
    fn a_transition_begins_and_ends() {
        let calls = [
            Call::frame(0.25, 16),
            Call::update(0.5),
            Call::page(0.25, 15),
            Call::page(0.25, 16),
        ];
        let lines = lines(&calls);
        let begun = "0,running,3fd0000000000000,1,3f000000";
        assert_eq!(lines[2], "ok");
        assert_eq!(
            lines[3],
            format!("player,0000000000000000,3ff0000000000000,{begun}")
        );
        assert!(lines[4].starts_with("joint,0,"));
        let moved = format!("player,3fe0000000000000,3ff0000000000000,{begun}");
        assert_eq!(lines[5..7], ["ok".to_string(), moved.clone()]);
        assert_eq!(lines[7..9], ["refused,10,0".to_string(), moved]);
        assert_eq!(lines[9], "ok");
        assert_eq!(lines[10], "player,3fe0000000000000,3ff0000000000000,1,idle");
        assert!(lines[11].starts_with("joint,0,"));
        assert!(lines[12].starts_with("parameters,"));
    }

    /// In BLEND clip 1 has one sample, two a second; at a parameter of 0 node 1 plays it at half speed.
    #[test]
    fn loops_are_told_behind_the_player() {
        let calls = [
            Call::update(0.5),
            Call::loops(0, 1, 7.5),
            Call::loops(0, 2, 7.5),
            Call::loops(1, 0, f32::INFINITY),
            Call::speed(2.0),
        ];
        let lines = lines(&calls);
        let moved = "player,3fe0000000000000,3ff0000000000000,0,idle";
        let expected = [
            "ok",
            moved,
            "ok",
            moved,
            "loops,7,0",
            "refused,16,0",
            moved,
            "ok",
            moved,
            "loops,18446744073709551615,0",
            "ok",
            "player,3fe0000000000000,4000000000000000,0,idle",
        ];
        assert_eq!(lines[2..14], expected);
        assert!(lines[14].starts_with("parameters,"));
    }

    #[test]
    fn after_a_refused_start_the_blank_player_goes_on() {
        let refused = BLEND.replace("joint,255", "joint,0");
        let calls = [
            Call::update(2.0),
            Call::set(31, -1.0),
            Call::set(32, 1.0),
            Call::frame(0.0, 16),
            Call::loops(0, 0, 0.0),
        ];
        let report = report(refused.as_bytes(), text(&calls).as_bytes());
        let lines: Vec<&str> = report.lines().collect();
        let moved = "player,4000000000000000,3ff0000000000000,0,idle";
        let expected = [
            "ok",
            moved,
            "ok",
            moved,
            "refused,8,0",
            moved,
            "refused,3,5",
            moved,
            "refused,3,5",
        ];
        assert_eq!(lines[0], "refused,3,5");
        assert_eq!(lines[2..11], expected);
        assert!(lines[12].ends_with(",bf800000"));
        assert_eq!(lines[14], "instance,1,00000000,3f800000,00000000");
    }
}
