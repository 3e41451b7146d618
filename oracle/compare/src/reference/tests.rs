//! The reference by cases that document 01 decides.

use super::Reference;
use crate::player::{Player, Running, BLANK, BLANK_INSTANCE};
use crate::texts::edges::BLEND;
use crate::texts::figure::{Figure, Refusal};
use crate::texts::reader::read;

const NO_FIGURE: Figure = Figure {
    plan: Vec::new(),
    numbers: Vec::new(),
};

fn blend() -> Figure {
    read(BLEND.as_bytes()).unwrap()
}

fn refusal(number: u8, place: usize) -> Refusal {
    Refusal { number, place }
}

#[test]
fn a_refused_start_leaves_the_blank_player() {
    let reference = Reference::start(&NO_FIGURE);
    assert_eq!(reference.answer(), Err(refusal(1, 0)));
    assert_eq!(reference.player().seen(), BLANK.seen());
}

/// Clips of lengths 2 and 6; the lerp's first input is the second node.
#[test]
fn an_instance_belongs_to_its_node_of_the_plan() {
    let plan = [
        1, 2, 1, 1, 0, 255, 2, 0, 6, 0, 3, 0, 0, 0, 0, 0, 1, 0, 0, 1, 1, 0, 0, 0,
    ];
    let mut numbers = vec![1f32.to_bits(); 2];
    numbers.resize(2 + 8 * 8, 0);
    let figure = Figure {
        plan: plan.to_vec(),
        numbers,
    };
    let reference = Reference::start(&figure);
    assert_eq!(reference.answer(), Ok(()));
    let instances = reference.player().instances;
    assert_eq!(instances[0], [0.0, 2.0 / 6.0, 0.0]);
    assert_eq!(instances[1..], [BLANK_INSTANCE; 63]);
}

/// Case j of the bench sheet: rate 1 to 0.5 at time 8 makes the offset 4.
#[test]
fn a_rate_that_changes_moves_the_offset() {
    let mut reference = Reference::start(&blend());
    let mut player = reference.player();
    player.instances[1] = BLANK_INSTANCE;
    reference.store(&player);
    reference.update(8.0);
    reference.frame(0.0, 16).unwrap();
    assert_eq!(reference.player().instances[1], [0.0, 0.5, 4.0]);
}

#[test]
fn refusals_come_in_their_order() {
    let mut reference = Reference::start(&blend());
    assert_eq!(reference.set(32, 1.0), Err(refusal(8, 0)));
    assert_eq!(reference.set(usize::MAX, 1.0), Err(refusal(8, 0)));
    assert_eq!(reference.frame(0.0, 15), Err(refusal(10, 0)));
    let fresh = reference.player();
    let elsewhere = Player {
        state: 2,
        ..fresh.clone()
    };
    let running = Running {
        start: 0.0,
        target: 2,
        duration: 1.0,
    };
    let leaving = Player {
        transition: Some(running),
        ..fresh.clone()
    };
    for player in [elsewhere, leaving] {
        reference.store(&player);
        assert_eq!(reference.frame(0.0, 15), Err(refusal(9, 0)));
        assert_eq!(reference.page_frame(0.0, 16), Err(refusal(9, 0)));
        assert_eq!(reference.player().seen(), player.seen());
        let mut other = Reference::resumed(&NO_FIGURE, &player);
        assert_eq!(other.frame(0.0, 0), Err(refusal(1, 0)));
        assert_eq!(other.player().seen(), player.seen());
    }
}

#[test]
fn a_stored_player_is_held_whole() {
    let player = Player {
        clock: -1.5,
        speed: f64::NAN,
        state: usize::MAX,
        transition: Some(Running {
            start: f64::INFINITY,
            target: 65536,
            duration: -0.0,
        }),
        parameters: std::array::from_fn(|i| i as f32),
        instances: std::array::from_fn(|i| [i as f32, 0.5, -1.0]),
    };
    for figure in [blend(), NO_FIGURE] {
        let reference = Reference::resumed(&figure, &player);
        assert_eq!(reference.player().seen(), player.seen());
    }
}

/// Of a root only entries (0, 1), (0, 2), (1, 2) and their mirror images change places.
#[test]
fn a_roots_page_matrix_is_turned_in_its_upper_part() {
    let [mut one, mut other] = [(); 2].map(|()| Reference::start(&blend()));
    let frame = one.frame(0.0, 16).unwrap()[0];
    let page = other.page_frame(0.0, 16).unwrap()[0];
    assert_ne!(frame, page);
    for i in 0..4 {
        for j in 0..4 {
            let expected = if i < 3 && j < 3 {
                frame[j][i]
            } else {
                frame[i][j]
            };
            assert_eq!(page[i][j], expected);
        }
    }
    assert_eq!(one.player().seen(), other.player().seen());
}

#[test]
fn parameters_that_no_plan_reads_are_kept() {
    let mut reference = Reference::start(&blend());
    reference.set(31, -2.5).unwrap();
    reference.frame(0.0, 16).unwrap();
    assert_eq!(reference.player().parameters[31], -2.5);
}

/// BLEND with its second clip stopping.
fn stopping() -> Figure {
    let mut figure = blend();
    figure.plan[9] = 1;
    figure
}

/// BLEND with its second clip empty.
fn empty() -> Figure {
    let mut figure = blend();
    figure.plan[8] = 0;
    figure.numbers.truncate(figure.numbers.len() - 8);
    figure
}

#[test]
fn the_rust_plays_where_all_clips_loop_and_have_samples() {
    assert!(Reference::start(&blend()).is_rust());
    assert!(Reference::start(&NO_FIGURE).is_rust());
    for figure in [stopping(), empty()] {
        let reference = Reference::start(&figure);
        assert_eq!(reference.answer(), Ok(()));
        assert!(!reference.is_rust());
    }
}

#[test]
#[should_panic(expected = "the Rust is given a clip that stops or is empty")]
fn the_rust_is_never_given_an_empty_clip() {
    super::rust::RustPlayer::start(&empty());
}

/// One clip of one sample, so many joints, roots all by this word.
fn roots(joints: u16, word: u16) -> Figure {
    let parents = vec![word; usize::from(joints)];
    let plan = [
        &[joints, 1, 0, 1, 0][..],
        &parents,
        &[1, 0, 1, 0, 0, 0, 0, 0],
    ];
    Figure {
        plan: plan.concat(),
        numbers: vec![0; 1 + 8 * usize::from(joints)],
    }
}

#[test]
fn the_rust_plays_up_to_64_joints() {
    for (joints, word, is_rust) in [(1, 65535, true), (64, 255, true), (64, 65535, true)]
        .into_iter()
        .chain([(65, 65535, false), (400, 65535, false)])
    {
        let mut reference = Reference::start(&roots(joints, word));
        assert_eq!(reference.answer(), Ok(()));
        assert_eq!(reference.is_rust(), is_rust, "{joints}");
        let shown = reference.frame(0.0, 6400).unwrap();
        assert_eq!(shown.len(), usize::from(joints));
    }
    assert_eq!(
        Reference::start(&roots(65, 255)).answer(),
        Err(refusal(3, 5))
    );
}

#[test]
#[should_panic(expected = "or a 65th joint")]
fn the_rust_is_never_given_a_65th_joint() {
    super::rust::RustPlayer::start(&roots(65, 65535));
}

/// Of a refused figure the Rust plays the blank player, and refuses the frames.
#[test]
fn a_wrong_ending_is_refused_in_every_frame() {
    let mut wrong = stopping();
    wrong.plan[7] = 2;
    let mut reference = Reference::start(&wrong);
    assert_eq!(reference.answer(), Err(refusal(14, 7)));
    assert_eq!(reference.player().seen(), BLANK.seen());
    assert_eq!(reference.frame(0.0, 0), Err(refusal(14, 7)));
    assert_eq!(reference.page_frame(0.0, 16), Err(refusal(14, 7)));
}

/// Samples with x 1 and 2, at position 1.5: half way back, or at the last.
#[test]
fn a_stopping_clip_is_played_by_the_model() {
    for (ending, x) in [(0, 1.5), (1, 2.0)] {
        let pose = |x: f32| [x, 0.0, 0.0, 1.0, 1.0, 0.0, 0.0, 0.0];
        let numbers = [&[1.0][..], &pose(1.0), &pose(2.0)].concat();
        let figure = Figure {
            plan: vec![1, 1, 0, 1, 0, 255, 2, ending, 1, 0, 0, 0, 0, 0],
            numbers: numbers.into_iter().map(f32::to_bits).collect(),
        };
        let mut reference = Reference::start(&figure);
        reference.update(1.25);
        assert_eq!(reference.frame(0.25, 16).unwrap()[0][0][3], x);
        assert_eq!(reference.player().clock, 1.25);
    }
}

#[test]
#[should_panic(expected = "the oracle's own model is not the Rust's after an update")]
fn a_player_of_the_model_that_is_not_the_rusts_is_told() {
    let mut reference = Reference::start(&blend());
    reference.model.speed(2.0);
    reference.update(1.0);
}

#[test]
#[should_panic(expected = "the oracle's own model is not the Rust's after a frame")]
fn a_matrix_of_the_model_that_is_not_the_rusts_is_told() {
    let mut other = blend();
    *other.numbers.last_mut().unwrap() ^= 0x3f80_0000;
    let mut reference = Reference::start(&blend());
    reference.set(0, 0.5).unwrap();
    let player = reference.player();
    reference.model = crate::model::Model::start(&other);
    reference.model.store(&player);
    let _ = reference.frame(0.0, 16);
}

#[test]
#[should_panic(expected = "the oracle's own model is not the Rust's after a page frame")]
fn an_answer_of_the_model_that_is_not_the_rusts_is_told() {
    let mut reference = Reference::start(&blend());
    reference.model = crate::model::Model::start(&NO_FIGURE);
    reference
        .model
        .store(&reference.rust.as_ref().unwrap().player());
    let _ = reference.page_frame(0.0, 0);
}

/// At 4.25 seconds, by a rate of 2, the only sample of state 1 was played eight times.
#[test]
#[should_panic(expected = "the oracle's own model is not the Rust's after a question for loops")]
fn loops_of_the_model_that_are_not_the_rusts_are_told() {
    let mut reference = Reference::start(&blend());
    let mut player = reference.player();
    player.instances[2] = [0.0, 1.0, 4.25];
    reference.store(&player);
    assert_eq!(reference.loops(1, 0, 0.0).unwrap().loops, 8);
    player.instances[2][2] = 5.25;
    reference.model.store(&player);
    let _ = reference.loops(1, 0, 0.0);
}
