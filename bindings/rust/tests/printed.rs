//! The example that document 01 prints, by text and by words; page frames; and the other examples.

mod common;

use common::{seen, two_states, PRINTED};
use gentianlathe::{Figure, Player, MATRIX_FLOATS};
use std::fmt::Write;
use std::fs;

const MATRIX: [f32; 16] = [
    1.0, 0.0, 0.0, 1.0, //
    0.0, 1.0, 0.0, 2.0, //
    0.0, 0.0, 1.0, 3.0, //
    0.0, 0.0, 0.0, 1.0,
];

fn first_frame(figure: &Figure) -> Vec<f32> {
    let mut output = vec![9.0; figure.output_len()];
    figure
        .start()
        .frame(figure, 0.0, &mut output)
        .expect("a fresh player is shown");
    output
}

#[test]
fn sixteen_floats_by_text() {
    let figure = Figure::from_text(PRINTED).expect("the printed figure");
    assert_eq!(figure.joints(), 1);
    assert_eq!(figure.output_len(), MATRIX_FLOATS);
    assert_eq!(figure.plan(), [1, 1, 0, 1, 0, 255, 1, 0, 1, 0, 0, 0, 0, 0]);
    assert_eq!(
        figure.numbers(),
        [1.0, 1.0, 2.0, 3.0, 1.0, 1.0, 0.0, 0.0, 0.0]
    );
    assert_eq!(seen(&first_frame(&figure)), seen(&MATRIX));
}

#[test]
fn sixteen_floats_by_words() {
    let read = Figure::from_text(PRINTED).expect("the printed figure");
    let figure =
        Figure::new(read.plan().to_vec(), read.numbers().to_vec()).expect("the same figure");
    assert_eq!(seen(&first_frame(&figure)), seen(&MATRIX));
    assert_eq!(
        format!("{figure:?}"),
        "Figure { joints: 1, words: 14, numbers: 9 }"
    );
    let (plan, numbers) = figure.clone().into_parts();
    assert_eq!(
        (plan.as_slice(), numbers.as_slice()),
        (figure.plan(), figure.numbers())
    );
}

#[test]
fn sixteen_floats_in_a_page_frame() {
    let figure = Figure::from_text(PRINTED).expect("the printed figure");
    let mut output = [9.0; 20];
    figure
        .start()
        .page_frame(&figure, 0.0, &mut output)
        .expect("a fresh player is shown");
    assert_eq!(
        seen(&output[..16]),
        seen(&MATRIX),
        "no rotation: the transposed is the same"
    );
    assert_eq!(output[16..], [9.0; 4], "what follows is kept");
}

/// What the program prints for a text.
fn printed(text: &[u8]) -> String {
    let figure = match Figure::from_text(text) {
        Ok(figure) => figure,
        Err(refusal) => return format!("refused,{},{}\n", refusal.number(), refusal.place()),
    };
    let mut lines = String::new();
    for (joint, matrix) in seen(&first_frame(&figure)).chunks_exact(16).enumerate() {
        write!(lines, "joint,{joint}").unwrap();
        matrix
            .iter()
            .for_each(|bits| write!(lines, ",{bits:08x}").unwrap());
        lines.push('\n');
    }
    lines
}

#[test]
fn every_example_as_expected() {
    let folder = concat!(env!("CARGO_MANIFEST_DIR"), "/../../examples");
    let mut tried = 0;
    for entry in fs::read_dir(folder).expect("the examples") {
        let path = entry.expect("an entry").path();
        if path
            .extension()
            .is_some_and(|extension| extension == "figure")
        {
            let expected = fs::read_to_string(path.with_extension("expected")).expect("its output");
            assert_eq!(
                printed(&fs::read(&path).expect("a figure")),
                expected,
                "{}",
                path.display()
            );
            tried += 1;
        }
    }
    assert!(tried >= 12);
}

#[test]
fn a_transition_goes_its_way() {
    let (plan, numbers) = two_states();
    let figure = Figure::new(plan, numbers).expect("two states");
    let mut output = vec![0.0; figure.output_len()];
    let mut player = figure.start();
    player.set_speed(2.0);
    player.update(1.5);
    assert_eq!((player.clock(), player.speed()), (3.0, 2.0));
    player.frame(&figure, 0.0, &mut output).expect("shown");
    assert_eq!(
        (player.state(), player.transition()),
        (0, None),
        "parameter 0 is not above 0.5"
    );
    player.set_parameter(0, 0.75).expect("a parameter");
    assert_eq!(player.parameters()[0], 0.75);
    player.frame(&figure, 0.25, &mut output).expect("shown");
    let begun = player.transition().expect("a transition");
    assert_eq!((begun.start, begun.target, begun.duration), (3.25, 1, 2.0));
    player.update(1.125);
    player.frame(&figure, 0.0, &mut output).expect("shown");
    assert_eq!(
        (player.state(), player.transition()),
        (1, None),
        "5.25 is the end"
    );
}

#[test]
fn the_blank_player() {
    let blank = Player::blank();
    assert_eq!(blank, Player::default());
    assert_eq!((blank.clock(), blank.speed(), blank.state()), (0.0, 1.0, 0));
    assert_eq!(blank.transition(), None);
    assert_eq!(seen(blank.parameters()), [0; 32]);
    for instance in blank.instances() {
        assert_eq!(
            seen(&[instance.start, instance.rate, instance.offset]),
            seen(&[0.0, 1.0, 0.0])
        );
    }
}
