//! Each refusal that a call can give, its place, and what it says.

mod common;

use common::{two_states, PRINTED};
use gentianlathe::{
    most_numbers, most_words, read_text, Figure, Player, PlayerParts, Refusal, Transition, Written,
};

/// The refusal of the two states with one word of the plan replaced.
fn with_word(word: usize, value: u16) -> Refusal {
    let (mut plan, numbers) = two_states();
    plan[word] = value;
    Figure::new(plan, numbers).expect_err("a wrong word")
}

/// That a refusal has these values, and that its text has these words.
fn expect(refusal: Refusal, number: usize, place: usize, text: &str) {
    assert_eq!(
        (refusal.number(), refusal.place()),
        (number, place),
        "{refusal}"
    );
    assert_eq!(Refusal::from_answer(number, place), Some(refusal));
    let said = refusal.to_string();
    assert!(said.starts_with(&format!("refusal {number}: ")), "{said}");
    assert!(said.contains(text), "{said}");
    let error: Box<dyn std::error::Error> = Box::new(refusal);
    assert_eq!(error.to_string(), said);
}

#[test]
fn one_the_plan_ends() {
    let (plan, numbers) = two_states();
    for length in 0..plan.len() {
        let refusal = Figure::new(plan[..length].to_vec(), numbers.clone()).expect_err("too short");
        expect(refusal, 1, length, &format!("after {length} words"));
    }
}

#[test]
fn two_a_count() {
    let header = [
        (0, 0),
        (0, 401),
        (1, 0),
        (1, 17),
        (2, 33),
        (3, 0),
        (3, 17),
        (4, 2),
    ];
    for (word, value) in header {
        expect(
            with_word(word, value),
            2,
            word,
            &format!("word {word} of the plan is out of range: the "),
        );
    }
    for (word, value) in [(7, 4097), (7, u16::MAX), (9, 0), (9, 32), (22, 17)] {
        expect(
            with_word(word, value),
            2,
            word,
            &format!("word {word} of the plan is out of range: a clip has"),
        );
    }
}

/// Four states of 31 nodes have 64 clip nodes; a fifth state's only one is too many.
#[test]
fn two_a_65th_clip_node() {
    let mut plan = vec![1, 1, 1, 5, 0, 255, 1, 0];
    for _ in 0..4 {
        plan.push(31);
        plan.extend([0, 0, 0, 0].repeat(16));
        for node in 0..15 {
            plan.extend([1, 2 * node, 2 * node + 1, 0]);
        }
        plan.push(0);
    }
    plan.push(1);
    let kind = plan.len();
    plan.extend([0, 0, 0, 0, 0]);
    let numbers = vec![1.0; 9];
    expect(
        Figure::new(plan.clone(), numbers.clone()).expect_err("65"),
        2,
        kind,
        "at most 64 clip nodes",
    );
    plan[3] = 4;
    plan.truncate(kind - 1);
    Figure::new(plan, numbers).expect("64 clip nodes are fine");
}

#[test]
fn three_a_parent() {
    for (word, value) in [(5, 0), (6, 1), (6, 254), (6, 256), (6, 65534)] {
        let text = format!(
            "word {word} of the plan, the parent of joint {}, is neither",
            word - 5
        );
        expect(with_word(word, value), 3, word, &text);
    }
}

#[test]
fn four_a_node() {
    let wrong = [
        (10, 3),
        (11, 1),
        (12, 1),
        (13, 1),
        (18, 9),
        (19, 2),
        (20, 0),
        (20, 2),
        (21, 1),
    ];
    for (word, value) in wrong {
        expect(
            with_word(word, value),
            4,
            word,
            &format!("word {word} of the plan is wrong in a node"),
        );
    }
    let (mut plan, numbers) = two_states();
    plan[18..22].fill(0);
    let refusal = Figure::new(plan, numbers).expect_err("three clips");
    expect(refusal, 4, 9, "counts nodes of which one is not used");
}

#[test]
fn five_a_transition() {
    for (word, value) in [(23, 1), (24, 6), (25, 2)] {
        expect(
            with_word(word, value),
            5,
            word,
            &format!("word {word} of the plan is wrong in a transition"),
        );
    }
}

#[test]
fn six_words_left_over() {
    let (mut plan, numbers) = two_states();
    let length = plan.len();
    plan.extend([0, 0]);
    let refusal = Figure::new(plan, numbers).expect_err("too long");
    expect(
        refusal,
        6,
        length,
        &format!("word {length} of the plan is one too many"),
    );
}

#[test]
fn seven_numbers() {
    let (plan, numbers) = two_states();
    for count in [0, numbers.len() - 1, numbers.len() + 1] {
        let mut numbers = numbers.clone();
        numbers.resize(count, 0.0);
        expect(
            Figure::new(plan.clone(), numbers).expect_err("a wrong count"),
            7,
            0,
            "as many numbers",
        );
    }
}

#[test]
fn eight_a_parameter() {
    let mut player = Player::blank();
    player.set_parameter(31, 2.0).expect("the last parameter");
    let before = player.clone();
    for parameter in [32, 33, 1 << 32, usize::MAX] {
        expect(
            player
                .set_parameter(parameter, 1.0)
                .expect_err("no parameter"),
            8,
            0,
            "numbered 0 to 31",
        );
    }
    assert_eq!(player, before);
}

/// That a frame of either kind is refused so, with an output of this length, and writes nothing.
fn expect_no_frame(player: &mut Player, figure: &Figure, length: usize, number: usize, text: &str) {
    let before = player.clone();
    let mut output = vec![9.0; length];
    expect(
        player.frame(figure, 0.0, &mut output).expect_err(text),
        number,
        0,
        text,
    );
    expect(
        player.page_frame(figure, 0.0, &mut output).expect_err(text),
        number,
        0,
        text,
    );
    assert!(output.iter().all(|x| *x == 9.0));
    assert_eq!(*player, before);
}

#[test]
fn nine_a_state_before_ten() {
    let (plan, numbers) = two_states();
    let figure = Figure::new(plan, numbers).expect("two states");
    let to = |target| {
        Some(Transition {
            start: 0.0,
            target,
            duration: 1.0,
        })
    };
    let absent = [
        (2, None),
        (usize::MAX, None),
        (0, to(2)),
        (0, to(usize::MAX)),
        (7, to(1)),
    ];
    for (state, transition) in absent {
        let parts = PlayerParts {
            state,
            transition,
            ..figure.start().parts()
        };
        for length in [0, figure.output_len()] {
            let mut player = Player::from_parts(&parts);
            expect_no_frame(
                &mut player,
                &figure,
                length,
                9,
                "the figure lacks the state",
            );
        }
    }
}

#[test]
fn ten_the_output() {
    let (plan, numbers) = two_states();
    let figure = Figure::new(plan, numbers).expect("two states");
    for length in [0, 16, figure.output_len() - 1] {
        expect_no_frame(
            &mut figure.start(),
            &figure,
            length,
            10,
            "16 floats a joint",
        );
    }
}

#[test]
fn eleven_a_line() {
    let lines: Vec<&[u8]> = PRINTED.split_inclusive(|byte| *byte == b'\n').collect();
    for kept in 0..lines.len() {
        let refusal = Figure::from_text(&lines[..kept].concat()).expect_err("a missing line");
        expect(
            refusal,
            11,
            kept + 1,
            &format!("line {} of the text", kept + 1),
        );
    }
    let longer = [PRINTED, b"\n"].concat();
    expect(
        Figure::from_text(&longer).expect_err("a line too many"),
        11,
        7,
        "one too many",
    );
    expect(
        Figure::from_text(b"figure,401,1,0,1,0\n").expect_err("401 joints"),
        11,
        1,
        "a count above its limit",
    );
    let old = String::from_utf8_lossy(PRINTED).replace("3f800000,0\nstate", "3f800000\nstate");
    let refusal = Figure::from_text(old.as_bytes()).expect_err("a clip line without its ending");
    expect(refusal, 11, 3, "line 3 of the text");
}

#[test]
fn twelve_the_slices() {
    for (words, numbers) in [(0, 0), (13, 9), (14, 8), (0, 9), (14, 0)] {
        let mut plan = vec![7; words];
        let mut floats = vec![9.0; numbers];
        expect(
            read_text(PRINTED, &mut plan, &mut floats).expect_err("too short"),
            12,
            0,
            "too short",
        );
        assert!(plan.iter().all(|word| *word == 7) && floats.iter().all(|x| *x == 9.0));
        let refusal = read_text(&PRINTED[1..], &mut plan, &mut floats).expect_err("no figure line");
        expect(refusal, 11, 1, "line 1 of the text");
    }
    let mut plan = vec![7; 20];
    let mut floats = vec![9.0; 20];
    let written = read_text(PRINTED, &mut plan, &mut floats).expect("they fit");
    assert_eq!(
        written,
        Written {
            words: 14,
            numbers: 9
        }
    );
    assert_eq!(
        (&plan[14..], &floats[9..]),
        (&[7; 6][..], &[9.0; 11][..]),
        "what follows is kept"
    );
}

#[test]
fn sizes() {
    assert_eq!(most_words(), 3221);
    for length in [0, 8, 9, 65_536, usize::MAX] {
        assert_eq!(most_numbers(length), length / 9);
    }
}

/// Words are judged front to back: N before its ending, that before the next clip's N and before the nodes.
#[test]
fn fourteen_an_ending() {
    for value in [2, 255, u16::MAX] {
        let text = "word 8 of the plan, a clip's ending, is neither 0 (loop) nor 1 (stop)";
        expect(with_word(8, value), 14, 8, text);
    }
    let refused = |words: [u16; 5]| {
        let plan = [&[1, 2, 0, 1, 0, 255][..], &words, &[0, 0, 0, 0, 0]].concat();
        let refusal = Figure::new(plan, vec![1.0; 18]).err();
        refusal.map_or((0, 0), |refusal| (refusal.number(), refusal.place()))
    };
    assert_eq!(refused([1, 1, 1, 0, 1]), (0, 0), "both endings are taken");
    assert_eq!(refused([4097, 2, 1, 0, 1]), (2, 6));
    assert_eq!(refused([1, 2, 4097, 2, 0]), (14, 7));
    assert_eq!(refused([1, 1, 4097, 2, 0]), (2, 8));
    assert_eq!(refused([1, 1, 1, 2, 0]), (14, 9));
    assert_eq!(refused([1, 1, 1, 1, 0]), (2, 10));
}

/// Numbers that no call gives today are carried as they are.
#[test]
fn other_numbers() {
    assert_eq!(Refusal::from_answer(0, 0), None);
    for (number, place) in [(13, 65_536), (7, 3), (usize::MAX, usize::MAX)] {
        assert_eq!(
            Refusal::from_answer(number, place),
            Some(Refusal::Other { number, place })
        );
        expect(
            Refusal::Other { number, place },
            number,
            place,
            "unknown to this version",
        );
    }
}

/// The number and the source of each row of the one table of refusals.
fn rows_of_the_table() -> Vec<(usize, &'static str)> {
    let page = include_str!("../../../docs/FORMAT.md");
    let row = |line: &'static str| {
        let mut fields = line.strip_prefix("| ")?.split(" | ");
        Some((fields.next()?.parse().ok()?, fields.next()?))
    };
    page.lines().filter_map(row).collect()
}

#[test]
fn as_many_as_the_table_has() {
    let rows = rows_of_the_table();
    for number in 1..100 {
        let told: Vec<_> = rows.iter().filter(|row| row.0 == number).collect();
        let refusal = Refusal::from_answer(number, 0).expect("a refusal");
        let known = usize::from(!matches!(refusal, Refusal::Other { .. }));
        let given = told.iter().filter(|row| row.1 != "program").count();
        assert_eq!(known, given, "{number}: {told:?}");
    }
}
