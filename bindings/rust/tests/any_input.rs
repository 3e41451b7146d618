//! Any bytes as text, any words as a plan, any content of a player: every call answers, and a refused one changes
//! nothing.

mod common;

use common::{bits, example_texts, random_figure, random_parts, seen, Random};
use gentianlathe::{most_numbers, most_words, read_text, uses, Figure, Player, Refusal, ROOT};

/// Reads a text in every way, and shows it if it is a figure's.
fn put(text: &[u8], random: &mut Random) -> bool {
    let words = random.between(0, 40);
    let numbers = random.between(0, 80);
    let plan: Vec<u16> = (0..words).map(|_| random.bits() as u16).collect();
    let floats: Vec<f32> = (0..numbers).map(|_| random.float()).collect();
    let (mut plan_after, mut floats_after) = (plan.clone(), floats.clone());
    let written = read_text(text, &mut plan_after, &mut floats_after);
    let (kept_words, kept_numbers) =
        written.map_or((0, 0), |written| (written.words, written.numbers));
    assert_eq!(plan_after[kept_words..], plan[kept_words..]);
    assert_eq!(
        bits(&floats_after[kept_numbers..]),
        bits(&floats[kept_numbers..])
    );
    match Figure::from_text(text) {
        Ok(figure) => {
            assert!(
                figure.plan().len() <= most_words()
                    && figure.numbers().len() <= most_numbers(text.len())
            );
            let mut output = vec![0.0; figure.output_len()];
            figure
                .start()
                .frame(&figure, random.double(), &mut output)
                .expect("a fresh player");
            assert!(figure.uses().states[figure.start().state()]);
            // A state's first node has no earlier one for an input, so it plays a clip.
            let played = figure.start().loops(&figure, 0, 0, random.float());
            assert!(matches!(played, Ok(_) | Err(Refusal::LoopingClip)));
            if written.is_ok() {
                assert_eq!(figure.plan(), &plan_after[..kept_words]);
                assert_eq!(bits(figure.numbers()), bits(&floats_after[..kept_numbers]));
            }
            true
        }
        Err(refusal) => {
            assert!(matches!(refusal.number(), 2..=5 | 11 | 14), "{refusal}");
            false
        }
    }
}

/// One to three places replaced, taken out or put in, a line doubled, or the end cut off.
fn damaged(text: &[u8], random: &mut Random) -> Vec<u8> {
    let mut damaged = text.to_vec();
    for _ in 0..random.between(1, 3) {
        let place = random.below(damaged.len().max(1));
        let byte = *random.pick(b"0123456789abcdef,\n-A\0\xff");
        match random.below(6) {
            _ if damaged.is_empty() => damaged.push(byte),
            0 => drop(damaged.remove(place)),
            1 => damaged.insert(place, byte),
            2 => damaged.truncate(place),
            3 => damaged.extend_from_within(place..),
            _ => damaged[place] = byte,
        }
    }
    damaged
}

#[test]
fn any_text_is_answered() {
    let mut random = Random::new(1);
    let examples = example_texts();
    let mut figures = 0;
    for _ in 0..6_000 {
        let text = damaged(random.pick(&examples).as_slice(), &mut random);
        figures += usize::from(put(&text, &mut random));
    }
    assert!(figures > 300, "some are still figures: {figures}");
    for length in 0..1_000 {
        let text: Vec<u8> = (0..length).map(|_| random.bits() as u8).collect();
        assert!(!put(&text, &mut random));
        let text: Vec<u8> = (0..length)
            .map(|_| *random.pick(b"0189af,,\n\nfigure,1"))
            .collect();
        assert!(!put(&text, &mut random));
    }
}

/// Every prefix of a text, and every single byte of it replaced by every value.
#[test]
fn every_byte_of_a_text() {
    let mut random = Random::new(2);
    let text = common::PRINTED;
    for length in 0..text.len() {
        assert!(!put(&text[..length], &mut random));
    }
    for place in 0..text.len() {
        for byte in 0..=255 {
            let mut text = text.to_vec();
            text[place] = byte;
            put(&text, &mut random);
        }
    }
}

#[test]
fn texts_longer_than_the_program_takes() {
    let line = b"pose,3f800000,40000000,40400000,3f800000,3f800000,00000000,00000000,00000000\n";
    let mut text =
        b"figure,1,1,0,1,0\njoint,255\nclip,4096,3f800000,0\nstate,1,0\nnode,0,0,0,0\n".to_vec();
    text.extend(line.repeat(4096));
    let figure = Figure::from_text(&text).expect("4,096 samples");
    assert_eq!(figure.numbers().len(), 1 + 8 * 4096);
    text.extend(line);
    assert_eq!(
        Figure::from_text(&text).expect_err("one too many").place(),
        5 + 4096 + 1
    );
}

/// Starts a plan and asks what it can use: both answer alike. Whether it is a figure's.
fn put_plan(plan: Vec<u16>, numbers: Vec<f32>) -> bool {
    let asked = uses(&plan, &numbers);
    let counts: Vec<u16> = plan.iter().take(4).copied().collect();
    match (asked, Figure::new(plan, numbers)) {
        (Ok(uses), Ok(figure)) => {
            assert_eq!(figure.uses(), uses);
            let lengths = [uses.clips.len(), uses.parameters.len(), uses.states.len()];
            assert_eq!(counts[1..], lengths.map(|length| length as u16));
            true
        }
        (asked, started) => {
            assert_eq!(asked.err(), started.err());
            false
        }
    }
}

/// One to three words replaced, taken out or put in, or the end cut off.
fn damaged_plan(mut plan: Vec<u16>, random: &mut Random) -> Vec<u16> {
    for _ in 0..random.between(1, 3) {
        let place = random.below(plan.len().max(1));
        let word = match random.below(3) {
            0 => random.bits() as u16,
            1 => *random.pick(&[0, 1, 2, 16, 17, 31, 32, 33, 64, 255, 400, 4096, ROOT]),
            _ => random.below(4) as u16,
        };
        match random.below(6) {
            _ if plan.is_empty() => plan.push(word),
            0 => drop(plan.remove(place)),
            1 => plan.insert(place, word),
            2 => plan.truncate(place),
            _ => plan[place] = word,
        }
    }
    plan
}

#[test]
fn any_plan_is_answered() {
    let mut random = Random::new(6);
    let mut figures = 0;
    for _ in 0..6_000 {
        let (plan, numbers) = random_figure(&mut random).into_parts();
        let plan = damaged_plan(plan, &mut random);
        figures += usize::from(put_plan(plan, numbers));
    }
    assert!(figures > 300, "some are still figures: {figures}");
    for length in 0..1_000 {
        let words = |random: &mut Random, bound: usize| -> Vec<u16> {
            (0..length).map(|_| random.below(bound) as u16).collect()
        };
        let numbers: Vec<f32> = (0..random.below(40)).map(|_| random.float()).collect();
        for bound in [3, 20, 1 << 16] {
            put_plan(words(&mut random, bound), numbers.clone());
        }
    }
}

/// One random call; whether it was refused.
fn call(random: &mut Random, figure: &Figure, player: &mut Player, output: &mut [f32]) -> bool {
    let answer = match random.below(6) {
        0 => {
            player.update(random.double());
            Ok(())
        }
        1 => {
            player.set_speed(random.double());
            Ok(())
        }
        2 => player.set_parameter(random.below(40), random.float()),
        3 => player.frame(figure, random.double(), output),
        4 => {
            let [state, node] = [random.below(5), random.below(32)];
            let answer = player.loops(figure, state, node, random.float());
            answer.map(|_| ())
        }
        _ => player.page_frame(figure, random.double(), output),
    };
    answer.is_err()
}

#[test]
fn any_player_is_answered() {
    let mut random = Random::new(3);
    let mut refused = 0;
    for _ in 0..300 {
        let figure = random_figure(&mut random);
        let parts = random_parts(&mut random);
        let mut player = Player::from_parts(&parts);
        assert_eq!(Player::from_parts(&player.parts()), player);
        for _ in 0..20 {
            let length = figure.output_len() + random.below(40);
            let length = if random.below(4) == 0 {
                random.below(length)
            } else {
                length
            };
            let mut output: Vec<f32> = (0..length).map(|_| random.float()).collect();
            let before = (player.clone(), output.clone());
            if call(&mut random, &figure, &mut player, &mut output) {
                refused += 1;
                assert_eq!(player, before.0);
                assert_eq!(bits(&output), bits(&before.1));
            }
            let written = figure.output_len().min(length);
            assert_eq!(bits(&output[written..]), bits(&before.1[written..]));
        }
    }
    assert!(refused > 500, "some are refused: {refused}");
}

/// A page frame is answered as a frame is, and moves the player alike.
#[test]
fn page_frames_of_any_player() {
    let mut random = Random::new(4);
    for _ in 0..300 {
        let figure = random_figure(&mut random);
        let mut player = Player::from_parts(&random_parts(&mut random));
        let mut paged = player.clone();
        let ext = random.double();
        let mut frame = vec![0.0; figure.output_len()];
        let mut page = frame.clone();
        let answer = player.frame(&figure, ext, &mut frame);
        assert_eq!(paged.page_frame(&figure, ext, &mut page), answer);
        assert_eq!(player, paged);
        // The last row is never turned.
        let last = |floats: &[f32]| {
            floats
                .chunks_exact(16)
                .flat_map(|m| m[12..].to_vec())
                .collect::<Vec<_>>()
        };
        let is_finite = frame.iter().chain(&page).all(|x| x.is_finite());
        assert!(!is_finite || seen(&last(&page)) == seen(&last(&frame)));
    }
}
