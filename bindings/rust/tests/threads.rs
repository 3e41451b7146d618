//! Figures and players may go to and be shared between threads.

mod common;

use common::{random_figure, seen, Random};
use gentianlathe::{Figure, Player, PlayerParts, Refusal, MAX_JOINTS, ROOT};
use std::thread;

fn send_and_sync<T: Send + Sync + 'static>() {}

#[test]
fn types_are_send_and_sync() {
    send_and_sync::<Figure>();
    send_and_sync::<Player>();
    send_and_sync::<PlayerParts>();
    send_and_sync::<Refusal>();
}

/// What a player shows over some frames.
fn played(figure: &Figure) -> Vec<u32> {
    let mut player = figure.start();
    let mut output = vec![0.0; figure.output_len()];
    let mut all = Vec::new();
    for step in 0..20 {
        player.update(0.125);
        player
            .set_parameter(step % 4, step as f32 / 8.0)
            .expect("a parameter");
        player
            .frame(figure, 0.0, &mut output)
            .expect("its own player");
        all.extend(seen(&output));
    }
    all
}

#[test]
fn threads_share_a_figure() {
    let mut random = Random::new(5);
    for _ in 0..20 {
        let figure = random_figure(&mut random);
        let alone = played(&figure);
        thread::scope(|scope| {
            let threads: Vec<_> = (0..4).map(|_| scope.spawn(|| played(&figure))).collect();
            for thread in threads {
                assert_eq!(thread.join().expect("no panic"), alone);
            }
        });
    }
}

/// 400 joints in a chain; clips that loop and stop by turns; two states, each with the deepest tree that 31 nodes can make; a transition between them.
fn deepest() -> Figure {
    let mut plan = vec![MAX_JOINTS as u16, 16, 1, 2, 0, ROOT];
    plan.extend(0..MAX_JOINTS as u16 - 1);
    (0..16).for_each(|clip| plan.extend([1, clip % 2]));
    for transition in [&[1, 0, 1, 1][..], &[0]] {
        plan.push(31);
        (0..16).for_each(|clip| plan.extend([0, clip, 0, 0]));
        plan.extend([1, 0, 1, 0]);
        (2..16).for_each(|clip| plan.extend([1 + clip % 2, 14 + clip, clip, 0]));
        plan.extend(transition);
    }
    Figure::new(plan, vec![1.0; 16 + 2 + 8 * MAX_JOINTS * 16]).expect("a figure")
}

#[test]
fn a_small_stack_will_do() {
    let (plan, numbers) = deepest().into_parts();
    let thread = thread::Builder::new().stack_size(64 * 1024).spawn(move || {
        let figure = Figure::new(plan, numbers)?;
        let mut output = vec![0.0; figure.output_len()];
        let mut player = figure.start();
        player.frame(&figure, 0.0, &mut output)?;
        player.page_frame(&figure, 0.0, &mut output)?;
        Ok(player.transition().is_some())
    });
    let begun: Result<bool, Refusal> = thread.expect("a thread").join().expect("no panic");
    assert_eq!(begun, Ok(true));
}
