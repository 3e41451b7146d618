//! Page frames beside ordinary ones, of the archive alone: the Rust has none.

use crate::archive::Archive;
use crate::draft::{Draft, Size};
use crate::measure::{rounds, Timer};
use crate::{DELTA, EXT};
use std::hint::black_box;
use std::time::Duration;

/// Nanoseconds of an ordinary and of a page frame of the same figure at the same clocks.
fn measure(size: Size, time: Duration) -> [f64; 2] {
    let draft = Draft::new(size);
    let [mut ordinary, mut page] = [(); 2].map(|()| Archive::new(&draft));
    ordinary.play(DELTA, EXT);
    page.play_page(DELTA, EXT);
    assert_ne!(ordinary.output, page.output, "both kinds show the same");
    let mut apart = Archive::new(&draft);
    let mut frame = Timer::new(|| apart.play(DELTA, EXT));
    let mut page_frame = Timer::same(&frame);
    rounds(time, || {
        frame.batch(|| ordinary.play(black_box(DELTA), black_box(EXT)));
        page_frame.batch(|| page.play_page(black_box(DELTA), black_box(EXT)));
    });
    assert_eq!(ordinary.in_transition(), page.in_transition());
    [frame.least, page_frame.least]
}

pub fn pages(time: Duration) {
    println!("\n### Page frames\n");
    println!("| figure | frame ns | page frame ns | page frame / frame |");
    println!("|---|---:|---:|---:|");
    let moving = Size {
        states: 2,
        moves: true,
        ..Size::new(64, 31)
    };
    let sizes = [
        ("1 joint, 1 clip", Size::new(1, 1)),
        ("20 joints, 3 nodes", Size::new(20, 3)),
        ("64 joints, 3 nodes", Size::new(64, 3)),
        ("64 joints, 31 nodes, idle", Size::new(64, 31)),
        ("64 joints, 31 nodes, in a transition", moving),
        ("400 joints, 3 nodes", Size::new(400, 3)),
    ];
    for (name, size) in sizes {
        let [frame, page] = measure(size, time);
        println!("| {name} | {frame:.0} | {page:.0} | {:.2} |", page / frame);
    }
}
