//! Measures a frame of the archive and of the Rust that it ports, in one process on the same figures.
//!
//!     bench [MILLISECONDS]      time for each row (default 900)
//!     bench text                writes the largest text that is read, a figure of 400 joints, and measures nothing
//!
//! Prints tables in markdown. Before and after a row is measured both must show the same bits, where
//! the Rust can play the figure.

mod archive;
mod draft;
mod loops;
mod measure;
mod pages;
mod reference;
#[allow(dead_code)]
#[path = "../../bindings/rust/src/sys.rs"]
mod sys;
mod uses;

use archive::{Archive, Text};
use draft::{Draft, Size};
use measure::{rounds, Timer};
use reference::Reference;
use std::hint::black_box;
use std::time::Duration;

const DELTA: f64 = 0.0173;
const EXT: f64 = 0.001;

/// A frame that differs in a bit ends the run.
fn compare(ours: &Archive, theirs: &Reference) {
    let theirs = theirs.output.iter().flatten().flatten();
    assert_eq!(ours.output.len(), theirs.clone().count());
    let same = ours
        .output
        .iter()
        .zip(theirs)
        .all(|(a, b)| a.to_bits() == b.to_bits());
    assert!(same, "the archive and the Rust show different bits");
}

/// Fifty frames of both, compared bit for bit.
fn rehearse(ours: &mut Archive, theirs: &mut Reference) {
    for step in 0..50 {
        let ext = 0.01 * f64::from(step % 5);
        ours.play(DELTA, ext);
        theirs.play(DELTA, ext);
        compare(ours, theirs);
    }
}

/// Nanoseconds of one figure.
struct Row {
    words: usize,
    theirs: f64,
    ours: f64,
    check: f64,
    call: f64,
    start: f64,
}

fn measure(size: Size, time: Duration) -> Row {
    let draft = Draft::new(size);
    let mut ours = Archive::new(&draft);
    let mut theirs = Reference::new(&draft);
    rehearse(&mut ours, &mut theirs);
    let mut apart = Archive::new(&draft);
    let mut frame = Timer::new(|| apart.play(DELTA, EXT));
    let mut check = Timer::new(|| apart.check());
    let mut call = Timer::new(|| apart.call());
    let mut start = Timer::new(|| apart.start());
    let mut reference = Timer::same(&frame);
    // As many frames of one as of the other, in turns, so that both end at the same clock.
    rounds(time, || {
        reference.batch(|| theirs.play(black_box(DELTA), black_box(EXT)));
        frame.batch(|| ours.play(black_box(DELTA), black_box(EXT)));
        check.batch(|| apart.check());
        call.batch(|| apart.call());
        start.batch(|| apart.start());
    });
    rehearse(&mut ours, &mut theirs);
    assert_eq!(ours.in_transition(), size.moves);
    Row {
        words: ours.plan.len(),
        theirs: reference.least,
        ours: frame.least,
        check: check.least,
        call: call.least,
        start: start.least,
    }
}

fn sizes(time: Duration) {
    println!("\n### Four sizes\n");
    print!("| figure | plan words | Rust ns | archive ns | Rust / archive ");
    println!("| check ns | check share | call ns | start ns |");
    println!("|---|---:|---:|---:|---:|---:|---:|---:|---:|");
    let moving = Size {
        states: 2,
        moves: true,
        ..Size::new(64, 31)
    };
    let sizes = [
        ("1 joint, 1 clip", Size::new(1, 1)),
        ("20 joints, 3 nodes", Size::new(20, 3)),
        ("64 joints, 31 nodes, idle", Size::new(64, 31)),
        ("64 joints, 31 nodes, in a transition", moving),
    ];
    for (name, size) in sizes {
        let row = measure(size, time);
        let Row {
            words,
            theirs,
            ours,
            check,
            call,
            start,
        } = row;
        let (ratio, share) = (theirs / ours, 100.0 * check / ours);
        print!("| {name} | {words} | {theirs:.0} | {ours:.0} | {ratio:.2} ");
        println!("| {check:.0} | {share:.0} % | {call:.0} | {start:.0} |");
    }
}

fn growth(
    title: &str,
    grows: &str,
    values: &[usize],
    size: impl Fn(usize) -> Size,
    time: Duration,
) {
    println!("\n### {title}\n");
    println!("| {grows} | plan words | Rust ns | archive ns | Rust / archive | check ns |");
    println!("|---:|---:|---:|---:|---:|---:|");
    for value in values {
        let row = measure(size(*value), time);
        let Row {
            words,
            theirs,
            ours,
            check,
            ..
        } = row;
        println!(
            "| {value} | {words} | {theirs:.0} | {ours:.0} | {:.2} | {check:.0} |",
            theirs / ours
        );
    }
}

/// Nanoseconds of a frame of the archive alone, long after the clips' last samples.
fn measure_late(size: Size, time: Duration) -> f64 {
    const LATE: f64 = 100.0;
    let mut archive = Archive::new(&Draft::new(size));
    archive.play(LATE, EXT);
    let shown = archive.output.clone();
    archive.play(DELTA, EXT);
    // Held clips and pauses show what they showed, looping ones go on.
    let still = size.stops || size.samples == 0;
    assert_eq!(still, archive.output == shown);
    let mut timer = Timer::new(|| archive.play(DELTA, EXT));
    rounds(time, || {
        timer.batch(|| archive.play(black_box(DELTA), black_box(EXT)))
    });
    assert!(!still || archive.output == shown);
    timer.least
}

/// The Rust has no clips that stop and none without samples, so this is the archive alone.
fn endings(time: Duration) {
    println!("\n### Clips past their last sample, and clips without samples\n");
    println!("| figure | looping ns | held ns | without samples ns |");
    println!("|---|---:|---:|---:|");
    let sizes = [
        ("1 joint, 1 clip", Size::new(1, 1)),
        ("20 joints, 3 nodes", Size::new(20, 3)),
        ("64 joints, 31 nodes", Size::new(64, 31)),
    ];
    for (name, size) in sizes {
        let stopping = Size {
            stops: true,
            ..size
        };
        let pausing = Size { samples: 0, ..size };
        let [looping, held, paused] =
            [size, stopping, pausing].map(|size| measure_late(size, time));
        println!("| {name} | {looping:.0} | {held:.0} | {paused:.0} |");
    }
}

/// Nanoseconds of a frame of the archive alone, and of its check; how many words the plan has.
fn measure_alone(size: Size, time: Duration) -> (f64, f64, usize) {
    let mut archive = Archive::new(&Draft::new(size));
    archive.play(DELTA, EXT);
    let mut frame = Timer::new(|| archive.play(DELTA, EXT));
    let mut check = Timer::new(|| archive.check());
    rounds(time, || {
        frame.batch(|| archive.play(black_box(DELTA), black_box(EXT)));
        check.batch(|| archive.check());
    });
    assert_eq!(archive.in_transition(), size.moves);
    (frame.least, check.least, archive.plan.len())
}

/// The Rust has at most 64 joints, so this is the archive alone.
fn many_joints(time: Duration) {
    println!("\n### Many joints (3 nodes)\n");
    print!("| joints | plan words | idle ns | a joint ");
    println!("| in a transition ns | a joint | check ns |");
    println!("|---:|---:|---:|---:|---:|---:|---:|");
    for joints in [64, 100, 200, 400] {
        let size = Size::new(joints, 3);
        let moving = Size {
            states: 2,
            moves: true,
            ..size
        };
        let (idle, check, words) = measure_alone(size, time);
        let (running, ..) = measure_alone(moving, time);
        let [idle_each, running_each] = [idle, running].map(|all| all / joints as f64);
        print!("| {joints} | {words} | {idle:.0} | {idle_each:.1} ");
        println!("| {running:.0} | {running_each:.1} | {check:.0} |");
    }
}

/// As many joints as there can be, and as many samples as a text for the program then has room for.
fn largest_text() -> Size {
    Size {
        samples: 1,
        ..Size::new(400, 3)
    }
}

fn texts(time: Duration) {
    println!("\n### Reading text\n");
    println!("| bytes | ns | MB/s |");
    println!("|---:|---:|---:|");
    let large = Size {
        samples: 19,
        ..Size::new(20, 3)
    };
    let small = Size {
        samples: 1,
        ..Size::new(1, 1)
    };
    for size in [small, large, largest_text()] {
        let draft = Draft::new(size);
        let mut text = Text::new(draft.text().into_bytes());
        assert!(text.reads_as(&draft), "the text reads as another figure");
        let mut timer = Timer::new(|| text.read());
        rounds(time, || timer.batch(|| text.read()));
        let bytes = text.text.len();
        println!(
            "| {bytes} | {:.0} | {:.0} |",
            timer.least,
            1e3 * bytes as f64 / timer.least
        );
    }
}

fn growths(time: Duration) {
    let joints = [1, 2, 4, 8, 16, 32, 33, 48, 64];
    growth(
        "Joints (3 nodes)",
        "joints",
        &joints,
        |joints| Size::new(joints, 3),
        time,
    );
    let nodes = [1, 3, 7, 15, 31];
    growth(
        "Nodes (20 joints)",
        "nodes",
        &nodes,
        |nodes| Size::new(20, nodes),
        time,
    );
    let waiting = |waiting| Size {
        waiting,
        ..Size::new(20, 3)
    };
    growth(
        "Waiting transitions (20 joints, 3 nodes)",
        "transitions",
        &[0, 4, 16],
        waiting,
        time,
    );
    let states = |states| Size {
        states,
        ..Size::new(20, 3)
    };
    growth(
        "States, one of them played (20 joints, 3 nodes)",
        "states",
        &[1, 2, 4, 8, 16],
        states,
        time,
    );
}

fn main() {
    let word = std::env::args().nth(1).unwrap_or("900".into());
    if word == "text" {
        print!("{}", Draft::new(largest_text()).text());
        return;
    }
    let Ok(milliseconds) = word.parse() else {
        eprintln!("usage: bench [MILLISECONDS | text]");
        std::process::exit(2);
    };
    let time = Duration::from_millis(milliseconds);
    sizes(time);
    growths(time);
    many_joints(time);
    pages::pages(time);
    uses::uses(time);
    loops::loops(time);
    endings(time);
    texts(time);
}
