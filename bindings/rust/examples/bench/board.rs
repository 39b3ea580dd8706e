//! Boards have no call from Rust yet: the program board_timing edits the full box 90 × 90, and its processor time is measured. The nets
//! that it drops and adds again, 1 and 91 in turn, have the longest span: all 90 columns and all 90 tracks must pass them.

use std::io::Write;
use std::path::{Path, PathBuf};
use std::process::{Command, Stdio};

/// C's rusage on 64-bit Linux: times in seconds and microseconds, and counts.
#[repr(C)]
struct Usage {
    user: [i64; 2],
    system: [i64; 2],
    counts: [i64; 14],
}

extern "C" {
    fn getrusage(who: i32, usage: *mut Usage) -> i32;
}

/// Processor time of the programs that have run and ended.
fn children_seconds() -> f64 {
    const CHILDREN: i32 = -1;
    let mut usage = Usage { user: [0; 2], system: [0; 2], counts: [0; 14] };
    // Sound: the struct is as long as C's, and its number of the children is Linux's.
    unsafe { getrusage(CHILDREN, &mut usage) };
    [usage.user, usage.system].iter().map(|[seconds, micros]| *seconds as f64 + *micros as f64 * 1e-6).sum()
}

/// What a round does; the numbers are the program's.
#[derive(Clone, Copy)]
enum Mode {
    Nothing = 0,
    Drop = 1,
    DropAndAdd = 2,
    Survey = 3,
    /// Of the board that is left, across, up and floor are read.
    DropAndRead = 4,
    /// All nets, by one list.
    DropAll = 5,
    /// All nets, one after the other.
    DropEach = 6,
}

impl Mode {
    /// So many that the start of the program does not count; fewer where a round drops all 180 nets.
    fn rounds(self) -> u64 {
        match self {
            Mode::Nothing => 0,
            Mode::DropAll | Mode::DropEach => 2_000,
            _ => 200_000,
        }
    }
}

/// Seconds that the program takes for the mode's rounds.
fn run(program: &Path, mode: Mode) -> f64 {
    let before = children_seconds();
    let mut child = Command::new(program).stdin(Stdio::piped()).stdout(Stdio::piped()).spawn().expect("the program starts");
    let input = [&[mode as u8][..], &mode.rounds().to_le_bytes()].concat();
    child.stdin.take().expect("a pipe").write_all(&input).expect("the program reads its input");
    let output = child.wait_with_output().expect("the program ends");
    assert!(output.status.success() && output.stdout.ends_with(b"\n"), "the program prints a line");
    children_seconds() - before
}

fn program() -> PathBuf {
    Path::new(env!("CARGO_MANIFEST_DIR")).join("../../target/bin/board_timing")
}

/// A net of the full box is dropped, and added again, and the figures are read, and all nets are dropped by one list and singly, against
/// a survey of the box's ticket; the best of ten runs in turns.
pub fn table() {
    let program = program();
    if !program.is_file() {
        println!("\nNo table of boards: run `tools/build board_timing` at the top of the repository first.");
        return;
    }
    let modes = [Mode::Drop, Mode::DropAndAdd, Mode::Survey, Mode::DropAndRead, Mode::DropAll, Mode::DropEach];
    let (mut start, mut best) = (f64::INFINITY, modes.map(|_| f64::INFINITY));
    for _ in 0..10 {
        start = start.min(run(&program, Mode::Nothing));
        for (a, mode) in modes.into_iter().enumerate() {
            best[a] = best[a].min(run(&program, mode));
        }
    }
    let [drop, both, survey, drop_and_read, all, each] = std::array::from_fn(|a| (best[a] - start) / modes[a].rounds() as f64 * 1e6);
    println!("\n| board, full box 90 × 90 | µs | of a survey's time |\n|---|---|---|");
    let lines = [
        ("drop a net of the longest span", drop),
        ("add it again", both - drop),
        ("both", both),
        ("survey its ticket", survey),
        ("read across, up and floor", drop_and_read - drop),
        ("drop all 180 nets by one list", all),
        ("drop all 180 nets singly", each),
    ];
    for (name, time) in lines {
        println!("| {name} | {time:.3} | {:.3} |", time / survey);
    }
    println!("\nAll nets by one list: {:.3} of the time that they take singly.", all / each);
}
