//! Boards have no call from Rust yet: the program board_vectors runs random histories, and prints what the independent board says.

use slow::edits::{self, random_shape, Call};
use slow::tickets::Numbers;
use slow::{BOX, CHANNEL, LONGEST_SIDE, MOST_TRUNK_LAYERS, ROW};
use std::io::Write;
use std::path::Path;
use std::process::{Command, Stdio};

/// How many bytes the program reads.
const LONGEST_INPUT: usize = 65536;

fn printed(input: &[u8]) -> String {
    assert!(input.len() <= LONGEST_INPUT);
    let program = Path::new(env!("CARGO_MANIFEST_DIR")).join("../../target/bin/board_vectors");
    assert!(program.is_file(), "{} is missing: run `tools/build board_vectors` at the top of the repository first", program.display());
    let mut child = Command::new(program).stdin(Stdio::piped()).stdout(Stdio::piped()).spawn().expect("the program starts");
    let mut pipe = child.stdin.take().expect("a pipe");
    let output = std::thread::scope(|s| {
        s.spawn(move || pipe.write_all(input).expect("the program reads its input"));
        child.wait_with_output().expect("the program ends")
    });
    assert!(output.status.success(), "{}", output.status);
    String::from_utf8(output.stdout).expect("digits and spaces")
}

/// How many calls the run had; each line of it is the independent board's.
fn same_lines(input: &[u8]) -> usize {
    let (printed, right) = (printed(input), edits::run(input));
    let calls = edits::calls(input);
    for ((line, right), (i, call)) in printed.lines().zip(right.lines()).zip(calls.iter().enumerate()) {
        assert_eq!(line, right, "line {i}, {call:?}");
    }
    assert_eq!(printed, right, "the lines, and no more");
    calls.len()
}

/// The records of these calls, as many as one input takes; now and then one has numbers of eight bytes that need two.
fn input(r: &mut Numbers, calls: &[Call]) -> Vec<u8> {
    let mut out = Vec::new();
    for call in calls {
        let record = if r.below(50) == 0 { call.wide_record() } else { call.record() };
        if out.len() + record.len() > LONGEST_INPUT {
            break;
        }
        out.extend(record);
    }
    out
}

/// So many inputs, each of histories of so many calls on boards of these shapes in turn. How many calls they had.
fn same_histories(r: &mut Numbers, inputs: usize, calls: usize, mut shape: impl FnMut(&mut Numbers) -> (u8, usize, usize)) -> usize {
    let mut done = 0;
    for _ in 0..inputs {
        let mut list = Vec::new();
        // A call has some eight bytes or more.
        while list.len() < LONGEST_INPUT / 8 {
            let (shape, filled, odd_in) = (shape(r), r.below(2) == 0, r.pick(&[2, 5, 20]));
            list.extend(edits::history(r, shape, filled, calls, odd_in));
        }
        let input = input(r, &list);
        done += same_lines(&input);
    }
    done
}

#[test]
fn small_boards() {
    let shapes =
        [(ROW, 1, 1), (ROW, 5, 3), (CHANNEL, 1, 8), (CHANNEL, 3, 1), (BOX, 1, 1), (BOX, 1, 2), (BOX, 2, 1), (BOX, 2, 3), (BOX, 4, 4)];
    let done = same_histories(&mut Numbers::new(801), 50, 400, |r| r.pick(&shapes));
    assert!(done > 350_000, "{done}");
}

#[test]
fn boards_of_any_shape() {
    let done = same_histories(&mut Numbers::new(803), 20, 150, random_shape);
    assert!(done > 130_000, "{done}");
}

#[test]
fn longest_boards() {
    let (side, most) = (LONGEST_SIDE, MOST_TRUNK_LAYERS);
    let trunks = [(ROW, side, 1), (ROW, side, most), (CHANNEL, side, 1), (CHANNEL, side, most)];
    let boxes = [(BOX, side, 1), (BOX, 1, side), (BOX, side, 2), (BOX, 2, side), (BOX, side, side)];
    let shapes = [&trunks[..], &boxes].concat();
    let done = same_histories(&mut Numbers::new(805), 6, 600, |r| r.pick(&shapes));
    assert!(done > 30_000, "{done}");
}

/// Boards that are filled again and again, and lists of nets that are dropped from them, all nets of the longest boards too.
#[test]
fn lists_of_nets() {
    let r = &mut Numbers::new(811);
    let (mut done, mut lists) = (0, 0);
    for round in 0..18 {
        let mut list = Vec::new();
        while list.len() < LONGEST_INPUT / 16 {
            let shape = if round % 6 == 0 { (BOX, LONGEST_SIDE, LONGEST_SIDE) } else { random_shape(r) };
            list.extend(edits::dropped_lists(r, shape, 6, 12));
        }
        let input = input(r, &list);
        done += same_lines(&input);
        lists += edits::calls(&input).iter().filter(|call| matches!(call, Call::Drop(nets) if nets.len() != 1)).count();
    }
    assert!(done > 60_000 && lists > 25_000, "{lists} of {done}");
}

/// Any numbers near the edges of their ranges; after each start a few edits.
#[test]
fn starts() {
    let r = &mut Numbers::new(807);
    let kinds = [0, 1, 2, 3, 1, 2, 3, 4, 5, 129, 131, 255, 257, (1 << 16) + 2, (1 << 32) + 3, 1 << 63, u64::MAX];
    let sides = [0, 1, 1, 2, 2, 3, 8, 9, 89, 90, 91, 255, 256, 257, (1 << 16) + 1, (1 << 32) + 1, u64::MAX];
    let mut list = Vec::new();
    for _ in 0..1500 {
        let (kind, n, byte2) = (r.pick(&kinds), r.pick(&sides), r.pick(&sides));
        list.push(Call::Start(kind, n, byte2));
        list.extend([Call::Add(3, vec![1, 2]), Call::Add(3, vec![1, 257]), Call::Add(4, vec![513, 770])]);
    }
    let input = input(r, &list);
    assert!(same_lines(&input) > 3000);
}

/// What ends a run, a record that is cut short among it, and what does not; and a byte of a history changed.
#[test]
fn records_that_are_none() {
    let r = &mut Numbers::new(809);
    let history = edits::history(r, (BOX, 3, 2), false, 40, 4);
    let good = input(r, &history);
    let mut inputs = vec![vec![], vec![3], vec![3, 1], vec![255; 9], vec![0; LONGEST_INPUT], vec![255; LONGEST_INPUT]];
    for wide in [false, true] {
        for (code, numbers) in [(0, 0), (0, 1), (5, 0), (5, 1), (6, 3), (127, 3), (1, 0), (1, 2), (2, 0), (4, 0)] {
            inputs.push([edits::record(code, wide, &vec![1; numbers]), good.clone()].concat());
        }
        for (code, numbers) in
            [(1, 4), (1, 512), (2, 1), (2, 512), (3, 0), (3, 2), (3, 512), (4, 2), (4, 512), (1, 513), (2, 513), (3, 513), (4, 513)]
        {
            inputs.push([edits::record(code, wide, &vec![1; numbers]), good.clone()].concat());
        }
        inputs.extend([0, 511, 512, 513, 65535].map(|size| [edits::record(4, wide, &[size]), good.clone()].concat()));
    }
    inputs.extend([1 << 16, 1 << 32, u64::MAX].map(|size| [edits::record(4, true, &[size]), good.clone()].concat()));
    inputs.extend((0..good.len()).step_by(7).map(|size| good[..size].to_vec()));
    for _ in 0..150 {
        let mut changed = good.clone();
        let at = r.below(changed.len());
        changed[at] = r.below(256) as u8;
        inputs.push(changed);
    }
    let done: usize = inputs.iter().map(|input| same_lines(input)).sum();
    assert!(done > 5000, "{done}");
}
