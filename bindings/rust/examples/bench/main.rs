//! Ratios of one run, never a timed test: `cargo run --release --example bench` prints the tables of docs/BENCHMARKS.md.
//!
//! Lay is held against plain code for the same construction and, as the limit to look at, against memset of the bytes that it
//! writes; of two-layer channels against Lay of a channel; Check against a plain flood fill of the same wiring; a ticket that is
//! written, or turned flat and back, against reading it; the edge floor of a ticket, and a board that is edited, against a survey;
//! what a squeeze finds against the floor and what is laid.

mod board;
mod flood;
mod plain;
mod squeeze;
mod wirings;

use flood::Flood;
use pozqaben::{check_with, edge_floor, flatten_into, hardest_box_into, lay_into, read, survey, unflatten_into};
use pozqaben::{LONGEST_FLAT, LONGEST_TICKET};
use slow::tickets::{a_net_less, a_pin_less, encode, of_shape, rings, slots, Numbers, Places};
use slow::{BOX, CHANNEL, LONGEST_SIDE, MOST_LAYERS, ROW, TWO_LAYER};
use std::cell::{Cell, RefCell, RefMut};
use std::hint::black_box;

#[repr(C)]
struct Time {
    seconds: i64,
    nanoseconds: i64,
}

extern "C" {
    fn clock_gettime(clock: i32, time: *mut Time) -> i32;
}

/// Processor time that this thread has had, so that other work on the machine does not count.
fn processor_seconds() -> f64 {
    const THREAD_CLOCK: i32 = 3;
    let mut time = Time { seconds: 0, nanoseconds: 0 };
    // Sound: the clock's number is Linux's, and the struct is C's timespec on 64-bit Linux.
    unsafe { clock_gettime(THREAD_CLOCK, &mut time) };
    time.seconds as f64 + time.nanoseconds as f64 * 1e-9
}

/// A batch of calls: seconds a call.
fn batch(times: usize, call: &mut dyn FnMut()) -> f64 {
    let start = processor_seconds();
    (0..times).for_each(|_| call());
    (processor_seconds() - start) / times as f64
}

/// How many calls last a millisecond.
fn times_of(call: &mut dyn FnMut()) -> usize {
    let mut times = 1;
    while batch(times, call) * (times as f64) < 1e-3 {
        times *= 2;
    }
    times
}

/// Seconds that each call takes: the best of many batches. The calls are timed in turns, so that what else the machine does
/// slows all alike.
fn seconds_of<const N: usize>(mut calls: [&mut dyn FnMut(); N]) -> [f64; N] {
    let times: Vec<usize> = calls.iter_mut().map(|call| times_of(call)).collect();
    let mut best = [f64::INFINITY; N];
    for _ in 0..40 {
        for a in 0..N {
            best[a] = best[a].min(batch(times[a], calls[a]));
        }
    }
    best
}

/// Lay, the plain router and memset into the same buffer over and over, or into each part of a memory in turn.
fn lay_row(ticket: &[u8], memory: &mut [u8]) -> [f64; 3] {
    let read = slow::read::read(ticket).expect("a good ticket");
    let g = slow::lay::grid(&read).expect("a row, a channel or a box");
    let size = g.size();
    let memory = RefCell::new(memory);
    let part = Cell::new(0);
    let next = || {
        part.set((part.get() + 1) % (memory.borrow().len() / size));
        RefMut::map(memory.borrow_mut(), |m| &mut m[part.get() * size..(part.get() + 1) * size])
    };
    let mut drawn = vec![0; size];
    plain::lay(&read, g, &mut drawn);
    assert!(drawn == pozqaben::lay(ticket).expect("a good ticket").1, "the plain router draws what Lay draws");
    let lay = &mut || {
        lay_into(black_box(ticket), &mut next()).expect("a good ticket");
    };
    let plain = &mut || plain::lay(black_box(&read), g, black_box(&mut next()));
    let memset = &mut || black_box(&mut *next()).fill(black_box(0));
    seconds_of([lay, plain, memset])
}

fn lay_tables(r: &mut Numbers) {
    let (side, full) = (LONGEST_SIDE, 10);
    let shapes = [
        ("box 10 × 10", BOX, 10, 10, full),
        ("box 90 × 90", BOX, side, side, full),
        ("box 90 × 90, half full", BOX, side, side, 5),
        ("box 90 × 1", BOX, side, 1, full),
        ("box 1 × 90", BOX, 1, side, full),
        ("box 2 × 90", BOX, 2, side, full),
        ("row of 90, h 1", ROW, side, 1, full),
        ("channel of 90, h 1", CHANNEL, side, 1, full),
    ];
    let tickets = shapes.map(|(name, kind, n, byte2, tenths)| (name, of_shape(r, kind, n, byte2, tenths)));
    let mut large = vec![1; 256 << 20];
    for (where_to, cached) in [("one buffer", true), ("256 MB in turn", false)] {
        println!("| lay, into {where_to} | bytes | lay, µs | plain, µs | lay / plain | memset, µs | lay / memset |");
        println!("|---|---|---|---|---|---|---|");
        for (name, ticket) in &tickets {
            let figures = survey(ticket).expect("a good ticket");
            let size = figures.n * figures.w * figures.layers;
            let [lay, plain, memset] = lay_row(ticket, if cached { &mut large[..size] } else { &mut large });
            let [a, b, c] = [lay, plain, memset].map(|time| time * 1e6);
            println!("| {name} | {size} | {a:.2} | {b:.2} | {:.2} | {c:.2} | {:.1} |", lay / plain, lay / memset);
        }
        println!();
    }
}

/// Every place filled, by nets of four pins anywhere.
fn nets_of_four(r: &mut Numbers, n: usize) -> Vec<u8> {
    let mut free = slots(TWO_LAYER, n, 1);
    r.shuffle(&mut free);
    let pins: Places = free.into_iter().enumerate().map(|(i, place)| (place, 1 + i as u8 / 4)).collect();
    encode(TWO_LAYER, n, 1, &pins)
}

/// Two-layer channels, beside a full channel in the same turns.
fn two_layer_table(r: &mut Numbers) {
    let side = LONGEST_SIDE;
    let channel = of_shape(r, CHANNEL, side, 1, 10);
    let tickets = [
        ("full, nets of four pins", nets_of_four(r, side)),
        ("full, nets of four pins in rings", rings(side)),
        ("solid but for a pin", a_pin_less(r, side)),
        ("solid but for a net", a_net_less(r, side)),
    ];
    println!("| lay, two-layer channel of {side} | tracks | bytes | lay, µs | full channel of {side}, h 1, µs | lay / channel |");
    println!("|---|---|---|---|---|---|");
    for (name, ticket) in tickets {
        let (laid, mut wiring) = pozqaben::lay(&ticket).expect("a two-layer channel that is not solid");
        let (_, mut beside) = pozqaben::lay(&channel).expect("a good ticket");
        let lay = &mut || {
            lay_into(black_box(&ticket), black_box(&mut wiring)).expect("a good ticket");
        };
        let lay_channel = &mut || {
            lay_into(black_box(&channel), black_box(&mut beside)).expect("a good ticket");
        };
        let [lay, lay_channel] = seconds_of([lay, lay_channel]);
        let [a, b] = [lay, lay_channel].map(|time| time * 1e6);
        println!("| {name} | {} | {} | {a:.2} | {b:.2} | {:.2} |", laid.w, laid.size(), lay / lay_channel);
    }
    println!();
}

fn check_table(r: &mut Numbers) {
    let (w, k) = (LONGEST_SIDE, MOST_LAYERS);
    println!("| check, {LONGEST_SIDE} × {w} × {k} | verdict | check, ms | flood fill, ms | check / flood fill |\n|---|---|---|---|---|");
    let mut scratch = vec![0; LONGEST_SIDE * w * k];
    let mut flood = Flood::new();
    for (name, ticket, wiring) in wirings::all(r) {
        let verdict = |refused: Option<u64>| refused.map_or("legal".to_string(), |net| format!("15 at {net}"));
        let found = check_with(&ticket, w, k, false, &wiring, &mut scratch).err().map(|e| e.place as u64);
        assert_eq!(found, flood.fill(&ticket, &wiring), "{name}");
        let ours = &mut || {
            let _ = black_box(check_with(black_box(&ticket), w, k, false, &wiring, &mut scratch));
        };
        let plain = &mut || {
            black_box(flood.fill(black_box(&ticket), &wiring));
        };
        let [check, plain] = seconds_of([ours, plain]);
        println!("| {name} | {} | {:.2} | {:.2} | {:.2} |", verdict(found), check * 1e3, plain * 1e3, check / plain);
    }
}

fn call_table(r: &mut Numbers) {
    println!("\n| ticket | bytes | read, calls a second | survey, calls a second | edge floor, calls a second | edge floor / survey |");
    println!("|---|---|---|---|---|---|");
    let side = LONGEST_SIDE;
    let shapes = [
        ("box 4 × 1", BOX, 4, 1),
        ("row of 90", ROW, side, 1),
        ("channel of 90", CHANNEL, side, 1),
        ("two-layer channel of 90", TWO_LAYER, side, 1),
        ("box 90 × 90", BOX, side, side),
        ("box 10 × 10", BOX, 10, 10),
        ("box 1 × 90", BOX, 1, side),
    ];
    for (name, kind, n, byte2) in shapes {
        let ticket = of_shape(r, kind, n, byte2, 10);
        let reading = &mut || {
            black_box(read(black_box(&ticket))).expect("a good ticket");
        };
        let surveying = &mut || {
            black_box(survey(black_box(&ticket))).expect("a good ticket");
        };
        let counting = &mut || {
            black_box(edge_floor(black_box(&ticket))).expect("a good ticket");
        };
        let times = seconds_of([reading, surveying, counting]);
        let [a, b, c] = times.map(|time| 1.0 / time);
        println!("| {name} | {} | {a:.0} | {b:.0} | {c:.0} | {:.2} |", ticket.len(), b / c);
    }
}

/// The hardest box of a shape is written, and read.
fn written_table() {
    println!("\n| hardest box | bytes | written, µs | read, µs | written / read |\n|---|---|---|---|---|");
    for (n, w) in [(4, 1), (10, 10), (40, 12), (LONGEST_SIDE, LONGEST_SIDE)] {
        let mut buffer = [0; LONGEST_TICKET];
        let length = hardest_box_into(n, w, &mut buffer).expect("a shape");
        let ticket = buffer[..length].to_vec();
        let writing = &mut || {
            black_box(hardest_box_into(black_box(n), w, black_box(&mut buffer))).expect("a shape");
        };
        let reading = &mut || {
            black_box(read(black_box(&ticket))).expect("a good ticket");
        };
        let [writing, reading] = seconds_of([writing, reading]);
        println!("| {n} × {w} | {length} | {:.2} | {:.2} | {:.2} |", writing * 1e6, reading * 1e6, writing / reading);
    }
}

/// A ticket is turned flat, and back, and read.
fn flat_table(r: &mut Numbers) {
    println!("\n| ticket | bytes | flat bytes | flatten, µs | unflatten, µs | read, µs | flatten / read | unflatten / read |");
    println!("|---|---|---|---|---|---|---|---|");
    let side = LONGEST_SIDE;
    let shapes = [
        ("box 4 × 1", BOX, 4, 1, 10),
        ("row of 90", ROW, side, 1, 10),
        ("channel of 90", CHANNEL, side, 1, 10),
        ("two-layer channel of 90", TWO_LAYER, side, 1, 10),
        ("box 90 × 90", BOX, side, side, 10),
        ("box 90 × 90, half full", BOX, side, side, 5),
    ];
    for (name, kind, n, byte2, tenths) in shapes {
        let ticket = of_shape(r, kind, n, byte2, tenths);
        let flat = pozqaben::flatten(&ticket).expect("a good ticket");
        let (mut flat_buffer, mut ticket_buffer) = ([0; LONGEST_FLAT], [0; LONGEST_TICKET]);
        let flattening = &mut || {
            black_box(flatten_into(black_box(&ticket), black_box(&mut flat_buffer))).expect("a good ticket");
        };
        let unflattening = &mut || {
            black_box(unflatten_into(black_box(&flat), black_box(&mut ticket_buffer))).expect("a good flat ticket");
        };
        let reading = &mut || {
            black_box(read(black_box(&ticket))).expect("a good ticket");
        };
        let times = seconds_of([flattening, unflattening, reading]);
        let [a, b, c] = times.map(|time| time * 1e6);
        println!("| {name} | {} | {} | {a:.2} | {b:.2} | {c:.2} | {:.2} | {:.2} |", ticket.len(), flat.len(), a / c, b / c);
    }
}

fn main() {
    let r = &mut Numbers::new(601);
    println!("{} cores\n", std::thread::available_parallelism().map_or(1, |c| c.get()));
    lay_tables(r);
    two_layer_table(r);
    check_table(r);
    call_table(r);
    written_table();
    flat_table(r);
    board::table();
    squeeze::tables();
}
