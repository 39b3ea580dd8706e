//! Lay gives the figures of the independent survey and wirings that two checkers call legal, and alters nothing else.

mod common;

use common::{answered, extremes, laid_answer, ticket, Lent};
use slow::judge::{judge, Grid};
use slow::tickets::{corner, every, rings, side_nets, two_layer, Numbers};
use slow::two_layer::is_solid;
use slow::{no_kind, Refusal, Ticket, BOX, CHANNEL, EAST, LONGEST_SIDE, NORTH, ROW, SOUTH, TWO_LAYER, WEST, WIDEST_GRID};

fn refused(number: u8, place: usize) -> [u64; 11] {
    let mut out = [0; 11];
    (out[0], out[1]) = (number as u64, place as u64);
    out
}

/// A lay into a buffer of so many bytes: the answer, and the buffer.
fn laid(t: &[u8], size: usize, salt: u8) -> ([u64; 11], Lent) {
    let mut buffer = Lent::new(size, salt);
    let answer = answered(|a| common::lay(t, buffer.part(), a));
    (answer, buffer)
}

/// The grid of a two-layer channel that is not solid. The number of tracks is Lay's own, within its bound: it is found by the
/// length that an empty buffer is refused with.
fn two_layer_grid(t: &Ticket, bytes: &[u8]) -> Grid {
    let length = laid(bytes, 0, 0).0[1] as usize;
    let g = Grid { n: t.n, w: length / (2 * t.n), k: 2, first: false };
    assert!(1 <= g.w && 4 * g.w <= 7 * g.n, "a buffer of {length} bytes {bytes:?}");
    g
}

/// The grid that Lay uses, or its refusal.
fn grid(t: &Ticket, bytes: &[u8]) -> Result<Grid, Refusal> {
    match t.kind {
        ROW | CHANNEL | BOX => Ok(slow::lay::grid(t).expect("the documents give it")),
        TWO_LAYER if is_solid(t) => Err(Refusal(17, 0)),
        TWO_LAYER => Ok(two_layer_grid(t, bytes)),
        other => no_kind(other),
    }
}

fn lays_well(r: &mut Numbers, bytes: &[u8]) {
    let salt = r.below(256) as u8;
    let (t, g) = match slow::read::read(bytes).and_then(|t| grid(&t, bytes).map(|g| (t, g))) {
        Ok(good) => good,
        Err(Refusal(number, place)) => {
            for size in [0, r.below(200), r.below(2 * LONGEST_SIDE * WIDEST_GRID)] {
                let (answer, buffer) = laid(bytes, size, salt);
                assert_eq!(answer, refused(number, place), "{bytes:?}");
                assert!(buffer.kept_past(0), "a refusal alters nothing {bytes:?}");
            }
            return;
        }
    };
    let more = r.below(50 + 4 * t.n);
    for size in [g.size(), g.size() + more] {
        let (answer, buffer) = laid(bytes, size, salt);
        assert_eq!(answer, laid_answer(&t, g), "{bytes:?}");
        assert!(buffer.kept_past(g.size()), "bytes past the wiring {bytes:?}");
        let x = &buffer.has()[..g.size()];
        assert_eq!(judge(g, &t.pins, x), Ok(()), "{bytes:?}");
        assert_eq!(pozqaben::check(bytes, g.w, g.k, g.first, x), Ok(()), "{bytes:?}");
    }
    for size in [0, g.size() - 1, r.below(g.size())] {
        let (answer, buffer) = laid(bytes, size, salt);
        assert_eq!(answer, refused(10, g.size()), "{bytes:?}");
        assert!(buffer.kept_past(0), "a short buffer {bytes:?}");
    }
}

#[test]
fn extreme_tickets() {
    let r = &mut Numbers::new(203);
    extremes().iter().for_each(|t| lays_well(r, t));
}

#[test]
fn random_and_damaged_tickets() {
    let r = &mut Numbers::new(205);
    for _ in 0..50_000 {
        let t = ticket(r);
        lays_well(r, &t);
    }
}

/// Boxes of one corner kind, which Lay mirrors and turns.
#[test]
fn corners() {
    let r = &mut Numbers::new(207);
    for _ in 0..200 {
        for (a, b) in [(NORTH, EAST), (NORTH, WEST), (SOUTH, EAST), (SOUTH, WEST)] {
            for (n, w) in [(9, 7), (7, 9), (30, 1), (1, 30), (12, 12), (2, 5), (3, 3)] {
                let t = corner(r, n, w, a, b);
                lays_well(r, &t);
            }
        }
    }
}

/// Boxes most of whose nets are all on one side, which across, up and floor count.
#[test]
fn side_net_boxes() {
    let r = &mut Numbers::new(225);
    for _ in 0..5000 {
        let t = side_nets(r);
        lays_well(r, &t);
    }
}

/// Solid ones, nearly solid ones, full ones, straight nets, long nets.
#[test]
fn two_layer_tickets() {
    let r = &mut Numbers::new(209);
    for _ in 0..20_000 {
        let longest = r.pick(&[4, 12, LONGEST_SIDE]);
        let n = 1 + r.below(longest);
        let t = two_layer(r, n);
        lays_well(r, &t);
    }
}

#[test]
fn two_layer_tickets_of_small_length() {
    let r = &mut Numbers::new(211);
    for n in 1..=4 {
        every(TWO_LAYER, n, 1).iter().for_each(|t| lays_well(r, t));
    }
}

/// Tickets that may take as many tracks as any.
#[test]
fn two_layer_rings() {
    let r = &mut Numbers::new(213);
    for n in 1..=LONGEST_SIDE {
        lays_well(r, &rings(n));
    }
}
