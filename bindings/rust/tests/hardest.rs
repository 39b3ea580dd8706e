//! The hardest box of a shape is the ticket that the independent implementation writes, with the floor that the documents name,
//! and nothing else is altered.

mod common;

use common::{answered, Lent};
use pozqaben::{Kind, Refusal};
use slow::hardest::{self, highest_floor, shapes};
use slow::tickets::Numbers;
use slow::{LONGEST_SIDE, LONGEST_TICKET};

/// A call with a buffer of so many bytes: the answer and every byte are the independent ones.
fn same_outcome(n: usize, w: usize, size: usize) -> [u64; 3] {
    let mut buffer = Lent::new(size, (n ^ w) as u8);
    let mut expected = buffer.has().to_vec();
    let right = hardest::answer(n, w, &mut expected);
    let answer = answered(|a| common::hardest_box(n, w, buffer.part(), a));
    assert_eq!(answer, right, "{n} by {w}, {size} bytes");
    assert_eq!(buffer.has(), expected, "{n} by {w}, {size} bytes");
    assert!(buffer.kept_past(answer[2] as usize), "{n} by {w}, {size} bytes");
    answer
}

#[test]
fn every_shape_with_buffers_around_its_length() {
    let mut tried = 0;
    for (n, w) in shapes() {
        let length = hardest::ticket(n, w).len();
        let needed = length as u64;
        assert_eq!([length, length + 1, length + 100].map(|size| same_outcome(n, w, size)), [[0, 0, needed]; 3]);
        assert_eq!([length - 1, 0].map(|size| same_outcome(n, w, size)), [[19, needed, 0]; 2]);
        tried += 1;
    }
    assert_eq!(tried, LONGEST_SIDE * LONGEST_SIDE);
}

#[test]
fn sides_outside_their_range() {
    for side in [0, LONGEST_SIDE + 1, 255, 256, 256 + 12, 1 << 16, 1 << 32, (1 << 32) + 12, 1 << 63, usize::MAX] {
        for other in [1, 12, LONGEST_SIDE, 0, LONGEST_SIDE + 1, usize::MAX] {
            for size in [0, 1, LONGEST_TICKET, 1000] {
                assert_eq!(same_outcome(side, other, size), [18, 0, 0]);
                assert_eq!(same_outcome(other, side, size), [18, 0, 0]);
            }
        }
    }
}

#[test]
fn random_sides_and_buffers() {
    let r = &mut Numbers::new(601);
    for _ in 0..50_000 {
        same_outcome(r.below(LONGEST_SIDE + 3), r.below(LONGEST_SIDE + 3), r.below(LONGEST_TICKET + 20));
    }
}

/// By the library's own survey; and what it lays is at most three layers above.
#[test]
fn floor_of_every_shape() {
    for (n, w) in shapes() {
        let t = pozqaben::hardest_box(n, w).expect("a shape");
        assert_eq!(t, hardest::ticket(n, w), "{n} by {w}");
        let s = pozqaben::survey(&t).expect("a good ticket");
        assert_eq!((s.kind, s.n, s.w, s.pins), (Kind::Box, n, w, 2 * n + 2 * w));
        assert_eq!(s.floor, highest_floor(n, w), "{n} by {w}");
        assert!(s.layers <= s.floor + 3, "{n} by {w}");
    }
}

#[test]
fn laid_as_every_box() {
    for (n, w) in [(1, 1), (1, 2), (2, 1), (7, 8), (40, 12), (12, 40), (1, LONGEST_SIDE), (LONGEST_SIDE, 1), (LONGEST_SIDE, LONGEST_SIDE)] {
        let t = pozqaben::hardest_box(n, w).expect("a shape");
        let (laid, wiring) = pozqaben::lay(&t).expect("a good ticket");
        assert_eq!(pozqaben::check(&t, laid.w, laid.k, laid.first, &wiring), Ok(()), "{n} by {w}");
        assert!(laid.k <= laid.floor + 3, "{n} by {w}");
    }
}

#[test]
fn wrapper_hands_on_refusals() {
    for (n, w) in [(0, 1), (1, LONGEST_SIDE + 1), (usize::MAX, usize::MAX)] {
        assert_eq!(pozqaben::hardest_box(n, w), Err(Refusal { number: 18, place: 0 }));
        assert_eq!(pozqaben::hardest_box_into(n, w, &mut []), Err(Refusal { number: 18, place: 0 }));
    }
    assert_eq!(pozqaben::hardest_box_into(LONGEST_SIDE, LONGEST_SIDE, &mut []), Err(Refusal { number: 19, place: LONGEST_TICKET }));
}
