//! The hardest box of a shape: its floor is the one that the documents name, and no box of the shape has a higher one.

use slow::hardest::{answer, highest_floor, shapes, ticket};
use slow::read::read;
use slow::survey::figures;
use slow::tickets::{encode, every, of_shape, side_nets, slots, Numbers, Places};
use slow::{BOX, LONGEST_SIDE, LONGEST_TICKET};
use std::collections::BTreeSet;

fn floor(t: &[u8]) -> usize {
    figures(&read(t).expect("a good ticket")).floor
}

#[test]
fn every_shape_has_a_full_box_of_that_floor() {
    let mut tried = 0;
    for (n, w) in shapes() {
        let bytes = ticket(n, w);
        let t = read(&bytes).expect("a good ticket");
        assert_eq!((t.kind, t.n, t.byte2, t.pins.len()), (BOX, n, w, 2 * n + 2 * w));
        let f = figures(&t);
        assert_eq!((f.nets, f.across, f.up), (n + w, n + w, n + w), "{n} by {w}");
        assert_eq!(f.floor, highest_floor(n, w), "{n} by {w}");
        assert!(f.layers <= f.floor + 3, "{n} by {w}");
        let side = |places: usize| places.div_ceil(8) + places;
        assert_eq!(bytes.len(), 4 + 2 * side(n) + 2 * side(w), "{n} by {w}");
        tried += 1;
    }
    assert_eq!(tried, LONGEST_SIDE * LONGEST_SIDE);
}

/// Every box with n + w up to 5. A shape has as many tickets as there are ways to part its places into groups: a net has the
/// places of a group, and a group of one is an empty place.
#[test]
fn no_box_of_a_small_shape_has_a_higher_floor() {
    for (sum, count) in [(2, 15), (3, 203), (4, 4140), (5, 115_975)] {
        for n in 1..sum {
            let w = sum - n;
            let all: BTreeSet<Vec<u8>> = every(BOX, n, w).into_iter().collect();
            assert_eq!((all.len(), all.contains(&ticket(n, w))), (count, true), "{n} by {w}");
            assert_eq!(all.iter().map(|t| floor(t)).max(), Some(highest_floor(n, w)), "{n} by {w}");
        }
    }
}

/// Whether a box has the highest floor of its shape; none has a higher one.
fn reaches_the_highest(n: usize, w: usize, t: &[u8]) -> bool {
    let (floor, highest) = (floor(t), highest_floor(n, w));
    assert!(floor <= highest, "{floor} of {t:?}");
    floor == highest
}

#[test]
fn no_random_box_has_a_higher_floor() {
    let r = &mut Numbers::new(31);
    let mut reached = 0;
    for _ in 0..3000 {
        let sides = [8, 30, LONGEST_SIDE].map(|top| 1 + r.below(top));
        let (n, w, tenths) = (r.pick(&sides), r.pick(&sides), 6 + r.below(5));
        let t = of_shape(r, BOX, n, w, tenths);
        reached += reaches_the_highest(n, w, &t) as usize;
    }
    assert!(reached > 100, "{reached} boxes reach it");
}

/// Most of their nets are all on one side.
#[test]
fn no_side_net_box_has_a_higher_floor() {
    let r = &mut Numbers::new(39);
    let boxes = (0..3000).map(|_| side_nets(r));
    let reached = boxes.filter(|t| reaches_the_highest(t[1] as usize, t[2] as usize, t)).count();
    assert!(reached > 100, "{reached} boxes reach it");
}

/// Some places of the hardest exchange their nets, and some of its nets become one.
#[test]
fn no_box_near_the_hardest_has_a_higher_floor() {
    let r = &mut Numbers::new(37);
    let mut reached = 0;
    for _ in 0..3000 {
        let (n, w) = (1 + r.below(20), 1 + r.below(20));
        let mut pins: Places = read(&ticket(n, w)).expect("a good ticket").pins.iter().map(|p| ((p.side, p.place), p.net)).collect();
        let all = slots(BOX, n, w);
        for _ in 0..r.below(8) {
            let (a, b) = (r.pick(&all), r.pick(&all));
            let (one, other) = (pins[&a], pins[&b]);
            if r.below(4) > 0 {
                pins.extend([(a, other), (b, one)]);
            } else {
                pins.values_mut().filter(|m| **m == other).for_each(|m| *m = one);
            }
        }
        let t = encode(BOX, n, w, &pins);
        reached += reaches_the_highest(n, w, &t) as usize;
    }
    assert!(reached > 1000, "{reached} boxes reach it");
}

const STAIN: u8 = 170;

/// The answer to a buffer of so many bytes, which beyond the first ones of its ticket are as they were.
fn answered(n: usize, w: usize, size: usize) -> [u64; 3] {
    let mut buffer = vec![STAIN; size];
    let answer = answer(n, w, &mut buffer);
    let (written, rest) = buffer.split_at(answer[2] as usize);
    assert!(written.is_empty() || written == ticket(n, w));
    assert!(rest.iter().all(|b| *b == STAIN));
    answer
}

#[test]
fn sides_come_before_the_buffer() {
    for side in [0, LONGEST_SIDE + 1, 256, usize::MAX] {
        for size in [0, LONGEST_TICKET] {
            assert_eq!([(side, 1), (LONGEST_SIDE, side), (side, side)].map(|(n, w)| answered(n, w, size)), [[18, 0, 0]; 3]);
        }
    }
}

#[test]
fn buffers_around_the_length_needed() {
    for (n, w, length) in [(1, 1, 12), (8, 9, 44), (40, 12, 122), (LONGEST_SIDE, LONGEST_SIDE, LONGEST_TICKET)] {
        let needed = length as u64;
        assert_eq!([0, 1, length - 1].map(|size| answered(n, w, size)), [[19, needed, 0]; 3]);
        assert_eq!([length, length + 1, 1000].map(|size| answered(n, w, size)), [[0, 0, needed]; 3]);
    }
}
