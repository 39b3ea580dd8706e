//! 10,000 random boxes, in all eight orientations, against stored hashes. Every byte of a wiring is the one of the build before the
//! pins of a turned or mirrored box were looked up; the answers are those with request 6's counts, as tests/slow works them out.

mod common;

use common::{answered, laid_answer, Lent};
use slow::tickets::{corner, of_shape, Numbers};
use slow::{lay, read, Ticket, BOX, EAST, LONGEST_SIDE, NORTH, SOUTH, WEST};
use std::collections::{BTreeMap, BTreeSet};

/// A line for each thousand boxes: the hash of their wirings, and that of their answers.
const STORED: &str = include_str!("../../../tests/vectors/boxes.hash");

/// FNV-1a with 64 bits.
struct Hash(u64);

impl Hash {
    fn new() -> Self {
        Hash(0xcbf2_9ce4_8422_2325)
    }

    fn add(&mut self, bytes: &[u8]) {
        bytes.iter().for_each(|b| self.0 = (self.0 ^ *b as u64).wrapping_mul(0x100_0000_01b3));
    }
}

/// Boxes of every shape and filling; every other one has a corner kind that is the most numerous by far.
fn a_box(r: &mut Numbers) -> Vec<u8> {
    let (longest, widest) = (r.pick(&[3, 12, LONGEST_SIDE]), r.pick(&[3, 12, LONGEST_SIDE]));
    let (n, w) = (1 + r.below(longest), 1 + r.below(widest));
    let tenths = r.below(11);
    if r.below(2) == 0 {
        return of_shape(r, BOX, n, w, tenths);
    }
    let (a, b) = (r.pick(&[NORTH, SOUTH]), r.pick(&[WEST, EAST]));
    corner(r, n, w, a, b)
}

/// Whether the box is turned, its columns reversed and its tracks reversed: it is turned where n < w, and mirrored until the most
/// numerous corner kind is at north and east. Of several the first is taken, in the order of the box as it stands when turned.
fn orientation(t: &Ticket) -> (bool, bool, bool) {
    let mut sides: BTreeMap<u8, BTreeSet<usize>> = BTreeMap::new();
    t.pins.iter().for_each(|p| _ = sides.entry(p.net).or_default().insert(p.side));
    let turned = t.n < t.byte2;
    let mut kinds = [(NORTH, EAST), (NORTH, WEST), (SOUTH, EAST), (SOUTH, WEST)];
    if turned {
        kinds.swap(1, 2);
    }
    let count = |(a, b): (usize, usize)| sides.values().filter(|s| **s == BTreeSet::from([a, b])).count();
    let most = kinds.into_iter().map(count).max().unwrap();
    let (a, b) = kinds.into_iter().find(|k| count(*k) == most).unwrap();
    (turned, b == WEST, a == SOUTH)
}

#[test]
fn wirings_and_answers_as_stored() {
    let r = &mut Numbers::new(223);
    let mut met: BTreeMap<(bool, bool, bool), usize> = BTreeMap::new();
    let mut hashes = String::new();
    for _ in 0..10 {
        let (mut wirings, mut answers) = (Hash::new(), Hash::new());
        for _ in 0..1000 {
            let bytes = a_box(r);
            let t = read::read(&bytes).expect("a good box");
            let g = lay::grid(&t).expect("a box has one");
            let mut buffer = Lent::new(g.size(), 0);
            let answer = answered(|a| common::lay(&bytes, buffer.part(), a));
            assert_eq!(answer, laid_answer(&t, g), "{bytes:?}");
            answer.iter().for_each(|x| answers.add(&x.to_le_bytes()));
            wirings.add(buffer.has());
            *met.entry(orientation(&t)).or_default() += 1;
        }
        hashes += &format!("{:016x} {:016x}\n", wirings.0, answers.0);
    }
    assert!(met.len() == 8 && met.values().all(|count| *count > 500), "all eight orientations: {met:?}");
    assert_eq!(hashes, STORED);
}
