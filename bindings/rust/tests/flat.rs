//! Tickets turned flat and flat tickets turned into tickets: the answer and every byte are those of the independent implementation,
//! and what is turned there and back is the same bytes.

mod common;

use common::{answered, extremes, flat, ticket, Lent};
use pozqaben::Refusal;
use slow::flat::{flatten_answer, unflatten_answer};
use slow::tickets::{every, random, slots, Numbers};
use slow::{BOX, CHANNEL, LONGEST_FLAT, LONGEST_SIDE, LONGEST_TICKET, ROW, TWO_LAYER};

/// A call, and what the independent implementation answers.
#[derive(Clone, Copy)]
struct Turn {
    call: fn(&[u8], &mut [u8], &mut [u64]) -> bool,
    right: fn(&[u8], &mut [u8]) -> [u64; 3],
}

const FLATTEN: Turn = Turn { call: common::flatten, right: flatten_answer };
const UNFLATTEN: Turn = Turn { call: common::unflatten, right: unflatten_answer };

impl Turn {
    /// Into a buffer of so many bytes.
    fn same_outcome(self, from: &[u8], size: usize) -> [u64; 3] {
        let mut buffer = Lent::new(size, from.len() as u8);
        let mut expected = buffer.has().to_vec();
        let right = (self.right)(from, &mut expected);
        let answer = answered(|a| (self.call)(from, buffer.part(), a));
        assert_eq!(answer, right, "{from:?}, {size} bytes");
        assert_eq!(buffer.has(), expected, "{from:?}, {size} bytes");
        assert!(buffer.kept_past(answer[2] as usize), "{from:?}, {size} bytes");
        answer
    }

    /// Into buffers around the length needed; bytes that are refused, into any. Whether they are accepted.
    fn same_outcomes(self, r: &mut Numbers, from: &[u8]) -> bool {
        let [number, needed, _] = self.same_outcome(from, 0);
        let length = needed as usize;
        if number != 19 {
            assert_eq!(self.same_outcome(from, r.below(LONGEST_TICKET + 9)), [number, needed, 0]);
            return false;
        }
        assert_eq!([length, length + 1 + r.below(99)].map(|size| self.same_outcome(from, size)), [[0, 0, needed]; 2]);
        assert_eq!([length - 1, r.below(length)].map(|size| self.same_outcome(from, size)), [[19, needed, 0]; 2]);
        true
    }
}

/// By the library alone.
fn there_and_back(t: &[u8]) -> Vec<u8> {
    let flat = pozqaben::flatten(t).expect("a good ticket");
    assert_eq!(pozqaben::unflatten(&flat).as_deref(), Ok(t), "{flat:?}");
    flat
}

fn back_and_there(flat: &[u8]) {
    let t = pozqaben::unflatten(flat).expect("a good flat ticket");
    assert_eq!(pozqaben::flatten(&t).as_deref(), Ok(flat), "{t:?}");
}

#[test]
fn random_tickets_there_and_back() {
    let r = &mut Numbers::new(701);
    for _ in 0..100_000 {
        let flat = there_and_back(&random(r));
        back_and_there(&flat);
    }
}

#[test]
fn random_and_damaged_tickets() {
    let r = &mut Numbers::new(703);
    let mut accepted = 0;
    for _ in 0..50_000 {
        let t = ticket(r);
        accepted += FLATTEN.same_outcomes(r, &t) as usize;
        UNFLATTEN.same_outcome(&t, LONGEST_TICKET);
    }
    assert!((15_000..35_000).contains(&accepted), "{accepted}");
}

#[test]
fn random_and_damaged_flat_tickets() {
    let r = &mut Numbers::new(705);
    let mut accepted = 0;
    for _ in 0..50_000 {
        let bytes = flat(r);
        if UNFLATTEN.same_outcomes(r, &bytes) {
            back_and_there(&bytes);
            accepted += 1;
        }
        FLATTEN.same_outcome(&bytes, LONGEST_FLAT);
    }
    assert!((15_000..35_000).contains(&accepted), "{accepted}");
}

#[test]
fn extreme_tickets() {
    let r = &mut Numbers::new(707);
    for t in extremes() {
        if FLATTEN.same_outcomes(r, &t) {
            let flat = there_and_back(&t);
            assert!(UNFLATTEN.same_outcomes(r, &flat));
        }
        UNFLATTEN.same_outcomes(r, &t);
    }
}

#[test]
fn every_cut_and_a_byte_more() {
    for t in extremes() {
        for size in 0..t.len() {
            FLATTEN.same_outcome(&t[..size], 8);
        }
        let Ok(flat) = pozqaben::flatten(&t) else { continue };
        for size in 0..flat.len() {
            assert_eq!(UNFLATTEN.same_outcome(&flat[..size], 8), [1, size as u64, 0]);
        }
        for more in [0, 1, 181, 255] {
            assert_eq!(UNFLATTEN.same_outcome(&[&flat[..], &[more]].concat(), LONGEST_TICKET), [8, flat.len() as u64, 0]);
        }
    }
}

/// Each place of some flat tickets with each number that a byte can be.
#[test]
fn every_byte_at_every_place() {
    let r = &mut Numbers::new(709);
    for _ in 0..60 {
        let good = pozqaben::flatten(&random(r)).expect("a good ticket");
        for at in 0..good.len().min(40) {
            let mut bytes = good.clone();
            for value in 0..=255 {
                bytes[at] = value;
                UNFLATTEN.same_outcome(&bytes, LONGEST_TICKET);
            }
        }
    }
}

#[test]
fn every_ticket_of_a_small_shape() {
    let mut tried = 0;
    for (kind, n, byte2) in [(ROW, 6, 8), (CHANNEL, 3, 2), (TWO_LAYER, 3, 1), (BOX, 1, 2), (BOX, 2, 1), (BOX, 2, 2)] {
        for t in every(kind, n, byte2) {
            FLATTEN.same_outcome(&t, LONGEST_FLAT);
            UNFLATTEN.same_outcome(&there_and_back(&t), LONGEST_TICKET);
            tried += 1;
        }
    }
    assert_eq!(tried, 5 * 203 + 4140);
}

/// With the numbers 0 to 3, so that some have a net with one pin.
#[test]
fn every_flat_ticket_of_a_small_shape() {
    for (kind, n, byte2) in [(ROW, 1, 1), (ROW, 6, 1), (CHANNEL, 3, 8), (TWO_LAYER, 3, 1), (BOX, 1, 1), (BOX, 1, 2), (BOX, 2, 1)] {
        let places = slots(kind, n, byte2).len();
        for code in 0..1 << (2 * places) {
            let numbers = (0..places).map(|i| (code >> (2 * i)) as u8 % 4);
            let flat: Vec<u8> = [kind, n as u8, byte2 as u8].into_iter().chain(numbers).collect();
            if UNFLATTEN.same_outcome(&flat, LONGEST_TICKET)[0] == 0 {
                back_and_there(&flat);
            }
        }
    }
}

#[test]
fn longest() {
    let t = pozqaben::hardest_box(LONGEST_SIDE, LONGEST_SIDE).expect("a shape");
    let flat = there_and_back(&t);
    assert_eq!((t.len(), flat.len()), (LONGEST_TICKET, LONGEST_FLAT));
    assert_eq!(pozqaben::flatten_into(&t, &mut [0; LONGEST_FLAT - 1]), Err(Refusal { number: 19, place: LONGEST_FLAT }));
    assert_eq!(pozqaben::unflatten_into(&flat, &mut [0; LONGEST_TICKET - 1]), Err(Refusal { number: 19, place: LONGEST_TICKET }));
    assert_eq!(pozqaben::flatten_into(&t, &mut [0; LONGEST_FLAT]), Ok(LONGEST_FLAT));
    assert_eq!(pozqaben::unflatten_into(&flat, &mut [0; LONGEST_TICKET]), Ok(LONGEST_TICKET));
}
