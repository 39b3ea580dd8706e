//! An answer array that is too short: the call returns false and alters nothing, not even a buffer that it could fill.

mod common;

use common::{Lent, MARK};
use slow::hardest;
use slow::tickets::{random, Numbers};
use slow::wirings::wired;
use slow::{LONGEST_FLAT, LONGEST_TICKET};

/// A call with arrays that are too short, and one that is just long enough.
fn only_with_room(entries: usize, mut call: impl FnMut(&mut [u64]) -> bool) {
    for size in 0..entries {
        let mut array = vec![MARK; size];
        assert!(!call(&mut array), "{size} of {entries} entries");
        assert!(array.iter().all(|e| *e == MARK), "{size} of {entries} entries");
    }
    assert!(call(&mut vec![MARK; entries]));
}

#[test]
fn read_survey_edge_floor_and_view() {
    let r = &mut Numbers::new(501);
    for _ in 0..200 {
        let t = random(r);
        only_with_room(6, |a| common::read(&t, a));
        only_with_room(6, |a| common::read(&t[1..], a));
        only_with_room(11, |a| common::survey(&t, a));
        only_with_room(11, |a| common::survey(&t[1..], a));
        only_with_room(4, |a| common::edge_floor(&t, a));
        only_with_room(4, |a| common::edge_floor(&t[1..], a));
        only_with_room(4, |a| common::layer_view(&t, t.len(), 1, 1, 1, a));
        only_with_room(4, |a| common::layer_view(&t, t.len(), 1, 2, 1, a));
    }
}

#[test]
fn lay_and_check() {
    let r = &mut Numbers::new(503);
    for _ in 0..200 {
        let c = wired(r);
        let mut wiring = Lent::new(20_000, 3);
        only_with_room(11, |a| {
            let told = common::lay(&c.ticket, wiring.part(), a);
            assert!(told || wiring.kept_past(0));
            told
        });
        let mut scratch = Lent::new(c.scratch, 4);
        only_with_room(2, |a| {
            let told = common::check(&c.ticket, c.w, c.k, c.first, &c.wiring, scratch.part(), a);
            assert!(told || scratch.kept_past(0));
            told
        });
    }
}

/// Every shape into a buffer that is long enough and into an empty one, and sides that are none.
#[test]
fn hardest_box() {
    for (n, w) in hardest::shapes().chain([(0, 1), (1, usize::MAX)]) {
        for size in [0, LONGEST_TICKET] {
            let mut ticket = Lent::new(size, 5);
            only_with_room(3, |a| {
                let told = common::hardest_box(n, w, ticket.part(), a);
                assert!(told || ticket.kept_past(0));
                told
            });
        }
    }
}

/// Tickets and flat ones, good and refused, into a buffer that is long enough and into an empty one.
#[test]
fn flatten_and_unflatten() {
    let r = &mut Numbers::new(505);
    for _ in 0..500 {
        let (t, flat) = (common::ticket(r), common::flat(r));
        for (flat_size, ticket_size) in [(0, 0), (LONGEST_FLAT, LONGEST_TICKET)] {
            let mut buffer = Lent::new(flat_size, 6);
            only_with_room(3, |a| {
                let told = common::flatten(&t, buffer.part(), a);
                assert!(told || buffer.kept_past(0));
                told
            });
            let mut buffer = Lent::new(ticket_size, 7);
            only_with_room(3, |a| {
                let told = common::unflatten(&flat, buffer.part(), a);
                assert!(told || buffer.kept_past(0));
                told
            });
        }
    }
}
