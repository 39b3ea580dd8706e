//! Two-layer channels: which tickets have a wiring, and what the slow sweep lays.

use slow::judge::{judge, Grid};
use slow::read::read;
use slow::search::narrowest;
use slow::tickets::{self, Numbers};
use slow::two_layer::{is_solid, lay};
use slow::wirings::some_is_legal;
use slow::{Ticket, LONGEST_SIDE, TWO_LAYER, WIDEST_GRID};

fn every_ticket(n: usize) -> Vec<Ticket> {
    tickets::every(TWO_LAYER, n, 1).iter().map(|t| read(t).expect("a good ticket")).collect()
}

/// Whether one of all wirings on two layers with w tracks is legal.
fn some_wiring_is_legal(t: &Ticket, w: usize, first: bool) -> bool {
    some_is_legal(Grid { n: t.n, w, k: 2, first }, t)
}

#[test]
fn solid_tickets_of_small_length() {
    let counts = [1, 2, 3].map(|n| every_ticket(n).iter().filter(|t| is_solid(t)).count());
    assert_eq!(counts, [0, 1, 5], "the orders of n nets, but for the straight one");
}

#[test]
fn no_wiring_of_a_solid_ticket_is_legal() {
    for (n, widest) in [(2, 3), (3, 1)] {
        for t in every_ticket(n).iter().filter(|t| is_solid(t)) {
            for w in 1..=widest {
                for first in [false, true] {
                    assert!(!some_wiring_is_legal(t, w, first), "{t:?} {w} {first}");
                }
            }
        }
    }
}

#[test]
fn search_says_what_all_wirings_say() {
    for (n, widest) in [(1, 3), (2, 2)] {
        for t in every_ticket(n) {
            let found = narrowest(&t);
            for w in 1..=widest {
                let expected = found.is_some_and(|fewest| fewest <= w);
                for first in [false, true] {
                    assert_eq!(some_wiring_is_legal(&t, w, first), expected, "{t:?} {w} {first}");
                }
            }
        }
    }
}

#[test]
fn only_solid_tickets_have_no_wiring_of_any_width() {
    for n in 1..=3 {
        for t in every_ticket(n) {
            assert_eq!(narrowest(&t).is_none(), is_solid(&t), "{t:?}");
        }
    }
}

#[test]
fn solid_tickets_of_four_columns_have_no_wiring_of_any_width() {
    for t in every_ticket(4).iter().filter(|t| is_solid(t)) {
        assert_eq!(narrowest(t), None, "{t:?}");
    }
}

/// A legal wiring, at most 7 tracks for every 4 columns.
fn laid_well(t: &Ticket) -> usize {
    let (g, x) = lay(t, 0);
    assert_eq!(judge(g, &t.pins, &x), Ok(()), "{t:?}");
    assert_eq!((g.n, g.k, g.first), (t.n, 2, false));
    assert!(1 <= g.w && 4 * g.w <= 7 * t.n, "{} tracks of {t:?}", g.w);
    g.w
}

#[test]
fn lays_every_small_ticket() {
    for n in 1..=3 {
        for t in every_ticket(n).iter().filter(|t| !is_solid(t)) {
            let fewest = narrowest(t).expect("a wiring, as the ticket is not solid");
            assert!(fewest <= laid_well(t), "{t:?}");
        }
    }
}

#[test]
fn lays_every_sort_of_ticket() {
    let r = &mut Numbers::new(19);
    for round in 0..4000 {
        let longest = if round < 3000 { 12 } else { LONGEST_SIDE };
        let n = 1 + r.below(longest);
        let t = read(&tickets::two_layer(r, n)).expect("a good ticket");
        if !is_solid(&t) {
            laid_well(&t);
        }
    }
}

#[test]
fn lays_straight_nets_on_one_track() {
    let r = &mut Numbers::new(23);
    for n in 1..=LONGEST_SIDE {
        let t = read(&tickets::straight(r, n)).expect("a good ticket");
        assert_eq!(laid_well(&t), 1);
    }
}

#[test]
fn lays_rings() {
    for n in 1..=LONGEST_SIDE {
        laid_well(&read(&tickets::rings(n)).expect("a good ticket"));
    }
}

#[test]
fn spare_tracks_stay_legal() {
    let t = read(&tickets::rings(9)).expect("a good ticket");
    let (needed, _) = lay(&t, 0);
    let (g, x) = lay(&t, WIDEST_GRID - needed.w);
    assert_eq!(g.w, WIDEST_GRID);
    assert_eq!(judge(g, &t.pins, &x), Ok(()));
}

/// The tickets of every length from 2 on that a maker makes: whether each is solid, and how many of its places are empty.
fn made(make: fn(&mut Numbers, usize) -> Vec<u8>) -> Vec<(bool, usize)> {
    let r = &mut Numbers::new(29);
    let all = (2..=LONGEST_SIDE).map(|n| read(&make(r, n)).expect("a good ticket"));
    all.map(|t| (is_solid(&t), 2 * t.n - t.pins.len())).collect()
}

#[test]
fn solid_makes_solid_tickets() {
    assert!(made(tickets::solid).iter().all(|x| *x == (true, 0)));
}

#[test]
fn a_net_less_makes_tickets_that_are_not_solid() {
    assert!(made(tickets::a_net_less).iter().all(|x| *x == (false, 2)));
}

#[test]
fn a_pin_less_makes_tickets_that_are_not_solid() {
    assert!(made(tickets::a_pin_less).iter().all(|x| *x == (false, 1)));
}

#[test]
fn one_sided_pair_makes_full_tickets_that_are_mostly_not_solid() {
    let made = made(tickets::one_sided_pair);
    assert!(made.iter().all(|(_, empty)| *empty == 0));
    assert!(made.iter().filter(|(solid, _)| !solid).count() > LONGEST_SIDE / 2);
}

#[test]
fn long_nets_makes_full_tickets() {
    assert!(made(tickets::long_nets).iter().all(|(_, empty)| *empty == 0));
}
