//! The edge floor is what the independent implementation counts, and the floor beside it is Survey's; no wiring that Lay lays has
//! fewer layers.

mod common;

use common::{answered, extremes, ticket};
use pozqaben::Kind;
use slow::hardest::shapes;
use slow::tickets::{corner, every, few_nets, rings, side_nets, two_layer, Numbers};
use slow::wirings::wired;
use slow::{BOX, CHANNEL, EAST, LONGEST_SIDE, NORTH, ROW, SOUTH, TWO_LAYER, WEST};

/// The floor and the edge floor, or the refusal's number and place, are those of the independent implementation, and of Survey and
/// Lay. Whether the edge floor is above the floor.
fn is_higher(t: &[u8]) -> bool {
    let answer: [u64; 4] = answered(|a| common::edge_floor(t, a));
    assert_eq!(answer, slow::edge::answer(t), "{t:?}");
    let (edge, survey) = (pozqaben::edge_floor(t), pozqaben::survey(t));
    assert_eq!(edge.map(|e| e.floor), survey.map(|s| s.floor), "{t:?}");
    let (Ok(edge), Ok(survey)) = (edge, survey) else { return false };
    if survey.kind != Kind::Box {
        assert_eq!((edge.floor, edge.edge_floor), (0, 0), "{t:?}");
        return false;
    }
    let laid = pozqaben::lay(t).expect("a good ticket").0;
    assert!(1 <= edge.floor && edge.floor <= edge.edge_floor && edge.edge_floor <= laid.k, "{edge:?} of {t:?}");
    edge.edge_floor > edge.floor
}

#[test]
fn extreme_tickets() {
    assert!(extremes().iter().filter(|t| is_higher(t)).count() > 0);
}

#[test]
fn random_and_damaged_tickets() {
    let r = &mut Numbers::new(111);
    let higher = (0..50_000).filter(|_| is_higher(&ticket(r))).count();
    assert!(higher > 100, "{higher}");
}

/// Few nets have many pins on a side.
#[test]
fn few_net_boxes() {
    let r = &mut Numbers::new(113);
    let higher = (0..20_000).filter(|_| is_higher(&few_nets(r))).count();
    assert!(higher > 7000, "{higher}");
}

#[test]
fn side_net_boxes() {
    let r = &mut Numbers::new(115);
    let higher = (0..10_000).filter(|_| is_higher(&side_nets(r))).count();
    assert!(higher > 1000, "{higher}");
}

#[test]
fn corners() {
    let r = &mut Numbers::new(117);
    for _ in 0..100 {
        for (a, b) in [(NORTH, EAST), (NORTH, WEST), (SOUTH, EAST), (SOUTH, WEST)] {
            for (n, w) in [(9, 7), (7, 9), (30, 1), (1, 30), (12, 12), (2, 5), (3, 3)] {
                is_higher(&corner(r, n, w, a, b));
            }
        }
    }
}

/// How many of all boxes of a small shape have a higher edge floor than floor.
#[test]
fn every_box_of_a_small_shape() {
    for (n, w, expected) in [(1, 1, 0), (1, 2, 78), (2, 1, 78), (1, 3, 1824), (2, 2, 1311), (3, 1, 1824)] {
        assert_eq!(every(BOX, n, w).iter().filter(|t| is_higher(t)).count(), expected, "{n} by {w}");
    }
}

/// Their floor is as high as any edge floor of the shape.
#[test]
fn hardest_boxes() {
    for (n, w) in shapes() {
        assert!(!is_higher(&pozqaben::hardest_box(n, w).expect("a shape")), "{n} by {w}");
    }
}

#[test]
fn other_kinds() {
    for (kind, n, byte2) in [(ROW, 6, 8), (CHANNEL, 3, 2), (TWO_LAYER, 3, 1)] {
        every(kind, n, byte2).iter().for_each(|t| assert!(!is_higher(t)));
    }
    (1..=LONGEST_SIDE).for_each(|n| assert!(!is_higher(&rings(n))));
    let r = &mut Numbers::new(119);
    for _ in 0..5000 {
        let n = 1 + r.below(LONGEST_SIDE);
        assert!(!is_higher(&two_layer(r, n)));
    }
}

/// Wirings that a maze router found, on few layers.
#[test]
fn no_wiring_of_the_maze_router_has_fewer_layers() {
    let r = &mut Numbers::new(121);
    for _ in 0..5000 {
        let c = wired(r);
        let edge = pozqaben::edge_floor(&c.ticket).expect("a good ticket").edge_floor;
        assert!(edge <= c.k, "{edge} of {} layers {:?}", c.k, c.ticket);
    }
}
