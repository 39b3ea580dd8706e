//! Read, Survey and the edge floor answer what the independent implementation answers, whatever the bytes.

mod common;

use common::{answered, extremes, ticket};
use slow::tickets::{every, side_nets, Numbers};
use slow::BOX;

fn same_answers(t: &[u8]) {
    assert_eq!(answered(|a| common::read(t, a)), slow::read::answer(t), "read {t:?}");
    assert_eq!(answered(|a| common::survey(t, a)), slow::survey::answer(t), "survey {t:?}");
    assert_eq!(answered(|a| common::edge_floor(t, a)), slow::edge::answer(t), "edge floor {t:?}");
}

#[test]
fn extreme_tickets() {
    extremes().iter().for_each(|t| same_answers(t));
}

#[test]
fn random_and_damaged_tickets() {
    let r = &mut Numbers::new(101);
    for _ in 0..200_000 {
        same_answers(&ticket(r));
    }
}

/// Most of their nets are all on one side.
#[test]
fn side_net_boxes() {
    let r = &mut Numbers::new(103);
    for _ in 0..20_000 {
        same_answers(&side_nets(r));
    }
}

#[test]
fn every_box_of_a_small_shape() {
    for (n, w) in [(1, 1), (1, 2), (2, 1), (1, 3), (2, 2), (3, 1)] {
        every(BOX, n, w).iter().for_each(|t| same_answers(t));
    }
}

#[test]
fn every_cut_of_a_ticket() {
    for t in extremes() {
        for size in 0..t.len() {
            same_answers(&t[..size]);
        }
    }
}
