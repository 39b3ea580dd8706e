//! What the search returns is legal by Check and by the independent judge, and on no fewer layers than the floors say; bad tickets
//! get Read's refusal, and the budget is kept to.

mod common;

use common::{extremes, ticket};
use pozqaben::{edge_floor, hardest_box, read, search, search_with, survey, Effort, Kind, Outcome, Progress, Refusal, SearchError, Wiring};
use slow::judge::Grid;
use slow::tickets::{every, few_nets, of_shape, rings, side_nets, Numbers, DOCUMENT};
use slow::wirings::some_is_legal;
use slow::{BOX, MOST_LAYERS};

/// Legal, on these layers, and not below the floors.
fn assert_good(t: &[u8], k: usize, first: bool, wiring: &Wiring) {
    assert_eq!((wiring.k, wiring.first), (k, first), "{t:?}");
    assert_eq!(wiring.check(t), Ok(()), "{t:?}");
    let by_slow = slow::judge::check(t, wiring.w, k, first, &wiring.points, wiring.points.len());
    assert_eq!(by_slow, Ok(()), "{t:?}");
    assert!(survey(t).unwrap().floor <= k && edge_floor(t).unwrap().edge_floor <= k, "{t:?}");
}

/// How many nets a search of a good box routed, after its outcome was looked at; whether it found a wiring. A round routes all nets,
/// or those that were in conflict.
fn searched(t: &[u8], k: usize, first: bool, effort: Effort) -> (u32, bool) {
    let nets = read(t).expect("a good box").nets;
    let (mut routed, mut turn) = (0, nets);
    let outcome = search_with(t, k, first, effort, &mut |p: Progress| {
        assert_eq!((p.k, p.first), (k, first), "{t:?}");
        let by_this_round = (p.routed - routed) as usize;
        assert!(by_this_round == turn || by_this_round == nets, "{p:?} {t:?}");
        (routed, turn) = (p.routed, p.conflicts);
    });
    match outcome.expect("a good box") {
        Outcome::Found { wiring, routed } => {
            assert_good(t, k, first, &wiring);
            (routed, true)
        }
        Outcome::NotFound { routed } => (routed, false),
        Outcome::BelowFloor { edge_floor } => {
            assert!(k < edge_floor, "{t:?}");
            (0, false)
        }
        Outcome::TooFew { horizontal, vertical } => {
            let (h, v) = if first { (k.div_ceil(2), k / 2) } else { (k / 2, k.div_ceil(2)) };
            assert!(h < horizontal || v < vertical, "{t:?}");
            (0, false)
        }
        other => panic!("{other:?} of {t:?}"),
    }
}

/// Both first directions on each number of layers near the edge floor, on a budget that is kept to; how many were found.
fn near_the_floor(t: &[u8], budget: u32) -> usize {
    let floor = edge_floor(t).expect("a good box").edge_floor;
    let grids = (floor.saturating_sub(1).max(1)..floor + 3).flat_map(|k| [(k, false), (k, true)]);
    let found = grids.filter(|(k, first)| {
        let (routed, is_found) = searched(t, *k, *first, Effort { budget, seed: 3 });
        assert!(routed <= budget, "{routed} {t:?}");
        is_found
    });
    found.count()
}

fn dense() -> Vec<u8> {
    std::fs::read("../../examples/dense-40x12.ticket").expect("a file of the repository")
}

#[test]
fn random_boxes() {
    let r = &mut Numbers::new(201);
    let mut found = 0;
    for _ in 0..200 {
        let (n, w, tenths) = (1 + r.below(20), 1 + r.below(20), r.below(11));
        found += near_the_floor(&of_shape(r, BOX, n, w, tenths), 1000);
    }
    assert!(found > 800, "{found}");
}

/// Few nets with many pins, and nets that are on one side alone.
#[test]
fn boxes_of_few_nets_and_of_side_nets() {
    let r = &mut Numbers::new(203);
    let found: usize = (0..30).map(|_| near_the_floor(&few_nets(r), 40) + near_the_floor(&side_nets(r), 200)).sum();
    assert!(found > 100, "{found}");
}

#[test]
fn extreme_boxes() {
    for (n, w) in [(1, 1), (1, 90), (90, 1), (20, 20), (90, 2), (2, 90)] {
        let full = of_shape(&mut Numbers::new(205), BOX, n, w, 10);
        for t in [full, hardest_box(n, w).unwrap(), of_shape(&mut Numbers::new(207), BOX, n, w, 0)] {
            assert!(near_the_floor(&t, 2000) > 0, "{n} by {w}");
        }
    }
}

#[test]
fn dense_box() {
    let t = dense();
    assert_eq!(edge_floor(&t).unwrap().edge_floor, 9);
    assert!(searched(&t, 9, true, Effort::default()).1);
    // Five horizontal layers are needed, so that layer 1 of nine is horizontal.
    assert_eq!(search(&t, 9, false, Effort::default()), Ok(Outcome::TooFew { horizontal: 5, vertical: 2 }));
    assert_eq!(search(&t, 8, true, Effort::default()), Ok(Outcome::BelowFloor { edge_floor: 9 }));
}

/// Of the smallest boxes a wiring is found exactly where there is one.
#[test]
fn every_small_box() {
    for (n, w) in [(1, 1), (1, 2), (2, 1)] {
        for t in every(BOX, n, w) {
            let pins = slow::read::read(&t).expect("a good ticket");
            for (k, first) in [1, 2, 3].into_iter().flat_map(|k| [(k, false), (k, true)]) {
                let (_, is_found) = searched(&t, k, first, Effort { budget: 1000, seed: 1 });
                assert_eq!(is_found, some_is_legal(Grid { n, w, k, first }, &pins), "{k} {first} {t:?}");
            }
        }
    }
}

/// The layers of each direction that the search asks for are those of the edge floor: on as many layers one of the two first
/// directions has enough.
#[test]
fn enough_layers_of_each_direction_from_the_edge_floor_on() {
    let r = &mut Numbers::new(209);
    for _ in 0..1500 {
        let t = if r.below(2) == 0 { few_nets(r) } else { side_nets(r) };
        let k = edge_floor(&t).expect("a good box").edge_floor;
        let none = Effort { budget: 0, seed: 1 };
        let are_enough = |first: bool| !matches!(search(&t, k, first, none), Ok(Outcome::TooFew { .. }));
        assert!(are_enough(false) || are_enough(true), "{t:?}");
    }
}

#[test]
fn refused_tickets() {
    let r = &mut Numbers::new(211);
    let tickets = extremes().into_iter().chain((0..5000).map(|_| ticket(r)));
    let mut refused = 0;
    for t in tickets {
        let Err(refusal) = read(&t) else { continue };
        refused += 1;
        for k in [0, 1, 9, MOST_LAYERS + 1] {
            assert_eq!(search(&t, k, k % 2 == 0, Effort::default()), Err(SearchError::Refused(refusal)), "{t:?}");
        }
    }
    assert!(refused > 2000, "{refused}");
}

#[test]
fn refused_layers() {
    let t = hardest_box(3, 2).unwrap();
    for k in [0, MOST_LAYERS + 1, usize::MAX] {
        assert_eq!(search(&t, k, true, Effort::default()), Err(SearchError::Refused(Refusal { number: 11, place: 0 })));
    }
    assert!(searched(&t, MOST_LAYERS, true, Effort::default()).1);
}

/// Rows and channels have the fewest tracks already, whatever layers are asked for.
#[test]
fn other_kinds() {
    for (_, t) in DOCUMENT {
        let Ok(figures) = survey(t) else { continue };
        for k in [0, 1, 5] {
            if figures.kind != Kind::Box {
                assert_eq!(search(t, k, false, Effort::default()), Ok(Outcome::LeastTracks { w: figures.w }), "{t:?}");
            }
        }
    }
    assert_eq!(search(&rings(4), 2, false, Effort::default()), Ok(Outcome::TwoLayer));
}

/// Of a hard box with 80 nets each budget is spent, and no net more is routed.
#[test]
fn budgets() {
    let t = hardest_box(40, 40).unwrap();
    for (budget, rounds) in [(0, 0), (1, 0), (79, 0), (80, 1), (81, 1)] {
        let mut reports = 0;
        let outcome = search_with(&t, 4, true, Effort { budget, seed: 1 }, &mut |_| reports += 1);
        assert_eq!((outcome, reports), (Ok(Outcome::NotFound { routed: budget }), rounds));
    }
    assert_eq!(searched(&t, 4, true, Effort { budget: 500, seed: 1 }), (500, false));
    // Without nets nothing is to be routed.
    let empty = of_shape(&mut Numbers::new(213), BOX, 5, 4, 0);
    assert_eq!(searched(&empty, 1, false, Effort { budget: 0, seed: 1 }), (0, true));
}

#[test]
fn a_seed_gives_one_wiring() {
    let t = dense();
    let wiring = |seed: u64| match search(&t, 10, false, Effort { budget: 5000, seed }) {
        Ok(Outcome::Found { wiring, .. }) => wiring,
        other => panic!("{other:?}"),
    };
    let wirings: Vec<Wiring> = (1..6).map(wiring).collect();
    (1..6).zip(&wirings).for_each(|(seed, again)| assert_eq!(wiring(seed), *again));
    assert!(wirings.iter().any(|other| *other != wirings[0]));
}
