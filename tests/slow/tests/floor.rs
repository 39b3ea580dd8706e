//! The counts and the floor of a box with nets that are all on one side; and no wiring of a small box has fewer layers than its
//! floor, or than its edge floor.

use slow::edge::edge_floor;
use slow::flat::a_box;
use slow::judge::Grid;
use slow::layers::fewest;
use slow::read::read;
use slow::survey::{all_on, figures, floor};
use slow::tickets::{every, DOCUMENT};
use slow::wirings::some_is_legal;
use slow::{Ticket, BOX, EAST, NORTH, SOUTH, WEST};

/// The floor before request 6: no column passed a net all west or all east, and no track one all south or all north.
fn floor_before(t: &Ticket) -> usize {
    let without = |a: usize, b: usize| {
        let stays = |net: u8| !all_on(t, net, a) && !all_on(t, net, b);
        let pins = t.pins.iter().copied().filter(|p| stays(p.net)).collect();
        figures(&Ticket { pins, ..t.clone() })
    };
    floor(t.n, t.byte2, without(WEST, EAST).across, without(SOUTH, NORTH).up)
}

/// Across, up, floor, and the floor before, of boxes counted by hand.
#[test]
fn counted_by_hand() {
    let figures = |t: Ticket| {
        let f = figures(&t);
        [f.across, f.up, f.floor, floor_before(&t)]
    };
    // One net on one side.
    assert_eq!(figures(a_box(&[0], &[0], &[1, 1], &[0, 0])), [1, 1, 2, 1]);
    assert_eq!(figures(a_box(&[0], &[0], &[0, 0], &[1, 1])), [1, 1, 2, 1]);
    assert_eq!(figures(a_box(&[0, 0], &[1, 1], &[0], &[0])), [1, 1, 2, 1]);
    assert_eq!(figures(a_box(&[1, 1], &[0, 0], &[0], &[0])), [1, 1, 2, 1]);
    assert_eq!(figures(a_box(&[0, 0], &[0, 0], &[1, 0, 1], &[0, 0, 0])), [1, 1, 2, 1]);
    // The one column, or the one track, passes the nets of either side of it; of two, each passes those of its own side.
    assert_eq!(figures(a_box(&[0], &[0], &[1, 1], &[2, 2])), [2, 2, 3, 3]);
    assert_eq!(figures(a_box(&[1, 1], &[2, 2], &[0], &[0])), [2, 2, 3, 3]);
    assert_eq!(figures(a_box(&[0, 0], &[0, 0], &[1, 1], &[2, 2])), [1, 2, 2, 1]);
    assert_eq!(figures(a_box(&[1, 1], &[2, 2], &[0, 0], &[0, 0])), [2, 1, 2, 1]);
    // Beside a net that just the line of that side passes.
    assert_eq!(figures(a_box(&[2, 0], &[0, 0], &[1, 1, 2], &[0, 0, 0])), [2, 1, 2, 2]);
    assert_eq!(figures(a_box(&[0, 2], &[0, 0], &[0, 0, 0], &[1, 1, 2])), [2, 1, 2, 2]);
    assert_eq!(figures(a_box(&[0, 0, 0], &[1, 1, 2], &[0, 0], &[2, 0])), [1, 2, 2, 2]);
    assert_eq!(figures(a_box(&[1, 1, 2], &[0, 0, 0], &[0, 0], &[0, 2])), [1, 2, 2, 2]);
    // A net west and east is passed by each column already, and is counted once.
    assert_eq!(figures(a_box(&[0], &[0], &[1], &[1])), [1, 0, 1, 1]);
    assert_eq!(figures(a_box(&[0], &[0], &[1, 1, 3], &[3, 2, 2])), [3, 3, 5, 5]);
    assert_eq!(figures(a_box(&[1], &[1], &[0], &[0])), [0, 1, 1, 1]);
    // Side nets come on top of the nets that go through.
    assert_eq!(figures(a_box(&[2, 3], &[3, 2], &[1, 1], &[0, 0])), [3, 3, 4, 3]);
    assert_eq!(figures(a_box(&[1, 1], &[0, 0], &[2, 3], &[3, 2])), [3, 3, 4, 3]);
    assert_eq!(figures(a_box(&[1, 1], &[2, 2], &[3, 3], &[4, 4])), [3, 3, 4, 2]);
    assert_eq!(figures(a_box(&[0, 0], &[0, 0], &[1, 1, 2, 2], &[0, 0, 0, 0])), [2, 1, 2, 1]);
}

/// Whether one of all wirings with so many layers is legal, whichever direction the first of them has.
fn some_wiring_is_legal(t: &Ticket, k: usize) -> bool {
    [false, true].into_iter().any(|first| some_is_legal(Grid { n: t.n, w: t.byte2, k, first }, t))
}

#[test]
fn both_west_pins_on_one_net() {
    let (_, bytes) = DOCUMENT.iter().find(|(name, _)| *name == "west net").expect("a ticket of the documents");
    let t = read(bytes).expect("a good ticket");
    let f = figures(&t);
    assert_eq!((t.kind, t.n, f.w, f.nets, f.pins), (BOX, 1, 2, 1, 2));
    assert_eq!((f.across, f.up, f.layers, f.floor, floor_before(&t)), (1, 1, 8, 2, 1));
    assert_eq!([1, 2].map(|k| some_wiring_is_legal(&t, k)), [false, true]);
    assert_eq!(fewest(&t), 2);
}

fn every_box(n: usize, w: usize) -> Vec<Ticket> {
    every(BOX, n, w).iter().map(|t| read(t).expect("a good ticket")).collect()
}

/// How a bound stands to the fewest layers of each box: how many boxes have a higher one than a weaker bound says, and how many of
/// these a wiring with so many layers; how many of all have such a wiring; and the most layers that any needs above the bound.
fn reached(boxes: &[(Ticket, usize)], bound: fn(&Ticket) -> usize, weaker: fn(&Ticket) -> usize) -> [usize; 4] {
    let [mut higher, mut higher_reached, mut reached, mut most_above] = [0; 4];
    for (t, least) in boxes {
        let bound = bound(t);
        assert!(weaker(t) <= bound && bound <= *least, "{bound} of {least} layers of {t:?}");
        let (is_higher, is_reached) = (weaker(t) < bound, bound == *least);
        higher += usize::from(is_higher);
        higher_reached += usize::from(is_higher && is_reached);
        reached += usize::from(is_reached);
        most_above = most_above.max(least - bound);
    }
    [higher, higher_reached, reached, most_above]
}

/// Of every box of a shape: no wiring has fewer layers than the floor or than the edge floor, and some wiring has no more than Lay.
/// Given are how many boxes there are; how the floor stands to the fewest layers, beside the one before; and how the edge floor
/// does, beside the floor.
fn searched(n: usize, w: usize) -> (usize, [usize; 4], [usize; 4]) {
    let boxes: Vec<(Ticket, usize)> = every_box(n, w).into_iter().map(|t| (t.clone(), fewest(&t))).collect();
    boxes.iter().for_each(|(t, least)| assert!(*least <= figures(t).layers, "{least} layers of {t:?}"));
    let floor = |t: &Ticket| figures(t).floor;
    (boxes.len(), reached(&boxes, floor, floor_before), reached(&boxes, edge_floor, floor))
}

#[test]
fn no_wiring_of_one_column_or_track_has_fewer_layers_than_the_floors() {
    assert_eq!(searched(1, 1), (15, [0, 0, 15, 0], [0, 0, 15, 0]));
    assert_eq!([searched(1, 2), searched(2, 1)], [(203, [4, 4, 121, 1], [78, 78, 199, 1]); 2]);
    assert_eq!([searched(1, 3), searched(3, 1)], [(4140, [20, 20, 2118, 1], [1824, 1824, 3942, 1]); 2]);
}

#[test]
fn no_wiring_of_two_columns_and_tracks_has_fewer_layers_than_the_floors() {
    assert_eq!(searched(2, 2), (4140, [209, 171, 2226, 2], [1311, 987, 3213, 2]));
}

/// A ticket and a number of layers with more wirings are not tried.
const MOST_WIRINGS: usize = 1 << 16;

/// With fewer layers than the search finds no wiring is legal, with as many some wiring is; with more, one that leaves layers empty.
/// Counted are the trials of either sort.
#[test]
fn search_says_what_all_wirings_say() {
    for (n, w, step, expected) in [(1, 1, 1, [16, 15]), (1, 2, 1, [414, 197]), (2, 1, 1, [414, 197]), (2, 2, 100, [69, 14])] {
        let mut tried = [0, 0];
        for t in every_box(n, w).iter().step_by(step) {
            let least = fewest(t);
            let wirings = |k: usize| (t.nets().len() + 1).pow((n * w * k) as u32);
            for k in (1..=least).take_while(|k| wirings(*k) <= MOST_WIRINGS) {
                assert_eq!(some_wiring_is_legal(t, k), k == least, "{k} layers of {t:?}");
                tried[usize::from(k == least)] += 1;
            }
        }
        assert_eq!(tried, expected, "{n} by {w}");
    }
}
