//! The slow router's wirings are legal by the slow checker, whichever the ticket.

use slow::judge::judge;
use slow::lay::lay;
use slow::read::read;
use slow::tickets::{corner, encode, of_shape, random, side_nets, slots, Numbers, DOCUMENT};
use slow::two_layer::is_solid;
use slow::{Refusal, BOX, CHANNEL, EAST, LONGEST_SIDE, LONGEST_TICKET, MOST_TRUNK_LAYERS, NORTH, ROW, SOUTH, TWO_LAYER, WEST};

fn legal(t: &[u8]) {
    let Ok(ticket) = read(t) else { return };
    match lay(&ticket) {
        Ok((g, x)) => assert_eq!(judge(g, &ticket.pins, &x), Ok(()), "{t:?}"),
        Err(refusal) => assert_eq!((refusal, ticket.kind, is_solid(&ticket)), (Refusal(17, 0), TWO_LAYER, true), "{t:?}"),
    }
}

#[test]
fn document_tickets() {
    DOCUMENT.iter().for_each(|(_, t)| legal(t));
}

#[test]
fn random_tickets() {
    let r = &mut Numbers::new(11);
    (0..3000).for_each(|_| legal(&random(r)));
}

#[test]
fn side_net_boxes() {
    let r = &mut Numbers::new(53);
    (0..1000).for_each(|_| legal(&side_nets(r)));
}

#[test]
fn corners_and_extremes() {
    let r = &mut Numbers::new(13);
    for (a, b) in [(NORTH, EAST), (NORTH, WEST), (SOUTH, EAST), (SOUTH, WEST)] {
        for (n, w) in [(9, 7), (7, 9), (30, 1), (1, 30), (12, 12)] {
            legal(&corner(r, n, w, a, b));
        }
    }
    let (side, most) = (LONGEST_SIDE, MOST_TRUNK_LAYERS);
    let trunks = [(ROW, side, 1), (ROW, side, most), (CHANNEL, side, 1), (CHANNEL, side, most)];
    let boxes = [(side, side), (side, 1), (1, side), (side - 1, side), (1, 1)].map(|(n, w)| (BOX, n, w));
    for (kind, n, byte2) in trunks.into_iter().chain(boxes) {
        for tenths in [0, 3, 7, 10] {
            legal(&of_shape(r, kind, n, byte2, tenths));
        }
    }
}

/// A box with a pin at every place of its four longest sides.
#[test]
fn longest_ticket() {
    let pins = slots(BOX, LONGEST_SIDE, LONGEST_SIDE).into_iter().map(|place| (place, 1)).collect();
    let t = encode(BOX, LONGEST_SIDE, LONGEST_SIDE, &pins);
    assert_eq!(t.len(), LONGEST_TICKET);
    assert!(read(&t).is_ok());
}
