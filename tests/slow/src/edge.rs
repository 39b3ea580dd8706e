//! The edge floor of a box. A west pin reaches its net's metal at its own track of column 1 alone, so that column 1 needs a point
//! for each west pin of a net, where the floor counts the net once; the other sides likewise. Counted anew from the definition, of
//! columns alone: the tracks of a box are the columns of the box turned. Only the formula is the floor's.

use crate::{no_side, read, survey, Pin, Refusal, Ticket, BOX, EAST, NORTH, SOUTH, WEST};
use std::cmp::Ordering::{Equal, Greater, Less};
use std::collections::BTreeSet;

/// The box with its tracks for columns: south and west change places, and so do north and east.
pub fn turned(t: &Ticket) -> Ticket {
    let side = |p: &Pin| match p.side {
        NORTH => EAST,
        SOUTH => WEST,
        WEST => SOUTH,
        EAST => NORTH,
        other => no_side(other),
    };
    Ticket { n: t.byte2, byte2: t.n, pins: t.pins.iter().map(|p| Pin { side: side(p), ..*p }).collect(), ..t.clone() }
}

/// Whether column c of n must pass the net of these pins: two of the three, what is west of the column, the column itself and what
/// is east of it, have some of them; or they are all on the side beside it.
pub fn must_pass(n: usize, pins: &[Pin], c: usize) -> bool {
    let from_c = |p: &Pin| match p.side {
        NORTH | SOUTH => p.place.cmp(&c),
        WEST => Less,
        EAST => Greater,
        other => no_side(other),
    };
    let parts = [Less, Equal, Greater].into_iter().filter(|part| pins.iter().any(|p| from_c(p) == *part)).count();
    let all_on = |side: usize| pins.iter().all(|p| p.side == side);
    parts > 1 || (c == 1 && all_on(WEST)) || (c == n && all_on(EAST))
}

/// The tracks at which the net of these pins has one beside column c of n: a west pin beside the first, an east pin beside the last.
/// A track with both at the one column there is counts once, since one point serves both.
fn tracks_beside(n: usize, pins: &[Pin], c: usize) -> BTreeSet<usize> {
    let is_beside = |p: &&Pin| (p.side == WEST && c == 1) || (p.side == EAST && c == n);
    pins.iter().filter(is_beside).map(|p| p.place).collect()
}

/// The pins of each net.
pub fn pins_of_nets(t: &Ticket) -> Vec<Vec<Pin>> {
    t.nets().into_iter().map(|net| t.pins.iter().copied().filter(|p| p.net == net).collect()).collect()
}

/// How many points each column of a box needs for the nets, on all horizontal layers together.
pub fn needs(t: &Ticket) -> Vec<usize> {
    let nets = pins_of_nets(t);
    let need = |pins: &[Pin], c: usize| tracks_beside(t.n, pins, c).len().max(usize::from(must_pass(t.n, pins, c)));
    (1..=t.n).map(|c| nets.iter().map(|pins| need(pins, c)).sum()).collect()
}

/// 0 for kinds that are no box.
pub fn edge_floor(t: &Ticket) -> usize {
    if t.kind != BOX {
        return 0;
    }
    let [columns, tracks] = [needs(t), needs(&turned(t))].map(|needs| needs.into_iter().max().unwrap_or(0));
    survey::floor(t.n, t.byte2, columns, tracks)
}

/// number, place, floor, edge floor
pub fn answer(t: &[u8]) -> [u64; 4] {
    match read::read(t) {
        Err(Refusal(number, place)) => [number as u64, place as u64, 0, 0],
        Ok(t) => [0, 0, survey::figures(&t).floor as u64, edge_floor(&t) as u64],
    }
}
