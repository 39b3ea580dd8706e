//! Every wiring of a small box, layer by layer from the first: what matters above a layer is which net each of its points holds
//! and which points and pins are in one piece already, so that few states stand for all wirings. A net is whole as soon as its
//! pins are in one piece: it needs no metal above, and its loose metal may be left out.

use crate::judge::Grid;
use crate::search::lists;
use crate::{no_side, Pin, Ticket, EAST, NORTH, SOUTH, WEST};
use std::collections::HashSet;

/// The direction of a layer; then, for each of its points and after them for each pin, the net that it holds, 0 for an empty point
/// and for a whole net, and the first one of its piece.
#[derive(Clone, PartialEq, Eq, Hash)]
struct State {
    horizontal: bool,
    nets: Vec<u8>,
    pieces: Vec<usize>,
}

/// Whether a pin reaches the layers of this direction.
fn reaches(p: &Pin, horizontal: bool) -> bool {
    match p.side {
        NORTH | SOUTH => !horizontal,
        WEST | EAST => horizontal,
        other => no_side(other),
    }
}

/// For each point of a layer of this direction, what it is joined to where both hold the same net, the point above left aside.
/// Numbered are the points of the layer, then the pins, then the points below.
fn neighbours(t: &Ticket, horizontal: bool) -> Vec<Vec<usize>> {
    let g = Grid { n: t.n, w: t.byte2, k: 1, first: horizontal };
    let mut out = vec![vec![]; g.size()];
    for (i, j) in (1..=g.n).flat_map(|i| (1..=g.w).map(move |j| (i, j))) {
        let (next_i, next_j) = if horizontal { (i + 1, j) } else { (i, j + 1) };
        if next_i <= g.n && next_j <= g.w {
            let (a, b) = (g.at(i, j, 1), g.at(next_i, next_j, 1));
            out[a].push(b);
            out[b].push(a);
        }
    }
    for (number, p) in t.pins.iter().enumerate().filter(|(_, p)| reaches(p, horizontal)) {
        let (i, j) = g.beside(p.side, p.place);
        out[g.at(i, j, 1)].push(g.size() + number);
    }
    (0..g.size()).for_each(|a| out[a].push(g.size() + t.pins.len() + a));
    out
}

/// The state above a layer with these points; none for a layer that need not be looked at. A point that is joined to nothing but
/// the point above it may be left out. An empty point that could be joined to a neighbour may be filled, since metal that hangs
/// on a piece is in the way of no layer above. So each point is to be joined to a neighbour, or empty without one to be joined to.
fn above(s: &State, points: &[u8], neighbours: &[Vec<usize>]) -> Option<State> {
    let (size, last) = (points.len(), s.nets.len());
    let net = |a: usize| match a {
        a if a < size => points[a],
        a if a < last => s.nets[a],
        a => s.nets[a - last],
    };
    let is_joined = |a: usize| neighbours[a].iter().any(|b| net(*b) == points[a]);
    let is_alone = |a: usize| neighbours[a].iter().all(|b| net(*b) == 0);
    if !(0..size).all(|a| if points[a] == 0 { is_alone(a) } else { is_joined(a) }) {
        return None;
    }
    let moved = |a: &usize| if *a < size { last + a } else { *a };
    let mut piece: Vec<usize> = (0..size).chain(s.pieces[size..].iter().map(moved)).chain(s.pieces[..size].iter().map(moved)).collect();
    for a in (0..size).filter(|a| points[*a] != 0) {
        for b in neighbours[a].iter().filter(|b| net(**b) == points[a]) {
            let (from, to) = (piece[a], piece[*b]);
            piece.iter_mut().filter(|x| **x == from).for_each(|x| *x = to);
        }
    }
    let is_whole = |m: u8| {
        let mut own = (size..last).filter(|a| net(*a) == m).map(|a| piece[a]);
        let first = own.next();
        own.all(|x| Some(x) == first)
    };
    let nets: Vec<u8> = (0..last).map(net).map(|m| if is_whole(m) { 0 } else { m }).collect();
    let first = |a: usize| if nets[a] == 0 { a } else { (0..=a).find(|b| piece[*b] == piece[a]).expect("itself at the latest") };
    let pieces = (0..last).map(first).collect();
    Some(State { horizontal: !s.horizontal, nets, pieces })
}

/// The fewest layers of a legal wiring of a box, whichever direction the first of them has.
pub fn fewest(t: &Ticket) -> usize {
    let size = t.n * t.byte2;
    let layers = lists(&[&[0], &t.nets()[..]].concat(), size);
    let [vertical, horizontal] = [false, true].map(|horizontal| neighbours(t, horizontal));
    let nets = [vec![0; size], t.pins.iter().map(|p| p.net).collect()].concat();
    let start = |horizontal: bool| State { horizontal, nets: nets.clone(), pieces: (0..nets.len()).collect() };
    // Below the first layer there is nothing, of either direction.
    let mut edge = vec![start(false), start(true)];
    let mut seen = HashSet::new();
    for k in 1.. {
        let mut next = Vec::new();
        for s in &edge {
            let neighbours = if s.horizontal { &vertical } else { &horizontal };
            let may_hold = |net: &u8| *net == 0 || s.nets[size..].contains(net);
            for points in layers.iter().filter(|points| points.iter().all(may_hold)) {
                let Some(state) = above(s, points, neighbours) else { continue };
                if state.nets.iter().all(|net| *net == 0) {
                    return k;
                }
                if seen.insert(state.clone()) {
                    next.push(state);
                }
            }
        }
        assert!(!next.is_empty(), "every box has a wiring");
        edge = next;
    }
    unreachable!("the states are finitely many")
}
