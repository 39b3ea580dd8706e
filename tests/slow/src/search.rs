//! Every two-layer wiring of a small channel, track by track from the north: what matters below a track is which net each
//! column's wire carries and which of these wires are in one piece already, so that few states stand for all wirings. Whether
//! the vertical layer is the first or the second makes no difference: of two layers, the same points are joined.

use crate::{Ticket, NORTH, SOUTH};
use std::collections::BTreeSet;

/// The pieces that reach a track's points on the vertical layer: for each column the net, 0 for none, and the piece's number,
/// in order of first column; and the nets that are whole and ended above.
#[derive(Clone, PartialEq, Eq, PartialOrd, Ord)]
struct State {
    wires: Vec<(u8, usize)>,
    ended: BTreeSet<u8>,
}

/// The pins of a side, each a piece of its own: on either side they stand like points of a vertical layer.
fn pins(t: &Ticket, side: usize) -> Vec<u8> {
    (1..=t.n).map(|c| t.pins.iter().find(|p| p.side == side && p.place == c).map_or(0, |p| p.net)).collect()
}

/// Every list of so many numbers, each one of these.
pub fn lists(numbers: &[u8], size: usize) -> Vec<Vec<u8>> {
    (0..size)
        .fold(vec![vec![]], |out, _| out.into_iter().flat_map(|x: Vec<u8>| numbers.iter().map(move |m| [&x[..], &[*m]].concat())).collect())
}

/// The state below a track with these points on the vertical and on the horizontal layer; none where some net can no longer
/// be whole. `waits`: the nets with a south pin, which are not whole before it.
fn below(s: &State, down: &[u8], along: &[u8], waits: &BTreeSet<u8>) -> Option<State> {
    let n = down.len();
    // A node's piece: the pieces above by their numbers, then the track's points, vertical and horizontal ones in turn.
    let mut nets = vec![0; 3 * n];
    let mut piece: Vec<usize> = (0..3 * n).collect();
    let mut join = |a: usize, b: usize| {
        let (from, to) = (piece[a], piece[b]);
        piece.iter_mut().filter(|x| **x == from).for_each(|x| *x = to);
    };
    for (c, (net, number)) in s.wires.iter().enumerate() {
        (nets[n + 2 * c], nets[n + 2 * c + 1]) = (down[c], along[c]);
        if *net != 0 {
            nets[*number] = *net;
        }
        if *net != 0 && *net == down[c] {
            join(*number, n + 2 * c);
        }
        if down[c] != 0 && down[c] == along[c] {
            join(n + 2 * c, n + 2 * c + 1);
        }
        if c > 0 && along[c] != 0 && along[c] == along[c - 1] {
            join(n + 2 * c + 1, n + 2 * c - 1);
        }
    }
    let mut ended = s.ended.clone();
    let runs_on = |a: usize| (0..n).any(|c| down[c] != 0 && piece[n + 2 * c] == piece[a]);
    for a in (0..3 * n).filter(|a| nets[*a] != 0 && !runs_on(*a)) {
        let alone = (0..3 * n).all(|b| nets[b] != nets[a] || piece[b] == piece[a]);
        if waits.contains(&nets[a]) || !alone || s.ended.contains(&nets[a]) {
            return None;
        }
        ended.insert(nets[a]);
    }
    if down.iter().any(|m| ended.contains(m)) {
        return None;
    }
    let mut order: Vec<usize> = Vec::new();
    let mut number = |a: usize| {
        order.iter().position(|x| *x == piece[a]).unwrap_or_else(|| {
            order.push(piece[a]);
            order.len() - 1
        })
    };
    let wires = down.iter().enumerate().map(|(c, m)| if *m == 0 { (0, 0) } else { (*m, number(n + 2 * c)) }).collect();
    Some(State { wires, ended })
}

/// The fewest tracks of a legal two-layer wiring of a channel's pins; none where no number of tracks will do.
pub fn narrowest(t: &Ticket) -> Option<usize> {
    let (north, south) = (pins(t, NORTH), pins(t, SOUTH));
    let waits: BTreeSet<u8> = south.iter().copied().filter(|m| *m != 0).collect();
    let numbers = [&[0], &t.nets()[..]].concat();
    let tracks = lists(&numbers, t.n);
    let is_whole = |s: &State| {
        let no_metal = vec![0; t.n];
        let Some(end) = below(s, &south, &no_metal, &BTreeSet::new()) else { return false };
        end.wires.iter().all(|(m, a)| end.wires.iter().all(|(other, b)| m != other || a == b))
    };
    let start = State { wires: north.iter().enumerate().map(|(c, m)| (*m, if *m == 0 { 0 } else { c })).collect(), ended: BTreeSet::new() };
    let mut seen = BTreeSet::new();
    let mut edge = vec![start];
    for w in 1.. {
        let mut next = Vec::new();
        for s in &edge {
            // A piece that waits for its south pin has to run on, whatever is on the horizontal layer.
            let runs_on = |down: &[u8], wire: &(u8, usize)| (0..t.n).any(|c| s.wires[c] == *wire && down[c] == wire.0);
            let may_be = |down: &[u8]| s.wires.iter().all(|wire| !waits.contains(&wire.0) || runs_on(down, wire));
            for down in tracks.iter().filter(|down| may_be(down)) {
                for along in &tracks {
                    if let Some(state) = below(s, down, along, &waits) {
                        if seen.insert(state.clone()) {
                            next.push(state);
                        }
                    }
                }
            }
        }
        if next.iter().any(is_whole) {
            return Some(w);
        }
        if next.is_empty() {
            return None;
        }
        edge = next;
    }
    unreachable!("the states are finitely many")
}
