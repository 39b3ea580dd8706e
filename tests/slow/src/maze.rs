//! Legal wirings by maze routing: nets one after the other, each pin joined to its net's metal by a shortest path.
//!
//! It knows nothing of combs or trunks, gives up where it is walled in, and promises no count of layers.

use crate::judge::Grid;
use crate::{Pin, EAST, NORTH, SOUTH, WEST};
use std::collections::VecDeque;

/// Nodes are numbered: the points by their place in the buffer, then the pins in their order.
fn neighbours(g: Grid, pins: &[Pin], u: usize, out: &mut Vec<usize>) {
    out.clear();
    let size = g.size();
    let pin = |side: usize, place: usize| pins.iter().position(|p| p.side == side && p.place == place).map(|a| size + a);
    if u >= size {
        let p = pins[u - size];
        let (i, j) = g.beside(p.side, p.place);
        let sideways = p.side == WEST || p.side == EAST;
        out.extend((1..=g.k).filter(|l| g.horizontal(*l) == sideways).map(|l| g.at(i, j, l)));
        return;
    }
    let (i, j, l) = (u % g.n + 1, u / g.n % g.w + 1, u / g.n / g.w + 1);
    if l > 1 {
        out.push(g.at(i, j, l - 1));
    }
    if l < g.k {
        out.push(g.at(i, j, l + 1));
    }
    if g.horizontal(l) {
        out.extend(if i > 1 { Some(g.at(i - 1, j, l)) } else { pin(WEST, j) });
        out.extend(if i < g.n { Some(g.at(i + 1, j, l)) } else { pin(EAST, j) });
    } else {
        out.extend(if j > 1 { Some(g.at(i, j - 1, l)) } else { pin(SOUTH, i) });
        out.extend(if j < g.w { Some(g.at(i, j + 1, l)) } else { pin(NORTH, i) });
    }
}

/// A legal wiring of the pins, or None; `order` lists the nets.
pub fn route(g: Grid, pins: &[Pin], order: &[u8]) -> Option<Vec<u8>> {
    let size = g.size();
    let mut held = vec![0u8; size];
    held.extend(pins.iter().map(|p| p.net));
    let mut near = Vec::new();
    for &net in order {
        let own: Vec<usize> = (0..pins.len()).filter(|a| pins[*a].net == net).map(|a| size + a).collect();
        let mut reached = vec![own[0]];
        for &goal in &own[1..] {
            let mut came = vec![usize::MAX; held.len()];
            let mut queue: VecDeque<usize> = reached.iter().copied().collect();
            for u in &reached {
                came[*u] = *u;
            }
            while came[goal] == usize::MAX {
                let u = queue.pop_front()?;
                neighbours(g, pins, u, &mut near);
                for &v in &near {
                    if came[v] == usize::MAX && (held[v] == 0 || held[v] == net) {
                        came[v] = u;
                        queue.push_back(v);
                    }
                }
            }
            let mut u = goal;
            while came[u] != u {
                reached.push(u);
                held[u] = net;
                u = came[u];
            }
        }
    }
    held.truncate(size);
    Some(held)
}
