//! Wirings to try: legal ones by maze routing, spoiled ones, ones that are given point by point, and all of a small grid.

use crate::judge::{judge, Grid};
use crate::maze::route;
use crate::tickets::{of_shape, Numbers};
use crate::{no_kind, read, Ticket, BOX, CHANNEL, MOST_TRUNK_LAYERS, ROW, TWO_LAYER};

/// A wiring for Check: its ticket, its sizes, and the length of the scratch.
pub struct Case {
    pub ticket: Vec<u8>,
    pub w: usize,
    pub k: usize,
    pub first: bool,
    pub scratch: usize,
    pub wiring: Vec<u8>,
}

pub fn case(ticket: &[u8], w: usize, k: usize, first: bool, wiring: Vec<u8>) -> Case {
    Case { ticket: ticket.to_vec(), w, k, first, scratch: wiring.len(), wiring }
}

/// A random small ticket with a legal wiring.
pub fn wired(r: &mut Numbers) -> Case {
    loop {
        let kind = r.pick(&[ROW, CHANNEL, BOX, TWO_LAYER]);
        let g = Grid { n: 1 + r.below(9), w: 1 + r.below(6), k: 1 + r.below(7), first: r.below(2) == 1 };
        let byte2 = match kind {
            ROW | CHANNEL => 1 + r.below(MOST_TRUNK_LAYERS),
            BOX => g.w,
            TWO_LAYER => 1,
            other => no_kind(other),
        };
        let tenths = r.below(8);
        let t = of_shape(r, kind, g.n, byte2, tenths);
        let ticket = read::read(&t).expect("a good ticket");
        let mut order = ticket.nets();
        r.shuffle(&mut order);
        if let Some(x) = route(g, &ticket.pins, &order) {
            return case(&t, g.w, g.k, g.first, x);
        }
    }
}

/// The wiring with a point or two changed: metal taken away, loose metal, another net's, or a number of no net.
pub fn spoiled(r: &mut Numbers, x: &[u8], nets: &[u8]) -> Vec<u8> {
    let mut x = x.to_vec();
    let used: Vec<usize> = (0..x.len()).filter(|q| x[*q] != 0).collect();
    for _ in 0..1 + r.below(2) {
        let anywhere = r.below(x.len());
        match r.below(4) {
            0 if !used.is_empty() => x[r.pick(&used)] = 0,
            1 if !nets.is_empty() => x[anywhere] = r.pick(nets),
            2 if !used.is_empty() => x[r.pick(&used)] = r.pick(nets),
            _ if r.below(3) == 0 => x[anywhere] = 1 + r.below(255) as u8,
            _ => {}
        }
    }
    x
}

/// The buffer of a wiring that is given point by point.
pub fn layered(n: usize, w: usize, k: usize, value: impl Fn(usize, usize, usize) -> u8) -> Vec<u8> {
    let mut out = Vec::with_capacity(n * w * k);
    for l in 1..=k {
        for j in 1..=w {
            out.extend((1..=n).map(|i| value(i, j, l)));
        }
    }
    out
}

/// Whether one of all wirings on this grid is legal.
pub fn some_is_legal(g: Grid, t: &Ticket) -> bool {
    let numbers = [&[0], &t.nets()[..]].concat();
    let mut digits = vec![0; g.size()];
    loop {
        let x: Vec<u8> = digits.iter().map(|d| numbers[*d]).collect();
        if judge(g, &t.pins, &x).is_ok() {
            return true;
        }
        let Some(q) = digits.iter().position(|d| d + 1 < numbers.len()) else { return false };
        digits[..q].fill(0);
        digits[q] += 1;
    }
}
