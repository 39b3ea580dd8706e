//! Check: legality by union-find over every join of 'The grid and what joins'.

use crate::{no_kind, no_side, read, widest, Pin, Refusal, BOX, CHANNEL, EAST, MOST_LAYERS, NORTH, ROW, SOUTH, TWO_LAYER, WEST};

/// The sizes of a wiring, and whether its layer 1 is horizontal.
#[derive(Clone, Copy, Debug, PartialEq, Eq)]
pub struct Grid {
    pub n: usize,
    pub w: usize,
    pub k: usize,
    pub first: bool,
}

impl Grid {
    pub fn size(&self) -> usize {
        self.n * self.w * self.k
    }

    /// The column and the track of the points that a pin at this place may touch.
    pub fn beside(&self, side: usize, place: usize) -> (usize, usize) {
        match side {
            NORTH => (place, self.w),
            SOUTH => (place, 1),
            WEST => (1, place),
            EAST => (self.n, place),
            other => no_side(other),
        }
    }

    /// Point (i, j, l) of the buffer, all from 1.
    pub fn at(&self, i: usize, j: usize, l: usize) -> usize {
        ((l - 1) * self.w + (j - 1)) * self.n + i - 1
    }

    pub fn horizontal(&self, l: usize) -> bool {
        (l % 2 == 1) == self.first
    }
}

struct Pieces(Vec<usize>);

impl Pieces {
    fn root(&mut self, mut u: usize) -> usize {
        while self.0[u] != u {
            self.0[u] = self.0[self.0[u]];
            u = self.0[u];
        }
        u
    }

    fn join(&mut self, u: usize, v: usize) {
        let (a, b) = (self.root(u), self.root(v));
        self.0[a] = b;
    }
}

/// Refusals 14 and 15 of a wiring whose length is right.
pub fn judge(g: Grid, pins: &[Pin], x: &[u8]) -> Result<(), Refusal> {
    let known = |m: u8| pins.iter().any(|p| p.net == m);
    let mut seen = [false; 256];
    for m in 1..=255 {
        seen[m as usize] = known(m);
    }
    if let Some(q) = x.iter().position(|m| *m != 0 && !seen[*m as usize]) {
        return Err(Refusal(14, q));
    }
    let size = g.size();
    let mut pieces = Pieces((0..size + pins.len()).collect());
    for l in 1..=g.k {
        for j in 1..=g.w {
            for i in 1..=g.n {
                let here = g.at(i, j, l);
                if x[here] == 0 {
                    continue;
                }
                let mut next = Vec::with_capacity(2);
                if l < g.k {
                    next.push(g.at(i, j, l + 1));
                }
                if g.horizontal(l) && i < g.n {
                    next.push(g.at(i + 1, j, l));
                }
                if !g.horizontal(l) && j < g.w {
                    next.push(g.at(i, j + 1, l));
                }
                for v in next {
                    if x[v] == x[here] {
                        pieces.join(here, v);
                    }
                }
            }
        }
    }
    for (index, p) in pins.iter().enumerate() {
        for l in 1..=g.k {
            let sideways = p.side == WEST || p.side == EAST;
            if g.horizontal(l) != sideways {
                continue;
            }
            let (i, j) = g.beside(p.side, p.place);
            let v = g.at(i, j, l);
            if x[v] == p.net {
                pieces.join(size + index, v);
            }
        }
    }
    let mut root = [None; 256];
    let mut bad: Option<u8> = None;
    let mut look = |m: u8, r: usize| match root[m as usize] {
        None => root[m as usize] = Some(r),
        Some(other) if other != r => bad = Some(bad.map_or(m, |b: u8| b.min(m))),
        _ => {}
    };
    for (index, p) in pins.iter().enumerate() {
        look(p.net, pieces.root(size + index));
    }
    for (q, m) in x.iter().enumerate() {
        if *m != 0 {
            look(*m, pieces.root(q));
        }
    }
    bad.map_or(Ok(()), |m| Err(Refusal(15, m as usize)))
}

/// Check, with the scratch's length.
pub fn check(t: &[u8], w: usize, k: usize, first: bool, x: &[u8], scratch: usize) -> Result<(), Refusal> {
    let t = read::read(t)?;
    let fits = match t.kind {
        ROW | CHANNEL | TWO_LAYER => true,
        BOX => w == t.byte2,
        other => no_kind(other),
    };
    if !(1..=widest(t.kind)).contains(&w) || !fits || !(1..=MOST_LAYERS).contains(&k) {
        return Err(Refusal(11, 0));
    }
    let g = Grid { n: t.n, w, k, first };
    if x.len() != g.size() {
        return Err(Refusal(12, g.size()));
    }
    if scratch < g.size() {
        return Err(Refusal(13, g.size()));
    }
    judge(g, &t.pins, x)
}

/// number, place
pub fn answer(t: &[u8], w: usize, k: usize, first: bool, x: &[u8], scratch: usize) -> [u64; 2] {
    match check(t, w, k, first, x, scratch) {
        Ok(()) => [0, 0],
        Err(Refusal(number, place)) => [number as u64, place as u64],
    }
}
