//! A plain flood fill with an explicit stack: what Check does, written for speed and without its promises or its limit to
//! one byte of memory a point.

use slow::{no_side, read, EAST, LONGEST_SIDE, MOST_LAYERS, NORTH, SOUTH, WEST};

const N: usize = LONGEST_SIDE;
const W: usize = LONGEST_SIDE;
const K: usize = MOST_LAYERS;
const AREA: usize = N * W;

#[derive(Clone, Copy)]
struct Cell {
    at: u32,
    i: u8,
    j: u8,
    l: u8,
}

pub struct Flood {
    seen: Vec<bool>,
    stack: Vec<Cell>,
    pins: [[u8; N]; 4],
    pin_seen: [[bool; N]; 4],
}

impl Flood {
    pub fn new() -> Self {
        Flood { seen: vec![false; AREA * K], stack: Vec::new(), pins: [[0; N]; 4], pin_seen: [[false; N]; 4] }
    }

    /// The smallest net that is not in one piece, of a wiring whose layer 1 is vertical and whose points are all known.
    pub fn fill(&mut self, ticket: &[u8], x: &[u8]) -> Option<u64> {
        self.read(ticket);
        self.seen.fill(false);
        let mut begun = [false; 256];
        for side in 0..4 {
            for place in 0..N {
                let net = self.pins[side][place];
                if net != 0 && !begun[net as usize] {
                    begun[net as usize] = true;
                    self.see_pin(side, place, net, x);
                    self.spread(net, x);
                }
            }
        }
        self.smallest_missed(x)
    }

    fn read(&mut self, ticket: &[u8]) {
        self.pins = [[0; N]; 4];
        self.pin_seen = [[false; N]; 4];
        for p in read::read(ticket).expect("a good ticket").pins {
            self.pins[p.side][p.place - 1] = p.net;
        }
    }

    fn see_pin(&mut self, side: usize, place: usize, net: u8, x: &[u8]) {
        if self.pins[side][place] != net || self.pin_seen[side][place] {
            return;
        }
        self.pin_seen[side][place] = true;
        let (i, j) = match side {
            NORTH => (place, W - 1),
            SOUTH => (place, 0),
            WEST => (0, place),
            EAST => (N - 1, place),
            other => no_side(other),
        };
        let lowest = if side == NORTH || side == SOUTH { 0 } else { 1 };
        for l in (lowest..K).step_by(2) {
            self.see(l * AREA + j * N + i, i, j, l, net, x);
        }
    }

    #[inline(always)]
    fn see(&mut self, at: usize, i: usize, j: usize, l: usize, net: u8, x: &[u8]) {
        if x[at] == net && !self.seen[at] {
            self.seen[at] = true;
            self.stack.push(Cell { at: at as u32, i: i as u8, j: j as u8, l: l as u8 });
        }
    }

    fn spread(&mut self, net: u8, x: &[u8]) {
        while let Some(Cell { at, i, j, l }) = self.stack.pop() {
            let (at, i, j, l) = (at as usize, i as usize, j as usize, l as usize);
            if l > 0 {
                self.see(at - AREA, i, j, l - 1, net, x);
            }
            if l + 1 < K {
                self.see(at + AREA, i, j, l + 1, net, x);
            }
            if l % 2 == 1 {
                if i > 0 {
                    self.see(at - 1, i - 1, j, l, net, x)
                } else {
                    self.see_pin(WEST, j, net, x)
                }
                if i + 1 < N {
                    self.see(at + 1, i + 1, j, l, net, x)
                } else {
                    self.see_pin(EAST, j, net, x)
                }
            } else {
                if j > 0 {
                    self.see(at - N, i, j - 1, l, net, x)
                } else {
                    self.see_pin(SOUTH, i, net, x)
                }
                if j + 1 < W {
                    self.see(at + N, i, j + 1, l, net, x)
                } else {
                    self.see_pin(NORTH, i, net, x)
                }
            }
        }
    }

    fn smallest_missed(&self, x: &[u8]) -> Option<u64> {
        let pins = (0..4).flat_map(|s| (0..N).map(move |i| (s, i)));
        let pins = pins.filter(|(s, i)| self.pins[*s][*i] != 0 && !self.pin_seen[*s][*i]).map(|(s, i)| self.pins[s][i]);
        let points = x.iter().zip(&self.seen).filter(|(m, seen)| **m != 0 && !**seen).map(|(m, _)| *m);
        pins.chain(points).min().map(|m| m as u64)
    }
}
