//! Two-layer channels, by a sweep from north to south. At every height it is known which net's wire each column carries; a
//! track joins the wires of a net, moves one to a free column, or splits one, and side by side as many of these as fit.

use crate::judge::Grid;
use crate::{Ticket, NORTH, SOUTH};

/// All 2n places filled, every net with one north and one south pin, and some net's pins in different columns.
pub fn is_solid(t: &Ticket) -> bool {
    let nets = t.nets();
    let single = |m: &u8| t.on(NORTH, *m).len() == 1 && t.on(SOUTH, *m).len() == 1;
    t.pins.len() == 2 * t.n && nets.iter().all(single) && nets.iter().any(|m| t.on(NORTH, *m) != t.on(SOUTH, *m))
}

/// Metal along a track: it joins its net's wires that come down the columns `from`, and wires leave it down the columns `to`.
struct Joint {
    net: u8,
    from: Vec<usize>,
    to: Vec<usize>,
}

impl Joint {
    fn columns(&self) -> impl Iterator<Item = usize> + '_ {
        self.from.iter().chain(&self.to).copied()
    }

    fn left(&self) -> usize {
        self.columns().min().expect("a joint has columns")
    }

    fn right(&self) -> usize {
        self.columns().max().expect("a joint has columns")
    }
}

/// A track's points on the vertical and on the horizontal layer.
struct Track {
    down: Vec<u8>,
    along: Vec<u8>,
}

/// The net that each column's wire carries below the tracks drawn so far, and these tracks from the north. Columns count from
/// 1, so that entry 0 of each list is no column's.
struct Sweep {
    carried: Vec<u8>,
    tracks: Vec<Track>,
}

impl Sweep {
    /// A track on which every wire runs on.
    fn plain_track(&mut self) {
        self.tracks.push(Track { down: self.carried.clone(), along: vec![0; self.carried.len()] });
    }

    /// A track with joints that have no column in common, the ones that end first before others; the rest stay in the list.
    fn track(&mut self, joints: &mut Vec<Joint>) {
        self.plain_track();
        let Track { down, along } = self.tracks.last_mut().expect("the track just begun");
        joints.sort_by_key(Joint::right);
        let mut last = 0;
        joints.retain(|x| {
            if x.left() <= last {
                return true;
            }
            last = x.right();
            along[x.left()..=last].fill(x.net);
            x.columns().for_each(|c| down[c] = x.net);
            x.from.iter().for_each(|c| self.carried[*c] = 0);
            x.to.iter().for_each(|c| self.carried[*c] = x.net);
            false
        });
    }

    fn tracks(&mut self, mut joints: Vec<Joint>) {
        while !joints.is_empty() {
            self.track(&mut joints);
        }
    }

    /// The moves of wires whose own column is free; where there is none, of the first wire to the free column nearest to it,
    /// which opens a ring of wires that wait for each other. No move where every wire is in its column.
    fn moves(&self, wires: &[Wire]) -> Vec<Joint> {
        let is_free = |c: &usize| self.carried[*c] == 0;
        let mut out: Vec<Joint> = wires.iter().filter(|x| is_free(&x.goal)).map(|x| x.moved_to(x.goal)).collect();
        if let (true, Some(first)) = (out.is_empty(), wires.iter().find(|x| x.at != x.goal)) {
            let columns = 1..self.carried.len();
            let free = columns.filter(is_free).min_by_key(|c| c.abs_diff(first.at)).expect("a free column, as the ticket is not solid");
            out.push(first.moved_to(free));
        }
        out
    }
}

/// The one wire of a net with pins on both sides: the column where it is, and its own, that of a south pin.
struct Wire {
    net: u8,
    at: usize,
    goal: usize,
}

impl Wire {
    fn new(t: &Ticket, net: u8) -> Option<Self> {
        let south = t.on(SOUTH, net);
        let pairs = t.on(NORTH, net).into_iter().flat_map(|at| south.iter().map(move |goal| (at, *goal)));
        pairs.min_by_key(|(at, goal)| at.abs_diff(*goal)).map(|(at, goal)| Wire { net, at, goal })
    }

    fn moved_to(&self, column: usize) -> Joint {
        Joint { net: self.net, from: vec![self.at], to: vec![column] }
    }
}

/// The net at each place of a side, from entry 1 on.
fn side(t: &Ticket, side: usize) -> Vec<u8> {
    let mut out = vec![0; t.n + 1];
    t.pins.iter().filter(|p| p.side == side).for_each(|p| out[p.place] = p.net);
    out
}

/// The wiring of a ticket that is not solid, with so many tracks more than it needs.
pub fn lay(t: &Ticket, spare: usize) -> (Grid, Vec<u8>) {
    let nets = t.nets();
    let mut sweep = Sweep { carried: side(t, NORTH), tracks: Vec::new() };
    (0..spare).for_each(|_| sweep.plain_track());
    let wire = |m: u8| Wire::new(t, m);
    let many = |s: usize| nets.iter().copied().filter(move |m| t.on(s, *m).len() > 1);
    let kept = |m: u8| wire(m).map(|x| x.at).into_iter().collect();
    sweep.tracks(many(NORTH).map(|net| Joint { net, from: t.on(NORTH, net), to: kept(net) }).collect());
    let mut wires: Vec<Wire> = nets.iter().filter_map(|m| wire(*m)).collect();
    loop {
        let mut joints = sweep.moves(&wires);
        if joints.is_empty() {
            break;
        }
        sweep.track(&mut joints);
        let here = |m: u8| sweep.carried.iter().position(|x| *x == m).expect("a wire runs on");
        wires.iter_mut().for_each(|x| x.at = here(x.net));
    }
    let reached = |m: u8| wire(m).map(|x| x.goal).into_iter().collect();
    sweep.tracks(many(SOUTH).map(|net| Joint { net, from: reached(net), to: t.on(SOUTH, net) }).collect());
    if sweep.tracks.is_empty() {
        sweep.plain_track();
    }
    assert_eq!(sweep.carried, side(t, SOUTH), "every wire at its pin");
    let vertical = sweep.tracks.iter().rev().flat_map(|x| &x.down[1..]);
    let horizontal = sweep.tracks.iter().rev().flat_map(|x| &x.along[1..]);
    let x = vertical.chain(horizontal).copied().collect();
    (Grid { n: t.n, w: sweep.tracks.len(), k: 2, first: false }, x)
}
