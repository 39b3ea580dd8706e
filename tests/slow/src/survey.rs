//! Counts and floor, and the program's line.

use crate::{no_kind, no_side, read, Pin, Refusal, Ticket, BOX, CHANNEL, EAST, NORTH, ROW, SOUTH, TWO_LAYER, WEST};

/// Whether all pins of a net are on this side.
pub fn all_on(t: &Ticket, net: u8, side: usize) -> bool {
    t.pins.iter().all(|p| p.net != net || p.side == side)
}

/// The largest number of nets that any of the lines 1 to `lines` must pass; `at` gives a pin's line. Line 1 also passes each net
/// whose pins are all on the side `before` it, and the last line each net whose pins are all on the side `after` it. Only boxes
/// have such nets: rows and channels have no west and no east side, and their tracks are not counted.
fn most_passed(t: &Ticket, lines: usize, before: usize, after: usize, at: impl Fn(&Pin) -> usize) -> usize {
    let lines_of = |net: u8| t.pins.iter().filter(|p| p.net == net).map(&at).collect();
    let nets: Vec<(u8, Vec<usize>)> = t.nets().into_iter().map(|m| (m, lines_of(m))).collect();
    let goes_through = |c: usize, x: &[usize]| x.iter().any(|a| *a <= c) && x.iter().any(|a| *a >= c) && x.iter().any(|a| *a != c);
    let is_beside = |c: usize, net: u8| (c == 1 && all_on(t, net, before)) || (c == lines && all_on(t, net, after));
    (1..=lines).map(|c| nets.iter().filter(|(m, x)| goes_through(c, x) || is_beside(c, *m)).count()).max().unwrap_or(0)
}

/// Survey's figures; w is 0 for a two-layer channel, whose number of tracks is Lay's own.
#[derive(Clone, Copy, Debug, PartialEq, Eq)]
pub struct Figures {
    pub w: usize,
    pub nets: usize,
    pub pins: usize,
    pub across: usize,
    pub up: usize,
    pub layers: usize,
    pub floor: usize,
}

/// How many nets some column must pass.
fn across(t: &Ticket) -> usize {
    most_passed(t, t.n, WEST, EAST, |p| match p.side {
        NORTH | SOUTH => p.place,
        WEST => 0,
        EAST => t.n + 1,
        other => no_side(other),
    })
}

/// How many nets some track of a box must pass.
fn up(t: &Ticket) -> usize {
    most_passed(t, t.byte2, SOUTH, NORTH, |p| match p.side {
        WEST | EAST => p.place,
        SOUTH => 0,
        NORTH => t.byte2 + 1,
        other => no_side(other),
    })
}

fn trunk_figures(t: &Ticket, layers: usize) -> Figures {
    let across = across(t);
    Figures { w: across.div_ceil(t.byte2).max(1), nets: t.nets().len(), pins: t.pins.len(), across, up: 0, layers, floor: 0 }
}

/// The longer side over the shorter, rounded up.
pub fn quotient(n: usize, w: usize) -> usize {
    n.max(w).div_ceil(n.min(w))
}

/// The floor of a box of this shape with these counts.
pub fn floor(n: usize, w: usize, across: usize, up: usize) -> usize {
    let (a, b) = (across.div_ceil(w) as i64, up.div_ceil(n) as i64);
    [1, 2 * a - 1, 2 * b - 1, a + b].into_iter().max().unwrap() as usize
}

fn box_figures(t: &Ticket) -> Figures {
    let (n, w, across, up) = (t.n, t.byte2, across(t), up(t));
    let (nets, pins, layers) = (t.nets().len(), t.pins.len(), 2 * quotient(n, w) + 4);
    Figures { w, nets, pins, across, up, layers, floor: floor(n, w, across, up) }
}

pub fn figures(t: &Ticket) -> Figures {
    match t.kind {
        ROW => trunk_figures(t, 2 * t.byte2),
        CHANNEL => trunk_figures(t, 2 * t.byte2 + 1),
        BOX => box_figures(t),
        TWO_LAYER => Figures { w: 0, nets: t.nets().len(), pins: t.pins.len(), across: across(t), up: 0, layers: 2, floor: 0 },
        other => no_kind(other),
    }
}

/// number, place, kind, n, w, nets, pins, across, up, layers, floor
pub fn answer(t: &[u8]) -> [u64; 11] {
    match read::read(t) {
        Err(Refusal(number, place)) => [number as u64, place as u64, 0, 0, 0, 0, 0, 0, 0, 0, 0],
        Ok(t) => {
            let f = figures(&t);
            [0, 0, t.kind as usize, t.n, f.w, f.nets, f.pins, f.across, f.up, f.layers, f.floor].map(|x| x as u64)
        }
    }
}

/// The program's line, with its newline.
pub fn line(t: &[u8]) -> String {
    let [number, place, kind, n, w, nets, pins, across, up, layers, floor] = answer(t);
    if number != 0 {
        return format!("refused {number} at {place}\n");
    }
    let trunks = format!("length {n} nets {nets} pins {pins} across {across} tracks {w} layers {layers}\n");
    match kind as u8 {
        ROW => "row ".to_string() + &trunks,
        CHANNEL => "channel ".to_string() + &trunks,
        BOX => format!("box length {n} width {w} nets {nets} pins {pins} across {across} up {up} layers {layers} floor {floor}\n"),
        TWO_LAYER => format!("two-layer length {n} nets {nets} pins {pins} across {across} layers {layers}\n"),
        other => no_kind(other),
    }
}
