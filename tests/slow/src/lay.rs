//! Lay: wirings with the document's counts. Wires run only as far as they must, trunks fill one place after the other, and
//! tracks and columns of a box are found by matching.

use crate::judge::Grid;
use crate::survey::figures;
use crate::{no_kind, no_side, two_layer, Pin, Refusal, Ticket, BOX, CHANNEL, EAST, NORTH, ROW, SOUTH, TWO_LAYER, WEST};

/// A wiring under way; a point is given to one net only.
struct Canvas {
    g: Grid,
    x: Vec<u8>,
}

impl Canvas {
    fn new(g: Grid) -> Self {
        Canvas { g, x: vec![0; g.size()] }
    }

    fn put(&mut self, i: usize, j: usize, l: usize, net: u8) {
        let at = self.g.at(i, j, l);
        assert!(self.x[at] == 0 || self.x[at] == net, "two nets at one point");
        self.x[at] = net;
    }

    fn along_track(&mut self, a: usize, b: usize, j: usize, l: usize, net: u8) {
        (a.min(b)..=a.max(b)).for_each(|i| self.put(i, j, l, net));
    }

    fn along_column(&mut self, i: usize, a: usize, b: usize, l: usize, net: u8) {
        (a.min(b)..=a.max(b)).for_each(|j| self.put(i, j, l, net));
    }
}

fn surveyed_grid(t: &Ticket, first: bool) -> Grid {
    let f = figures(t);
    Grid { n: t.n, w: f.w, k: f.layers, first }
}

fn trunk_grid(t: &Ticket) -> Grid {
    surveyed_grid(t, false)
}

fn box_grid(t: &Ticket) -> Grid {
    surveyed_grid(t, t.n < t.byte2)
}

/// The grid of the ticket's wiring where the documents give it: the number of tracks of a two-layer channel is free.
pub fn grid(t: &Ticket) -> Option<Grid> {
    match t.kind {
        ROW | CHANNEL => Some(trunk_grid(t)),
        BOX => Some(box_grid(t)),
        TWO_LAYER => None,
        other => no_kind(other),
    }
}

/// A grid and a wiring that the ticket may get, or 17.
pub fn lay(t: &Ticket) -> Result<(Grid, Vec<u8>), Refusal> {
    match t.kind {
        ROW => Ok(lay_trunks(t, |layer, _| layer - 1)),
        CHANNEL => Ok(lay_trunks(t, |layer, north| if (layer % 4 == 2) == north { layer - 1 } else { layer + 1 })),
        BOX => Ok(lay_box(t)),
        TWO_LAYER if two_layer::is_solid(t) => Err(Refusal(17, 0)),
        TWO_LAYER => Ok(two_layer::lay(t, 0)),
        other => no_kind(other),
    }
}

/// A row or a channel; `comb` gives the layer of a north or a south pin's stretch, of the trunk's.
fn lay_trunks(t: &Ticket, comb: impl Fn(usize, bool) -> usize) -> (Grid, Vec<u8>) {
    let (g, h) = (trunk_grid(t), t.byte2);
    let mut canvas = Canvas::new(g);
    let mut spans: Vec<(usize, usize, u8)> = Vec::new();
    for net in t.nets() {
        let columns: Vec<usize> = t.pins.iter().filter(|p| p.net == net).map(|p| p.place).collect();
        let (left, right) = (*columns.iter().min().unwrap(), *columns.iter().max().unwrap());
        if left < right {
            spans.push((left, right, net));
        } else {
            canvas.along_column(left, 1, g.w, 1, net);
        }
    }
    spans.sort_unstable();
    let mut place = 0;
    while !spans.is_empty() {
        let (track, layer) = (place / h + 1, 2 * (place % h) + 2);
        let mut last = 0;
        spans.retain(|&(left, right, net)| {
            if left <= last {
                return true;
            }
            last = right;
            canvas.along_track(left, right, track, layer, net);
            for p in t.pins.iter().filter(|p| p.net == net) {
                let (column, end) = g.beside(p.side, p.place);
                canvas.along_column(column, end, track, comb(layer, p.side == NORTH), net);
            }
            false
        });
        place += 1;
    }
    (g, canvas.x)
}

/// How a box is seen: turned, then with columns reversed, then with tracks reversed. Each step is its own inverse.
#[derive(Clone, Copy)]
struct View {
    turned: bool,
    columns: bool,
    tracks: bool,
}

fn seen(v: View, n: usize, w: usize, p: Pin) -> Pin {
    let Pin { mut side, mut place, net } = p;
    if v.turned {
        side = [EAST, WEST, SOUTH, NORTH][side];
    }
    if v.columns {
        match side {
            WEST | EAST => side = WEST + EAST - side,
            NORTH | SOUTH => place = n + 1 - place,
            other => no_side(other),
        }
    }
    if v.tracks {
        match side {
            NORTH | SOUTH => side = NORTH + SOUTH - side,
            WEST | EAST => place = w + 1 - place,
            other => no_side(other),
        }
    }
    Pin { side, place, net }
}

struct Net {
    name: u8,
    sides: [Vec<usize>; 4],
}

impl Net {
    fn many(&self, s: usize) -> usize {
        self.sides[s].len()
    }

    /// On just the sides a and b, which meet.
    fn just(&self, a: usize, b: usize) -> bool {
        (0..4).all(|s| (self.many(s) > 0) == (s == a || s == b))
    }

    fn pair(&self) -> bool {
        self.just(SOUTH, WEST) && self.many(SOUTH) == 1 && self.many(WEST) == 1
    }
}

fn nets_of(pins: &[Pin]) -> Vec<Net> {
    let mut names: Vec<u8> = pins.iter().map(|p| p.net).collect();
    names.sort_unstable();
    names.dedup();
    let on = |name: u8, s: usize| pins.iter().filter(|p| p.net == name && p.side == s).map(|p| p.place).collect();
    names.into_iter().map(|name| Net { name, sides: [on(name, 0), on(name, 1), on(name, 2), on(name, 3)] }).collect()
}

/// One slot of 0..slots for each of the wishes, by augmenting paths.
fn matched(wishes: &[Vec<usize>], slots: usize) -> Vec<usize> {
    fn give(a: usize, wishes: &[Vec<usize>], tried: &mut [bool], holder: &mut [Option<usize>]) -> bool {
        for &s in &wishes[a] {
            if !tried[s] {
                tried[s] = true;
                if holder[s].is_none() || give(holder[s].unwrap(), wishes, tried, holder) {
                    holder[s] = Some(a);
                    return true;
                }
            }
        }
        false
    }
    let mut holder = vec![None; slots];
    for a in 0..wishes.len() {
        assert!(give(a, wishes, &mut vec![false; slots], &mut holder), "a net finds no lane");
    }
    (0..wishes.len()).map(|a| holder.iter().position(|h| *h == Some(a)).unwrap()).collect()
}

fn lay_box(t: &Ticket) -> (Grid, Vec<u8>) {
    let g = box_grid(t);
    let turned = g.n < g.w;
    let (n, w) = if turned { (g.w, g.n) } else { (g.n, g.w) };
    let views = [(false, false), (true, false), (false, true), (true, true)].map(|(columns, tracks)| View { turned, columns, tracks });
    let corners = |v: View| {
        let pins: Vec<Pin> = t.pins.iter().map(|p| seen(v, n, w, *p)).collect();
        nets_of(&pins).iter().filter(|x| x.just(NORTH, EAST)).count()
    };
    let view = *views.iter().max_by_key(|v| corners(**v)).unwrap();
    let pins: Vec<Pin> = t.pins.iter().map(|p| seen(view, n, w, *p)).collect();
    let stood = lay_standing(&nets_of(&pins), Grid { n, w, k: g.k, first: false });
    let mut out = vec![0; g.size()];
    for l in 1..=g.k {
        for j in 1..=w {
            for i in 1..=n {
                let a = if view.columns { n + 1 - i } else { i };
                let b = if view.tracks { w + 1 - j } else { j };
                let at = if turned { g.at(b, a, l) } else { g.at(a, b, l) };
                out[at] = stood[((l - 1) * w + (j - 1)) * n + i - 1];
            }
        }
    }
    (g, out)
}

/// A box with n at least w in which the nets on just north and east are the most numerous corner kind.
fn lay_standing(nets: &[Net], g: Grid) -> Vec<u8> {
    let q = g.n.div_ceil(g.w);
    let pairs: Vec<u8> = nets.iter().filter(|x| x.pair()).map(|x| x.name).collect();
    let by_column = &pairs[..pairs.len() / 2];
    let has_track = |x: &Net| {
        (x.many(NORTH) + x.many(SOUTH) >= 2 && !x.just(NORTH, EAST))
            || (x.just(NORTH, WEST) && x.many(NORTH) == 1)
            || (x.pair() && !by_column.contains(&x.name))
    };
    let has_column = |x: &Net| {
        (x.many(EAST) + x.many(WEST) >= 2 && !x.just(NORTH, EAST))
            || (x.just(SOUTH, EAST) && x.many(EAST) == 1)
            || (x.pair() && by_column.contains(&x.name))
    };
    let mut canvas = Canvas::new(g);
    let tracked: Vec<&Net> = nets.iter().filter(|x| has_track(x)).collect();
    let lanes = |own: &[usize], width: usize, slots: usize| -> Vec<usize> {
        (0..slots).filter(|s| own.is_empty() || own.contains(&(s % width + 1))).collect()
    };
    let wishes: Vec<Vec<usize>> = tracked.iter().map(|x| lanes(&x.sides[WEST], g.w, q * g.w)).collect();
    for (x, slot) in tracked.iter().zip(matched(&wishes, q * g.w)) {
        draw_track(&mut canvas, x, slot % g.w + 1, 2 * (slot / g.w) + 2, q);
    }
    let posted: Vec<&Net> = nets.iter().filter(|x| has_column(x)).collect();
    let wishes: Vec<Vec<usize>> = posted.iter().map(|x| lanes(&x.sides[SOUTH], g.n, g.n)).collect();
    for (x, slot) in posted.iter().zip(matched(&wishes, g.n)) {
        draw_column(&mut canvas, x, slot + 1, q);
    }
    for x in nets.iter().filter(|x| x.many(NORTH) > 0 && x.many(EAST) > 0) {
        let (all_north, all_east) =
            if x.just(NORTH, EAST) { (&x.sides[NORTH][..], &x.sides[EAST][..]) } else { (&x.sides[NORTH][..1], &x.sides[EAST][..1]) };
        for &i in all_north {
            for &j in all_east {
                canvas.along_column(i, g.w, j, 2 * q + 1, x.name);
                canvas.along_track(g.n, i, j, 2 * q + 2, x.name);
            }
        }
    }
    canvas.x
}

fn draw_track(canvas: &mut Canvas, x: &Net, j: usize, l: usize, q: usize) {
    let w = canvas.g.w;
    let north_below = (2 * q + 2 - l) % 4 < 2;
    let (north, south) = if north_below { (l - 1, l + 1) } else { (l + 1, l - 1) };
    let mut ends: Vec<usize> = [&x.sides[NORTH][..], &x.sides[SOUTH][..]].concat();
    if x.many(WEST) > 0 {
        ends.push(1);
    }
    canvas.along_track(*ends.iter().min().unwrap(), *ends.iter().max().unwrap(), j, l, x.name);
    for &i in &x.sides[NORTH] {
        canvas.along_column(i, w, j, north, x.name);
    }
    for &i in &x.sides[SOUTH] {
        canvas.along_column(i, 1, j, south, x.name);
    }
}

fn draw_column(canvas: &mut Canvas, x: &Net, i: usize, q: usize) {
    let n = canvas.g.n;
    let mut ends: Vec<usize> = [&x.sides[EAST][..], &x.sides[WEST][..]].concat();
    if x.many(SOUTH) > 0 {
        ends.push(1);
    }
    canvas.along_column(i, *ends.iter().min().unwrap(), *ends.iter().max().unwrap(), 2 * q + 3, x.name);
    for &j in &x.sides[EAST] {
        canvas.along_track(n, i, j, 2 * q + 2, x.name);
    }
    for &j in &x.sides[WEST] {
        canvas.along_track(1, i, j, 2 * q + 4, x.name);
    }
}
