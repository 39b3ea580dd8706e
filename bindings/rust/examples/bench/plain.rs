//! The same construction in plain Rust, straight from the pins: what Lay draws, without the reading of a ticket, without its
//! figures and without its promises. Lines run from end to end, as Lay's do.

use slow::judge::Grid;
use slow::{no_kind, Ticket, BOX, CHANNEL, EAST, LARGEST_NET, LONGEST_SIDE, NORTH, ROW, SOUTH, TWO_LAYER, WEST};

/// One more than the nets' numbers, for tables with an entry for each.
const NETS: usize = LARGEST_NET as usize + 1;

/// Lays the ticket's pins into a buffer that is as long as the grid has points.
pub fn lay(t: &Ticket, g: Grid, x: &mut [u8]) {
    let mut sides = [[0; LONGEST_SIDE]; 4];
    for p in &t.pins {
        sides[p.side][p.place - 1] = p.net;
    }
    let [north, south, west, east] = &sides;
    let (n, w) = (g.n, g.w);
    match t.kind {
        ROW => lay_trunks(t, g, &north[..n], &north[..n], x),
        CHANNEL => lay_trunks(t, g, &north[..n], &south[..n], x),
        BOX if n < w => lay_box([&east[..w], &west[..w], &south[..n], &north[..n]], true, x),
        BOX => lay_box([&north[..n], &south[..n], &west[..w], &east[..w]], false, x),
        TWO_LAYER => unreachable!("two-layer channels are held against a channel"),
        other => no_kind(other),
    }
}

/// Every column of a layer from end to end its value.
fn fill_columns(layer: &mut [u8], values: &[u8]) {
    for track in layer.chunks_exact_mut(values.len()) {
        track.copy_from_slice(values);
    }
}

/// Every track of a layer from end to end its value.
fn fill_tracks(layer: &mut [u8], values: &[u8]) {
    let length = layer.len() / values.len();
    for (track, value) in layer.chunks_exact_mut(length).zip(values) {
        track.fill(*value);
    }
}

/// Rows and channels: combs of north and south in turn, and the nets' spans packed Gallai's way.
fn lay_trunks(t: &Ticket, g: Grid, north: &[u8], south: &[u8], x: &mut [u8]) {
    for (l, layer) in x.chunks_exact_mut(g.n * g.w).enumerate() {
        match l % 4 {
            0 => fill_columns(layer, north),
            2 => fill_columns(layer, south),
            _ => layer.fill(0),
        }
    }
    let mut ends = [(usize::MAX, 0); NETS];
    for p in &t.pins {
        let (left, right) = &mut ends[p.net as usize];
        (*left, *right) = (p.place.min(*left), p.place.max(*right));
    }
    let spans = (1..=LARGEST_NET).map(|net| (ends[net as usize], net)).filter(|((left, right), _)| left < right);
    let mut spans: Vec<((usize, usize), u8)> = spans.collect();
    spans.sort_unstable_by_key(|((left, _), net)| (*left, north[left - 1] != *net));
    let mut lasts: Vec<usize> = Vec::new();
    for ((left, right), net) in spans {
        let place = lasts.iter().position(|last| *last < left).unwrap_or(lasts.len());
        lasts.resize(lasts.len().max(place + 1), 0);
        lasts[place] = right;
        let from = g.at(left, place % g.w + 1, 2 * (place / g.w) + 2);
        x[from..=from + right - left].fill(net);
    }
}

/// How many pins a net has on north, south, west and east.
type Tally = [u8; 4];

/// On just the sides a and b, which meet.
fn is_corner(c: &Tally, a: usize, b: usize) -> bool {
    (0..4).all(|s| (c[s] > 0) == (s == a || s == b))
}

fn is_pair(c: &Tally) -> bool {
    *c == [0, 1, 1, 0]
}

/// Whether a net gets a track; `mine`: it does if it is a pair.
fn gets_track(c: &Tally, mine: bool) -> bool {
    (c[NORTH] + c[SOUTH] >= 2 && !is_corner(c, NORTH, EAST)) || (is_corner(c, NORTH, WEST) && c[NORTH] == 1) || (is_pair(c) && mine)
}

/// A box with n at least w, in which a line of north or south is a column or, where it is turned, a track of the buffer.
fn lay_box(sides: [&[u8]; 4], turned: bool, x: &mut [u8]) {
    let mut tallies = [[0; 4]; NETS];
    for (s, side) in sides.iter().enumerate() {
        for net in *side {
            tallies[*net as usize][s] += 1;
        }
    }
    let corners = |a: usize, b: usize| tallies[1..].iter().filter(|c| is_corner(c, a, b)).count();
    let kinds = [(SOUTH, WEST), (SOUTH, EAST), (NORTH, WEST), (NORTH, EAST)];
    let (a, d) = kinds.into_iter().max_by_key(|(a, b)| corners(*a, *b)).unwrap();
    let order = [a, NORTH + SOUTH - a, WEST + EAST - d, d];
    for c in &mut tallies[1..] {
        *c = order.map(|s| c[s]);
    }
    lay_standing(order.map(|s| sides[s]), &tallies, turned, x);
}

/// The same where the nets on just north and east are the most numerous corner kind.
fn lay_standing([north, south, west, east]: [&[u8]; 4], tallies: &[Tally; NETS], turned: bool, x: &mut [u8]) {
    let (n, w) = (north.len(), west.len());
    let q = n.div_ceil(w);
    let (mut tracked, mut posted) = ([false; NETS], [false; NETS]);
    let mut mine = true;
    for (m, c) in tallies.iter().enumerate().skip(1) {
        tracked[m] = gets_track(c, mine);
        posted[m] = gets_track(&[c[EAST], c[WEST], c[SOUTH], c[NORTH]], !mine);
        mine ^= is_pair(c);
    }
    let tracks = lanes(&mut tracked, west, q * w);
    let columns = lanes(&mut posted, south, n);
    let up = if turned { fill_tracks } else { fill_columns };
    let across = if turned { fill_columns } else { fill_tracks };
    let mut layers = x.chunks_exact_mut(n * w);
    let mut next = || layers.next().expect("a layer");
    for (t, lanes) in tracks[..q * w].chunks_exact(w).enumerate() {
        up(next(), if (t + q) % 2 == 0 { north } else { south });
        across(next(), lanes);
    }
    up(next(), north);
    across(next(), east);
    up(next(), &columns[..n]);
    across(next(), west);
}

/// One of the lanes 0 to top - 1 for each net that wants one: beside its first own place, or any that is left.
fn lanes(wants: &mut [bool; NETS], own: &[u8], top: usize) -> [u8; NETS] {
    let mut out = [0; NETS];
    for (lane, net) in out.iter_mut().zip(own) {
        if std::mem::take(&mut wants[*net as usize]) {
            *lane = *net;
        }
    }
    let left = (1..=LARGEST_NET).filter(|m| wants[*m as usize]);
    for (lane, net) in out[..top].iter_mut().filter(|lane| **lane == 0).zip(left) {
        *lane = net;
    }
    out
}
