//! Tickets to try: the documents' own, random good ones, and garbled ones.

use crate::{no_kind, places, rules};
use crate::{BOX, CHANNEL, EAST, LARGEST_NET, LONGEST_SIDE, MOST_TRUNK_LAYERS, NORTH, ROW, SOUTH, TWO_LAYER, WEST};
use std::collections::BTreeMap;

/// A small linear congruential generator, so that every machine makes the same.
pub struct Numbers(u64);

impl Numbers {
    pub fn new(seed: u64) -> Self {
        Numbers(seed)
    }

    pub fn below(&mut self, top: usize) -> usize {
        self.0 = self.0.wrapping_mul(6364136223846793005).wrapping_add(1442695040888963407);
        (self.0 >> 33) as usize % top
    }

    pub fn pick<T: Copy>(&mut self, items: &[T]) -> T {
        items[self.below(items.len())]
    }

    pub fn shuffle<T>(&mut self, items: &mut [T]) {
        for i in (1..items.len()).rev() {
            let j = self.below(i + 1);
            items.swap(i, j);
        }
    }
}

/// The net at each (side, place).
pub type Places = BTreeMap<(usize, usize), u8>;

/// The ticket of these pins.
pub fn encode(kind: u8, n: usize, byte2: usize, pins: &Places) -> Vec<u8> {
    let mut out = vec![kind, n as u8, byte2 as u8, 0];
    for side in [NORTH, SOUTH, WEST, EAST] {
        let places = places(side, n, byte2);
        let filled: Vec<usize> = (1..=places).filter(|i| pins.contains_key(&(side, *i))).collect();
        if filled.is_empty() {
            continue;
        }
        out[3] |= 1 << side;
        let mut bits = vec![0u8; places.div_ceil(8)];
        for i in &filled {
            bits[(i - 1) / 8] |= 1 << ((i - 1) % 8);
        }
        out.extend(bits);
        out.extend(filled.iter().map(|i| pins[&(side, *i)]));
    }
    out
}

/// Every place that a ticket of this shape has.
pub fn slots(kind: u8, n: usize, byte2: usize) -> Vec<(usize, usize)> {
    let (sides, _) = rules(kind).unwrap_or_else(|| no_kind(kind));
    sides.iter().flat_map(|s| (1..=places(*s, n, byte2)).map(|i| (*s, i))).collect()
}

/// Nets of two or more pins on these places, each of two where `pairs`; a last place alone is left over.
fn share_out(r: &mut Numbers, free: &mut Vec<(usize, usize)>, names: &mut Vec<u8>, pairs: bool) -> Places {
    let mut pins = Places::new();
    while free.len() >= 2 {
        let Some(net) = names.pop() else { break };
        let size = if pairs || r.below(3) > 0 { 2 } else { 2 + r.below(4) };
        for place in free.split_off(free.len() - size.min(free.len())) {
            pins.insert(place, net);
        }
    }
    pins
}

/// A good ticket of this shape with nets of two or more pins on about so many tenths of its places.
pub fn of_shape(r: &mut Numbers, kind: u8, n: usize, byte2: usize, tenths: usize) -> Vec<u8> {
    let mut free = slots(kind, n, byte2);
    r.shuffle(&mut free);
    free.truncate(free.len() * tenths / 10);
    let mut names = names(r, LARGEST_NET as usize);
    let pairs = r.below(2) == 0;
    let pins = share_out(r, &mut free, &mut names, pairs);
    encode(kind, n, byte2, &pins)
}

pub fn random(r: &mut Numbers) -> Vec<u8> {
    let kind = r.pick(&[ROW, CHANNEL, BOX, TWO_LAYER]);
    let longest = r.pick(&[4, 12, LONGEST_SIDE]);
    let n = 1 + r.below(longest);
    let largest = match kind {
        ROW | CHANNEL => MOST_TRUNK_LAYERS,
        BOX => r.pick(&[4, 12, LONGEST_SIDE]),
        TWO_LAYER => return two_layer(r, n),
        other => no_kind(other),
    };
    let byte2 = 1 + r.below(largest);
    let tenths = r.below(11);
    of_shape(r, kind, n, byte2, tenths)
}

/// A two-layer channel of length n of any of the sorts below.
pub fn two_layer(r: &mut Numbers, n: usize) -> Vec<u8> {
    let tenths = r.below(11);
    match r.below(10) {
        0 | 1 => of_shape(r, TWO_LAYER, n, 1, tenths),
        2 => of_shape(r, TWO_LAYER, n, 1, 10),
        3 => solid(r, n),
        4 => a_net_less(r, n),
        5 => a_pin_less(r, n),
        6 => one_sided_pair(r, n),
        7 => straight(r, n),
        8 => long_nets(r, n),
        _ => rings(n),
    }
}

fn two_layer_of(north: &[u8], south: &[u8]) -> Vec<u8> {
    let on = |side: usize, nets: &[u8]| -> Places { nets.iter().enumerate().map(|(i, m)| ((side, i + 1), *m)).collect() };
    let pins: Places = on(NORTH, north).into_iter().chain(on(SOUTH, south)).filter(|(_, m)| *m != 0).collect();
    encode(TWO_LAYER, north.len(), 1, &pins)
}

/// So many net numbers in any order.
fn names(r: &mut Numbers, size: usize) -> Vec<u8> {
    let mut out: Vec<u8> = (1..=LARGEST_NET).collect();
    r.shuffle(&mut out);
    out.truncate(size);
    out
}

/// Every net once on either side, in two orders; of n 1, where there is only one, in this.
fn solid_sides(r: &mut Numbers, n: usize) -> (Vec<u8>, Vec<u8>) {
    let north = names(r, n);
    let mut south = north.clone();
    r.shuffle(&mut south);
    if south == north {
        south.rotate_left(1);
    }
    (north, south)
}

fn replace(side: &mut [u8], old: u8, new: u8) {
    side.iter_mut().filter(|m| **m == old).for_each(|m| *m = new);
}

/// All places filled, every net with one north and one south pin; from n 2 on not all of them straight.
pub fn solid(r: &mut Numbers, n: usize) -> Vec<u8> {
    let (north, south) = solid_sides(r, n);
    two_layer_of(&north, &south)
}

/// A solid one without one of its nets.
pub fn a_net_less(r: &mut Numbers, n: usize) -> Vec<u8> {
    let (mut north, mut south) = solid_sides(r, n);
    let gone = r.pick(&north);
    replace(&mut north, gone, 0);
    replace(&mut south, gone, 0);
    two_layer_of(&north, &south)
}

/// A solid one without one of its pins, whose net's other pin another net has instead; of n 1, where there is no other, none.
pub fn a_pin_less(r: &mut Numbers, n: usize) -> Vec<u8> {
    let (mut north, mut south) = solid_sides(r, n);
    let at = r.below(n);
    let (gone, other) = (north[at], if n > 1 { north[(at + 1) % n] } else { 0 });
    let (emptied, given) = if r.below(2) == 0 { (&mut north, &mut south) } else { (&mut south, &mut north) };
    replace(emptied, gone, 0);
    replace(given, gone, other);
    two_layer_of(&north, &south)
}

/// All places filled, but one net with two north pins and one with two south pins instead of one on either side; a solid one
/// where it picks one net twice.
pub fn one_sided_pair(r: &mut Numbers, n: usize) -> Vec<u8> {
    let (mut north, mut south) = solid_sides(r, n);
    let (a, b) = (r.pick(&south), r.pick(&south));
    replace(&mut north, b, a);
    replace(&mut south, a, b);
    two_layer_of(&north, &south)
}

/// Every net has both places of one column.
pub fn straight(r: &mut Numbers, n: usize) -> Vec<u8> {
    let tenths = r.below(11);
    let nets: Vec<u8> = names(r, n).into_iter().map(|m| if r.below(10) < tenths { m } else { 0 }).collect();
    two_layer_of(&nets, &nets)
}

/// Few nets with pins all along both sides.
pub fn long_nets(r: &mut Numbers, n: usize) -> Vec<u8> {
    let few = 1 + r.below(n.min(6));
    let nets = names(r, few);
    let mut on_side = || -> Vec<u8> {
        let mut out: Vec<u8> = nets.iter().copied().cycle().take(n).collect();
        r.shuffle(&mut out);
        out
    };
    let (north, south) = (on_side(), on_side());
    two_layer_of(&north, &south)
}

/// Nets of two north and two south pins, the first ones of each ring of two, or of three at the end, in each other's columns:
/// no ticket is known to be harder on the bound of 7 tracks for every 4 columns. A length under 4 has no nets.
pub fn rings(n: usize) -> Vec<u8> {
    let (mut north, mut south) = (Vec::new(), Vec::new());
    let mut next = 1;
    while n - north.len() >= 4 {
        let size = if n - north.len() == 6 || n - north.len() == 7 { 3 } else { 2 };
        let ring: Vec<u8> = (next..next + size).collect();
        let turned = [&ring[1..], &ring[..1]].concat();
        north.extend([&ring[..], &ring[..]].concat());
        south.extend([&turned[..], &turned[..]].concat());
        next += size;
    }
    north.resize(n, 0);
    south.resize(n, 0);
    two_layer_of(&north, &south)
}

/// Every ticket of this shape, up to the nets' numbers: each place is empty, or takes a net that an earlier place has, or the
/// next one, and no net has one pin.
pub fn every(kind: u8, n: usize, byte2: usize) -> Vec<Vec<u8>> {
    let slots = slots(kind, n, byte2);
    let mut lists: Vec<Vec<u8>> = vec![vec![]];
    for _ in &slots {
        let next = |x: &[u8]| x.iter().max().map_or(1, |m| m + 1);
        lists = lists.iter().flat_map(|x| (0..=next(x)).map(|m| [&x[..], &[m]].concat())).collect();
    }
    lists.retain(|x| x.iter().all(|m| *m == 0 || x.iter().filter(|a| *a == m).count() > 1));
    let pins = |x: Vec<u8>| -> Places { slots.iter().copied().zip(x).filter(|(_, m)| *m != 0).collect() };
    lists.into_iter().map(|x| encode(kind, n, byte2, &pins(x))).collect()
}

/// A box all of whose nets are on just the sides a and b.
pub fn corner(r: &mut Numbers, n: usize, w: usize, a: usize, b: usize) -> Vec<u8> {
    let mut shuffled = |side: usize| {
        let mut out: Vec<_> = (1..=places(side, n, w)).map(|i| (side, i)).collect();
        r.shuffle(&mut out);
        out
    };
    let (first, second) = (shuffled(a), shuffled(b));
    let mut pins = Places::new();
    for (net, (p, q)) in first.into_iter().zip(second).enumerate() {
        pins.insert(p, net as u8 + 1);
        pins.insert(q, net as u8 + 1);
    }
    encode(BOX, n, w, &pins)
}

/// A box most of whose nets have all their pins on one side: so many tenths of each side's places are theirs, and nets of any
/// sides have the rest.
pub fn side_nets(r: &mut Numbers) -> Vec<u8> {
    let (longest, widest) = (r.pick(&[1, 3, 12, LONGEST_SIDE]), r.pick(&[1, 3, 12, LONGEST_SIDE]));
    let (n, w, tenths) = (1 + r.below(longest), 1 + r.below(widest), 5 + r.below(6));
    let mut names = names(r, LARGEST_NET as usize);
    let pairs = r.below(2) == 0;
    let mut rest = Vec::new();
    let mut pins = Places::new();
    for side in [NORTH, SOUTH, WEST, EAST] {
        let mut free: Vec<_> = (1..=places(side, n, w)).map(|i| (side, i)).collect();
        r.shuffle(&mut free);
        rest.extend(free.split_off((free.len() * tenths).div_ceil(10)));
        pins.extend(share_out(r, &mut free, &mut names, pairs));
        rest.append(&mut free);
    }
    r.shuffle(&mut rest);
    pins.extend(share_out(r, &mut rest, &mut names, pairs));
    encode(BOX, n, w, &pins)
}

/// A box in which few nets have all places of most sides, one of them the most places of a side; nets of two pins have the rest, or
/// nothing.
pub fn few_nets(r: &mut Numbers) -> Vec<u8> {
    let (longest, widest) = (r.pick(&[1, 3, 12, LONGEST_SIDE]), r.pick(&[1, 3, 12, LONGEST_SIDE]));
    let (n, w) = (1 + r.below(longest), 1 + r.below(widest));
    let mut names = names(r, LARGEST_NET as usize);
    let few = names.split_off(names.len() - 1 - r.below(6));
    let mut rest = Vec::new();
    let mut pins = Places::new();
    for side in [NORTH, SOUTH, WEST, EAST] {
        let mut free: Vec<_> = (1..=places(side, n, w)).map(|i| (side, i)).collect();
        r.shuffle(&mut free);
        let tenths = r.pick(&[4, 9, 10, 10, 10]);
        rest.extend(free.split_off((free.len() * tenths).div_ceil(10)));
        let most = r.pick(&few);
        pins.extend(free.into_iter().map(|place| (place, if r.below(10) > 0 { most } else { r.pick(&few) })));
    }
    for net in few {
        if pins.values().filter(|m| **m == net).count() == 1 {
            pins.retain(|_, m| *m != net);
        }
    }
    if r.below(3) > 0 {
        r.shuffle(&mut rest);
        pins.extend(share_out(r, &mut rest, &mut names, true));
    }
    encode(BOX, n, w, &pins)
}

/// The tickets of the documents, by name; the last is request 6's.
pub const DOCUMENT: [(&str, &[u8]); 15] = [
    ("R1", &[1, 6, 1, 1, 0x3f, 1, 2, 1, 3, 2, 3]),
    ("R2", &[1, 6, 2, 1, 0x3f, 1, 2, 1, 3, 2, 3]),
    ("R3", &[1, 6, 1, 0]),
    ("C1", &[2, 2, 1, 3, 3, 1, 2, 3, 2, 1]),
    ("C2", &[2, 3, 1, 3, 3, 1, 1, 6, 2, 2]),
    ("C3", &[2, 1, 1, 3, 1, 1, 1, 1]),
    ("B1", &[3, 1, 1, 5, 1, 1, 1, 1]),
    ("B2", &[3, 2, 2, 3, 3, 1, 2, 3, 2, 1]),
    ("box", &[3, 4, 1, 3, 0x0f, 1, 2, 3, 4, 0x0f, 4, 3, 2, 1]),
    ("T1", &[1, 2, 1, 1, 3, 1]),
    ("T2", &[1, 2, 1, 1, 3, 1, 2]),
    ("T3", &[1, 2, 1, 1, 7, 1, 1]),
    ("T4", &[1, 0x5b, 1, 0]),
    ("T4 passes", &[1, 0x5a, 1, 0]),
    ("west net", &[3, 1, 2, 4, 3, 1, 1]),
];

/// t with a byte changed, cut short, longer, or with two bytes exchanged.
pub fn damaged(r: &mut Numbers, t: &[u8]) -> Vec<u8> {
    let mut t = t.to_vec();
    match r.below(5) {
        0 => {
            let at = r.below(t.len());
            t[at] = r.below(256) as u8;
        }
        1 => {
            let size = r.below(t.len() + 1);
            t.truncate(size);
        }
        2 => t.push(r.below(256) as u8),
        3 if t.len() > 4 => {
            let at = 4 + r.below(t.len() - 4);
            t[at] = r.pick(&[0, LARGEST_NET, LARGEST_NET + 1, 255]);
        }
        _ => {
            let (i, j) = (r.below(t.len()), r.below(t.len()));
            t.swap(i, j);
        }
    }
    t
}
