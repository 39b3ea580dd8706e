//! The raw calls on slices, arrays and buffers that show what a call altered, and the tickets that the tests share.
#![allow(dead_code)]

use pozqaben::raw;
use slow::judge::Grid;
use slow::survey::figures;
use slow::tickets::{damaged, encode, of_shape, random, rings, slots, solid, Numbers, Places, DOCUMENT};
use slow::{Ticket, BOX, CHANNEL, LARGEST_NET, LONGEST_SIDE, LONGEST_TICKET, MOST_TRUNK_LAYERS, ROW, TWO_LAYER};

pub fn read(ticket: &[u8], answer: &mut [u64]) -> bool {
    unsafe { raw::pozqaben_read(ticket.as_ptr(), ticket.len(), answer.as_mut_ptr(), answer.len()) }
}

pub fn survey(ticket: &[u8], answer: &mut [u64]) -> bool {
    unsafe { raw::pozqaben_survey(ticket.as_ptr(), ticket.len(), answer.as_mut_ptr(), answer.len()) }
}

pub fn edge_floor(ticket: &[u8], answer: &mut [u64]) -> bool {
    unsafe { raw::pozqaben_edge_floor(ticket.as_ptr(), ticket.len(), answer.as_mut_ptr(), answer.len()) }
}

pub fn lay(ticket: &[u8], wiring: &mut [u8], answer: &mut [u64]) -> bool {
    unsafe { raw::pozqaben_lay(ticket.as_ptr(), ticket.len(), wiring.as_mut_ptr(), wiring.len(), answer.as_mut_ptr(), answer.len()) }
}

pub fn check(ticket: &[u8], w: usize, k: usize, first: bool, wiring: &[u8], scratch: &mut [u8], answer: &mut [u64]) -> bool {
    let (t, x, s) = (ticket.as_ptr(), wiring.as_ptr(), scratch.as_mut_ptr());
    unsafe { raw::pozqaben_check(t, ticket.len(), w, k, first, x, wiring.len(), s, scratch.len(), answer.as_mut_ptr(), answer.len()) }
}

pub fn layer_view(wiring: &[u8], n: usize, w: usize, k: usize, layer: usize, answer: &mut [u64]) -> bool {
    unsafe { raw::pozqaben_layer_view(wiring.as_ptr(), wiring.len(), n, w, k, layer, answer.as_mut_ptr(), answer.len()) }
}

pub fn hardest_box(n: usize, w: usize, ticket: &mut [u8], answer: &mut [u64]) -> bool {
    unsafe { raw::pozqaben_hardest_box(n, w, ticket.as_mut_ptr(), ticket.len(), answer.as_mut_ptr(), answer.len()) }
}

pub fn flatten(ticket: &[u8], flat: &mut [u8], answer: &mut [u64]) -> bool {
    unsafe { raw::pozqaben_flatten(ticket.as_ptr(), ticket.len(), flat.as_mut_ptr(), flat.len(), answer.as_mut_ptr(), answer.len()) }
}

pub fn unflatten(flat: &[u8], ticket: &mut [u8], answer: &mut [u64]) -> bool {
    unsafe { raw::pozqaben_unflatten(flat.as_ptr(), flat.len(), ticket.as_mut_ptr(), ticket.len(), answer.as_mut_ptr(), answer.len()) }
}

/// No entry of an answer is so large.
pub const MARK: u64 = 0xa5a5_a5a5_a5a5_a5a5;

/// What a call writes into an array that has two entries more than it needs; those stay as they were.
pub fn answered<const N: usize>(call: impl FnOnce(&mut [u64]) -> bool) -> [u64; N] {
    let mut array = vec![MARK; N + 2];
    assert!(call(&mut array), "an array that is long enough");
    assert_eq!(array[N..], [MARK; 2], "entries past the answer");
    array[..N].try_into().unwrap()
}

/// Lay's answer to a ticket that it lays on this grid, with the figures of the independent survey.
pub fn laid_answer(t: &Ticket, g: Grid) -> [u64; 11] {
    let f = figures(t);
    [0, 0, t.kind as usize, t.n, g.w, g.k, g.first as usize, f.nets, f.across, f.up, f.floor].map(|x| x as u64)
}

/// A buffer that stands between bytes that nothing may alter, filled with a pattern.
pub struct Lent {
    bytes: Vec<u8>,
    salt: u8,
}

const MARGIN: usize = 32;

impl Lent {
    pub fn new(size: usize, salt: u8) -> Self {
        let bytes = (0..size + 2 * MARGIN).map(|at| pattern(at, salt)).collect();
        Lent { bytes, salt }
    }

    pub fn part(&mut self) -> &mut [u8] {
        let end = self.bytes.len() - MARGIN;
        &mut self.bytes[MARGIN..end]
    }

    pub fn has(&self) -> &[u8] {
        &self.bytes[MARGIN..self.bytes.len() - MARGIN]
    }

    /// Every byte is as it was, but for the first `used` of the buffer.
    pub fn kept_past(&self, used: usize) -> bool {
        let same = |at: usize| self.bytes[at] == pattern(at, self.salt);
        (0..MARGIN).all(same) && (MARGIN + used..self.bytes.len()).all(same)
    }
}

fn pattern(at: usize, salt: u8) -> u8 {
    (at as u8).wrapping_mul(37).wrapping_add(salt)
}

/// The bytes as they are, damaged once or twice, or noise.
fn good_or_not(r: &mut Numbers, good: Vec<u8>, noise: fn(&mut Numbers) -> Vec<u8>) -> Vec<u8> {
    match r.below(6) {
        0 | 1 => good,
        2 | 3 => damaged(r, &good),
        4 => {
            let once = damaged(r, &good);
            if once.is_empty() {
                once
            } else {
                damaged(r, &once)
            }
        }
        _ => noise(r),
    }
}

/// Good tickets, damaged ones, and bytes that only begin like a ticket.
pub fn ticket(r: &mut Numbers) -> Vec<u8> {
    let t = random(r);
    good_or_not(r, t, |r| {
        let kind = r.below(TWO_LAYER as usize + 2);
        let (n, byte2, sides) = (r.below(LONGEST_SIDE + 3), r.below(LONGEST_SIDE + 3), r.below(17));
        let mut t = [kind, n, byte2, sides].map(|x| x as u8).to_vec();
        let top = r.pick(&[2, 8, LARGEST_NET as usize + 10, 256]);
        t.extend((0..r.below(40)).map(|_| r.below(top) as u8));
        t
    })
}

/// Good flat tickets, damaged ones, and bytes that only begin like a flat ticket: few places, and about as many numbers.
pub fn flat(r: &mut Numbers) -> Vec<u8> {
    let flat = slow::flat::flatten(&random(r)).expect("a good ticket");
    good_or_not(r, flat, |r| {
        let (kind, n) = (r.below(TWO_LAYER as usize + 2), r.below(5));
        let byte2 = if r.below(2) == 0 { 1 } else { r.below(5) };
        let mut flat = [kind, n, byte2].map(|x| x as u8).to_vec();
        let top = r.pick(&[2, 3, 6, LARGEST_NET as usize + 10, 256]);
        let near = r.pick(&[n, 2 * n, 2 * n + 2 * byte2]) + usize::from(r.below(4) == 0);
        flat.extend((0..near).map(|_| r.below(top) as u8));
        flat
    })
}

/// The largest and the smallest shapes, empty and full, and each header at the edge of its ranges.
pub fn extremes() -> Vec<Vec<u8>> {
    let r = &mut Numbers::new(17);
    let mut out: Vec<Vec<u8>> = DOCUMENT.iter().map(|(_, t)| t.to_vec()).collect();
    let (side, most) = (LONGEST_SIDE, MOST_TRUNK_LAYERS);
    let trunks = [(ROW, 1, 1), (ROW, side, 1), (ROW, side, most), (CHANNEL, 1, most), (CHANNEL, side, 1), (CHANNEL, side, most)];
    let boxes = [(1, 1), (1, side), (side, 1), (side, side), (side - 1, side)].map(|(n, w)| (BOX, n, w));
    let two_layers = [1, 2, side].map(|n| (TWO_LAYER, n, 1));
    for (kind, n, byte2) in trunks.into_iter().chain(boxes).chain(two_layers) {
        out.extend([0, 2, 5, 8, 10].map(|tenths| of_shape(r, kind, n, byte2, tenths)));
    }
    out.extend([rings(side), rings(side - 1), solid(r, 2), solid(r, side)]);
    let full = |net: fn(usize, usize) -> u8| -> Places { slots(BOX, side, side).into_iter().map(|(s, i)| ((s, i), net(s, i))).collect() };
    out.push(encode(BOX, side, side, &full(|s, i| (2 * i - s % 2) as u8)));
    out.push(encode(BOX, side, side, &full(|_, _| LARGEST_NET)));
    out.extend([vec![], vec![0; 1000], vec![255; 1000], vec![BOX; LONGEST_TICKET + 1]]);
    let (side, most) = (side as u8, most as u8);
    for kind in [0, ROW, CHANNEL, BOX, TWO_LAYER, TWO_LAYER + 1, 255] {
        for n in [0, 1, side, side + 1, 255] {
            for byte2 in [0, 1, 2, most, most + 1, side, side + 1, 255] {
                out.extend([0, 1, 3, 15, 16, 255].map(|sides| vec![kind, n, byte2, sides]));
            }
        }
    }
    out
}
