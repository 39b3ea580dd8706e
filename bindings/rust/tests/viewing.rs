//! Layer view names the layer's own part of the wiring, or refuses, by the documents' words alone.

mod common;

use common::answered;
use slow::tickets::Numbers;
use slow::{LONGEST_SIDE, MOST_LAYERS, WIDEST_CHANNEL, WIDEST_GRID};

fn expected(length: usize, n: usize, w: usize, k: usize, layer: usize) -> [u64; 4] {
    if !(1..=LONGEST_SIDE).contains(&n) || !(1..=WIDEST_GRID).contains(&w) || !(1..=MOST_LAYERS).contains(&k) {
        return [11, 0, 0, 0];
    }
    if length != n * w * k {
        return [12, (n * w * k) as u64, 0, 0];
    }
    if !(1..=k).contains(&layer) {
        return [16, layer as u64, 0, 0];
    }
    [0, 0, ((layer - 1) * w * n) as u64, (n * w) as u64]
}

fn same_view(x: &[u8], n: usize, w: usize, k: usize, layer: usize) {
    let answer = answered(|a| common::layer_view(x, n, w, k, layer, a));
    assert_eq!(answer, expected(x.len(), n, w, k, layer), "{} bytes, {n} {w} {k} {layer}", x.len());
    let [number, place, start, length] = answer.map(|e| e as usize);
    match pozqaben::layer_view(x, n, w, k, layer) {
        Ok(part) => {
            assert_eq!(number, 0);
            assert_eq!(part.as_ptr_range(), x[start..start + length].as_ptr_range(), "the wiring's own bytes");
        }
        Err(refusal) => assert_eq!((refusal.number as usize, refusal.place), (number, place)),
    }
}

#[test]
fn every_layer_of_small_wirings() {
    for (n, w, k) in [(1, 1, 1), (3, 2, 4), (2, 7, 5), (LONGEST_SIDE, 1, 3), (1, WIDEST_GRID, 2)] {
        let x: Vec<u8> = (0..n * w * k).map(|at| at as u8).collect();
        for layer in 0..k + 2 {
            same_view(&x, n, w, k, layer);
            same_view(&x[1..], n, w, k, layer);
        }
    }
}

#[test]
fn largest_wiring() {
    let (n, w, k) = (LONGEST_SIDE, WIDEST_GRID, MOST_LAYERS);
    let x = vec![5; n * w * k];
    for layer in [0, 1, 2, 128, k - 1, k, k + 1, 1 << 32, usize::MAX] {
        same_view(&x, n, w, k, layer);
        same_view(&x[1..], n, w, k, layer);
    }
}

#[test]
fn counts_in_and_out_of_range() {
    let r = &mut Numbers::new(401);
    let layers = 16;
    let x = vec![9; LONGEST_SIDE * WIDEST_GRID * layers];
    let limits = [LONGEST_SIDE, LONGEST_SIDE + 1, WIDEST_CHANNEL + 1, WIDEST_GRID, WIDEST_GRID + 1, MOST_LAYERS, MOST_LAYERS + 1];
    let odd = [&limits[..], &[0, 1, 2, 1 << 16, 1 << 32, 1 << 63, usize::MAX]].concat();
    for _ in 0..20_000 {
        let mut count = |top: usize| if r.below(8) == 0 { r.pick(&odd) } else { 1 + r.below(top) };
        let (n, w, k, layer) = (count(LONGEST_SIDE), count(WIDEST_GRID), count(layers), count(layers + 1));
        let right = n.saturating_mul(w).saturating_mul(k).min(x.len());
        let length = if r.below(6) == 0 { r.below(x.len() + 1) } else { right };
        same_view(&x[..length], n, w, k, layer);
    }
}
