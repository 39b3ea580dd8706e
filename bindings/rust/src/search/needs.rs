//! How many layers of each direction the columns and the tracks of a box need, counted as the edge floor counts. No proof speaks of
//! this code: it only saves the search from looking where nothing can be found.

use crate::pins::Pin;
use std::collections::BTreeMap;

/// Of a net's pins: where each is along the grid, 0 for the near side and one past the last for the far side, and its place.
type Along = Vec<(usize, usize)>;

/// How many points a column, or track, needs for a net: one for each place beside it with a pin, and one at least where it must pass
/// the net.
fn need(pins: &Along, last: usize, c: usize) -> usize {
    let is_beside = |at: usize| (at == 0 && c == 1) || (at == last + 1 && c == last);
    let mut beside: Vec<usize> = pins.iter().filter(|(at, _)| is_beside(*at)).map(|(_, place)| *place).collect();
    beside.sort_unstable();
    beside.dedup();
    let along = || pins.iter().map(|(at, _)| *at);
    let (from, to) = (along().min().unwrap_or(0), along().max().unwrap_or(0));
    beside.len().max(usize::from(from < to && (from..=to).contains(&c)))
}

/// The most that one of the columns, or tracks, from 1 to the last needs, over the places that it has on a layer, rounded up.
fn layers(nets: &BTreeMap<u8, Along>, last: usize, places: usize) -> usize {
    let most = (1..=last).map(|c| nets.values().map(|pins| need(pins, last, c)).sum::<usize>()).max();
    most.unwrap_or(0).div_ceil(places)
}

/// The horizontal and the vertical layers that a box of n columns and w tracks needs for these pins.
pub fn needed(n: usize, w: usize, pins: &[Pin]) -> (usize, usize) {
    let (mut by_column, mut by_track) = (BTreeMap::<u8, Along>::new(), BTreeMap::<u8, Along>::new());
    for pin in pins {
        let (column, track) = pin.side.outside(pin.place, n, w);
        by_column.entry(pin.net).or_default().push((column, pin.place));
        by_track.entry(pin.net).or_default().push((track, pin.place));
    }
    (layers(&by_column, n, w), layers(&by_track, w, n))
}
