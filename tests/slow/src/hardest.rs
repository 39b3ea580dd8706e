//! The hardest box of a shape: a ticket with as high a floor as any box of that length and width has.

use crate::survey::quotient;
use crate::tickets::{encode, Places};
use crate::{places, written, Refusal, BOX, EAST, LONGEST_SIDE, NORTH, SOUTH, WEST};

/// Every length and width that a box may have.
pub fn shapes() -> impl Iterator<Item = (usize, usize)> {
    (1..=LONGEST_SIDE).flat_map(|n| (1..=LONGEST_SIDE).map(move |w| (n, w)))
}

/// The floor that no box of this shape exceeds.
pub fn highest_floor(n: usize, w: usize) -> usize {
    let q = quotient(n, w);
    (2 * q + 1).max(q + 3)
}

/// A box whose middle column, like its middle track, must pass every net. The documents leave the nets free; these are the
/// ones that the crates choose, so that bytes can be compared.
pub fn ticket(n: usize, w: usize) -> Vec<u8> {
    let mut pins = Places::new();
    let mut net = 0;
    for (side, opposite) in [(NORTH, SOUTH), (WEST, EAST)] {
        // A place goes with the one half a side further on, around past the last: each such pair has the middle between its ends.
        let last = places(side, n, w);
        for (place, far) in (1..=last).zip((1..=last).cycle().skip(last / 2)) {
            net += 1;
            pins.insert((side, place), net);
            pins.insert((opposite, far), net);
        }
    }
    // Of one column, or of one track, a pair has both ends in that line, which need not pass it: two nets turn a corner instead.
    let (south, west) = (pins[&(SOUTH, 1)], pins[&(WEST, 1)]);
    pins.insert((SOUTH, 1), west);
    pins.insert((WEST, 1), south);
    encode(BOX, n, w, &pins)
}

/// The ticket of these sides, if they are a shape's.
fn of_sides(n: usize, w: usize) -> Result<Vec<u8>, Refusal> {
    let sides = 1..=LONGEST_SIDE;
    if !sides.contains(&n) || !sides.contains(&w) {
        return Err(Refusal(18, 0));
    }
    Ok(ticket(n, w))
}

/// number, place, length; the buffer is as the call leaves it.
pub fn answer(n: usize, w: usize, buffer: &mut [u8]) -> [u64; 3] {
    written(of_sides(n, w), buffer)
}
