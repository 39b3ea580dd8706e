//! A slow, independent reading of the scope document and of the requests: it reads and surveys tickets, counts the
//! edge floors of boxes, judges wirings and lays them, writes the hardest box of a shape, turns tickets flat and back, and edits
//! boards.
//!
//! Written from the documents alone; it shares no code with the crates. Refusals are a number and a place.

pub mod board;
pub mod edge;
pub mod edits;
pub mod flat;
pub mod hardest;
pub mod judge;
pub mod lay;
pub mod layers;
pub mod maze;
pub mod read;
pub mod records;
pub mod search;
pub mod survey;
pub mod tickets;
pub mod two_layer;
pub mod wirings;

/// The limits of the documents. The widest grid is a two-layer channel's; Layer view takes it always.
pub const LONGEST_SIDE: usize = 90;
pub const WIDEST_CHANNEL: usize = 90;
pub const WIDEST_GRID: usize = 157;
pub const MOST_LAYERS: usize = 255;
pub const MOST_TRUNK_LAYERS: usize = 8;
pub const LARGEST_NET: u8 = 180;
pub const LONGEST_TICKET: usize = 412;
pub const LONGEST_FLAT: usize = 363;

/// The four sides, in the order of the side map's bits.
pub const NORTH: usize = 0;
pub const SOUTH: usize = 1;
pub const WEST: usize = 2;
pub const EAST: usize = 3;

pub fn no_side(number: usize) -> ! {
    panic!("{number} is no side")
}

/// The kinds of ticket.
pub const ROW: u8 = 1;
pub const CHANNEL: u8 = 2;
pub const BOX: u8 = 3;
pub const TWO_LAYER: u8 = 4;

pub fn no_kind(number: u8) -> ! {
    panic!("{number} is no kind")
}

/// The sides that a ticket of this kind may have, and its largest byte 2; nothing for a number that is no kind.
pub fn rules(kind: u8) -> Option<(&'static [usize], usize)> {
    match kind {
        ROW => Some((&[NORTH], MOST_TRUNK_LAYERS)),
        CHANNEL => Some((&[NORTH, SOUTH], MOST_TRUNK_LAYERS)),
        BOX => Some((&[NORTH, SOUTH, WEST, EAST], LONGEST_SIDE)),
        TWO_LAYER => Some((&[NORTH, SOUTH], 1)),
        _ => None,
    }
}

/// The most tracks of a wiring of this kind that Check takes.
pub fn widest(kind: u8) -> usize {
    match kind {
        ROW | CHANNEL => WIDEST_CHANNEL,
        BOX => LONGEST_SIDE,
        TWO_LAYER => WIDEST_GRID,
        other => no_kind(other),
    }
}

/// How many places a side has, of a grid of n columns and w tracks.
pub fn places(side: usize, n: usize, w: usize) -> usize {
    match side {
        NORTH | SOUTH => n,
        WEST | EAST => w,
        other => no_side(other),
    }
}

/// A refusal: its number and its place.
#[derive(Clone, Copy, Debug, PartialEq, Eq)]
pub struct Refusal(pub u8, pub usize);

/// number, place, length of a call that writes these bytes to the front of the buffer, or 19 where that is too short. A refusal
/// alters no byte.
pub fn written(bytes: Result<Vec<u8>, Refusal>, buffer: &mut [u8]) -> [u64; 3] {
    let outcome = bytes.and_then(|bytes| match buffer.get_mut(..bytes.len()) {
        Some(front) => {
            front.copy_from_slice(&bytes);
            Ok(bytes.len())
        }
        None => Err(Refusal(19, bytes.len())),
    });
    match outcome {
        Err(Refusal(number, place)) => [number as u64, place as u64, 0],
        Ok(length) => [0, 0, length as u64],
    }
}

/// A pin: its side, its place from 1, its net.
#[derive(Clone, Copy, Debug, PartialEq, Eq)]
pub struct Pin {
    pub side: usize,
    pub place: usize,
    pub net: u8,
}

/// What an accepted ticket says.
#[derive(Clone, Debug, PartialEq, Eq)]
pub struct Ticket {
    pub kind: u8,
    pub n: usize,
    pub byte2: usize,
    pub pins: Vec<Pin>,
}

impl Ticket {
    /// The nets, in rising order.
    pub fn nets(&self) -> Vec<u8> {
        let mut nets: Vec<u8> = self.pins.iter().map(|p| p.net).collect();
        nets.sort_unstable();
        nets.dedup();
        nets
    }

    /// The places of a net's pins on a side, in rising order.
    pub fn on(&self, side: usize, net: u8) -> Vec<usize> {
        self.pins.iter().filter(|p| p.side == side && p.net == net).map(|p| p.place).collect()
    }
}
