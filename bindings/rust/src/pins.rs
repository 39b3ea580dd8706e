//! The pins of a ticket, and where they are around the grid.

use crate::{flatten, read, Kind, Refusal};

#[derive(Clone, Copy, Debug, PartialEq, Eq)]
pub enum Side {
    North,
    South,
    West,
    East,
}

impl Side {
    /// In the order of a flat ticket.
    pub const ALL: [Side; 4] = [Side::North, Side::South, Side::West, Side::East];

    /// Its name in files and pictures.
    pub fn name(self) -> &'static str {
        match self {
            Side::North => "north",
            Side::South => "south",
            Side::West => "west",
            Side::East => "east",
        }
    }

    /// Whether it is horizontal layers that reach its pins.
    pub fn is_at_tracks(self) -> bool {
        matches!(self, Side::West | Side::East)
    }

    /// Column and track of the point beside a place, of a grid of n columns and w tracks.
    pub fn beside(self, place: usize, n: usize, w: usize) -> (usize, usize) {
        match self {
            Side::North => (place, w),
            Side::South => (place, 1),
            Side::West => (1, place),
            Side::East => (n, place),
        }
    }

    /// Where a pin at a place stands, one step outside the grid: at 0, or one past the last column or track.
    pub fn outside(self, place: usize, n: usize, w: usize) -> (usize, usize) {
        match self {
            Side::North => (place, w + 1),
            Side::South => (place, 0),
            Side::West => (0, place),
            Side::East => (n + 1, place),
        }
    }
}

#[derive(Clone, Copy, Debug, PartialEq, Eq)]
pub struct Pin {
    pub side: Side,
    /// Counted from 1.
    pub place: usize,
    pub net: u8,
}

/// How many places each side has, in the order of `Side::ALL`; a side that the kind has not has none.
pub fn places(kind: Kind, n: usize, w: usize) -> [usize; 4] {
    match kind {
        Kind::Row => [n, 0, 0, 0],
        Kind::Channel | Kind::TwoLayer => [n, n, 0, 0],
        Kind::Box => [n, n, w, w],
    }
}

/// The pins of a ticket, in the order of a flat one.
pub fn pins(ticket: &[u8]) -> Result<Vec<Pin>, Refusal> {
    let reading = read(ticket)?;
    let flat = flatten(ticket)?;
    let sides = Side::ALL.into_iter().zip(places(reading.kind, reading.n, reading.byte2));
    let all = sides.flat_map(|(side, places)| (1..=places).map(move |place| (side, place)));
    let pins = all.zip(&flat[FLAT_HEADER..]).map(|((side, place), net)| Pin { side, place, net: *net });
    Ok(pins.filter(|pin| pin.net != 0).collect())
}

/// The bytes of a flat ticket before its places: kind, length and byte 2.
pub const FLAT_HEADER: usize = 3;
