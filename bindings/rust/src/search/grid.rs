//! The points that the search runs over, and the nets' pins with the points beside them.

use crate::pins::Pin;

/// A point's place in the arrays of the search.
pub type Point = u32;

/// The grid of a wiring. In the arrays it has a margin, one point wide, which no net may hold: so every point of the grid has all
/// its neighbours there.
pub struct Grid {
    pub n: usize,
    pub w: usize,
    pub k: usize,
    /// Whether layer 1 is horizontal.
    pub first: bool,
}

impl Grid {
    /// How far the next track is in the arrays; the next column is 1 away.
    pub fn to_next_track(&self) -> usize {
        self.n + 2
    }

    pub fn to_next_layer(&self) -> usize {
        self.to_next_track() * (self.w + 2)
    }

    /// The length of the arrays.
    pub fn size(&self) -> usize {
        self.to_next_layer() * (self.k + 2)
    }

    /// Where column i, track j, layer l is, counted from 1; 0 and one past the last are the margin.
    pub fn at(&self, i: usize, j: usize, l: usize) -> usize {
        l * self.to_next_layer() + j * self.to_next_track() + i
    }

    pub fn is_horizontal(&self, l: usize) -> bool {
        (l % 2 == 1) == self.first
    }

    /// Column, track and layer of every point of the grid, in the order of a wiring's buffer.
    pub fn points(&self) -> impl Iterator<Item = (usize, usize, usize)> + '_ {
        let tracks = |l| (1..=self.w).map(move |j| (j, l));
        (1..=self.k).flat_map(tracks).flat_map(|(j, l)| (1..=self.n).map(move |i| (i, j, l)))
    }
}

/// Beside a pin: column and track, and the points there on the layers of its direction.
pub struct PinPoints {
    pub column: usize,
    pub track: usize,
    pub points: Vec<Point>,
}

pub struct Net {
    pub number: u8,
    pub pins: Vec<PinPoints>,
}

impl Net {
    /// The nets of these pins.
    pub fn all(grid: &Grid, pins: &[Pin]) -> Vec<Net> {
        let mut nets: Vec<Net> = Vec::new();
        for pin in pins {
            let points = PinPoints::of(grid, pin);
            match nets.iter_mut().find(|net| net.number == pin.net) {
                Some(net) => net.pins.push(points),
                None => nets.push(Net { number: pin.net, pins: vec![points] }),
            }
        }
        nets
    }
}

impl PinPoints {
    fn of(grid: &Grid, pin: &Pin) -> PinPoints {
        let (column, track) = pin.side.beside(pin.place, grid.n, grid.w);
        let layers = (1..=grid.k).filter(|l| grid.is_horizontal(*l) == pin.side.is_at_tracks());
        PinPoints { column, track, points: layers.map(|l| grid.at(column, track, l) as Point).collect() }
    }
}
