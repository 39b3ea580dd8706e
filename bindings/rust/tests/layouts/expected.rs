//! What a wiring and the pins of its ticket say of the files, by the words of the demand: lines and places, as rectangles without
//! an area. Point (i, j) is at (i, j) steps.

use crate::shapes::{Label, Place, Rectangle, CUT, DRAWN, PINS, STEP, TEXT};
use pozqaben::{Ticket, Wiring};
use slow::{no_side, EAST, NORTH, SOUTH, WEST};
use std::collections::{BTreeMap, BTreeSet};

/// Column and track, counted from 1; a pin's are one step outside the grid.
type Point = (usize, usize);

pub struct Expected<'a> {
    pub ticket: &'a Ticket,
    pub wiring: &'a Wiring,
    pub pins: Vec<slow::Pin>,
    /// By where they stand.
    nets_of_pins: BTreeMap<Point, u8>,
}

/// A line or a place of a net.
pub type OfNet = (u8, Rectangle);

impl<'a> Expected<'a> {
    pub fn of(ticket: &'a Ticket, wiring: &'a Wiring) -> Self {
        let pins = slow::read::read(ticket.bytes()).expect("a good ticket").pins;
        let nets_of_pins = pins.iter().map(|pin| (outside(pin, wiring), pin.net)).collect();
        Expected { ticket, wiring, pins, nets_of_pins }
    }

    pub fn nets(&self) -> BTreeSet<u8> {
        self.pins.iter().map(|pin| pin.net).collect()
    }

    pub fn is_horizontal(&self, layer: usize) -> bool {
        self.wiring.first == (layer % 2 == 1)
    }

    pub fn layers(&self) -> std::ops::RangeInclusive<usize> {
        1..=self.wiring.k
    }

    pub fn points(&self) -> impl Iterator<Item = Point> + '_ {
        (1..=self.wiring.w).flat_map(|j| (1..=self.wiring.n).map(move |i| (i, j)))
    }

    fn is_in_grid(&self, (i, j): Point) -> bool {
        (1..=self.wiring.n).contains(&i) && (1..=self.wiring.w).contains(&j)
    }

    /// The net or 0 at a point of a layer; outside the grid the pin's there.
    fn net(&self, layer: usize, (i, j): Point) -> u8 {
        if !self.is_in_grid((i, j)) {
            return self.nets_of_pins.get(&(i, j)).copied().unwrap_or(0);
        }
        self.wiring.points[((layer - 1) * self.wiring.w + (j - 1)) * self.wiring.n + i - 1]
    }

    /// The points of each line of a layer, with those beside its ends.
    fn lines(&self, layer: usize) -> Vec<Vec<Point>> {
        let Wiring { n, w, .. } = *self.wiring;
        if self.is_horizontal(layer) {
            (1..=w).map(|j| (0..=n + 1).map(|i| (i, j)).collect()).collect()
        } else {
            (1..=n).map(|i| (0..=w + 1).map(|j| (i, j)).collect()).collect()
        }
    }

    /// One for each run of a net in a layer's direction, with the pin of that net beside its end.
    pub fn bars(&self) -> Vec<OfNet> {
        let mut bars = Vec::new();
        for layer in self.layers() {
            for line in self.lines(layer) {
                for run in line.chunk_by(|a, b| self.net(layer, *a) == self.net(layer, *b)) {
                    let net = self.net(layer, run[0]);
                    if net != 0 && run.iter().any(|point| self.is_in_grid(*point)) {
                        bars.push((net, Rectangle::between(layer as u16, DRAWN, place(run[0]), place(run[run.len() - 1]))));
                    }
                }
            }
        }
        bars
    }

    /// One wherever a layer and the next one have the same net.
    pub fn vias(&self) -> Vec<OfNet> {
        let mut vias = Vec::new();
        for layer in 1..self.wiring.k {
            let joined = self.points().filter(|point| self.net(layer, *point) == self.net(layer + 1, *point));
            let cut = |point: Point| (self.net(layer, point), Rectangle::between(layer as u16, CUT, place(point), place(point)));
            vias.extend(joined.map(cut).filter(|(net, _)| *net != 0));
        }
        vias
    }

    pub fn place_of(&self, pin: &slow::Pin) -> Place {
        place(outside(pin, self.wiring))
    }

    /// Of pins, as a file draws them.
    pub fn drawn_pins(&self) -> Vec<Rectangle> {
        let places = self.pins.iter().map(|pin| self.place_of(pin));
        places.map(|place| Rectangle::between(PINS, DRAWN, place, place)).collect()
    }

    pub fn labels(&self) -> Vec<Label> {
        let label = |pin: &slow::Pin| Label { layer: PINS, purpose: TEXT, place: self.place_of(pin), text: self.ticket.name(pin.net) };
        self.pins.iter().map(label).collect()
    }

    /// The layers whose direction reaches the pin.
    pub fn layers_at(&self, pin: &slow::Pin) -> Vec<u16> {
        let at_track = [WEST, EAST].contains(&pin.side);
        self.layers().filter(|layer| self.is_horizontal(*layer) == at_track).map(|layer| layer as u16).collect()
    }
}

/// Where a pin stands.
fn outside(pin: &slow::Pin, wiring: &Wiring) -> Point {
    match pin.side {
        NORTH => (pin.place, wiring.w + 1),
        SOUTH => (pin.place, 0),
        WEST => (0, pin.place),
        EAST => (wiring.n + 1, pin.place),
        other => no_side(other),
    }
}

pub fn place((i, j): Point) -> Place {
    (i as i32 * STEP, j as i32 * STEP)
}
