//! A legal wiring with its pins and its nets' names, as a picture and as files of other tools.

mod def;
mod gds;
mod picture;
mod svg;

use crate::pins::{pins, Pin, Side};
use crate::squeeze::counted;
use crate::{edge_floor, lay, read, survey, EdgeFloor, Kind, Refusal, Survey, Ticket, Wiring};
use std::collections::BTreeSet;
use std::ops::RangeInclusive;

/// A legal wiring of a ticket. As a file it has point (i, j) at (i, j) µm, and the pins one step outside.
pub struct Layout<'a> {
    ticket: &'a Ticket,
    figures: Survey,
    floors: EdgeFloor,
    /// Of a row or a channel.
    trunk_layers: usize,
    wiring: Wiring,
    pins: Vec<Pin>,
    /// Whether `lay` made it.
    is_laid: bool,
}

/// Column and track, counted from 1; a pin's are one step outside the grid.
type Point = (usize, usize);

/// A stretch of one net on a line of a layer, as long as it is.
struct Run {
    net: u8,
    /// Counted from 0.
    line: usize,
    points: Vec<Point>,
}

/// A run that reaches the pins at its ends which have its net.
struct Bar {
    net: u8,
    from: Point,
    to: Point,
}

impl<'a> Layout<'a> {
    /// The wiring that is laid.
    pub fn laid(ticket: &'a Ticket) -> Result<Self, Refusal> {
        Layout::new(ticket, Wiring::from(lay(ticket.bytes())?), true)
    }

    /// A wiring that `check` accepts.
    pub fn of(ticket: &'a Ticket, wiring: Wiring) -> Result<Self, Refusal> {
        wiring.check(ticket.bytes())?;
        Layout::new(ticket, wiring, false)
    }

    fn new(ticket: &'a Ticket, wiring: Wiring, is_laid: bool) -> Result<Self, Refusal> {
        let bytes = ticket.bytes();
        let (figures, floors, trunk_layers) = (survey(bytes)?, edge_floor(bytes)?, read(bytes)?.byte2);
        Ok(Layout { ticket, figures, floors, trunk_layers, wiring, pins: pins(bytes)?, is_laid })
    }

    /// A picture, each layer a panel, track 1 at the bottom, with the pins that the layer reaches.
    pub fn svg(&self) -> String {
        picture::picture(self)
    }

    /// GDSII: metal l is layer l/0, a via between l and l + 1 is on l/1, pins are on 256/0 and their nets' names on 256/10. A pin
    /// joins all metals that it overlaps.
    pub fn gds(&self) -> Vec<u8> {
        gds::library(self)
    }

    /// DEF 5.8, over the layers of `lef`.
    pub fn def(&self) -> String {
        def::design(self)
    }

    /// LEF 5.8 of the layers that `def` names.
    pub fn lef(&self) -> String {
        def::technology(self)
    }

    /// Its sizes, and what no legal wiring of the ticket beats; of a two-layer channel nothing is known so.
    pub fn summary(&self) -> String {
        let sizes = format!("{}, {}", counted(self.wiring.w, "track"), counted(self.wiring.k, "layer"));
        match self.figures.kind {
            Kind::Row | Kind::Channel | Kind::Box => format!("{sizes}; {}", self.bound()),
            Kind::TwoLayer => sizes,
        }
    }

    /// What no legal wiring of the ticket beats, or of a two-layer channel what Lay promises.
    fn bound(&self) -> String {
        let s = &self.figures;
        match s.kind {
            Kind::Box => {
                let EdgeFloor { floor, edge_floor } = self.floors;
                let name = if edge_floor > floor { "edge floor" } else { "floor" };
                format!("{name} {edge_floor}: every legal wiring of this box has at least so many layers")
            }
            Kind::Row | Kind::Channel => {
                let layers = counted(self.trunk_layers, "horizontal layer");
                format!("no legal wiring with at most {layers} has fewer than {}", counted(s.w, "track"))
            }
            Kind::TwoLayer => "two layers: at most 7 tracks for every 4 columns, and others may have fewer".to_string(),
        }
    }

    /// What a file of another tool calls it: the kind, without the hyphen, which the names of GDSII have not.
    fn name(&self) -> String {
        self.figures.kind.name().replace('-', "_")
    }

    /// The nets, by their numbers.
    fn nets(&self) -> BTreeSet<u8> {
        self.pins.iter().map(|pin| pin.net).collect()
    }

    fn layers(&self) -> RangeInclusive<usize> {
        1..=self.wiring.k
    }

    fn is_horizontal(&self, l: usize) -> bool {
        (l % 2 == 1) == self.wiring.first
    }

    /// The net or 0 at a point of a layer; 0 before the first layer and after the last.
    fn net(&self, (i, j): Point, l: usize) -> u8 {
        let &Wiring { n, w, k, .. } = &self.wiring;
        if (1..=k).contains(&l) {
            return self.wiring.points[((l - 1) * w + (j - 1)) * n + i - 1];
        }
        0
    }

    /// A layer's lines, its tracks or columns.
    fn lines(&self, l: usize) -> Vec<Vec<Point>> {
        let (n, w) = (self.wiring.n, self.wiring.w);
        if self.is_horizontal(l) {
            return (1..=w).map(|j| (1..=n).map(|i| (i, j)).collect()).collect();
        }
        (1..=n).map(|i| (1..=w).map(|j| (i, j)).collect()).collect()
    }

    fn runs(&self, l: usize) -> Vec<Run> {
        let mut runs = Vec::new();
        for (index, line) in self.lines(l).iter().enumerate() {
            let alike = line.chunk_by(|a, b| self.net(*a, l) == self.net(*b, l));
            runs.extend(alike.map(|points| Run { net: self.net(points[0], l), line: index, points: points.to_vec() }));
        }
        runs.retain(|run| run.net != 0);
        runs
    }

    /// The points of a layer that a via joins to the next one.
    fn vias(&self, l: usize) -> Vec<Point> {
        let joined = |run: &Run, p: &Point| self.net(*p, l + 1) == run.net;
        self.runs(l).iter().flat_map(|run| run.points.iter().copied().filter(|p| joined(run, p))).collect()
    }

    /// The bars of a layer's metal.
    fn bars(&self, l: usize) -> Vec<Bar> {
        let (near, far) = if self.is_horizontal(l) { (Side::West, Side::East) } else { (Side::South, Side::North) };
        let bar = |run: &Run| {
            let end = |p: Point, side: Side| self.pin_beside(p, side, run.net).unwrap_or(p);
            let (from, to) = (run.points[0], run.points[run.points.len() - 1]);
            Bar { net: run.net, from: end(from, near), to: end(to, far) }
        };
        self.runs(l).iter().map(bar).collect()
    }

    /// Where the net's pin on this side stands, if there is one beside the point.
    fn pin_beside(&self, p: Point, side: Side, net: u8) -> Option<Point> {
        let &Wiring { n, w, .. } = &self.wiring;
        let pin = self.pins.iter().find(|pin| pin.side == side && pin.net == net && side.beside(pin.place, n, w) == p)?;
        Some(self.outside(pin))
    }

    /// Where a pin stands.
    fn outside(&self, pin: &Pin) -> Point {
        pin.side.outside(pin.place, self.wiring.n, self.wiring.w)
    }

    /// The layers that reach a pin.
    fn reaching(&self, pin: &Pin) -> impl Iterator<Item = usize> + '_ {
        let is_at_tracks = pin.side.is_at_tracks();
        self.layers().filter(move |l| self.is_horizontal(*l) == is_at_tracks)
    }
}

/// In nanometres, of the files of other tools.
const STEP: i32 = 1000;
const HALF_METAL: i32 = 250;
const HALF_VIA: i32 = 150;

/// West, south, east and north end.
type Rectangle = [i32; 4];

/// The rectangle that reaches this far beyond the points from one to another.
fn around((i, j): Point, (to_i, to_j): Point, half: i32) -> Rectangle {
    let at = |c: usize| c as i32 * STEP;
    [at(i) - half, at(j) - half, at(to_i) + half, at(to_j) + half]
}
