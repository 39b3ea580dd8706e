//! A net's tree: A* from all that the tree has to the nearest pin that it does not join yet, over and over.

use super::grid::{Grid, Net, PinPoints, Point};
use super::random::Random;
use std::cmp::Reverse;
use std::collections::BinaryHeap;

/// What it costs to hold each point, in the margin infinitely much; noise makes a point dearer by up to this part of its price.
pub struct Prices<'a> {
    pub of: &'a [f32],
    pub noise: f32,
    pub random: &'a mut Random,
}

/// How a point was reached: while which tree grew, at what cost from the tree, and from which point; a point of the tree, and one that
/// was reached from a pin, from itself.
#[derive(Clone, Copy, Default)]
struct Reached {
    tree: u32,
    cost: f32,
    from: Point,
}

#[derive(Clone, Copy, Default)]
struct Site {
    column: u8,
    track: u8,
    horizontal: bool,
}

/// The columns and tracks between which the pins are that a tree is to reach.
#[derive(Clone, Copy)]
struct Area {
    columns: (u8, u8),
    tracks: (u8, u8),
}

impl Area {
    fn of<'a>(pins: impl Iterator<Item = &'a PinPoints>) -> Self {
        let grown = |(low, high): (u8, u8), at: usize| (low.min(at as u8), high.max(at as u8));
        let none = Area { columns: (u8::MAX, 0), tracks: (u8::MAX, 0) };
        pins.fold(none, |area, pin| Area { columns: grown(area.columns, pin.column), tracks: grown(area.tracks, pin.track) })
    }

    /// The fewest steps to it: a cost that no way to one of the pins is below, since every point's price is 1 or more.
    fn steps_from(&self, site: Site) -> f32 {
        let outside = |at: u8, (low, high): (u8, u8)| low.saturating_sub(at) as f32 + at.saturating_sub(high) as f32;
        outside(site.column, self.columns) + outside(site.track, self.tracks)
    }
}

pub struct Trees {
    to_next_track: usize,
    to_next_layer: usize,
    sites: Vec<Site>,
    reached: Vec<Reached>,
    /// The tree that is to reach a pin beside the point.
    wanted: Vec<u32>,
    /// Which tree grows, counted from 1.
    tree: u32,
    area: Area,
    /// By the cost so far and the steps to the area.
    queue: BinaryHeap<Reverse<u64>>,
}

impl Trees {
    pub fn new(grid: &Grid) -> Self {
        let size = grid.size();
        let mut sites = vec![Site::default(); size];
        for (i, j, l) in grid.points() {
            sites[grid.at(i, j, l)] = Site { column: i as u8, track: j as u8, horizontal: grid.is_horizontal(l) };
        }
        Trees {
            to_next_track: grid.to_next_track(),
            to_next_layer: grid.to_next_layer(),
            sites,
            reached: vec![Reached::default(); size],
            wanted: vec![0; size],
            tree: 0,
            area: Area::of([].iter()),
            queue: BinaryHeap::new(),
        }
    }

    /// The points of a tree that joins the net's pins, none where they cannot be joined even through other nets. At most u32::MAX
    /// trees are grown.
    pub fn grow(&mut self, net: &Net, prices: &mut Prices) -> Option<Vec<Point>> {
        let start = prices.random.below(net.pins.len());
        let mut left: Vec<&PinPoints> = net.pins.iter().collect();
        let start = left.swap_remove(start);
        self.tree += 1;
        self.area = Area::of(left.iter().copied());
        self.queue.clear();
        left.iter().flat_map(|pin| &pin.points).for_each(|p| self.wanted[*p as usize] = self.tree);
        self.leave(start, prices);
        let mut points = Vec::new();
        while !left.is_empty() {
            let end = self.nearest_wanted(prices)?;
            self.add_way(end, &mut points);
            let (joined, rest): (Vec<&PinPoints>, Vec<&PinPoints>) = left.into_iter().partition(|pin| pin.points.contains(&end));
            left = rest;
            joined.iter().flat_map(|pin| &pin.points).for_each(|p| self.wanted[*p as usize] = 0);
            joined.into_iter().for_each(|pin| self.leave(pin, prices));
        }
        Some(points)
    }

    /// A pin that the tree joins reaches all layers of its direction for nothing.
    fn leave(&mut self, pin: &PinPoints, prices: &mut Prices) {
        pin.points.iter().for_each(|p| self.reach(*p as usize, 0.0, *p, prices));
    }

    /// A positive cost orders like the bits that stand for it, and here before the point.
    fn enqueue(&mut self, point: usize, cost: f32) {
        let bound = cost + self.area.steps_from(self.sites[point]);
        self.queue.push(Reverse((bound.to_bits() as u64) << 32 | point as u64));
    }

    #[inline(always)]
    fn reach(&mut self, point: usize, cost: f32, from: Point, prices: &mut Prices) {
        let mut price = prices.of[point];
        if prices.noise > 0.0 {
            price *= 1.0 + prices.noise * prices.random.part();
        }
        let cost = cost + price;
        let before = self.reached[point];
        let best = if before.tree == self.tree { before.cost } else { f32::INFINITY };
        if cost < best {
            self.reached[point] = Reached { tree: self.tree, cost, from };
            self.enqueue(point, cost);
        }
    }

    /// The wanted point that is cheapest to reach.
    fn nearest_wanted(&mut self, prices: &mut Prices) -> Option<Point> {
        while let Some(Reverse(top)) = self.queue.pop() {
            let point = top as u32 as usize;
            let (cost, site) = (self.reached[point].cost, self.sites[point]);
            let is_outdated = (cost + self.area.steps_from(site)).to_bits() != (top >> 32) as u32;
            if is_outdated {
                continue;
            }
            if self.wanted[point] == self.tree {
                return Some(point as Point);
            }
            let along = if site.horizontal { 1 } else { self.to_next_track };
            for next in [point - along, point + along, point - self.to_next_layer, point + self.to_next_layer] {
                self.reach(next, cost, point as Point, prices);
            }
        }
        None
    }

    /// The way on which the end was reached belongs to the tree, which goes on from there at no cost.
    fn add_way(&mut self, end: Point, points: &mut Vec<Point>) {
        let mut point = end;
        loop {
            let Reached { cost, from, .. } = self.reached[point as usize];
            if cost == 0.0 {
                return;
            }
            points.push(point);
            self.reached[point as usize] = Reached { tree: self.tree, cost: 0.0, from: point };
            self.enqueue(point as usize, 0.0);
            if from == point {
                return;
            }
            point = from;
        }
    }
}
