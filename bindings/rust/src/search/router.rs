//! Negotiated congestion, after McMurchie and Ebeling's PathFinder: nets may hold points of each other at first, and those that do are
//! ripped up and routed again, round by round, while points that several nets want become dearer.

use super::grid::{Grid, Net, Point};
use super::random::Random;
use super::tree::{Prices, Trees};

/// How the price of a point rises, which is (1 + history) × (1 + present × other nets there).
#[derive(Clone, Copy)]
struct Schedule {
    present: f32,
    /// What a round multiplies the present factor by, and the most that it grows to.
    growth: f32,
    most: f32,
    /// What a round adds to the history of a point that several nets hold.
    history: f32,
    noise: f32,
    /// After so many rounds in turn that leave no fewer nets in conflict than before them it is given up.
    patience: usize,
}

/// Finds wirings of large full boxes.
const SLOW: Schedule = Schedule { present: 0.15, growth: 1.02, most: 1.0, history: 0.1, noise: 0.0, patience: 30 };
/// Finds wirings of small boxes where the slow one stalls.
const FAST: Schedule = Schedule { present: 0.5, growth: 1.15, most: 50.0, history: 0.5, noise: 0.05, patience: 100 };
/// Tried in turn, over and over. docs/DECISIONS.md has the trials.
const SCHEDULES: [Schedule; 8] = [SLOW, SLOW, SLOW, SLOW, SLOW, SLOW, SLOW, FAST];

/// Why the rounds of a schedule ended.
enum End {
    NoConflict,
    Stalled,
    /// The budget is spent, or some net has no way at all.
    GivenUp,
}

pub struct Router<'a> {
    grid: &'a Grid,
    nets: &'a [Net],
    /// The points of each net.
    trees: Vec<Vec<Point>>,
    /// How many nets hold a point.
    holders: Vec<u16>,
    /// 1 + history.
    base: Vec<f32>,
    prices: Vec<f32>,
    present: f32,
    random: Random,
    growing: Trees,
    budget: u32,
    routed: u32,
}

impl<'a> Router<'a> {
    pub fn new(grid: &'a Grid, nets: &'a [Net], budget: u32, seed: u64) -> Self {
        let size = grid.size();
        Router {
            grid,
            nets,
            trees: vec![Vec::new(); nets.len()],
            holders: vec![0; size],
            base: vec![f32::INFINITY; size],
            prices: vec![f32::INFINITY; size],
            present: 0.0,
            random: Random::new(seed),
            growing: Trees::new(grid),
            budget,
            routed: 0,
        }
    }

    /// How many nets were routed, each time that one was.
    pub fn routed(&self) -> u32 {
        self.routed
    }

    /// Whether it ended with no point held by two nets. After each round the report gets the nets in conflict and the nets routed.
    pub fn run(&mut self, report: &mut dyn FnMut(usize, u32)) -> bool {
        loop {
            for schedule in SCHEDULES {
                match self.negotiate(schedule, report) {
                    End::NoConflict => return true,
                    End::Stalled => {}
                    End::GivenUp => return false,
                }
            }
        }
    }

    /// The wiring's buffer.
    pub fn points(&self) -> Vec<u8> {
        let mut held = vec![0; self.grid.size()];
        for (net, tree) in self.nets.iter().zip(&self.trees) {
            tree.iter().for_each(|p| held[*p as usize] = net.number);
        }
        self.grid.points().map(|(i, j, l)| held[self.grid.at(i, j, l)]).collect()
    }

    /// Forgets the history and routes all nets again, then those in conflict, round by round.
    fn negotiate(&mut self, schedule: Schedule, report: &mut dyn FnMut(usize, u32)) -> End {
        for (i, j, l) in self.grid.points() {
            self.base[self.grid.at(i, j, l)] = 1.0;
        }
        self.present = schedule.present;
        let mut turn: Vec<usize> = (0..self.nets.len()).collect();
        let (mut fewest, mut idle) = (usize::MAX, 0);
        loop {
            if !self.round(&mut turn, schedule.noise) {
                return End::GivenUp;
            }
            turn = (0..self.nets.len()).filter(|m| self.is_in_conflict(*m)).collect();
            report(turn.len(), self.routed);
            if turn.is_empty() {
                return End::NoConflict;
            }
            idle = if turn.len() < fewest { 0 } else { idle + 1 };
            if idle == schedule.patience {
                return End::Stalled;
            }
            fewest = fewest.min(turn.len());
            self.remember(&turn, schedule.history);
            self.present = (self.present * schedule.growth).min(schedule.most);
        }
    }

    /// Routes the nets in any order; whether it could.
    fn round(&mut self, turn: &mut [usize], noise: f32) -> bool {
        (0..self.prices.len()).for_each(|p| self.set_price(p));
        self.random.shuffle(turn);
        turn.iter().all(|m| self.route(*m, noise))
    }

    fn is_in_conflict(&self, m: usize) -> bool {
        self.trees[m].iter().any(|p| self.holders[*p as usize] > 1)
    }

    fn set_price(&mut self, point: usize) {
        self.prices[point] = self.base[point] * (1.0 + self.present * self.holders[point] as f32);
    }

    /// Rips up a net's tree and grows another, unless the budget is spent or there is no way.
    fn route(&mut self, m: usize, noise: f32) -> bool {
        if self.routed == self.budget {
            return false;
        }
        self.routed += 1;
        for p in std::mem::take(&mut self.trees[m]) {
            self.holders[p as usize] -= 1;
            self.set_price(p as usize);
        }
        let mut prices = Prices { of: &self.prices, noise, random: &mut self.random };
        let Some(tree) = self.growing.grow(&self.nets[m], &mut prices) else { return false };
        for p in &tree {
            self.holders[*p as usize] += 1;
            self.set_price(*p as usize);
        }
        self.trees[m] = tree;
        true
    }

    /// The points that several nets hold are dearer from now on.
    fn remember(&mut self, turn: &[usize], history: f32) {
        let mut shared: Vec<Point> = turn.iter().flat_map(|m| &self.trees[*m]).copied().collect();
        shared.retain(|p| self.holders[*p as usize] > 1);
        shared.sort_unstable();
        shared.dedup();
        shared.into_iter().for_each(|p| self.base[p as usize] += history);
    }
}
