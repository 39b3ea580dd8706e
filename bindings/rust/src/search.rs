//! A search for a legal wiring of a box on fewer layers than `lay` uses. It is not proved, and nothing rests on it: what it returns
//! the proved `check` has accepted.

mod grid;
mod needs;
mod random;
mod router;
mod tree;

use crate::pins::pins;
use crate::{check, edge_floor, read, survey, Kind, Refusal, Wiring};
use grid::{Grid, Net};
use router::Router;
use std::fmt;

/// What a search may spend, and the seed of its random numbers: the same effort gives the same wiring on every machine.
#[derive(Clone, Copy, Debug, PartialEq, Eq)]
pub struct Effort {
    /// The most nets that it routes; a net counts each time that it is routed.
    pub budget: u32,
    pub seed: u64,
}

impl Default for Effort {
    fn default() -> Self {
        Effort { budget: 20_000, seed: 1 }
    }
}

/// Where a search stands after a round.
#[derive(Clone, Copy, Debug, PartialEq, Eq)]
pub struct Progress {
    pub k: usize,
    pub first: bool,
    /// The nets in conflict: they hold a point that another net holds. None are where a wiring is found.
    pub conflicts: usize,
    /// The nets routed so far.
    pub routed: u32,
}

/// How a search ended.
#[derive(Clone, Debug, PartialEq, Eq)]
pub enum Outcome {
    /// A legal wiring: `check` has accepted it.
    Found { wiring: Wiring, routed: u32 },
    /// The budget is spent, or some net has no way even through the others. Whether there is a legal wiring this does not say.
    NotFound { routed: u32 },
    /// There is none: this is proved of the edge floor.
    BelowFloor { edge_floor: usize },
    /// Not searched for: the box needs so many horizontal and so many vertical layers. This count is not proved.
    TooFew { horizontal: usize, vertical: usize },
    /// A row or a channel: no legal wiring with as many horizontal layers or fewer has fewer tracks than `lay` uses.
    LeastTracks { w: usize },
    /// A two-layer channel: its layers are two, and a wiring on fewer tracks than `lay` uses is not searched for.
    TwoLayer,
}

/// Why a search has no outcome.
#[derive(Clone, Copy, Debug, PartialEq, Eq)]
pub enum SearchError {
    /// What `read` refuses; or 11, a number of layers that `check` does not take.
    Refused(Refusal),
    /// The search is wrong: `check` refused what it took for a wiring.
    Wrong(Refusal),
}

impl From<Refusal> for SearchError {
    fn from(refusal: Refusal) -> Self {
        SearchError::Refused(refusal)
    }
}

impl fmt::Display for SearchError {
    fn fmt(&self, f: &mut fmt::Formatter) -> fmt::Result {
        match self {
            SearchError::Refused(refusal) => refusal.fmt(f),
            SearchError::Wrong(refusal) => write!(f, "an error of the search: check says of what it found: {refusal}"),
        }
    }
}

impl std::error::Error for SearchError {}

/// Looks for a legal wiring of a box on k layers, the first of which is horizontal where `first`.
pub fn search(ticket: &[u8], k: usize, first: bool, effort: Effort) -> Result<Outcome, SearchError> {
    search_with(ticket, k, first, effort, &mut |_| {})
}

/// As `search`, and shows its progress.
pub fn search_with(
    ticket: &[u8],
    k: usize,
    first: bool,
    effort: Effort,
    progress: &mut dyn FnMut(Progress),
) -> Result<Outcome, SearchError> {
    let reading = read(ticket)?;
    match reading.kind {
        Kind::Row | Kind::Channel => return Ok(Outcome::LeastTracks { w: survey(ticket)?.w }),
        Kind::TwoLayer => return Ok(Outcome::TwoLayer),
        Kind::Box => {}
    }
    let grid = Grid { n: reading.n, w: reading.byte2, k, first };
    layers_taken(ticket, &grid)?;
    let edge_floor = edge_floor(ticket)?.edge_floor;
    if k < edge_floor {
        return Ok(Outcome::BelowFloor { edge_floor });
    }
    let pins = pins(ticket)?;
    let (horizontal, vertical) = needs::needed(grid.n, grid.w, &pins);
    let (more, fewer) = (k.div_ceil(2), k / 2);
    let (has_horizontal, has_vertical) = if first { (more, fewer) } else { (fewer, more) };
    if has_horizontal < horizontal || has_vertical < vertical {
        return Ok(Outcome::TooFew { horizontal, vertical });
    }
    on_grid(ticket, &grid, &Net::all(&grid, &pins), effort, progress)
}

/// Whether `check` takes so many layers: no wiring is empty, so that it refuses an empty one for its length if not for k.
fn layers_taken(ticket: &[u8], grid: &Grid) -> Result<(), Refusal> {
    match check(ticket, grid.w, grid.k, grid.first, &[]) {
        Err(Refusal { number: Refusal::WRONG_LENGTH, .. }) => Ok(()),
        other => other,
    }
}

fn on_grid(ticket: &[u8], grid: &Grid, nets: &[Net], effort: Effort, progress: &mut dyn FnMut(Progress)) -> Result<Outcome, SearchError> {
    let mut router = Router::new(grid, nets, effort.budget, effort.seed);
    let &Grid { n, w, k, first } = grid;
    let is_found = router.run(&mut |conflicts, routed| progress(Progress { k, first, conflicts, routed }));
    let routed = router.routed();
    if !is_found {
        return Ok(Outcome::NotFound { routed });
    }
    let wiring = accepted(ticket, Wiring { n, w, k, first, points: router.points() })?;
    Ok(Outcome::Found { wiring, routed })
}

/// The wiring, which `check` has to accept.
pub(crate) fn accepted(ticket: &[u8], wiring: Wiring) -> Result<Wiring, SearchError> {
    match wiring.check(ticket) {
        Ok(()) => Ok(wiring),
        Err(refusal) => Err(SearchError::Wrong(refusal)),
    }
}

#[cfg(test)]
mod tests {
    use super::*;

    /// No search is known to go wrong, so that what it would return is made here: a box with net 1 at north and west.
    #[test]
    fn what_check_refuses_is_no_wiring() {
        let ticket = [3, 1, 1, 5, 1, 1, 1, 1];
        let with = |points: [u8; 2]| Wiring { n: 1, w: 1, k: 2, first: false, points: points.to_vec() };
        assert_eq!(accepted(&ticket, with([1, 1])), Ok(with([1, 1])));
        for (points, number, place) in [([1, 0], 15, 1), ([1, 2], 14, 1)] {
            let error = SearchError::Wrong(Refusal { number, place });
            assert_eq!(accepted(&ticket, with(points)), Err(error));
            assert!(error.to_string().starts_with("an error of the search: check says of what it found: refused "), "{error}");
        }
    }
}
