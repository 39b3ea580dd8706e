//! The fewest layers of a box that the search finds a wiring on.

use crate::search::{accepted, search_with, Effort, Outcome, Progress, SearchError};
use crate::{edge_floor, lay, read, Kind, Wiring};
use std::fmt;

/// The best wiring that was found, or laid, which `check` has accepted; and what is known of better ones, as a line of words. Only
/// `squeeze` makes one.
#[derive(Clone, Debug, PartialEq, Eq)]
#[non_exhaustive]
pub struct Squeezed {
    pub wiring: Wiring,
    pub known: Known,
}

/// What is known of better wirings; it is proved.
#[derive(Clone, Copy, Debug, PartialEq, Eq)]
pub enum Known {
    /// Of a box: every legal wiring has at least the edge floor's layers. `lay` uses those laid.
    Layers { edge_floor: usize, laid: usize },
    /// Of a row or a channel: no legal wiring with at most so many horizontal layers has fewer tracks.
    Tracks { trunk_layers: usize },
    /// Of a two-layer channel: nothing, but that every wiring has a track.
    Nothing,
}

/// So many of them.
pub(crate) fn counted(number: usize, noun: &str) -> String {
    format!("{number} {noun}{}", if number == 1 { "" } else { "s" })
}

impl fmt::Display for Squeezed {
    fn fmt(&self, f: &mut fmt::Formatter) -> fmt::Result {
        let Wiring { w, k, .. } = self.wiring;
        match self.known {
            Known::Layers { edge_floor, laid } => {
                let how = if k < laid { "found" } else { "laid" };
                write!(f, "{} {how}, floor {edge_floor}: ", counted(k, "layer"))?;
                match k - edge_floor {
                    0 => write!(f, "no legal wiring has fewer"),
                    1 => write!(f, "whether {edge_floor} can be wired is not known"),
                    2 => write!(f, "whether {edge_floor} or {} can be wired is not known", k - 1),
                    _ => write!(f, "whether {edge_floor} to {} can be wired is not known", k - 1),
                }
            }
            Known::Tracks { trunk_layers } => {
                let layers = counted(trunk_layers, "horizontal layer");
                write!(f, "{} laid: no legal wiring with at most {layers} has fewer", counted(w, "track"))
            }
            Known::Nothing if w == 1 => write!(f, "1 track laid: no wiring has fewer"),
            Known::Nothing => write!(f, "{w} tracks laid: whether fewer can be wired is not known"),
        }
    }
}

/// Searches from one layer less than `lay` uses down to the edge floor, layer 1 vertical and then horizontal, until neither is found.
/// The effort is that of each search.
pub fn squeeze(ticket: &[u8], effort: Effort, progress: &mut dyn FnMut(Progress)) -> Result<Squeezed, SearchError> {
    let (laid, points) = lay(ticket)?;
    let mut best = accepted(ticket, Wiring::from((laid, points)))?;
    let known = match laid.kind {
        Kind::Box => Known::Layers { edge_floor: edge_floor(ticket)?.edge_floor, laid: laid.k },
        Kind::Row | Kind::Channel => Known::Tracks { trunk_layers: read(ticket)?.byte2 },
        Kind::TwoLayer => Known::Nothing,
    };
    if let Known::Layers { edge_floor, laid } = known {
        for k in (edge_floor..laid).rev() {
            match on_layers(ticket, k, effort, progress)? {
                Some(wiring) => best = wiring,
                None => break,
            }
        }
    }
    Ok(Squeezed { wiring: best, known })
}

/// A wiring on so many layers, of either first direction.
fn on_layers(ticket: &[u8], k: usize, effort: Effort, progress: &mut dyn FnMut(Progress)) -> Result<Option<Wiring>, SearchError> {
    for first in [false, true] {
        if let Outcome::Found { wiring, .. } = search_with(ticket, k, first, effort, progress)? {
            return Ok(Some(wiring));
        }
    }
    Ok(None)
}

#[cfg(test)]
mod tests {
    use super::*;

    fn line(w: usize, k: usize, known: Known) -> String {
        Squeezed { wiring: Wiring { n: 6, w, k, first: false, points: vec![] }, known }.to_string()
    }

    #[test]
    fn lines_of_boxes() {
        let line_of = |k: usize| line(12, k, Known::Layers { edge_floor: 9, laid: 12 });
        assert_eq!(line_of(9), "9 layers found, floor 9: no legal wiring has fewer");
        assert_eq!(line_of(10), "10 layers found, floor 9: whether 9 can be wired is not known");
        assert_eq!(line_of(11), "11 layers found, floor 9: whether 9 or 10 can be wired is not known");
        assert_eq!(line_of(12), "12 layers laid, floor 9: whether 9 to 11 can be wired is not known");
        assert_eq!(line(3, 1, Known::Layers { edge_floor: 1, laid: 8 }), "1 layer found, floor 1: no legal wiring has fewer");
    }

    #[test]
    fn lines_of_other_kinds() {
        let line_of = |w: usize, trunk_layers: usize| line(w, 2 * trunk_layers, Known::Tracks { trunk_layers });
        assert_eq!(line_of(2, 1), "2 tracks laid: no legal wiring with at most 1 horizontal layer has fewer");
        assert_eq!(line_of(1, 3), "1 track laid: no legal wiring with at most 3 horizontal layers has fewer");
        assert_eq!(line(7, 2, Known::Nothing), "7 tracks laid: whether fewer can be wired is not known");
        assert_eq!(line(1, 2, Known::Nothing), "1 track laid: no wiring has fewer");
    }
}
