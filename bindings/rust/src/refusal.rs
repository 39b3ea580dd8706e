//! Why a call turned down what it was given.

use crate::{raw, LARGEST_NET, LONGEST_SIDE, MOST_LAYERS, MOST_TRUNK_LAYERS, WIDEST_CHANNEL, WIDEST_GRID};
use std::fmt;

/// A refusal's number, and its place: a byte of the ticket, flat or not, a length, a net, a point or a layer, as the number says.
#[derive(Clone, Copy, Debug, PartialEq, Eq)]
pub struct Refusal {
    pub number: u8,
    pub place: usize,
}

impl Refusal {
    /// The number of a byte 0 that is no kind.
    pub const NO_KIND: u8 = 2;
    /// The number of a net number that is none.
    pub const NO_NET: u8 = 7;
    /// The number of a net with one pin only; the place is the net.
    pub const LONE_NET: u8 = 9;
    /// The number of a wiring buffer that is too short; the place is the length needed.
    pub const SHORT_BUFFER: u8 = 10;
    /// The number of a wiring whose length is not n * w * k; the place is that length.
    pub const WRONG_LENGTH: u8 = 12;
    /// The number of a net that is not in one piece; the place is the net.
    pub const NET_IN_PIECES: u8 = 15;

    /// What the number means, with the place in it.
    pub fn meaning(&self) -> String {
        let place = self.place;
        match self.number {
            1 => format!("the ticket ends after {place} bytes, before one that is needed"),
            Self::NO_KIND => format!(
                "byte 0, the kind, is none of {} (row), {} (channel), {} (box) and {} (two-layer channel)",
                raw::ROW,
                raw::CHANNEL,
                raw::BOX,
                raw::TWO_LAYER
            ),
            3 => format!("byte 1, the length n, is none of 1 to {LONGEST_SIDE}"),
            4 => format!(
                "byte 2 is none of 1 to {LONGEST_SIDE} (the width of a box) \
                 or of 1 to {MOST_TRUNK_LAYERS} (the trunk layers of a row or channel), or is not 1 (a two-layer channel)"
            ),
            5 => "byte 3, the side map, has a side that the kind has not".to_string(),
            6 => format!("the position map at byte {place} has no bit, or a spare bit"),
            Self::NO_NET => format!("the net number at byte {place} is none of 1 to {LARGEST_NET}"),
            8 => format!("bytes are left over from byte {place} on"),
            Self::LONE_NET => format!("net {place} has one pin only"),
            Self::SHORT_BUFFER => format!("the wiring buffer is shorter than the {place} bytes that the wiring takes"),
            11 => format!(
                "n is none of 1 to {LONGEST_SIDE}, or w none of 1 to {WIDEST_CHANNEL} \
                 (of 1 to {WIDEST_GRID} for a two-layer channel and in a layer view), or k none of 1 to {MOST_LAYERS}, \
                 or w is not the box's own"
            ),
            Self::WRONG_LENGTH => format!("the wiring's length is not n * w * k, which is {place}"),
            13 => format!("the scratch is shorter than the {place} bytes that it must have"),
            14 => format!("the point at byte {place} of the wiring holds no net of the ticket"),
            Self::NET_IN_PIECES => format!("net {place} is not in one piece"),
            16 => format!("the wiring has no layer {place}"),
            17 => "the two-layer channel is solid, so that no width has a legal wiring on two layers".to_string(),
            18 => format!("a side of the box, n or w, is none of 1 to {LONGEST_SIDE}"),
            19 => format!("the buffer is shorter than the {place} bytes that are to be written"),
            other => format!("no refusal has the number {other}"),
        }
    }
}

impl fmt::Display for Refusal {
    fn fmt(&self, f: &mut fmt::Formatter) -> fmt::Result {
        write!(f, "refused {} at {}: {}", self.number, self.place, self.meaning())
    }
}

impl std::error::Error for Refusal {}
