//! Pozqaben: reads and surveys tickets, counts the edge floor of a box, lays wirings, checks wirings that anybody drew, shows a
//! layer of one, writes the hardest box of a shape, and turns tickets flat and back. And it searches for wirings of boxes on fewer
//! layers, reads tickets as text, and writes wirings as pictures, GDSII and DEF.
//!
//! A safe wrapper of the calls that the repository proves. The search, the text and the layouts are not proved: a wiring that was
//! found, or that a layout shows, is one that the proved `check` has accepted or `lay` has laid, and a text's ticket is what the proved
//! `unflatten` makes of its words. A ticket is bytes; a wiring is a buffer that holds point (i, j, l), counted from 1, at
//! ((l - 1) * w + (j - 1)) * n + i - 1, a net's number or 0. A flat ticket is bytes 0 to 2 of a ticket and then a byte for every
//! place of every side that the kind has, north, south, west, east: a net's number or 0.
//!
//! ```
//! let ticket = [2, 2, 1, 3, 3, 1, 2, 3, 2, 1]; // a channel: north 1 2, south 2 1
//! let (laid, wiring) = pozqaben::lay(&ticket).unwrap();
//! assert_eq!((laid.w, laid.k), (2, 3));
//! pozqaben::check(&ticket, laid.w, laid.k, laid.first, &wiring).unwrap();
//! let refusal = pozqaben::read(&[1, 2, 1, 1, 3, 1, 2]).unwrap_err();
//! assert_eq!(refusal.to_string(), "refused 9 at 1: net 1 has one pin only");
//! assert_eq!(pozqaben::unflatten(&[2, 2, 1, 1, 2, 2, 1]).unwrap(), ticket); // the channel, flat
//!
//! let squeezed = pozqaben::squeeze(&pozqaben::hardest_box(8, 4).unwrap(), pozqaben::Effort::default(), &mut |_| {}).unwrap();
//! assert_eq!(squeezed.to_string(), "5 layers found, floor 5: no legal wiring has fewer");
//!
//! let named = pozqaben::Ticket::from_file(b"channel 2 1  a b  b a").unwrap(); // the channel as text, with its nets' names
//! assert_eq!((named.bytes(), named.name(2).as_str()), (&ticket[..], "b"));
//! let gds = pozqaben::Layout::laid(&named).unwrap().gds(); // as KLayout opens it
//! # assert!(gds.len() > 100);
//! ```

use std::fmt;

mod layout;
mod pins;
pub mod raw;
mod refusal;
mod search;
mod squeeze;
mod ticket;
mod wiring;

pub use layout::Layout;
pub use refusal::Refusal;
pub use search::{search, search_with, Effort, Outcome, Progress, SearchError};
pub use squeeze::{squeeze, Known, Squeezed};
pub use ticket::{NoTicket, Position, Ticket};
pub use wiring::{NoWiring, Wiring};

/// The most places of a side: n, and the width of a box.
pub const LONGEST_SIDE: usize = 90;
/// The most tracks of a row's or a channel's wiring that `check` takes.
pub const WIDEST_CHANNEL: usize = 90;
/// The most tracks that it takes of a two-layer channel's, and `layer_view` of any.
pub const WIDEST_GRID: usize = 157;
/// The most layers of a wiring that they take.
pub const MOST_LAYERS: usize = 255;
/// The most trunk layers of a row or a channel.
pub const MOST_TRUNK_LAYERS: usize = 8;
/// The largest net number; the smallest is 1.
pub const LARGEST_NET: u8 = 180;
/// The most bytes of a ticket that is not refused.
pub const LONGEST_TICKET: usize = 412;
/// The most bytes of a flat ticket that is not refused.
pub const LONGEST_FLAT: usize = 363;

#[derive(Clone, Copy, Debug, PartialEq, Eq)]
pub enum Kind {
    Row,
    Channel,
    Box,
    /// A channel on two layers, at its drawn length.
    TwoLayer,
}

impl Kind {
    pub const ALL: [Kind; 4] = [Kind::Row, Kind::Channel, Kind::Box, Kind::TwoLayer];

    /// Its name in lines and files.
    pub const fn name(self) -> &'static str {
        match self {
            Kind::Row => "row",
            Kind::Channel => "channel",
            Kind::Box => "box",
            Kind::TwoLayer => "two-layer",
        }
    }

    /// Byte 0 of its tickets.
    pub const fn byte(self) -> u8 {
        let number = match self {
            Kind::Row => raw::ROW,
            Kind::Channel => raw::CHANNEL,
            Kind::Box => raw::BOX,
            Kind::TwoLayer => raw::TWO_LAYER,
        };
        number as u8
    }

    /// The most tracks of a wiring of this kind that `check` takes; a box's are its own.
    pub const fn widest(self) -> usize {
        match self {
            Kind::Row | Kind::Channel => WIDEST_CHANNEL,
            Kind::Box => LONGEST_SIDE,
            Kind::TwoLayer => WIDEST_GRID,
        }
    }
}

/// What a good ticket says.
#[derive(Clone, Copy, Debug, PartialEq, Eq)]
pub struct Reading {
    pub kind: Kind,
    pub n: usize,
    /// The width of a box; otherwise the number of trunk layers, which is 1 for a two-layer channel.
    pub byte2: usize,
    pub nets: usize,
}

/// The figures of a good ticket.
#[derive(Clone, Copy, Debug, PartialEq, Eq)]
pub struct Survey {
    pub kind: Kind,
    pub n: usize,
    /// The width of a box, or the tracks that `lay` uses for a row or a channel; 0 for a two-layer channel.
    pub w: usize,
    pub nets: usize,
    /// How many places hold a pin.
    pub pins: usize,
    /// The most nets that a column must pass. Of a box, as of up, also those whose pins are all on the side beside the column.
    pub across: usize,
    /// 0 but for boxes, as floor.
    pub up: usize,
    pub layers: usize,
    pub floor: usize,
}

/// The line that the program prints.
impl fmt::Display for Survey {
    fn fmt(&self, f: &mut fmt::Formatter) -> fmt::Result {
        let Survey { kind, n, w, nets, pins, across, up, layers, floor } = self;
        let name = kind.name();
        match kind {
            Kind::Row | Kind::Channel => {
                write!(f, "{name} length {n} nets {nets} pins {pins} across {across} tracks {w} layers {layers}")
            }
            Kind::Box => {
                write!(f, "{name} length {n} width {w} nets {nets} pins {pins} across {across} up {up} layers {layers} floor {floor}")
            }
            Kind::TwoLayer => write!(f, "{name} length {n} nets {nets} pins {pins} across {across} layers {layers}"),
        }
    }
}

/// Two lower bounds on the layers of a box: every legal wiring of it, whoever draws it, has at least so many. Both are 0 for kinds
/// that are no box.
#[derive(Clone, Copy, Debug, PartialEq, Eq)]
pub struct EdgeFloor {
    /// Survey's, from how many nets a column and a track must pass.
    pub floor: usize,
    /// At least the floor: it counts also the pins at the ends of the grid, a net at the first and the last column once for each
    /// track with a pin of it beside that column, and at the first and the last track likewise.
    pub edge_floor: usize,
}

/// What `lay` says of the wiring that it laid.
#[derive(Clone, Copy, Debug, PartialEq, Eq)]
pub struct Laid {
    pub kind: Kind,
    pub n: usize,
    pub w: usize,
    pub k: usize,
    /// Whether layer 1 is horizontal.
    pub first: bool,
    pub nets: usize,
    pub across: usize,
    /// 0 but for boxes, as floor.
    pub up: usize,
    pub floor: usize,
}

impl Laid {
    /// How many bytes the wiring takes.
    pub fn size(&self) -> usize {
        self.n * self.w * self.k
    }
}

/// The kind of an answer that is no refusal.
fn kind(number: usize) -> Kind {
    let kind = Kind::ALL.into_iter().find(|kind| kind.byte() as usize == number);
    kind.unwrap_or_else(|| panic!("the library answered {number}, which is no kind"))
}

/// The entries as numbers of this machine, unless the first two are a refusal.
fn accepted<const N: usize>(entries: [u64; N]) -> Result<[usize; N], Refusal> {
    if entries[0] != 0 {
        return Err(Refusal { number: entries[0] as u8, place: entries[1] as usize });
    }
    Ok(entries.map(|x| x as usize))
}

pub fn read(ticket: &[u8]) -> Result<Reading, Refusal> {
    let mut answer = [0; raw::READ_ENTRIES];
    // Sound: each pointer and length are those of one slice, and the array is borrowed here alone.
    unsafe { raw::pozqaben_read(ticket.as_ptr(), ticket.len(), answer.as_mut_ptr(), answer.len()) };
    let [_, _, k, n, byte2, nets] = accepted(answer)?;
    Ok(Reading { kind: kind(k), n, byte2, nets })
}

pub fn survey(ticket: &[u8]) -> Result<Survey, Refusal> {
    let mut answer = [0; raw::SURVEY_ENTRIES];
    // Sound: as in `read`.
    unsafe { raw::pozqaben_survey(ticket.as_ptr(), ticket.len(), answer.as_mut_ptr(), answer.len()) };
    let [_, _, k, n, w, nets, pins, across, up, layers, floor] = accepted(answer)?;
    Ok(Survey { kind: kind(k), n, w, nets, pins, across, up, layers, floor })
}

/// The floor and the edge floor of a box; what `read` refuses is refused alike.
pub fn edge_floor(ticket: &[u8]) -> Result<EdgeFloor, Refusal> {
    let mut answer = [0; raw::EDGE_FLOOR_ENTRIES];
    // Sound: as in `read`.
    unsafe { raw::pozqaben_edge_floor(ticket.as_ptr(), ticket.len(), answer.as_mut_ptr(), answer.len()) };
    let [_, _, floor, edge_floor] = accepted(answer)?;
    Ok(EdgeFloor { floor, edge_floor })
}

/// Lays the ticket into the buffer, of which a refusal alters no byte, and no other call a byte past the wiring.
pub fn lay_into(ticket: &[u8], wiring: &mut [u8]) -> Result<Laid, Refusal> {
    let mut answer = [0; raw::LAY_ENTRIES];
    // Sound: as in `read`; the wiring is borrowed mutably, so it overlaps nothing.
    unsafe { raw::pozqaben_lay(ticket.as_ptr(), ticket.len(), wiring.as_mut_ptr(), wiring.len(), answer.as_mut_ptr(), answer.len()) };
    let [_, _, k, n, w, layers, first, nets, across, up, floor] = accepted(answer)?;
    Ok(Laid { kind: kind(k), n, w, k: layers, first: first == 1, nets, across, up, floor })
}

/// Lays the ticket into a buffer of its own, which is as long as the wiring: an empty one is refused with that length.
pub fn lay(ticket: &[u8]) -> Result<(Laid, Vec<u8>), Refusal> {
    let length = match lay_into(ticket, &mut []) {
        Err(Refusal { number: Refusal::SHORT_BUFFER, place }) => place,
        Err(refusal) => return Err(refusal),
        Ok(laid) => panic!("the library laid {laid:?} into an empty buffer"),
    };
    let mut wiring = vec![0; length];
    let laid = lay_into(ticket, &mut wiring)?;
    Ok((laid, wiring))
}

/// Whether the wiring is legal for the ticket; the scratch is as long as the wiring, or longer.
pub fn check_with(ticket: &[u8], w: usize, k: usize, first: bool, wiring: &[u8], scratch: &mut [u8]) -> Result<(), Refusal> {
    let mut answer = [0; raw::CHECK_ENTRIES];
    // Sound: as in `lay_into`.
    unsafe {
        raw::pozqaben_check(
            ticket.as_ptr(),
            ticket.len(),
            w,
            k,
            first,
            wiring.as_ptr(),
            wiring.len(),
            scratch.as_mut_ptr(),
            scratch.len(),
            answer.as_mut_ptr(),
            answer.len(),
        )
    };
    accepted(answer).map(|_| ())
}

/// Whether the wiring is legal for the ticket.
pub fn check(ticket: &[u8], w: usize, k: usize, first: bool, wiring: &[u8]) -> Result<(), Refusal> {
    check_with(ticket, w, k, first, wiring, &mut vec![0; wiring.len()])
}

/// The wiring's own part for a layer, counted from 1: track by track, n bytes each.
pub fn layer_view(wiring: &[u8], n: usize, w: usize, k: usize, layer: usize) -> Result<&[u8], Refusal> {
    let mut answer = [0; raw::LAYER_VIEW_ENTRIES];
    // Sound: as in `read`.
    unsafe { raw::pozqaben_layer_view(wiring.as_ptr(), wiring.len(), n, w, k, layer, answer.as_mut_ptr(), answer.len()) };
    let [_, _, start, length] = accepted(answer)?;
    Ok(&wiring[start..start + length])
}

/// Writes the ticket of `hardest_box` into the buffer and gives its length. A refusal alters no byte of the buffer, and no other
/// call a byte past the ticket.
pub fn hardest_box_into(n: usize, w: usize, ticket: &mut [u8]) -> Result<usize, Refusal> {
    let mut answer = [0; raw::HARDEST_BOX_ENTRIES];
    // Sound: as in `lay_into`.
    unsafe { raw::pozqaben_hardest_box(n, w, ticket.as_mut_ptr(), ticket.len(), answer.as_mut_ptr(), answer.len()) };
    let [_, _, length] = accepted(answer)?;
    Ok(length)
}

/// What a call writes into a buffer of this length, which is enough for it.
fn written(longest: usize, call: impl FnOnce(&mut [u8]) -> Result<usize, Refusal>) -> Result<Vec<u8>, Refusal> {
    let mut buffer = vec![0; longest];
    let length = call(&mut buffer)?;
    buffer.truncate(length);
    Ok(buffer)
}

/// A box ticket of n columns and w tracks with every place filled, whose floor no box ticket of that shape exceeds.
pub fn hardest_box(n: usize, w: usize) -> Result<Vec<u8>, Refusal> {
    written(LONGEST_TICKET, |ticket| hardest_box_into(n, w, ticket))
}

/// Writes the flat ticket of `flatten` into the buffer and gives its length. A refusal alters no byte of the buffer, and no other
/// call a byte past the flat ticket.
pub fn flatten_into(ticket: &[u8], flat: &mut [u8]) -> Result<usize, Refusal> {
    let mut answer = [0; raw::FLATTEN_ENTRIES];
    // Sound: as in `lay_into`.
    unsafe { raw::pozqaben_flatten(ticket.as_ptr(), ticket.len(), flat.as_mut_ptr(), flat.len(), answer.as_mut_ptr(), answer.len()) };
    let [_, _, length] = accepted(answer)?;
    Ok(length)
}

/// The flat ticket that says what the ticket says; `unflatten` gives back the very bytes.
pub fn flatten(ticket: &[u8]) -> Result<Vec<u8>, Refusal> {
    written(LONGEST_FLAT, |flat| flatten_into(ticket, flat))
}

/// Writes the ticket of `unflatten` into the buffer and gives its length. A refusal alters no byte of the buffer, and no other
/// call a byte past the ticket.
pub fn unflatten_into(flat: &[u8], ticket: &mut [u8]) -> Result<usize, Refusal> {
    let mut answer = [0; raw::UNFLATTEN_ENTRIES];
    // Sound: as in `lay_into`.
    unsafe { raw::pozqaben_unflatten(flat.as_ptr(), flat.len(), ticket.as_mut_ptr(), ticket.len(), answer.as_mut_ptr(), answer.len()) };
    let [_, _, length] = accepted(answer)?;
    Ok(length)
}

/// The ticket that says what the flat ticket says; `flatten` gives back the very bytes. The place of a refusal counts the flat
/// ticket's own bytes.
pub fn unflatten(flat: &[u8]) -> Result<Vec<u8>, Refusal> {
    written(LONGEST_TICKET, |ticket| unflatten_into(flat, ticket))
}
