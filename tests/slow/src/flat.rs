//! Flat tickets: bytes 0 to 2, then every place of every side that the kind has, 0 for an empty one; turned from and into tickets.

use crate::read::{header, no_lone_net, read};
use crate::tickets::{encode, slots, Places};
use crate::{written, Pin, Refusal, Ticket, BOX, LARGEST_NET};

/// What a flat ticket says, or its first refusal, with the places counted in its own bytes.
pub fn read_flat(flat: &[u8]) -> Result<Ticket, Refusal> {
    let (_, n, byte2) = header(flat)?;
    let kind = flat[0];
    let mut pins = Vec::new();
    let mut at = 3;
    for (side, place) in slots(kind, n, byte2) {
        let Some(&net) = flat.get(at) else { return Err(Refusal(1, flat.len())) };
        if net > LARGEST_NET {
            return Err(Refusal(7, at));
        }
        if net > 0 {
            pins.push(Pin { side, place, net });
        }
        at += 1;
    }
    if at < flat.len() {
        return Err(Refusal(8, at));
    }
    no_lone_net(&pins)?;
    Ok(Ticket { kind, n, byte2, pins })
}

/// The box with these nets on its sides, 0 at an empty place.
pub fn a_box(north: &[u8], south: &[u8], west: &[u8], east: &[u8]) -> Ticket {
    read_flat(&[&[BOX, north.len() as u8, west.len() as u8], north, south, west, east].concat()).expect("a good flat ticket")
}

/// The nets by side and place.
fn by_place(t: &Ticket) -> Places {
    t.pins.iter().map(|p| ((p.side, p.place), p.net)).collect()
}

/// The flat ticket that says what the ticket says.
pub fn flatten(ticket: &[u8]) -> Result<Vec<u8>, Refusal> {
    let t = read(ticket)?;
    let nets = by_place(&t);
    let mut out = vec![t.kind, t.n as u8, t.byte2 as u8];
    out.extend(slots(t.kind, t.n, t.byte2).iter().map(|slot| nets.get(slot).unwrap_or(&0)));
    Ok(out)
}

/// The ticket that says what the flat ticket says.
pub fn unflatten(flat: &[u8]) -> Result<Vec<u8>, Refusal> {
    let t = read_flat(flat)?;
    Ok(encode(t.kind, t.n, t.byte2, &by_place(&t)))
}

/// number, place, length of the calls; the buffer is as they leave it.
pub fn flatten_answer(ticket: &[u8], buffer: &mut [u8]) -> [u64; 3] {
    written(flatten(ticket), buffer)
}

pub fn unflatten_answer(flat: &[u8], buffer: &mut [u8]) -> [u64; 3] {
    written(unflatten(flat), buffer)
}
