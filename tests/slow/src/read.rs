//! Read: bytes to a ticket, or the first refusal in the document's order.

use crate::{places, rules, Pin, Refusal, Ticket, LARGEST_NET, LONGEST_SIDE};

/// Four bytes or more, and what bytes 0 to 2 of a ticket, flat or not, say: the sides that the kind has, n and byte 2.
pub fn header(t: &[u8]) -> Result<(&'static [usize], usize, usize), Refusal> {
    if t.len() < 4 {
        return Err(Refusal(1, t.len()));
    }
    let Some((sides, largest)) = rules(t[0]) else { return Err(Refusal(2, 0)) };
    let n = t[1] as usize;
    if !(1..=LONGEST_SIDE).contains(&n) {
        return Err(Refusal(3, 1));
    }
    let byte2 = t[2] as usize;
    if !(1..=largest).contains(&byte2) {
        return Err(Refusal(4, 2));
    }
    Ok((sides, n, byte2))
}

/// Refuses the smallest net with one pin.
pub fn no_lone_net(pins: &[Pin]) -> Result<(), Refusal> {
    match (1..=LARGEST_NET).find(|net| pins.iter().filter(|p| p.net == *net).count() == 1) {
        Some(net) => Err(Refusal(9, net as usize)),
        None => Ok(()),
    }
}

pub fn read(t: &[u8]) -> Result<Ticket, Refusal> {
    let (allowed, n, byte2) = header(t)?;
    let standing: Vec<usize> = (0..8).filter(|s| t[3] >> s & 1 == 1).collect();
    if standing.iter().any(|s| !allowed.contains(s)) {
        return Err(Refusal(5, 3));
    }
    let mut at = 4;
    let mut pins = Vec::new();
    for side in standing {
        let places = places(side, n, byte2);
        let size = places.div_ceil(8);
        if at + size > t.len() {
            return Err(Refusal(1, t.len()));
        }
        let bits: Vec<usize> = (0..8 * size).filter(|i| t[at + i / 8] >> (i % 8) & 1 == 1).collect();
        if bits.is_empty() || bits[bits.len() - 1] >= places {
            return Err(Refusal(6, at));
        }
        at += size;
        for i in bits {
            let Some(&net) = t.get(at) else { return Err(Refusal(1, t.len())) };
            if !(1..=LARGEST_NET).contains(&net) {
                return Err(Refusal(7, at));
            }
            pins.push(Pin { side, place: i + 1, net });
            at += 1;
        }
    }
    if at < t.len() {
        return Err(Refusal(8, at));
    }
    no_lone_net(&pins)?;
    Ok(Ticket { kind: t[0], n, byte2, pins })
}

/// number, place, kind, n, byte 2, nets
pub fn answer(t: &[u8]) -> [u64; 6] {
    match read(t) {
        Err(Refusal(number, place)) => [number as u64, place as u64, 0, 0, 0, 0],
        Ok(t) => [0, 0, t.kind as u64, t.n as u64, t.byte2 as u64, t.nets().len() as u64],
    }
}
