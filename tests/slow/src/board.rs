//! A board that is edited: nets are added one by one, and dropped whole by lists. It is kept as the list of the nets added and not since
//! dropped, each with the places that it was added at; its ticket is made of these, and its figures are those of a survey of that ticket.
//! What each column and each track must pass is summed over the nets, each by its own places.

use crate::tickets::{encode, slots, Places};
use crate::{no_side, rules, survey, written, Refusal, BOX, CHANNEL, EAST, LARGEST_NET, LONGEST_SIDE, NORTH, ROW, SOUTH, WEST};
use std::collections::BTreeMap;

/// The number of a place in a list: 256 for each side, and the place on it from 1.
pub fn place_number(side: usize, place: usize) -> u64 {
    256 * side as u64 + place as u64
}

/// The numbers of all places of a board.
pub fn place_numbers(kind: u8, n: usize, byte2: usize) -> Vec<u64> {
    slots(kind, n, byte2).into_iter().map(|(side, place)| place_number(side, place)).collect()
}

/// The side of a place number, and the place on it.
fn side_and_place(number: u64) -> (usize, usize) {
    (number as usize / 256, number as usize % 256)
}

/// The column of a place: west is 0, east n + 1.
fn column_of(number: u64, n: usize) -> usize {
    match side_and_place(number) {
        (NORTH | SOUTH, place) => place,
        (WEST, _) => 0,
        (EAST, _) => n + 1,
        (other, _) => no_side(other),
    }
}

/// The track of a place of a box w wide: south is 0, north w + 1.
fn track_of(number: u64, w: usize) -> usize {
    match side_and_place(number) {
        (WEST | EAST, place) => place,
        (SOUTH, _) => 0,
        (NORTH, _) => w + 1,
        (other, _) => no_side(other),
    }
}

/// The count at line c, of the counts of lines 1 and on; 0 where there is no such line.
fn count_at(counts: &[u8], c: usize) -> u8 {
    c.checked_sub(1).and_then(|i| counts.get(i)).copied().unwrap_or(0)
}

#[derive(Clone, Debug, PartialEq, Eq)]
pub struct Board {
    kind: u8,
    n: usize,
    byte2: usize,
    nets: BTreeMap<u8, Vec<u64>>,
}

/// What three numbers say of a board: its kind, its length and byte 2.
fn shape_of(kind: u64, n: u64, byte2: u64) -> Result<(u8, usize, usize), Refusal> {
    let Some(kind) = [ROW, CHANNEL, BOX].into_iter().find(|k| *k as u64 == kind) else { return Err(Refusal(2, 0)) };
    let Some(n) = (1..=LONGEST_SIDE).find(|side| *side as u64 == n) else { return Err(Refusal(3, 0)) };
    let (_, largest) = rules(kind).expect("a kind");
    let Some(byte2) = (1..=largest).find(|b| *b as u64 == byte2) else { return Err(Refusal(4, 0)) };
    Ok((kind, n, byte2))
}

/// The net of this number, 1 to 180.
fn net_of(number: u64) -> Result<u8, Refusal> {
    (1..=LARGEST_NET).find(|net| *net as u64 == number).ok_or(Refusal(7, 0))
}

impl Board {
    /// The row board of n 1 and h 1, which a refused start gives.
    pub fn fresh() -> Self {
        Board { kind: ROW, n: 1, byte2: 1, nets: BTreeMap::new() }
    }

    /// The board without pins of this kind and shape.
    pub fn start(kind: u64, n: u64, byte2: u64) -> (Self, Result<(), Refusal>) {
        match shape_of(kind, n, byte2) {
            Ok((kind, n, byte2)) => (Board { kind, n, byte2, nets: BTreeMap::new() }, Ok(())),
            Err(refusal) => (Board::fresh(), Err(refusal)),
        }
    }

    pub fn add(&mut self, net: u64, places: &[u64]) -> Result<(), Refusal> {
        let net = net_of(net)?;
        if self.nets.contains_key(&net) {
            return Err(Refusal(20, net as usize));
        }
        if places.len() < 2 {
            return Err(Refusal(21, places.len()));
        }
        let (all, filled) = (self.places(), self.filled());
        let is_free = |i: usize| all.contains(&places[i]) && !filled.contains(&places[i]) && !places[..i].contains(&places[i]);
        if let Some(i) = (0..places.len()).find(|i| !is_free(*i)) {
            return Err(Refusal(21, i));
        }
        self.nets.insert(net, places.to_vec());
        Ok(())
    }

    /// Takes all of these nets away, or none. A number that is no net's is absent like any other.
    pub fn drop(&mut self, nets: &[u64]) -> Result<(), Refusal> {
        if let Some(absent) = nets.iter().find(|net| !self.has(**net)) {
            return Err(Refusal(22, *absent as usize));
        }
        if let Some(i) = (0..nets.len()).find(|i| nets[..*i].contains(&nets[*i])) {
            return Err(Refusal(23, i));
        }
        self.nets.retain(|net, _| !nets.contains(&(*net as u64)));
        Ok(())
    }

    /// Kind, n and byte 2.
    pub fn shape(&self) -> (u8, usize, usize) {
        (self.kind, self.n, self.byte2)
    }

    /// The numbers of its places.
    pub fn places(&self) -> Vec<u64> {
        place_numbers(self.kind, self.n, self.byte2)
    }

    /// The numbers of the places that have a pin.
    pub fn filled(&self) -> Vec<u64> {
        self.nets.values().flatten().copied().collect()
    }

    /// Its nets, in rising order, each with the places that it was added at.
    pub fn nets(&self) -> &BTreeMap<u8, Vec<u64>> {
        &self.nets
    }

    pub fn has(&self, net: u64) -> bool {
        self.nets.keys().any(|m| *m as u64 == net)
    }

    pub fn ticket(&self) -> Vec<u8> {
        let pins = self.nets.iter().flat_map(|(net, places)| places.iter().map(|v| (side_and_place(*v), *net)));
        encode(self.kind, self.n, self.byte2, &pins.collect::<Places>())
    }

    /// Across, up and floor of its ticket's survey.
    pub fn figures(&self) -> [u64; 3] {
        let [number, _, _, _, _, _, _, across, up, _, floor] = survey::answer(&self.ticket());
        assert_eq!(number, 0, "a board's ticket is a good one");
        [across, up, floor]
    }

    /// How many nets each of the lines 1 to `last` must pass; `line` gives a place's. A net counts from the first of its lines to the
    /// last; not if it has just one, unless that is the side before line 1 or the side past the last, where it counts at the line next
    /// to it. Rows and channels have no such sides.
    fn counts(&self, last: usize, line: impl Fn(u64) -> usize) -> Vec<u8> {
        let mut counts = vec![0; last];
        for places in self.nets.values() {
            let lines = || places.iter().map(|place| line(*place));
            let (from, to) = (lines().min().expect("a net has places"), lines().max().expect("a net has places"));
            if from < to || from == 0 || to == last + 1 {
                counts[from.clamp(1, last) - 1..to.clamp(1, last)].iter_mut().for_each(|count| *count += 1);
            }
        }
        counts
    }

    /// How many nets each of the columns 1 to n must pass.
    pub fn columns(&self) -> Vec<u8> {
        self.counts(self.n, |place| column_of(place, self.n))
    }

    /// How many nets each of the tracks from 1 must pass; none are counted but a box's.
    pub fn tracks(&self) -> Vec<u8> {
        if self.kind != BOX {
            return Vec::new();
        }
        self.counts(self.byte2, |place| track_of(place, self.byte2))
    }

    /// How many nets column c must pass; 0 where the board has no such column.
    pub fn count_at_column(&self, c: usize) -> u8 {
        count_at(&self.columns(), c)
    }

    /// How many nets track c must pass; 0 where the board has no such track, or is no box.
    pub fn count_at_track(&self, c: usize) -> u8 {
        count_at(&self.tracks(), c)
    }

    /// number, place, length of the call that writes its ticket; the buffer is as the call leaves it.
    pub fn write_ticket(&self, buffer: &mut [u8]) -> [u64; 3] {
        written(Ok(self.ticket()), buffer)
    }
}
