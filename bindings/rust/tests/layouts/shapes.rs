//! What the files draw, rectangles and labels, and the net that each rectangle belongs to by what touches what.

use std::collections::{BTreeMap, BTreeSet};

/// The distance of neighbouring points.
pub const STEP: i32 = 1000;
/// The layer of pins and of their labels; the layers before it are metals.
pub const PINS: u16 = 256;
/// What is drawn on a layer, its second number: metal or a pin, the cut of a via to the next metal, and labels.
pub const DRAWN: u16 = 0;
pub const CUT: u16 = 1;
pub const TEXT: u16 = 10;

/// East and north, in nanometres.
pub type Place = (i32, i32);

/// In nanometres.
#[derive(Clone, Copy, Debug, PartialEq, Eq, PartialOrd, Ord)]
pub struct Rectangle {
    pub layer: u16,
    pub purpose: u16,
    pub west: i32,
    pub south: i32,
    pub east: i32,
    pub north: i32,
}

#[derive(Clone, Debug, PartialEq, Eq, PartialOrd, Ord)]
pub struct Label {
    pub layer: u16,
    pub purpose: u16,
    pub place: Place,
    pub text: String,
}

enum Part {
    Metal(u16),
    /// To the next metal.
    Cut(u16),
    Pin,
}

impl Rectangle {
    /// The one that has these opposite corners.
    pub fn between(layer: u16, purpose: u16, a: Place, b: Place) -> Self {
        Rectangle { layer, purpose, west: a.0.min(b.0), south: a.1.min(b.1), east: a.0.max(b.0), north: a.1.max(b.1) }
    }

    /// The one that reaches so far beyond this on every side; less far where that is negative.
    pub fn widened(self, by: i32) -> Self {
        Rectangle { west: self.west - by, south: self.south - by, east: self.east + by, north: self.north + by, ..self }
    }

    pub fn moved(self, (x, y): Place) -> Self {
        Rectangle { west: self.west + x, south: self.south + y, east: self.east + x, north: self.north + y, ..self }
    }

    pub fn has_area(&self) -> bool {
        self.west < self.east && self.south < self.north
    }

    pub fn thickness(&self) -> i32 {
        (self.east - self.west).min(self.north - self.south)
    }

    pub fn centre(&self) -> Place {
        ((self.west + self.east) / 2, (self.south + self.north) / 2)
    }

    pub fn contains(&self, other: &Rectangle) -> bool {
        self.west <= other.west && self.south <= other.south && other.east <= self.east && other.north <= self.north
    }

    pub fn is_on_grid(&self) -> bool {
        [self.west, self.south, self.east, self.north].iter().all(|at| at % STEP == 0)
    }

    /// The places of the grid on it, where its corners are on the grid.
    pub fn places(&self) -> Vec<Place> {
        let steps = |from: i32, to: i32| (from..=to).step_by(STEP as usize);
        steps(self.west, self.east).flat_map(|x| steps(self.south, self.north).map(move |y| (x, y))).collect()
    }

    fn part(&self) -> Result<Part, String> {
        match (self.layer, self.purpose) {
            (PINS, DRAWN) => Ok(Part::Pin),
            (1..PINS, DRAWN) => Ok(Part::Metal(self.layer)),
            (1..PINS, CUT) => Ok(Part::Cut(self.layer)),
            _ => Err(format!("nothing is drawn on such a layer: {self:?}")),
        }
    }

    fn touches(&self, other: &Rectangle) -> bool {
        self.west <= other.east && other.west <= self.east && self.south <= other.north && other.south <= self.north
    }

    fn overlaps(&self, other: &Rectangle) -> bool {
        self.west < other.east && other.west < self.east && self.south < other.north && other.south < self.north
    }

    fn joins(&self, other: &Rectangle) -> Result<bool, String> {
        Ok(match (self.part()?, other.part()?) {
            (Part::Metal(a), Part::Metal(b)) => a == b && self.touches(other),
            (Part::Metal(metal), Part::Cut(cut)) | (Part::Cut(cut), Part::Metal(metal)) => {
                (metal == cut || metal == cut + 1) && self.overlaps(other)
            }
            (Part::Metal(_), Part::Pin) | (Part::Pin, Part::Metal(_)) => self.overlaps(other),
            (Part::Cut(_) | Part::Pin, Part::Cut(_) | Part::Pin) => false,
        })
    }
}

/// The pieces that rectangles form, each known by one of its rectangles.
struct Pieces(Vec<usize>);

impl Pieces {
    fn of(rectangles: &[Rectangle]) -> Result<Self, String> {
        let mut pieces = Pieces((0..rectangles.len()).collect());
        let mut order: Vec<usize> = (0..rectangles.len()).collect();
        order.sort_by_key(|index| rectangles[*index].west);
        for (position, &a) in order.iter().enumerate() {
            // Those farther east touch this one no more.
            let near = order[position + 1..].iter().take_while(|b| rectangles[**b].west <= rectangles[a].east);
            for &b in near {
                if rectangles[a].joins(&rectangles[b])? {
                    let (a, b) = (pieces.piece(a), pieces.piece(b));
                    pieces.0[a] = b;
                }
            }
        }
        Ok(pieces)
    }

    fn piece(&mut self, mut index: usize) -> usize {
        while self.0[index] != index {
            self.0[index] = self.0[self.0[index]];
            index = self.0[index];
        }
        index
    }
}

/// The pin that each label names: every pin has one, at its centre.
fn labelled<'a>(rectangles: &[Rectangle], labels: &'a [Label]) -> Result<Vec<(usize, &'a str)>, String> {
    let mut pins: BTreeMap<Place, usize> = BTreeMap::new();
    for (index, pin) in rectangles.iter().enumerate().filter(|(_, rectangle)| rectangle.layer == PINS) {
        if pins.insert(pin.centre(), index).is_some() {
            return Err(format!("two pins at one place: {pin:?}"));
        }
    }
    let mut named = Vec::new();
    for label in labels {
        if (label.layer, label.purpose) != (PINS, TEXT) {
            return Err(format!("not on the labels' layer: {label:?}"));
        }
        let pin = pins.remove(&label.place).ok_or_else(|| format!("at no pin, or the second one there: {label:?}"))?;
        named.push((pin, &label.text[..]));
    }
    match pins.first_key_value() {
        Some((place, _)) => Err(format!("no label at the pin at {place:?}")),
        None => Ok(named),
    }
}

/// The name of the net that each rectangle belongs to. Every piece must have the labels of one net, and every net be one piece.
pub fn extracted(rectangles: &[Rectangle], labels: &[Label]) -> Result<Vec<String>, String> {
    let mut pieces = Pieces::of(rectangles)?;
    let mut names: BTreeMap<usize, &str> = BTreeMap::new();
    for (pin, name) in labelled(rectangles, labels)? {
        let other = names.insert(pieces.piece(pin), name);
        if other.is_some_and(|other| other != name) {
            return Err(format!("{name} touches {other:?}"));
        }
    }
    if names.values().collect::<BTreeSet<_>>().len() < names.len() {
        return Err(format!("a net is in two pieces: {names:?}"));
    }
    let name = |index: usize| names.get(&pieces.piece(index)).map(|name| name.to_string());
    let all: Option<Vec<String>> = (0..rectangles.len()).map(name).collect();
    all.ok_or("a piece has no label".to_string())
}
