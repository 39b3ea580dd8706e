//! The picture: a panel for each layer.

use super::svg::{Picture, CHARACTER};
use super::{Layout, Point, Run};
use crate::pins::{Pin, Side};
use crate::Wiring;

const CELL: usize = 15; // between neighbouring columns and tracks
const EDGE: usize = 20; // room for a panel's pins
const TITLE: usize = 18;
const CAPTION: usize = 66;
const GAP: usize = 16;
const WIDEST: usize = 1320; // as many panels stand in a row as fit this
const NARROWEST: usize = 640; // the caption fits
const NARROWEST_PANEL: usize = 140; // its title fits
const LINE: usize = 18; // of the list of names
const SHORT_NAME: usize = 3; // the most characters that fit a pin

/// One layer, and where it is drawn.
struct Panel<'a> {
    layout: &'a Layout<'a>,
    labels: &'a Labels<'a>,
    layer: usize,
    corner: Point,
}

impl Panel<'_> {
    /// Where point (i, j) is drawn.
    fn at(&self, (i, j): Point) -> Point {
        let (x, y) = self.corner;
        (x + EDGE + (i - 1) * CELL + CELL / 2, y + TITLE + EDGE + (self.layout.wiring.w - j) * CELL + CELL / 2)
    }

    fn draw(&self, picture: &mut Picture) {
        let (x, y) = self.corner;
        let direction = if self.layout.is_horizontal(self.layer) { "horizontal" } else { "vertical" };
        picture.words((x + EDGE, y + TITLE / 2), &format!("layer {}, {direction}", self.layer));
        picture.frame((x + EDGE, y + TITLE + EDGE), self.layout.wiring.n * CELL, self.layout.wiring.w * CELL);
        self.layout.pins.iter().for_each(|pin| self.draw_pin(picture, pin));
        self.layout.runs(self.layer).iter().for_each(|run| self.draw_run(picture, run));
    }

    /// A pin that the layer reaches, joined to the point beside it where that holds its net.
    fn draw_pin(&self, picture: &mut Picture, pin: &Pin) {
        if pin.side.is_at_tracks() != self.layout.is_horizontal(self.layer) {
            return;
        }
        let beside = pin.side.beside(pin.place, self.layout.wiring.n, self.layout.wiring.w);
        let (x, y) = self.at(beside);
        let out = CELL / 2 + EDGE / 2;
        let place = match pin.side {
            Side::North => (x, y - out),
            Side::South => (x, y + out),
            Side::West => (x - out, y),
            Side::East => (x + out, y),
        };
        if self.layout.net(beside, self.layer) == pin.net {
            picture.metal((x, y), place, pin.net);
        }
        picture.pin(place, pin.net, &self.labels.of(pin.net));
    }

    /// A stretch of one net, its vias, and its label at a point without a via, near the middle.
    fn draw_run(&self, picture: &mut Picture, run: &Run) {
        let (net, points, l) = (run.net, &run.points, self.layer);
        picture.metal(self.at(points[0]), self.at(points[points.len() - 1]), net);
        let up = |p: &Point| self.layout.net(*p, l + 1) == net;
        let down = |p: &Point| self.layout.net(*p, l - 1) == net;
        points.iter().filter(|p| up(p)).for_each(|p| picture.via_up(self.at(*p)));
        points.iter().filter(|p| down(p)).for_each(|p| picture.via_down(self.at(*p)));
        let middle = (points.len() / 2 + run.line % 2).min(points.len() - 1);
        let free = (0..points.len()).filter(|a| !up(&points[*a]) && !down(&points[*a])).min_by_key(|a| a.abs_diff(middle));
        if let Some(a) = free {
            picture.label(self.at(points[a]), net, &self.labels.of(net));
        }
    }
}

/// What the nets are called: their names, or, where one of these is too long to stand at a pin, their numbers, and a list of both.
struct Labels<'a> {
    layout: &'a Layout<'a>,
    are_names: bool,
}

impl<'a> Labels<'a> {
    fn new(layout: &'a Layout<'a>) -> Self {
        let are_names = layout.nets().iter().all(|net| layout.ticket.name(*net).len() <= SHORT_NAME);
        Labels { layout, are_names }
    }

    fn of(&self, net: u8) -> String {
        if self.are_names {
            return self.layout.ticket.name(net);
        }
        net.to_string()
    }

    /// The list of numbers and names, in lines of so many pixels.
    fn list(&self, width: usize) -> Vec<String> {
        let mut lines: Vec<String> = Vec::new();
        if self.are_names {
            return lines;
        }
        for net in self.layout.nets() {
            let entry = format!("{net} {}", self.layout.ticket.name(net));
            match lines.last_mut().filter(|line| (line.len() + 2 + entry.len()) * CHARACTER <= width) {
                Some(line) => *line += &format!(", {entry}"),
                None => lines.push(entry),
            }
        }
        lines
    }
}

/// Of a wiring that `lay` did not make nothing is said that it promises.
fn caption(layout: &Layout) -> String {
    if layout.is_laid {
        return layout.bound();
    }
    format!("drawn here: {}", layout.summary())
}

pub fn picture(layout: &Layout) -> String {
    let &Wiring { n, w, k, .. } = &layout.wiring;
    let labels = &Labels::new(layout);
    let (width, height) = ((n * CELL + 2 * EDGE + GAP).max(NARROWEST_PANEL), TITLE + w * CELL + 2 * EDGE + GAP);
    let in_a_row = (WIDEST / width).clamp(1, k);
    let mut picture = Picture::new();
    picture.words((GAP, 16), &layout.figures.to_string());
    picture.words((GAP, 34), &caption(layout));
    picture.words((GAP, 52), "Dot: via to the next layer. Ring: via to the layer before. Boxes: the pins that a layer reaches.");
    for layer in layout.layers() {
        let corner = (GAP + (layer - 1) % in_a_row * width, CAPTION + (layer - 1) / in_a_row * height);
        Panel { layout, labels, layer, corner }.draw(&mut picture);
    }
    let whole_width = NARROWEST.max(GAP + in_a_row * width);
    let bottom = CAPTION + k.div_ceil(in_a_row) * height;
    let names = labels.list(whole_width - 2 * GAP);
    for (index, line) in names.iter().enumerate() {
        picture.words((GAP, bottom + index * LINE + LINE / 2), line);
    }
    picture.finished(whole_width, bottom + names.len() * LINE)
}
