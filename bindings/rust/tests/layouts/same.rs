//! What the readers find in a layout's files, beside what its wiring and its ticket say.

use crate::def::{Design, Tracks};
use crate::expected::{place, Expected, OfNet};
use crate::lef::{Metal, Technology};
use crate::shapes::{extracted, Label, Place, Rectangle, CUT, DRAWN, PINS, STEP, TEXT};
use crate::{def, gds, lef};
use pozqaben::{Layout, Ticket, Wiring};
use std::collections::{BTreeMap, BTreeSet};

fn sorted<T: Ord>(items: impl IntoIterator<Item = T>) -> Vec<T> {
    let mut sorted: Vec<T> = items.into_iter().collect();
    sorted.sort_unstable();
    sorted
}

/// What a reader or the extraction gives, which must be no error.
fn read<T>(result: Result<T, String>, expected: &Expected) -> T {
    result.unwrap_or_else(|why| panic!("{why}: {:?} {:?}", expected.ticket, expected.wiring))
}

pub fn same_files(ticket: &Ticket, wiring: &Wiring, layout: &Layout) {
    let expected = Expected::of(ticket, wiring);
    let technology = read(lef::read(&layout.lef()), &expected);
    same_technology(&expected, &technology);
    same_drawing(&expected, &technology, &layout.gds());
    let design = read(def::read(&layout.def(), &technology), &expected);
    same_floor(&expected, &design);
    same_pins(&expected, &technology, &design);
    same_nets(&expected, &technology, &design);
    same_joins(&expected, &design);
}

fn same_technology(expected: &Expected, technology: &Technology) {
    let directions: Vec<bool> = technology.metals.iter().map(|metal| metal.is_horizontal).collect();
    assert_eq!(directions, expected.layers().map(|layer| expected.is_horizontal(layer)).collect::<Vec<_>>(), "{:?}", expected.wiring);
    let Metal { width, spacing, .. } = technology.metals[0];
    for metal in &technology.metals {
        assert_eq!((metal.pitch, metal.width, metal.spacing), (STEP, width, spacing), "{metal:?}");
        assert!(width + spacing <= STEP && width % (2 * technology.grid) == 0, "{metal:?}");
    }
    for cut in &technology.cuts {
        assert_eq!((cut.width, cut.spacing), (technology.cuts[0].width, technology.cuts[0].spacing), "{cut:?}");
        assert!(cut.width <= width && cut.width + cut.spacing <= STEP && cut.width % (2 * technology.grid) == 0, "{cut:?}");
    }
    assert_eq!(technology.site.size, (STEP, STEP));
}

/// The rectangles without half their thickness on every side. It is one for all metals, one for all cuts, and one for all pins.
fn centre_lines(rectangles: &[Rectangle], technology: &Technology) -> Vec<Rectangle> {
    let sort = |rectangle: &Rectangle| (rectangle.layer == PINS, rectangle.purpose);
    let mut thickness: BTreeMap<(bool, u16), i32> = BTreeMap::new();
    for rectangle in rectangles {
        let least = thickness.entry(sort(rectangle)).or_insert(STEP);
        *least = rectangle.thickness().min(*least);
    }
    let metal = technology.metals[0].width;
    for ((is_pin, purpose), thickness) in &thickness {
        let width = if !is_pin && *purpose == CUT { technology.cuts[0].width } else { metal };
        assert_eq!((*thickness, thickness % 2), (width, 0), "of the LEF");
    }
    rectangles.iter().map(|rectangle| rectangle.widened(-thickness[&sort(rectangle)] / 2)).collect()
}

/// The GDSII has every bar, via and pin once and nothing else, and by what touches what each belongs to its net.
fn same_drawing(expected: &Expected, technology: &Technology, stream: &[u8]) {
    let library = read(gds::read(stream), expected);
    assert_eq!(sorted(library.labels.clone()), sorted(expected.labels()), "{:?}", expected.ticket);
    let names = read(extracted(&library.rectangles, &library.labels), expected);
    let drawn = centre_lines(&library.rectangles, technology).into_iter().zip(names);
    let pins = expected.drawn_pins().into_iter().zip(&expected.pins).map(|(line, pin)| (pin.net, line));
    let all = expected.bars().into_iter().chain(expected.vias()).chain(pins);
    let all = all.map(|(net, line)| (line, expected.ticket.name(net)));
    assert_eq!(sorted(drawn), sorted(all), "{:?} {:?}", expected.ticket, expected.wiring);
}

/// The tracks of each layer are the grid's lines in its direction; every point is the centre of one row's site; and the die area has
/// all places of pins, and not a step more.
fn same_floor(expected: &Expected, design: &Design) {
    let Wiring { n, w, .. } = *expected.wiring;
    let lines = |count: usize| (1..=count as i32).map(|line| line * STEP).collect();
    let tracks = expected.layers().map(|layer| match expected.is_horizontal(layer) {
        true => Tracks { layer: layer as u16, are_horizontal: true, lines: lines(w) },
        false => Tracks { layer: layer as u16, are_horizontal: false, lines: lines(n) },
    });
    assert!(design.tracks.iter().eq(&tracks.collect::<Vec<_>>()), "{:?} {:?}", design.tracks, expected.wiring);
    assert_eq!(sorted(design.sites.clone()), sorted(expected.points().map(place)), "{:?}", expected.wiring);
    let (low, high) = design.die_area;
    let places = Rectangle::between(0, 0, (0, 0), place((n + 1, w + 1)));
    let area = Rectangle::between(0, 0, low, high);
    assert!(low == (area.west, area.south) && area.contains(&places) && places.widened(STEP - 1).contains(&area), "{area:?}");
    let metals = design.pins.iter().flat_map(|pin| &pin.metals).chain(design.nets.iter().flat_map(|net| &net.shapes));
    assert!(metals.into_iter().all(|metal| area.contains(metal)), "{area:?}");
}

/// The name of a pin in DEF.
fn pin_name(pin: &slow::Pin) -> String {
    format!("{}_{}", ["north", "south", "west", "east"][pin.side], pin.place)
}

/// The ticket's pins, each on all layers whose direction reaches it.
fn same_pins(expected: &Expected, technology: &Technology, design: &Design) {
    type Described = (Place, String, String, Vec<Rectangle>);
    let width = technology.metals[0].width;
    let found = design.pins.iter().map(|pin| -> Described {
        let places = pin.metals.iter().map(|metal| metal.widened(-width / 2));
        (pin.place, pin.name.clone(), pin.net.clone(), sorted(places))
    });
    let all = expected.pins.iter().map(|pin| -> Described {
        let place = expected.place_of(pin);
        let places = expected.layers_at(pin).into_iter().map(|layer| Rectangle::between(layer, DRAWN, place, place));
        (place, pin_name(pin), expected.ticket.name(pin.net), places.collect())
    });
    assert_eq!(sorted(found), sorted(all), "{:?}", expected.wiring);
}

/// The nets have their own pins; and the points of their metal, and their vias, are the wiring's.
fn same_nets(expected: &Expected, technology: &Technology, design: &Design) {
    let places: BTreeMap<&str, Place> = design.pins.iter().map(|pin| (&pin.name[..], pin.place)).collect();
    let found = design.nets.iter().map(|net| (net.name.clone(), sorted(net.pins.iter().map(|pin| places.get(&pin[..]).copied()))));
    let all = expected.nets().into_iter().map(|net| {
        let pins = expected.pins.iter().filter(|pin| pin.net == net);
        (expected.ticket.name(net), sorted(pins.map(|pin| Some(expected.place_of(pin)))))
    });
    assert_eq!(sorted(found), sorted(all), "{:?}", expected.ticket);
    let (all_bars, all_vias) = (expected.bars(), expected.vias());
    for net in &design.nets {
        let lines = centre_lines(&net.shapes, technology);
        assert!(lines.iter().all(Rectangle::is_on_grid), "{net:?}");
        let (cuts, metals): (Vec<Rectangle>, Vec<Rectangle>) = lines.into_iter().partition(|line| line.purpose == CUT);
        let of_net = |all: &[OfNet]| -> Vec<Rectangle> {
            all.iter().filter(|(number, _)| expected.ticket.name(*number) == net.name).map(|(_, line)| *line).collect()
        };
        assert_eq!(sorted(cuts), sorted(of_net(&all_vias)), "{net:?} {:?}", expected.wiring);
        assert_eq!(points(metals), points(of_net(&all_bars)), "{net:?} {:?}", expected.wiring);
    }
}

fn points(lines: impl IntoIterator<Item = Rectangle>) -> BTreeSet<(u16, Place)> {
    lines.into_iter().flat_map(|line| line.places().into_iter().map(move |place| (line.layer, place))).collect()
}

/// By what touches what, each shape of the DEF belongs to the net whose it is.
fn same_joins(expected: &Expected, design: &Design) {
    let (mut shapes, mut names, mut labels) = (vec![], vec![], vec![]);
    for net in &design.nets {
        shapes.extend(&net.shapes);
        names.extend(net.shapes.iter().map(|_| net.name.clone()));
    }
    for pin in &design.pins {
        // Over its metals there is a pin as GDSII has it: they are one pin.
        let over = pin.metals.first().map(|metal| Rectangle { layer: PINS, ..*metal });
        shapes.extend(pin.metals.iter().copied().chain(over));
        names.resize(shapes.len(), pin.net.clone());
        labels.push(Label { layer: PINS, purpose: TEXT, place: pin.place, text: pin.net.clone() });
    }
    assert!(read(extracted(&shapes, &labels), expected) == names, "{:?} {:?}", expected.ticket, expected.wiring);
}
