//! DEF and LEF 5.8: the wiring as routed nets, and the layers that it is routed on.

use super::{around, Bar, Layout, Point, HALF_METAL, HALF_VIA, STEP};
use crate::pins::Pin;

const VERSION: &str = "VERSION 5.8 ;\nDIVIDERCHAR \"/\" ;\nBUSBITCHARS \"[]\" ;\n";
/// The site of the rows, a square around a point.
const SITE: &str = "point";

fn metal(l: usize) -> String {
    format!("metal{l}")
}

/// The layer of the cuts between a metal and the next one.
fn cut(l: usize) -> String {
    format!("via{l}")
}

/// The via there, with the metal around the cut.
fn via(l: usize) -> String {
    format!("m{l}_m{}", l + 1)
}

fn pin_name(pin: &Pin) -> String {
    format!("{}_{}", pin.side.name(), pin.place)
}

/// Two opposite corners, as DEF writes them.
fn corners([west, south, east, north]: [i32; 4]) -> String {
    format!("( {west} {south} ) ( {east} {north} )")
}

fn point(p: Point) -> String {
    let [x, y, ..] = around(p, p, 0);
    format!("( {x} {y} )")
}

/// A square around the origin.
fn square(half: i32) -> String {
    corners(around((0, 0), (0, 0), half))
}

fn micrometres(nanometres: i32) -> f64 {
    nanometres as f64 / STEP as f64
}

pub fn technology(layout: &Layout) -> String {
    let width = micrometres(2 * HALF_METAL);
    let cut_width = micrometres(2 * HALF_VIA);
    let mut lef = format!("{VERSION}UNITS\n  DATABASE MICRONS {STEP} ;\nEND UNITS\nMANUFACTURINGGRID 0.001 ;\n");
    for l in layout.layers() {
        let direction = if layout.is_horizontal(l) { "HORIZONTAL" } else { "VERTICAL" };
        let (metal, cut) = (metal(l), cut(l));
        lef += &format!(
            "LAYER {metal}\n  TYPE ROUTING ;\n  DIRECTION {direction} ;\n  PITCH 1 ;\n  WIDTH {width} ;\n  SPACING {width} ;\nEND {metal}\n"
        );
        if l < layout.wiring.k {
            lef += &format!("LAYER {cut}\n  TYPE CUT ;\n  WIDTH {cut_width} ;\n  SPACING {cut_width} ;\nEND {cut}\n");
        }
    }
    lef + &format!("SITE {SITE}\n  CLASS CORE ;\n  SIZE 1 BY 1 ;\nEND {SITE}\nEND LIBRARY\n")
}

/// A section with its number of entries.
fn section(name: &str, entries: &[String]) -> String {
    format!("{name} {} ;\n{}END {name}\n", entries.len(), entries.concat())
}

fn rows(layout: &Layout) -> String {
    let row = |j: usize| {
        let [x, y, ..] = around((1, j), (1, j), STEP / 2);
        format!("ROW row_{j} {SITE} {x} {y} N DO {} BY 1 STEP {STEP} 0 ;\n", layout.wiring.n)
    };
    (1..=layout.wiring.w).map(row).collect()
}

fn tracks(layout: &Layout) -> String {
    let tracks = |l: usize| {
        let (axis, count) = if layout.is_horizontal(l) { ("Y", layout.wiring.w) } else { ("X", layout.wiring.n) };
        format!("TRACKS {axis} {STEP} DO {count} STEP {STEP} LAYER {} ;\n", metal(l))
    };
    layout.layers().map(tracks).collect()
}

fn via_entry(l: usize) -> String {
    let (metal_square, cut_square) = (square(HALF_METAL), square(HALF_VIA));
    let (lower, between, upper) = (metal(l), cut(l), metal(l + 1));
    format!("- {} + RECT {lower} {metal_square} + RECT {between} {cut_square} + RECT {upper} {metal_square} ;\n", via(l))
}

/// A pin, on each layer that reaches it.
fn pin_entry(layout: &Layout, pin: &Pin) -> String {
    let on_layer = |l: usize| format!("\n  + LAYER {} {}", metal(l), square(HALF_METAL));
    let layers: String = layout.reaching(pin).map(on_layer).collect();
    let (name, net, at) = (pin_name(pin), layout.ticket.name(pin.net), point(layout.outside(pin)));
    format!("- {name} + NET {net} + DIRECTION INOUT + USE SIGNAL{layers}\n  + PLACED {at} N ;\n")
}

/// A net's pins, and its wiring of these parts.
fn net_entry(layout: &Layout, net: u8, parts: &[String]) -> String {
    let pins: String = layout.pins.iter().filter(|pin| pin.net == net).map(|pin| format!(" ( PIN {} )", pin_name(pin))).collect();
    format!("- {}{pins}\n  + ROUTED {}\n  + USE SIGNAL ;\n", layout.ticket.name(net), parts.join("\n  NEW "))
}

/// The parts of each net's wiring, by its number. A bar of one point is left out: the net is in one piece and the bar reaches no pin,
/// so that a via stands there, which has the bar's metal.
fn parts(layout: &Layout) -> Vec<Vec<String>> {
    let mut parts = vec![Vec::new(); u8::MAX as usize + 1];
    for l in layout.layers() {
        for Bar { net, from, to } in layout.bars(l).into_iter().filter(|bar| bar.from != bar.to) {
            parts[net as usize].push(format!("{} {} {}", metal(l), point(from), point(to)));
        }
        for p in layout.vias(l) {
            parts[layout.net(p, l) as usize].push(format!("{} {} {}", metal(l), point(p), via(l)));
        }
    }
    parts
}

pub fn design(layout: &Layout) -> String {
    let (n, w, k) = (layout.wiring.n, layout.wiring.w, layout.wiring.k);
    let area = corners(around((0, 0), (n + 1, w + 1), STEP / 2));
    let mut def = format!("{VERSION}DESIGN {} ;\nUNITS DISTANCE MICRONS {STEP} ;\nDIEAREA {area} ;\n", layout.name());
    def += &rows(layout);
    def += &tracks(layout);
    def += &section("VIAS", &(1..k).map(via_entry).collect::<Vec<_>>());
    def += &section("COMPONENTS", &[]);
    def += &section("PINS", &layout.pins.iter().map(|pin| pin_entry(layout, pin)).collect::<Vec<_>>());
    let parts = parts(layout);
    let net_entry = |net: u8| net_entry(layout, net, &parts[net as usize]);
    def += &section("NETS", &layout.nets().into_iter().map(net_entry).collect::<Vec<_>>());
    def + "END DESIGN\n"
}
