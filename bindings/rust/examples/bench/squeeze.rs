//! How near to the floor a squeeze comes, and how long it takes: processor time of one run, since a seed gives one wiring.

use super::processor_seconds;
use pozqaben::{edge_floor, hardest_box, squeeze, survey, Effort};
use slow::tickets::{of_shape, Numbers};
use slow::{BOX, LONGEST_SIDE};

/// The sides of the random boxes are up to this.
const SMALL_SIDE: usize = 20;
const BOXES: usize = 60;

struct Line {
    floor: usize,
    edge_floor: usize,
    found: usize,
    laid: usize,
    /// Milliseconds until a wiring on so many layers was found, and until the end.
    steps: Vec<(usize, f64)>,
    ms: f64,
}

fn line(ticket: &[u8], effort: Effort) -> Line {
    let (figures, floors) = (survey(ticket).expect("a good ticket"), edge_floor(ticket).expect("a good ticket"));
    let start = processor_seconds();
    let ms = || (processor_seconds() - start) * 1e3;
    let mut steps = Vec::new();
    let squeezed = squeeze(ticket, effort, &mut |p| {
        if p.conflicts == 0 {
            steps.push((p.k, ms()));
        }
    });
    let found = squeezed.expect("a good ticket").wiring.k;
    Line { floor: floors.floor, edge_floor: floors.edge_floor, found, laid: figures.layers, steps, ms: ms() }
}

/// Boxes of any shape up to the small side; each seed makes its own set.
fn small_boxes(seed: u64, tenths: impl Fn(&mut Numbers) -> usize) -> Vec<Vec<u8>> {
    let r = &mut Numbers::new(seed);
    let mut small_box = || {
        let (n, w, tenths) = (1 + r.below(SMALL_SIDE), 1 + r.below(SMALL_SIDE), tenths(r));
        of_shape(r, BOX, n, w, tenths)
    };
    (0..BOXES).map(|_| small_box()).collect()
}

fn small_table() {
    let title = format!("squeeze, {BOXES} boxes up to {SMALL_SIDE} × {SMALL_SIDE}");
    println!("\n| {title} | floor | edge floor | found | laid | mean distance | + 0, + 1, + 2, more | at edge floor | ms a box |");
    println!("|---|---|---|---|---|---|---|---|---|");
    let sets = [
        ("all places filled, seed 1", small_boxes(1, |_| 10)),
        ("all places filled, seed 2", small_boxes(2, |_| 10)),
        ("1 to 10 tenths filled, seed 3", small_boxes(3, |r| 1 + r.below(10))),
        ("1 to 10 tenths filled, seed 4", small_boxes(4, |r| 1 + r.below(10))),
    ];
    for (name, tickets) in sets {
        let lines: Vec<Line> = tickets.iter().map(|t| line(t, Effort::default())).collect();
        let sum = |figure: fn(&Line) -> usize| lines.iter().map(figure).sum::<usize>();
        let above = |least: usize, most: usize| lines.iter().filter(|l| (least..=most).contains(&(l.found - l.floor))).count();
        let (floor, edge_floor, found, laid) = (sum(|l| l.floor), sum(|l| l.edge_floor), sum(|l| l.found), sum(|l| l.laid));
        let distance = (found - floor) as f64 / BOXES as f64;
        let counts = [above(0, 0), above(1, 1), above(2, 2), above(3, usize::MAX)].map(|c| c.to_string()).join(", ");
        let at_edge = lines.iter().filter(|l| l.found == l.edge_floor).count();
        let ms = lines.iter().map(|l| l.ms).sum::<f64>() / BOXES as f64;
        println!("| {name} | {floor} | {edge_floor} | {found} | {laid} | {distance:.2} | {counts} | {at_edge} | {ms:.0} |");
    }
}

fn large_table() {
    println!("\n| squeeze | floor | found | laid | ms until so many layers were found | ms in all |\n|---|---|---|---|---|---|");
    let dense = std::fs::read("../../examples/dense-40x12.ticket").expect("the program runs in bindings/rust");
    let full = |side: usize| hardest_box(side, side).expect("a shape");
    for (name, ticket) in [("dense 40 × 12", dense), ("full 40 × 40", full(40)), ("full 90 × 90", full(LONGEST_SIDE))] {
        let Line { floor, found, laid, steps, ms, .. } = line(&ticket, Effort::default());
        let steps: Vec<String> = steps.iter().map(|(k, ms)| format!("{k}: {ms:.0}")).collect();
        println!("| {name} | {floor} | {found} | {laid} | {} | {ms:.0} |", steps.join(", "));
    }
}

pub fn tables() {
    small_table();
    large_table();
}
