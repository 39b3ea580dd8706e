//! The files of a layout say what its wiring and its ticket say. They are read by readers that share nothing with the writer.

mod damage;
mod def;
mod expected;
mod gds;
mod lef;
mod same;
mod shapes;

use pozqaben::{hardest_box, lay, squeeze, Effort, Layout, Refusal, Ticket, Wiring};
use same::same_files;
use slow::tickets::{every, of_shape, random, rings, Numbers, DOCUMENT};
use slow::wirings::{spoiled, wired};
use slow::{BOX, CHANNEL, LONGEST_SIDE, MOST_LAYERS, MOST_TRUNK_LAYERS, ROW};

/// The refusal of a two-layer channel that is solid.
const SOLID: u8 = 17;

fn good(t: &[u8]) -> Ticket {
    Ticket::new(t.to_vec()).expect("a good ticket")
}

fn laid(t: &[u8]) -> Wiring {
    Wiring::from(lay(t).expect("a ticket that is laid"))
}

/// Looks at the files of the wiring that is laid; whether one is.
fn lays(t: &[u8]) -> bool {
    let ticket = good(t);
    match Layout::laid(&ticket) {
        Ok(layout) => {
            same_files(&ticket, &laid(t), &layout);
            true
        }
        Err(refusal) => {
            assert_eq!((refusal.number, lay(t).err()), (SOLID, Some(refusal)), "{t:?}");
            false
        }
    }
}

fn same_files_of(ticket: &Ticket, wiring: Wiring) {
    let layout = Layout::of(ticket, wiring.clone()).expect("a legal wiring");
    same_files(ticket, &wiring, &layout);
}

#[test]
fn documents() {
    let good = DOCUMENT.iter().filter(|(_, t)| slow::read::read(t).is_ok());
    assert_eq!(good.filter(|(_, t)| lays(t)).count(), 11);
}

#[test]
fn random_tickets() {
    let r = &mut Numbers::new(701);
    let laid = (0..400).filter(|_| lays(&random(r))).count();
    assert!(laid > 350, "{laid}");
}

#[test]
fn extreme_tickets() {
    let r = &mut Numbers::new(703);
    let mut all = every(BOX, 1, 1);
    for (n, w) in [(1, 1), (1, 2), (LONGEST_SIDE, 1), (1, LONGEST_SIDE), (LONGEST_SIDE, LONGEST_SIDE)] {
        all.extend([0, 5, 10].map(|tenths| of_shape(r, BOX, n, w, tenths)));
        all.push(hardest_box(n, w).unwrap());
    }
    for (kind, byte2) in [(ROW, 1), (ROW, MOST_TRUNK_LAYERS), (CHANNEL, 1), (CHANNEL, MOST_TRUNK_LAYERS)] {
        all.extend([1, LONGEST_SIDE].map(|n| of_shape(r, kind, n, byte2, 10)));
    }
    all.push(rings(LONGEST_SIDE));
    assert!(all.iter().all(|t| lays(t)));
}

#[test]
fn squeezed_boxes() {
    let r = &mut Numbers::new(705);
    let (mut fewer, mut single) = (0, 0);
    for _ in 0..80 {
        let (n, w, tenths) = (1 + r.below(12), 1 + r.below(12), r.below(11));
        let t = of_shape(r, BOX, n, w, tenths);
        let wiring = squeeze(&t, Effort { budget: 200, seed: 1 }, &mut |_| {}).expect("a good box").wiring;
        fewer += usize::from(wiring.k < laid(&t).k);
        single += usize::from(wiring.k == 1);
        same_files_of(&good(&t), wiring);
    }
    assert!(fewer > 40 && single > 5, "{fewer} {single}");
}

/// Wirings that nothing here made, of any width, number of layers and first direction.
#[test]
fn wirings_of_others() {
    let r = &mut Numbers::new(707);
    for _ in 0..400 {
        let case = wired(r);
        let ticket = good(&case.ticket);
        let n = case.ticket[1] as usize;
        let mut wiring = Wiring { n, w: case.w, k: case.k, first: case.first, points: case.wiring };
        same_files_of(&ticket, wiring.clone());
        grow(r, &mut wiring);
        same_files_of(&ticket, wiring);
    }
}

/// Gives empty points to nets beside them, which leaves a wiring legal: bars of one point, loops, and bars beside pins of other nets.
fn grow(r: &mut Numbers, wiring: &mut Wiring) {
    let (n, layer) = (wiring.n, wiring.n * wiring.w);
    for _ in 0..2 * wiring.points.len() {
        let at = r.below(wiring.points.len());
        let (i, j) = (at % n, at % layer / n);
        let is_horizontal = wiring.first != (at / layer % 2 == 1);
        let beside = match (is_horizontal, r.below(4)) {
            (_, 0) => at.checked_sub(layer),
            (_, 1) => Some(at + layer),
            (true, 2) if i > 0 => Some(at - 1),
            (true, 3) if i + 1 < n => Some(at + 1),
            (false, 2) if j > 0 => Some(at - n),
            (false, 3) if j + 1 < wiring.w => Some(at + n),
            _ => None,
        };
        if let Some(net) = beside.and_then(|beside| wiring.points.get(beside).copied()).filter(|_| wiring.points[at] == 0) {
            wiring.points[at] = net;
        }
    }
}

/// What is laid, on one more layer, above or below.
#[test]
fn an_empty_layer() {
    let r = &mut Numbers::new(709);
    for _ in 0..150 {
        let t = random(r);
        let Ok(laid) = lay(&t) else { continue };
        let wiring = Wiring::from(laid);
        let empty = vec![0; wiring.n * wiring.w];
        let k = wiring.k + 1;
        assert!(k <= MOST_LAYERS, "{t:?}");
        same_files_of(&good(&t), Wiring { k, points: [&wiring.points[..], &empty].concat(), ..wiring });
        same_files_of(&good(&t), Wiring { k, first: !wiring.first, points: [&empty, &wiring.points[..]].concat(), ..wiring });
    }
}

/// The last metal stands beside the layer of the pins.
#[test]
fn most_layers() {
    for (_, t) in DOCUMENT.iter().filter(|(_, t)| lay(t).is_ok()) {
        let wiring = laid(t);
        let empty = vec![0; wiring.n * wiring.w * (MOST_LAYERS - wiring.k)];
        let first = wiring.first == (wiring.k % 2 == 1);
        same_files_of(&good(t), Wiring { k: MOST_LAYERS, points: [&wiring.points[..], &empty].concat(), ..wiring });
        same_files_of(&good(t), Wiring { k: MOST_LAYERS, first, points: [&empty, &wiring.points[..]].concat(), ..wiring });
    }
}

#[test]
fn names() {
    let text = "channel 4 1\nclk a[3] . b<1>\na[3] clk b<1> .\n";
    let ticket = Ticket::from_file(text.as_bytes()).expect("a good ticket");
    let layout = Layout::laid(&ticket).unwrap();
    same_files(&ticket, &laid(ticket.bytes()), &layout);
    let library = gds::read(&layout.gds()).unwrap();
    let technology = lef::read(&layout.lef()).unwrap();
    let design = def::read(&layout.def(), &technology).unwrap();
    let mut labels: Vec<&str> = library.labels.iter().map(|label| &label.text[..]).collect();
    labels.sort_unstable();
    assert_eq!(labels, ["a[3]", "a[3]", "b<1>", "b<1>", "clk", "clk"]);
    let mut nets: Vec<&str> = design.nets.iter().map(|net| &net.name[..]).collect();
    nets.sort_unstable();
    assert_eq!(nets, ["a[3]", "b<1>", "clk"]);
    // Every character that a name may have, words of the formats, the longest name, and one that is another net's number.
    for names in [["a_$.:/[]<>-", "_"], ["NEW", "END"], ["PIN", "SIGNAL"], ["x23456789_123456789_123456789_12", "0x"], ["2", "a"]] {
        let [a, b] = names;
        let ticket = Ticket::from_file(format!("box 3 2\n{a} {b} .\n. {a} {b}\n{a} .\n. {b}\n").as_bytes()).expect("a good ticket");
        assert_eq!([1, 2].map(|net| ticket.name(net)), names);
        same_files(&ticket, &laid(ticket.bytes()), &Layout::laid(&ticket).unwrap());
    }
}

#[test]
fn wirings_that_are_not_legal() {
    let r = &mut Numbers::new(711);
    let mut refused = 0;
    for _ in 0..300 {
        let t = random(r);
        let Ok(laid) = lay(&t) else { continue };
        let wiring = Wiring::from(laid);
        let nets = slow::read::read(&t).expect("a good ticket").nets();
        let points = spoiled(r, &wiring.points, &nets);
        let by_slow = slow::judge::check(&t, wiring.w, wiring.k, wiring.first, &points, points.len());
        let refusal = Layout::of(&good(&t), Wiring { points, ..wiring }).err();
        assert_eq!(refusal.map(|Refusal { number, place }| slow::Refusal(number, place)), by_slow.err(), "{t:?}");
        refused += usize::from(refusal.is_some());
    }
    assert!(refused > 100, "{refused}");
}

/// Each number of a wiring's sizes is looked at, though `check` takes n from the ticket.
#[test]
fn sizes_of_another_wiring() {
    for t in [DOCUMENT[3].1, &hardest_box(6, 3).unwrap(), &rings(8)] {
        let (ticket, wiring) = (good(t), laid(t));
        assert!(Layout::of(&ticket, wiring.clone()).is_ok());
        let Wiring { n, w, k, .. } = wiring;
        for wrong in [0, 1, 2, n - 1, n + 1, 2 * n, w * k, usize::MAX] {
            let sizes = [(wrong, w, k), (n, wrong, k), (n, w, wrong)].into_iter().filter(|sizes| *sizes != (n, w, k));
            for (n, w, k) in sizes {
                assert!(Layout::of(&ticket, Wiring { n, w, k, ..wiring.clone() }).is_err(), "{n} {w} {k} {t:?}");
            }
        }
    }
}

/// Without any one of its points a wiring is legal or not, and refused where it is not.
#[test]
fn cleared_points() {
    let t = hardest_box(4, 3).unwrap();
    let wiring = laid(&t);
    let used = (0..wiring.points.len()).filter(|at| wiring.points[*at] != 0);
    let mut refused = 0;
    for at in used {
        let mut cleared = wiring.clone();
        cleared.points[at] = 0;
        let refusal = cleared.check(&t).err();
        assert_eq!(Layout::of(&good(&t), cleared).err(), refusal, "{at}");
        refused += usize::from(refusal == Some(Refusal { number: Refusal::NET_IN_PIECES, place: wiring.points[at] as usize }));
    }
    assert!(refused > 20, "{refused}");
}
