//! Writes what the vector programs read and must print; with `--check` only says whether the stored files are these.
//!
//!     cargo run --manifest-path tests/slow/Cargo.toml --bin generate [-- --check]

use slow::board::{place_number, place_numbers};
use slow::edits::{self, Call};
use slow::judge::{self, Grid};
use slow::records::{hash, row, RECORD_BUFFER, STAIN};
use slow::tickets::{self, damaged, encode, of_shape, slots, Numbers, Places, DOCUMENT};
use slow::wirings::{case, layered, spoiled, wired, Case};
use slow::{edge, flat, hardest, lay, no_kind, places, read, survey, two_layer, Refusal, Ticket};
use slow::{BOX, CHANNEL, EAST, NORTH, ROW, SOUTH, TWO_LAYER, WEST};
use slow::{LARGEST_NET, LONGEST_FLAT, LONGEST_SIDE, LONGEST_TICKET, MOST_LAYERS, MOST_TRUNK_LAYERS, WIDEST_CHANNEL, WIDEST_GRID};
use std::path::Path;

fn record(t: &[u8]) -> Vec<u8> {
    let mut out = (t.len() as u16).to_le_bytes().to_vec();
    out.extend(t);
    out
}

fn document() -> Vec<Vec<u8>> {
    DOCUMENT.iter().map(|(_, t)| t.to_vec()).collect()
}

/// Two-layer channels of every sort, the shortest and the longest, solid and nearly so.
fn two_layers(r: &mut Numbers) -> Vec<Vec<u8>> {
    let mut out = vec![encode(TWO_LAYER, 1, 1, &Places::new()), encode(TWO_LAYER, LONGEST_SIDE, 1, &Places::new())];
    out.extend([4, 5, 6, 7, LONGEST_SIDE].map(tickets::rings));
    let sorts = [tickets::solid, tickets::a_net_less, tickets::a_pin_less, tickets::one_sided_pair, tickets::straight, tickets::long_nets];
    for make in sorts {
        out.extend([1, 2, 3, 8].map(|n| make(r, n)));
    }
    out.push(tickets::solid(r, LONGEST_SIDE));
    out.push(tickets::a_pin_less(r, LONGEST_SIDE));
    out.push(of_shape(r, TWO_LAYER, LONGEST_SIDE, 1, 10));
    out
}

/// A box in which every so many places of each of these sides, one after the other, have a net of their own; all places of a side
/// that has fewer.
fn grouped(n: usize, w: usize, sides: &[usize], size: usize) -> Vec<u8> {
    let mut pins = Places::new();
    for side in sides {
        let last = places(*side, n, w);
        let size = size.min(last);
        // On the longest sides, pairs take all net numbers there are.
        let net = |i: usize| 1 + side * LONGEST_SIDE / 2 + (i - 1) / size;
        pins.extend((1..=last / size * size).map(|i| ((*side, i), net(i) as u8)));
    }
    encode(BOX, n, w, &pins)
}

/// Boxes with nets that are all on one side: every choice of sides of small shapes, and all sides of the longest; a net across the
/// one column or the one track, alone and beside nets all on either side of it; and so many random ones.
fn side_boxes(r: &mut Numbers, random: usize) -> Vec<Vec<u8>> {
    // A side of one place has no net of its own.
    let long = |n: usize, w: usize| -> Vec<usize> { (NORTH..=EAST).filter(|side| places(*side, n, w) > 1).collect() };
    let mut out = Vec::new();
    for (n, w) in [(1, 2), (2, 1), (2, 2), (1, 5), (5, 1), (4, 3)] {
        for map in 1..16 {
            let sides: Vec<usize> = (NORTH..=EAST).filter(|side| map >> side & 1 == 1).collect();
            if sides.iter().all(|side| long(n, w).contains(side)) {
                out.extend([2, LONGEST_SIDE].map(|size| grouped(n, w, &sides, size)));
            }
        }
    }
    for (n, w) in [(1, LONGEST_SIDE), (LONGEST_SIDE, 1), (LONGEST_SIDE, LONGEST_SIDE)] {
        out.extend([2, LONGEST_SIDE].map(|size| grouped(n, w, &long(n, w), size)));
    }
    out.dedup();
    for (a, b, n, w) in [(WEST, EAST, 1, 3), (SOUTH, NORTH, 3, 1)] {
        let pins = [((a, 1), 1), ((a, 2), 1), ((a, 3), 3), ((b, 1), 3), ((b, 2), 2), ((b, 3), 2)];
        out.push(encode(BOX, n, w, &Places::from(pins)));
        out.push(encode(BOX, 1, 1, &Places::from([((a, 1), 1), ((b, 1), 1)])));
    }
    out.extend((0..random).map(|_| tickets::side_nets(r)));
    out
}

fn read_tickets() -> Vec<Vec<u8>> {
    let r = &mut Numbers::new(3);
    let mut out = vec![vec![]];
    out.extend(document());
    let large = of_shape(r, BOX, 13, 9, 7);
    for t in [DOCUMENT[0].1, DOCUMENT[4].1, DOCUMENT[8].1, &large, &tickets::rings(9)] {
        out.extend((0..=t.len()).map(|size| t[..size].to_vec()));
    }
    for kind in [0, ROW, CHANNEL, BOX, TWO_LAYER, TWO_LAYER + 1, 128, 255] {
        out.extend([0, 1, 2, 3, 4, 15, 16, 255].map(|sides| vec![kind, 2, 1, sides]));
    }
    let (longest, most) = (LONGEST_SIDE as u8, MOST_TRUNK_LAYERS as u8);
    for kind in [ROW, CHANNEL, BOX, TWO_LAYER] {
        for n in [0, 1, longest, longest + 1, 255] {
            out.extend([0, 1, 2, most, most + 1, longest, longest + 1].map(|byte2| vec![kind, n, byte2, 0]));
        }
    }
    for (kind, side) in [(ROW, NORTH), (TWO_LAYER, SOUTH)] {
        for places in [1, 7, 8, 9, 15, 16, 17, longest - 1, longest] {
            for last in [0u8, 1, 2, 3, 4, 127, 128, 255] {
                let mut t = vec![kind, places, 1, 1 << side];
                t.extend(vec![0; places.div_ceil(8) as usize - 1]);
                t.push(last);
                t.extend(vec![1; last.count_ones() as usize]);
                out.push(t);
            }
        }
    }
    for net in [0, 1, LARGEST_NET, LARGEST_NET + 1, 255] {
        out.push(vec![ROW, 3, 1, 1, 7, 1, 1, net]);
        out.push(vec![ROW, 3, 1, 1, 7, net, net, 5]);
        out.push(vec![ROW, 2, 1, 1, 3, net]);
    }
    let net = |s: usize, i: usize| ((i + s) % LARGEST_NET as usize + 1) as u8;
    let full: Places = [NORTH, SOUTH, WEST, EAST].into_iter().flat_map(|s| (1..=LONGEST_SIDE).map(move |i| ((s, i), net(s, i)))).collect();
    let full = encode(BOX, LONGEST_SIDE, LONGEST_SIDE, &full);
    out.push(full[..full.len() - 1].to_vec());
    out.push([&full[..], &[1]].concat());
    out.push(full);
    out.extend(two_layers(r));
    for _ in 0..260 {
        let t = tickets::random(r);
        out.push(if r.below(3) > 0 { damaged(r, &t) } else { t });
    }
    out
}

fn survey_tickets() -> Vec<Vec<u8>> {
    let r = &mut Numbers::new(5);
    let mut out = vec![vec![]];
    out.extend(document());
    out.push(vec![0; 1000]);
    let (side, most) = (LONGEST_SIDE, MOST_TRUNK_LAYERS);
    let trunks = [(ROW, side, 1), (ROW, side, most), (CHANNEL, side, 1), (CHANNEL, side, 3)];
    let boxes = [(side, side), (side, 1), (1, side), (40, 12), (side - 1, side), (1, 1)].map(|(n, w)| (BOX, n, w));
    for (kind, n, byte2) in trunks.into_iter().chain(boxes) {
        out.extend([0, 5, 10].map(|tenths| of_shape(r, kind, n, byte2, tenths)));
    }
    for (a, b) in [(NORTH, EAST), (NORTH, WEST), (SOUTH, EAST), (SOUTH, WEST)] {
        out.push(tickets::corner(r, 9, 7, a, b));
        out.push(tickets::corner(r, 5, 11, a, b));
    }
    out.extend(two_layers(r));
    for _ in 0..220 {
        let t = tickets::random(r);
        out.push(if r.below(3) == 0 { damaged(r, &t) } else { t });
    }
    out.extend(side_boxes(r, 120));
    out
}

/// Boxes in which one net has all places of a side: alone, with a net that has the opposite side, and with nets at the ends of a side
/// between the two, where they cross the first and the last line.
fn one_net_sides(n: usize, w: usize) -> Vec<Vec<u8>> {
    let all = |side: usize, net: u8| -> Places { (1..=places(side, n, w)).map(|i| ((side, i), net)).collect() };
    let mut out = Vec::new();
    for (side, opposite, between) in [(NORTH, SOUTH, EAST), (SOUTH, NORTH, WEST), (WEST, EAST, SOUTH), (EAST, WEST, NORTH)] {
        // A side of one place has no net of its own.
        if places(side, n, w) == 1 {
            continue;
        }
        let mut both = all(side, 1);
        both.extend(all(opposite, 2));
        let mut crossed = all(side, 1);
        let last = places(between, n, w);
        if last > 3 {
            crossed.extend([(1, 2), (2, 2), (last - 1, 3), (last, 3)].map(|(i, net)| ((between, i), net)));
        }
        out.extend([all(side, 1), both, crossed].map(|pins| encode(BOX, n, w, &pins)));
    }
    out.dedup();
    out
}

/// Tickets of all kinds, empty and full, and with each of Read's refusals; every box of the smallest shapes; and boxes with many pins
/// of few nets on a side, of the longest sides too, whose edge floor is often above the floor.
fn edge_floor_tickets() -> Vec<Vec<u8>> {
    let r = &mut Numbers::new(101);
    let mut out = vec![vec![]];
    out.extend(document());
    out.push(vec![0; 1000]);
    out.extend(refused_tickets());
    let (side, most) = (LONGEST_SIDE, MOST_TRUNK_LAYERS);
    let trunks = [(ROW, side, 1), (ROW, 12, most), (CHANNEL, side, 1), (CHANNEL, 12, most)];
    let boxes =
        [(1, 1), (5, 1), (1, 5), (side, side), (side, 1), (1, side), (40, 12), (12, 40), (side - 1, side)].map(|(n, w)| (BOX, n, w));
    for (kind, n, byte2) in trunks.into_iter().chain(boxes) {
        out.extend([0, 5, 10].map(|tenths| of_shape(r, kind, n, byte2, tenths)));
    }
    for (n, w) in [(1, 1), (1, 2), (2, 1), (3, 4), (40, 12), (1, side), (side, 1), (side, side)] {
        let one_net = slots(BOX, n, w).into_iter().map(|place| (place, LARGEST_NET)).collect();
        out.extend([hardest::ticket(n, w), encode(BOX, n, w, &one_net)]);
        out.extend(one_net_sides(n, w));
    }
    for (a, b) in [(NORTH, EAST), (NORTH, WEST), (SOUTH, EAST), (SOUTH, WEST)] {
        out.extend([(9, 7), (5, 11)].map(|(n, w)| tickets::corner(r, n, w, a, b)));
    }
    for (n, w, step) in [(1, 1, 1), (1, 2, 1), (2, 1, 1), (1, 3, 29), (3, 1, 29), (2, 2, 11)] {
        out.extend(tickets::every(BOX, n, w).into_iter().step_by(step));
    }
    out.extend(two_layers(r).into_iter().step_by(3));
    out.extend(side_boxes(r, 20).into_iter().step_by(2));
    out.extend((0..250).map(|_| tickets::few_nets(r)));
    for _ in 0..60 {
        let t = if r.below(2) == 0 { tickets::random(r) } else { tickets::few_nets(r) };
        out.push(damaged(r, &t));
    }
    out
}

/// K1 to K3 of the document, joins only through a pin, the order of tracks, 255 layers, empty tickets, and large combs.
fn drawn_cases() -> Vec<Case> {
    let pins = |list: &[(usize, usize, u8)]| list.iter().map(|(s, i, m)| ((*s, *i), *m)).collect::<Places>();
    let row2 = encode(ROW, 2, 1, &pins(&[(NORTH, 1, 1), (NORTH, 2, 1)]));
    let row3 = encode(ROW, 3, 1, &pins(&[(NORTH, 1, 1), (NORTH, 2, 1)]));
    let mut out = vec![
        case(&row2, 1, 2, false, vec![1, 1, 1, 1]),
        case(&row2, 1, 2, false, vec![1, 1, 0, 0]),
        case(&row2, 1, 1, true, vec![1, 1]),
        case(&row3, 1, 2, false, vec![1, 1, 1, 1, 1, 0]),
    ];
    for a in 4..9 {
        out.push(case(&row2, 1, 2, false, vec![1, 1, 1, a % 3]));
        out.push(case(&row2, 1, 2, false, vec![a % 3, 1, a, a]));
    }
    let through = encode(BOX, 2, 3, &pins(&[(NORTH, 1, 7), (WEST, 1, 7), (NORTH, 2, 9), (SOUTH, 2, 9)]));
    for (low, top) in [(1, 3), (1, 2), (2, 3), (2, 2)] {
        let x = layered(2, 3, 5, |i, j, l| match (i, l) {
            (1, 1) | (1, 5) => 7,
            (1, 2) if j == 1 => 7,
            (2, 1) | (2, 3) if (low..=top).contains(&j) => 9,
            _ => 0,
        });
        out.push(case(&through, 3, 5, false, x));
    }
    for kind in [CHANNEL, TWO_LAYER] {
        let south = encode(kind, 2, 1, &pins(&[(SOUTH, 1, 4), (SOUTH, 2, 4)]));
        for track in 1..=3 {
            for first in [false, true] {
                out.push(case(&south, 3, 2, first, layered(2, 3, 2, |_, j, _| if j == track { 4 } else { 0 })));
            }
        }
        let tower = encode(kind, 2, 1, &pins(&[(NORTH, 1, LARGEST_NET), (SOUTH, 2, LARGEST_NET)]));
        for first in [false, true] {
            for hole in [0, 1, 128, MOST_LAYERS] {
                let x = layered(2, 1, MOST_LAYERS, |_, _, l| if l != hole { LARGEST_NET } else { 0 });
                out.push(case(&tower, 1, MOST_LAYERS, first, x));
            }
        }
    }
    for (kind, byte2) in [(ROW, 2), (CHANNEL, 2), (BOX, 2), (TWO_LAYER, 1)] {
        let empty = encode(kind, 3, byte2, &Places::new());
        out.push(case(&empty, 2, 2, false, vec![0; 12]));
        out.push(case(&empty, 2, 2, true, layered(3, 2, 2, |i, j, l| if i + j + l == 7 { 5 } else { 0 })));
    }
    let wide: Places = (1..=LONGEST_SIDE).map(|i| ((NORTH, i), 1 + (i as u8 - 1) / 2)).collect();
    let wide = encode(ROW, LONGEST_SIDE, 1, &wide);
    let area = LONGEST_SIDE * WIDEST_CHANNEL;
    for missing in [None, Some(0), Some(area / 2), Some(2 * area - 1)] {
        let mut x = layered(LONGEST_SIDE, WIDEST_CHANNEL, 2, |i, _, _| 1 + (i as u8 - 1) / 2);
        if let Some(q) = missing {
            x[q] = 0;
        }
        out.push(case(&wide, WIDEST_CHANNEL, 2, false, x));
    }
    out
}

/// Two-layer channels as wide as no other kind may be, the same pins as a channel's, and a solid one on three layers.
fn wide_cases() -> Vec<Case> {
    let mut out = Vec::new();
    let rings = tickets::rings(4);
    let ticket = read::read(&rings).expect("a good ticket");
    let needed = two_layer::lay(&ticket, 0).0.w;
    let channel = [&[CHANNEL], &rings[1..]].concat();
    for w in [WIDEST_CHANNEL, WIDEST_CHANNEL + 1, WIDEST_GRID, WIDEST_GRID + 1] {
        let (_, x) = two_layer::lay(&ticket, w - needed);
        let (vertical, horizontal) = x.split_at(x.len() / 2);
        out.push(case(&rings, w, 2, true, [horizontal, vertical].concat()));
        out.push(case(&rings, w, 2, true, x.clone()));
        out.push(case(&channel, w, 2, false, x.clone()));
        for at in [0, 2 * w, 4 * w - 1] {
            let mut cut = x.clone();
            cut[at] = 0;
            out.push(case(&rings, w, 2, false, cut));
        }
        out.push(case(&rings, w, 2, false, x));
    }
    let columns: Places = [NORTH, SOUTH].into_iter().flat_map(|s| (1..=LONGEST_SIDE).map(move |i| ((s, i), i as u8))).collect();
    let columns = encode(TWO_LAYER, LONGEST_SIDE, 1, &columns);
    let whole = layered(LONGEST_SIDE, WIDEST_GRID, 1, |i, _, _| i as u8);
    let mut cut = whole.clone();
    cut[LONGEST_SIDE * WIDEST_GRID - 1] = 0;
    out.extend([whole, cut].map(|x| case(&columns, WIDEST_GRID, 1, false, x)));
    let c1 = read::read(DOCUMENT[3].1).expect("a good ticket");
    let (g, x) = lay::lay(&c1).expect("a channel's wiring");
    out.push(case(&[&[TWO_LAYER], &DOCUMENT[3].1[1..]].concat(), g.w, g.k, g.first, x));
    out
}

/// Refusals 1 and 11 to 13, and their order.
fn refused_cases(r: &mut Numbers) -> Vec<Case> {
    let mut out = Vec::new();
    for kind in [ROW, CHANNEL, BOX, TWO_LAYER] {
        let c = std::iter::repeat_with(|| wired(r)).find(|c| c.ticket[0] == kind).expect("a wiring of each kind");
        for w in [0, 1, c.w, WIDEST_CHANNEL, WIDEST_CHANNEL + 1, WIDEST_GRID, WIDEST_GRID + 1, 65535] {
            out.extend([0, 1, c.k, MOST_LAYERS, MOST_LAYERS + 1, 65535].map(|k| case(&c.ticket, w, k, c.first, c.wiring.clone())));
        }
        let with = |scratch: usize, x: &[u8]| Case { scratch, ..case(&c.ticket, c.w, c.k, c.first, x.to_vec()) };
        let size = c.wiring.len();
        out.push(with(size, &c.wiring[1..]));
        out.push(with(size, &[&c.wiring[..], &[0]].concat()));
        out.push(with(size - 1, &c.wiring));
        out.push(with(size + 5, &c.wiring));
        out.push(with(0, &c.wiring));
        out.push(with(0, &c.wiring[1..]));
        out.push(Case { w: 0, ..with(0, &[]) });
        out.push(Case { ticket: c.ticket[..c.ticket.len() - 1].to_vec(), k: 0, ..with(0, &c.wiring) });
    }
    let t = of_shape(r, BOX, 4, 3, 5);
    out.extend([2, 3, 4].map(|w| case(&t, w, 2, false, vec![0; 24])));
    out
}

fn check_cases() -> Vec<Case> {
    let r = &mut Numbers::new(7);
    let mut out = drawn_cases();
    out.extend(wide_cases());
    out.extend(refused_cases(r));
    for _ in 0..330 {
        let c = wired(r);
        let nets = read::read(&c.ticket).expect("a good ticket").nets();
        for _ in 0..2 {
            let x = spoiled(r, &c.wiring, &nets);
            let scratch = x.len() + r.below(3);
            out.push(Case { scratch, ..case(&c.ticket, c.w, c.k, c.first, x) });
        }
        if r.below(6) == 0 {
            out.push(case(&c.ticket, c.w, c.k, !c.first, c.wiring.clone()));
        }
        out.push(c);
    }
    out
}

fn check_record(c: &Case) -> Vec<u8> {
    let mut out = record(&c.ticket);
    out.extend((c.w as u16).to_le_bytes());
    out.extend((c.k as u16).to_le_bytes());
    out.push(c.first as u8);
    out.extend(&(c.scratch as u32).to_le_bytes()[..3]);
    out.extend(&(c.wiring.len() as u32).to_le_bytes()[..3]);
    out.extend(&c.wiring);
    out
}

/// The tracks that the crates' own construction takes for a two-layer channel that is not solid, for the vectors alone: the
/// documents leave this number free, and nothing else here knows how the crates lay. A track for each net with two or more pins
/// on a side, one for each net that moves from its first north to another column, that of its first south pin, and one for
/// each ring of such moves.
fn width_of_the_crates_construction(t: &Ticket) -> usize {
    let nets = t.nets();
    let many = |side: usize| nets.iter().filter(|m| t.on(side, **m).len() >= 2).count();
    let ends = |m: &u8| Some((*t.on(NORTH, *m).first()?, *t.on(SOUTH, *m).first()?));
    let moves: Vec<(usize, usize)> = nets.iter().filter_map(ends).filter(|(from, to)| from != to).collect();
    let next = |column: usize| moves.iter().find(|(from, _)| *from == column).map(|(_, to)| *to);
    // The columns that a walk from this one comes to, the last of them itself where it is on a ring.
    let walk = |start: usize| {
        let mut out = vec![];
        let mut at = next(start);
        while let Some(c) = at.filter(|c| !out.contains(c)) {
            out.push(c);
            at = if c == start { None } else { next(c) };
        }
        out
    };
    // A ring is counted at its smallest column.
    let rings = moves.iter().filter(|(from, _)| walk(*from).last() == Some(from) && walk(*from).iter().all(|c| c >= from)).count();
    (many(NORTH) + moves.len() + rings + many(SOUTH)).max(1)
}

/// The grid that Lay uses, or 17.
fn laid_grid(t: &Ticket) -> Result<Grid, Refusal> {
    match t.kind {
        ROW | CHANNEL | BOX => Ok(lay::grid(t).expect("the documents give it")),
        TWO_LAYER if two_layer::is_solid(t) => Err(Refusal(17, 0)),
        TWO_LAYER => Ok(Grid { n: t.n, w: width_of_the_crates_construction(t), k: 2, first: false }),
        other => no_kind(other),
    }
}

/// Tickets to lay, each with the length of the buffer: exact, one byte short, longer, none.
fn lay_cases() -> Vec<(Vec<u8>, usize)> {
    let r = &mut Numbers::new(17);
    let mut tickets = document();
    let (side, most) = (LONGEST_SIDE, MOST_TRUNK_LAYERS);
    for (kind, n, byte2) in [(ROW, 1, 1), (ROW, side, 1), (ROW, side, most), (CHANNEL, 1, most), (CHANNEL, side, 1), (CHANNEL, side, most)]
    {
        tickets.extend([0, 4, 10].map(|tenths| of_shape(r, kind, n, byte2, tenths)));
    }
    for (n, w) in [(1, 1), (1, side), (side, 1), (side - 1, side), (side, side), (side, side - 1), (40, 12), (12, 40), (7, 3), (3, 7)] {
        tickets.extend([0, 3, 8, 10].map(|tenths| of_shape(r, BOX, n, w, tenths)));
    }
    for (a, b) in [(NORTH, EAST), (NORTH, WEST), (SOUTH, EAST), (SOUTH, WEST)] {
        for (n, w) in [(9, 9), (13, 5), (5, 13), (30, 30)] {
            tickets.push(tickets::corner(r, n, w, a, b));
        }
    }
    tickets.extend(two_layers(r));
    tickets.push([&tickets::solid(r, 3)[..], &[1]].concat());
    for _ in 0..150 {
        let t = tickets::random(r);
        tickets.push(if r.below(8) == 0 { damaged(r, &t) } else { t });
    }
    tickets.extend(side_boxes(r, 6));
    let mut out = Vec::new();
    for t in tickets {
        let lengths = match read::read(&t).and_then(|t| laid_grid(&t)) {
            Ok(g) => vec![g.size(), g.size() - 1, g.size() + 1 + r.below(9), r.below(g.size() + 1)],
            Err(_) => vec![0, 1 + r.below(400)],
        };
        out.extend(lengths.into_iter().map(|length| (t.clone(), length)));
    }
    out
}

fn lay_record((t, length): &(Vec<u8>, usize)) -> Vec<u8> {
    let mut out = record(t);
    out.extend(&(*length as u32).to_le_bytes()[..3]);
    out
}

/// number, place, kind, n, w, k, first, nets, across, up, floor; then Check's number and place of the wiring, and whether the
/// bytes outside it were kept.
fn lay_row((t, length): &(Vec<u8>, usize)) -> String {
    let refused = |number: u64, place: usize| row(&[number, place as u64, 0, 0, 0, 0, 0, 0, 0, 0, 0, 0, 0, 1]);
    match read::read(t).and_then(|ticket| Ok((laid_grid(&ticket)?, survey::figures(&ticket), ticket.kind))) {
        Err(Refusal(number, place)) => refused(number as u64, place),
        Ok((g, _, _)) if *length < g.size() => refused(10, g.size()),
        Ok((g, f, kind)) => {
            let fields = [0, 0, kind as usize, g.n, g.w, g.k, g.first as usize, f.nets, f.across, f.up, f.floor, 0, 0, 1];
            row(&fields.map(|x| x as u64))
        }
    }
}

/// The lines that hardest_vectors prints before it reads: for each length, the sum of the tickets' lengths over every width, and
/// the hash of the buffers.
fn every_hardest() -> String {
    let of_length = |n: usize| {
        let (mut total, mut h) = (0, 0);
        for w in 1..=LONGEST_SIDE {
            let mut buffer = [STAIN; LONGEST_TICKET];
            total += hardest::answer(n, w, &mut buffer)[2];
            h = hash(h, &buffer);
        }
        row(&[n as u64, total, h])
    };
    (1..=LONGEST_SIDE).map(of_length).collect()
}

/// A shape, or sides that are none, and the length of the buffer.
fn hardest_cases() -> Vec<(usize, usize, usize)> {
    let r = &mut Numbers::new(41);
    let side = LONGEST_SIDE;
    let mut shapes = vec![(1, 1), (1, 2), (2, 1), (2, 2), (3, 2), (7, 8), (8, 8), (8, 9), (9, 8), (16, 17), (40, 12), (12, 40)];
    shapes.extend([(1, side), (side, 1), (side - 1, side), (side, side)]);
    shapes.extend((0..40).map(|_| (1 + r.below(side), 1 + r.below(side))));
    let mut out = Vec::new();
    for (n, w) in shapes {
        let length = hardest::ticket(n, w).len();
        out.extend([length, length - 1, 0, length + 1, RECORD_BUFFER, r.below(length)].map(|size| (n, w, size)));
    }
    // Three sides, and numbers that are none; the low bytes of some are a side's.
    let odd = [1, 12, side, 0, side + 1, 255, 256, 256 + 12, 1 << 16, (1 << 16) + 12, 1 << 32, (1 << 32) + 12, 1 << 63, usize::MAX];
    for n in odd {
        for w in odd {
            out.extend([0, LONGEST_TICKET, RECORD_BUFFER].map(|size| (n, w, size)));
        }
    }
    for _ in 0..400 {
        out.push((r.below(side + 3), r.below(side + 3), r.below(RECORD_BUFFER + 1)));
    }
    out
}

fn hardest_record((n, w, size): &(usize, usize, usize)) -> Vec<u8> {
    let mut out = (*n as u64).to_le_bytes().to_vec();
    out.extend((*w as u64).to_le_bytes());
    out.extend((*size as u16).to_le_bytes());
    out
}

/// number, place, length; then the hash of the whole buffer.
fn hardest_row((n, w, size): &(usize, usize, usize)) -> String {
    let mut buffer = [STAIN; RECORD_BUFFER];
    let [number, place, length] = hardest::answer(*n, *w, &mut buffer[..*size]);
    row(&[number, place, length, hash(0, &buffer)])
}

/// A ticket turned flat.
fn flat_of(t: &[u8]) -> Vec<u8> {
    flat::flatten(t).expect("a good ticket")
}

/// Tickets to be turned flat; what comes of the good ones is to be turned back.
fn tickets_to_turn(r: &mut Numbers) -> Vec<Vec<u8>> {
    let mut out = document();
    // One place, two places, and more: empty and full.
    let trunks =
        [(ROW, 1, 1), (ROW, 2, 8), (ROW, 8, 1), (ROW, 9, 3), (CHANNEL, 1, 8), (CHANNEL, 9, 1), (TWO_LAYER, 1, 1), (TWO_LAYER, 8, 1)];
    let boxes = [(1, 1), (1, 9), (9, 1), (8, 8), (13, 5)].map(|(n, w)| (BOX, n, w));
    for (kind, n, byte2) in trunks.into_iter().chain(boxes) {
        out.extend([0, 5, 10].map(|tenths| of_shape(r, kind, n, byte2, tenths)));
    }
    // Each side full or empty: a net for each.
    for (kind, n, byte2) in [(ROW, 3, 1), (CHANNEL, 2, 2), (BOX, 3, 2), (TWO_LAYER, 3, 1)] {
        for map in 0..16 {
            let all = slots(kind, n, byte2);
            if (0..4).all(|side| map >> side & 1 == 0 || all.contains(&(side, 1))) {
                let pins = all.into_iter().filter(|(side, _)| map >> side & 1 == 1);
                out.push(encode(kind, n, byte2, &pins.map(|(side, i)| ((side, i), 10 + side as u8)).collect()));
            }
        }
    }
    // The longest of each kind; one net has every place of a box.
    let side = LONGEST_SIDE;
    let one_net: Places = slots(BOX, side, side).into_iter().map(|place| (place, LARGEST_NET)).collect();
    out.extend([hardest::ticket(side, side), encode(BOX, side, side, &one_net), encode(BOX, side, side, &Places::new())]);
    out.extend([(ROW, side, 1), (CHANNEL, side, 1), (TWO_LAYER, side, 1), (BOX, 1, side)].map(|(kind, n, b)| of_shape(r, kind, n, b, 10)));
    out.extend((0..50).map(|_| tickets::random(r)));
    // Good as a ticket and as a flat ticket.
    out.push(vec![ROW, 6, 1, 1, 15, 1, 15, 1, 15]);
    out
}

/// Tickets with each of Read's refusals.
fn refused_tickets() -> Vec<Vec<u8>> {
    let row = [ROW, 3, 1, 1, 7, 4, 4, 4];
    let most = LONGEST_SIDE as u8;
    let first_four = [
        [0, 3, 1, 0],
        [TWO_LAYER + 1, 3, 1, 0],
        [ROW, 0, 1, 0],
        [ROW, most + 1, 1, 0],
        [ROW, 3, 9, 0],
        [TWO_LAYER, 3, 2, 0],
        [BOX, 3, most + 1, 0],
        [ROW, 3, 1, 2],
        [CHANNEL, 3, 1, 4],
        [TWO_LAYER, 3, 1, 8],
        [BOX, 3, 1, 16],
    ];
    let maps = [[ROW, 3, 1, 1, 0], [ROW, 3, 1, 1, 8], [BOX, 3, 1, 8, 2]];
    let nets = [[ROW, 3, 1, 1, 3, 0, 4], [ROW, 3, 1, 1, 3, 4, 181], [ROW, 3, 1, 1, 3, 4, 5], [TWO_LAYER, 3, 1, 2, 6, 5, 4]];
    let left_over = [[ROW, 3, 1, 1, 3, 4, 4, 0], [ROW, 3, 1, 1, 3, 4, 5, 0], [CHANNEL, 2, 1, 2, 3, 4, 4, 181]];
    let mut out: Vec<Vec<u8>> = (0..row.len()).map(|size| row[..size].to_vec()).collect();
    out.extend(first_four.map(Vec::from));
    out.extend(maps.map(Vec::from));
    out.extend(nets.map(Vec::from));
    out.extend(left_over.map(Vec::from));
    out
}

/// Flat tickets with each refusal, and the order of these; the first four bytes at the edges of their ranges.
fn refused_flats(r: &mut Numbers) -> Vec<Vec<u8>> {
    // Too short, whatever the bytes are.
    let mut out = vec![vec![0], vec![255, 255], vec![0, 0, 0], vec![ROW, 0, 1], vec![ROW, 1, 0], vec![TWO_LAYER, 1, 2]];
    let (longest, most) = (LONGEST_SIDE as u8, MOST_TRUNK_LAYERS as u8);
    for kind in [0, ROW, CHANNEL, BOX, TWO_LAYER, TWO_LAYER + 1, 128 + ROW, 255] {
        for n in [0, 1, longest, longest + 1, 255] {
            out.extend([0, 1, 2, most, most + 1, longest, longest + 1].map(|byte2| vec![kind, n, byte2, 0]));
        }
    }
    let shapes = [(ROW, 9, 2, 7), (CHANNEL, 4, 1, 10), (BOX, 4, 3, 6), (BOX, 1, 5, 10), (TWO_LAYER, 5, 1, 8)];
    for (kind, n, byte2, tenths) in shapes {
        let good = flat_of(&of_shape(r, kind, n, byte2, tenths));
        out.extend((0..good.len()).map(|size| good[..size].to_vec()));
        // Bytes left over are not looked at.
        for more in [&[0][..], &[1], &[LARGEST_NET + 1], &[0; 30]] {
            out.push([&good[..], more].concat());
        }
        for at in 3..good.len() {
            let mut bad = good.clone();
            bad[at] = r.pick(&[LARGEST_NET + 1, 200, 255]);
            // The last byte, one before a missing one, one before a byte left over, missing itself, and as it is.
            out.extend([bad[..=at].to_vec(), bad[..bad.len() - 1].to_vec(), [&bad[..], &[9]].concat(), bad[..at].to_vec(), bad]);
        }
        // Another net at a place, so that it or the one before has one pin; with a byte left over, and as it is.
        for at in (3..good.len()).step_by(2) {
            let mut bad = good.clone();
            bad[at] = 1 + r.below(LARGEST_NET as usize) as u8;
            out.extend([[&bad[..], &[0]].concat(), bad]);
        }
    }
    for (a, b) in [(7, 3), (3, 7), (LARGEST_NET, 1), (LARGEST_NET, 0), (0, LARGEST_NET), (LARGEST_NET + 1, 1), (1, LARGEST_NET + 1)] {
        out.extend([vec![ROW, 2, 1, a, b], vec![BOX, 1, 1, 0, a, b, 0], vec![TWO_LAYER, 1, 1, a, b, b]]);
    }
    let large = flat_of(&hardest::ticket(LONGEST_SIDE, LONGEST_SIDE));
    let with = |at: usize, net: u8| [&large[..at], &[net], &large[at + 1..]].concat();
    out.extend([large[..large.len() - 1].to_vec(), [&large[..], &[0]].concat(), with(LONGEST_FLAT - 1, LARGEST_NET + 1)]);
    out.extend([with(3, 0), with(LONGEST_FLAT - 1, 0), with(LONGEST_FLAT - 1, 1)]);
    out
}

/// Bytes that both calls get, each with the length of the buffer: where a call accepts them exact, one byte short, longer, none.
fn flat_cases() -> Vec<(Vec<u8>, usize)> {
    let r = &mut Numbers::new(43);
    let tickets = tickets_to_turn(r);
    let mut all: Vec<Vec<u8>> = tickets.iter().flat_map(|t| [Some(t.clone()), flat::flatten(t).ok()]).flatten().collect();
    all.extend(refused_tickets());
    for _ in 0..120 {
        let t = tickets::random(r);
        let from = if r.below(2) == 0 { t } else { flat_of(&t) };
        all.push(damaged(r, &from));
    }
    let mut out = Vec::new();
    for bytes in all {
        let lengths: Vec<usize> = [flat::flatten(&bytes), flat::unflatten(&bytes)].into_iter().flatten().map(|made| made.len()).collect();
        for length in &lengths {
            out.extend([*length, length - 1, length + 1 + r.below(4), 0].map(|size| (bytes.clone(), size)));
        }
        if lengths.is_empty() {
            out.push((bytes, r.below(9)));
        }
    }
    out.extend(refused_flats(r).into_iter().map(|bytes| (bytes, r.below(9))));
    out
}

fn flat_record((bytes, size): &(Vec<u8>, usize)) -> Vec<u8> {
    let mut out = record(bytes);
    out.extend((*size as u16).to_le_bytes());
    out
}

/// A line for each call: number, place, length, and every byte of the buffer.
fn flat_rows((bytes, size): &(Vec<u8>, usize)) -> String {
    let calls = [flat::flatten_answer, flat::unflatten_answer];
    let line = |call: fn(&[u8], &mut [u8]) -> [u64; 3]| {
        let mut buffer = vec![STAIN; *size];
        let mut numbers = call(bytes, &mut buffer).to_vec();
        numbers.extend(buffer.iter().map(|b| *b as u64));
        row(&numbers)
    };
    calls.map(|call| line(call)).concat()
}

/// Starts of every kind, and with each refusal and the order of these; some from a board with pins, which a refused start takes away.
fn board_starts() -> Vec<Call> {
    let wide = [(1 << 8) + 1, (1 << 16) + 1, (1 << 32) + 1, u64::MAX];
    let used = [Call::Start(3, 2, 2), Call::Add(7, vec![1, 257, 513])];
    // The fresh row of one place: no net fits.
    let tried = [vec![], vec![1], vec![1, 1], vec![1, 2], vec![257, 1], vec![1, 513]].map(|list| Call::Add(7, list));
    let mut out: Vec<Call> = tried.to_vec();
    out.extend([0, 3, 4, 5, RECORD_BUFFER].map(Call::Write));
    for kind in [0, 4, 5, 128, 131, 255].into_iter().chain(wide) {
        out.extend([Call::Start(kind, 1, 1), Call::Start(kind, 0, 91), Call::Start(kind, u64::MAX, 0)]);
    }
    for kind in [1, 2, 3] {
        for n in [0, 1, 90, 91, 255] {
            out.extend([0, 1, 8, 9, 90, 91, 255].map(|byte2| Call::Start(kind, n, byte2)));
        }
        out.extend(wide.map(|n| Call::Start(kind, n, 0)));
        out.extend(wide.map(|byte2| Call::Start(kind, 1, byte2)));
    }
    let refused = [(0, 0, 0), (4, 2, 1), (131, 2, 2), (1, 0, 1), (3, 91, 2), (2, 2, 9), (1, 2, 0), (3, 2, 91), (3, 2, u64::MAX)];
    for (kind, n, byte2) in refused {
        out.extend(used.clone());
        out.push(Call::Start(kind, n, byte2));
        out.extend(tried.clone());
        out.extend([4, 3].map(Call::Write));
    }
    // An accepted one takes the pins away too.
    for (kind, n, byte2) in [(1, 2, 8), (2, 1, 1), (3, 2, 2), (3, 1, 1)] {
        out.extend(used.clone());
        out.extend([Call::Start(kind, n, byte2), Call::drop_one(7), Call::Add(7, vec![1, 257])]);
    }
    out
}

/// Every refusal of adds and drops, with each of its causes, and the order of these, on a board of each kind.
fn board_refusals() -> Vec<Call> {
    let mut out = Vec::new();
    let add = |net: u64, list: &[u64]| Call::Add(net, list.to_vec());
    for (kind, n, byte2) in [(ROW, 6, 1), (CHANNEL, 3, 8), (BOX, 3, 2), (BOX, 90, 90)] {
        out.push(Call::Start(kind as u64, n as u64, byte2 as u64));
        let all = place_numbers(kind, n, byte2);
        let (filled, [a, b, c]) = ([all[1], all[3]], [all[0], all[2], all[4]]);
        out.push(add(5, &filled));
        for net in [0, 181, 255, 256, 256 + 5, (1 << 16) + 5, (1 << 32) + 5, u64::MAX] {
            out.extend([&[][..], &[a], &[0, 0], &[a, b]].map(|list| add(net, list)));
            out.push(Call::drop_one(net));
        }
        // The net is there, whatever the list is.
        out.extend([&[][..], &[a], &[0], &[0, 0], &[a, a], &filled, &[a, b]].map(|list| add(5, list)));
        out.extend([&[][..], &[a], &[0], &filled[..1], &[u64::MAX]].map(|list| add(6, list)));
        let mut bad = vec![filled[0], filled[1], 1024, 1025, 1024 + a, 256 * 255 + 1, 65535, (1 << 16) + a, (1 << 32) + a, u64::MAX];
        for side in NORTH..=EAST {
            bad.extend([0, n.max(byte2) + 1, 255].map(|place| place_number(side, place)));
            // The ends of a side that the kind lacks.
            let last = places(side, n, byte2);
            bad.extend([1, last].map(|place| place_number(side, place)).into_iter().filter(|v| !all.contains(v)));
            bad.push(place_number(side, last + 1));
        }
        for x in bad {
            out.extend([&[x, a][..], &[a, x], &[a, b, x, c, x]].map(|list| add(6, list)));
        }
        // A repeat, and the first of several bad ones.
        for list in [[a, a, b, c], [a, b, a, a], [b, a, c, a], [a, a, filled[0], 0], [filled[0], a, a, 0], [a, 0, filled[0], a]] {
            out.push(add(6, &list));
        }
        for net in [6, 1, 180, 5, 5, 6] {
            out.push(Call::drop_one(net));
        }
        // After so many refusals, and without net 5, every place is free.
        out.extend([add(6, &all), Call::drop_one(5), Call::drop_one(6), add(5, &all), Call::drop_one(5)]);
    }
    out
}

/// A net is dropped, and added again at the same places and elsewhere, while another one moves; some places are filled.
fn board_moves() -> Vec<Call> {
    let mut out = Vec::new();
    for (kind, n, byte2) in [(ROW, 9, 2), (CHANNEL, 5, 1), (BOX, 4, 3), (BOX, 1, 4), (BOX, 4, 1)] {
        let all = place_numbers(kind, n, byte2);
        out.push(Call::Start(kind as u64, n as u64, byte2 as u64));
        out.push(Call::Add(9, vec![all[1], all[6]]));
        for i in 0..all.len() - 1 {
            let far = all[(i + all.len() / 2) % all.len()];
            let list = vec![far, all[i]];
            out.extend([Call::Add(180, list.clone()), Call::drop_one(180), Call::Add(180, list), Call::drop_one(180)]);
            out.extend([Call::Add(180, vec![all[i], all[i + 1]]), Call::drop_one(9), Call::Add(9, vec![far, all[0]]), Call::drop_one(180)]);
        }
    }
    out
}

/// Lists of nets on a board of each kind that has three: absent numbers, each at every place of a list, and after a repeat; repeats; and
/// two nets and three in several orders, which come again after each list.
fn board_lists() -> Vec<Call> {
    let drop = |list: &[u64]| Call::Drop(list.to_vec());
    let mut out = vec![drop(&[]), drop(&[1]), drop(&[0, 0])];
    for (kind, n, byte2) in [(ROW, 6, 1), (CHANNEL, 3, 8), (BOX, 3, 2)] {
        let all = place_numbers(kind, n, byte2);
        let nets = [(5, [1, 3]), (180, [2, 0]), (1, [4, 5])].map(|(net, at)| Call::Add(net, at.map(|i| all[i]).to_vec()));
        out.extend([Call::Start(kind as u64, n as u64, byte2 as u64), drop(&[])]);
        out.extend(nets.clone());
        for x in [0, 2, 181, 255, 256, 256 + 5, 65535, u64::MAX] {
            let lists = [&[x][..], &[x, 5, 180, 1], &[5, x, 180, 1], &[5, 180, x, 1], &[5, 180, 1, x], &[5, 5, x], &[x, x]];
            out.extend(lists.map(drop));
        }
        out.extend([(1 << 16) + 5, (1 << 32) + 5, (1 << 63) + 5].map(|x| drop(&[5, x])));
        // The first of two absent nets, and of several repeats.
        out.extend([&[5, 2, 3][..], &[3, 2], &[2, 5, 5], &[1, 1, 2, 3, 180]].map(drop));
        out.extend([&[5, 5][..], &[1, 5, 5], &[5, 1, 5, 1], &[5, 1, 1, 5], &[180, 5, 1, 180], &[1, 5, 180, 1, 5, 180]].map(drop));
        out.push(drop(&[]));
        for list in [&[5, 180][..], &[180, 5], &[1, 180], &[1, 5, 180], &[5, 180, 1], &[180, 1, 5], &[180, 5, 1]] {
            out.extend([drop(list), drop(list)]);
            out.extend(nets.iter().filter(|add| matches!(add, Call::Add(net, _) if list.contains(net))).cloned());
        }
    }
    out
}

/// The net that a call adds.
fn added_net(call: &Call) -> u64 {
    let Call::Add(net, _) = call else { panic!("{call:?} adds no net") };
    *net
}

/// Of a board to which these nets were added, a few are dropped by one list, and those with few pins come again; then all that are there
/// are dropped at once. The list of 180 nets is refused before, with one of them again and with an absent one; they come again after it.
fn few_and_all_dropped(r: &mut Numbers, adds: &[Call]) -> Vec<Call> {
    let mut shuffled = adds.to_vec();
    r.shuffle(&mut shuffled);
    let (few, others) = shuffled.split_at(adds.len().min(3));
    let again: Vec<Call> = few.iter().filter(|add| matches!(add, Call::Add(_, list) if list.len() <= 4)).cloned().collect();
    let all: Vec<u64> = others.iter().chain(&again).map(added_net).collect();
    let mut out = vec![Call::Drop(few.iter().map(added_net).collect())];
    out.extend(again);
    let most = adds.len() == LARGEST_NET as usize;
    if most {
        out.extend([all[0], 0].map(|one_more| Call::Drop([&all[..], &[one_more]].concat())));
    }
    out.push(Call::Drop(all));
    if most {
        out.extend_from_slice(adds);
    }
    out
}

/// Full boards, and nets that are all on one side or in one column; each is written into buffers around its ticket's length, and loses its
/// nets by lists.
fn full_boards(r: &mut Numbers) -> Vec<Call> {
    let side = LONGEST_SIDE;
    let one_net = |kind: u8, n: usize, byte2: usize| -> Vec<u8> {
        encode(kind, n, byte2, &slots(kind, n, byte2).into_iter().map(|place| (place, LARGEST_NET)).collect())
    };
    // Nets that have every place of so many columns of a channel.
    let columns = |n: usize, many: usize| -> Vec<u8> {
        encode(CHANNEL, n, 1, &slots(CHANNEL, n, 1).into_iter().map(|(s, i)| ((s, i), 1 + ((i - 1) / many) as u8)).collect())
    };
    let pairs: Places = (1..=side).map(|i| ((NORTH, i), 1 + ((i - 1) % (side / 2)) as u8)).collect();
    let mut tickets = document();
    tickets.retain(|t| (ROW..=BOX).contains(&t[0]) && read::read(t).is_ok());
    tickets.extend([hardest::ticket(side, side), hardest::ticket(1, 1), hardest::ticket(1, 2), hardest::ticket(7, 3)]);
    tickets.extend([one_net(BOX, side, side), one_net(CHANNEL, side, 8), one_net(ROW, side, 1), one_net(BOX, 1, side)]);
    tickets.extend([encode(ROW, side, 1, &pairs), columns(side, 1), columns(5, 2), of_shape(r, CHANNEL, side, 3, 10)]);
    tickets.extend(side_boxes(r, 4).into_iter().filter(|t| t.len() < 60).step_by(3));
    tickets.extend([(1, side), (side, 1)].map(|(n, w)| grouped(n, w, &[if n == 1 { WEST } else { SOUTH }], 2)));
    let mut out = Vec::new();
    for t in tickets {
        let length = t.len();
        let calls = edits::of_ticket(&t);
        out.extend(calls.clone());
        out.extend([0, length - 1, length, length + 1, RECORD_BUFFER].map(Call::Write));
        out.push(Call::Add(1 + r.below(LARGEST_NET as usize) as u64, vec![1, 2]));
        out.extend(few_and_all_dropped(r, &calls[1..]));
    }
    // Lists that are longer than a board has places.
    let all = place_numbers(BOX, side, side);
    out.push(Call::Start(BOX as u64, side as u64, side as u64));
    out.push(Call::Add(1, [&all[..], &all[..50]].concat()));
    out.push(Call::Add(1, [&all[..359], &all[300..], &[0; 90]].concat()));
    out
}

/// The first and the last place of a side.
fn ends(side: usize, n: usize, byte2: usize) -> Vec<u64> {
    vec![place_number(side, 1), place_number(side, places(side, n, byte2))]
}

/// Nets of the longest span, of one column and of one track, and of one side, on boards of the shortest and the longest sides. Each is
/// alone on the board first; then all are there that find room, and they leave and come again in turn.
fn board_spans() -> Vec<Call> {
    let (side, most) = (LONGEST_SIDE, MOST_TRUNK_LAYERS);
    let rows = [(ROW, 2, 1), (ROW, side, most)];
    let channels = [(CHANNEL, 1, 1), (CHANNEL, 2, most), (CHANNEL, side, 1)];
    let boxes = [(BOX, 1, 1), (BOX, 1, 2), (BOX, 2, 1), (BOX, 2, 2), (BOX, 1, side), (BOX, side, 1), (BOX, side, side)];
    let mut out = Vec::new();
    for (kind, n, byte2) in [&rows[..], &channels, &boxes].concat() {
        let at = |side: usize, place: usize| place_number(side, place);
        let (c, t) = (n.div_ceil(2), byte2.div_ceil(2));
        let mut lists = vec![vec![at(WEST, 1), at(EAST, byte2)], vec![at(SOUTH, n), at(NORTH, 1)], vec![at(NORTH, c), at(SOUTH, c)]];
        lists.extend([vec![at(WEST, t), at(EAST, t)], vec![at(WEST, byte2), at(NORTH, n)], vec![at(EAST, 1), at(SOUTH, 1)]]);
        lists.extend((NORTH..=EAST).map(|side| ends(side, n, byte2)));
        let all = place_numbers(kind, n, byte2);
        lists.retain(|list| list[0] != list[1] && list.iter().all(|place| all.contains(place)));
        out.push(Call::Start(kind as u64, n as u64, byte2 as u64));
        for list in &lists {
            out.extend([Call::Add(2, list.clone()), Call::drop_one(2)]);
        }
        let nets: Vec<(u64, Vec<u64>)> = (LARGEST_NET as u64 - lists.len() as u64 + 1..).zip(lists).collect();
        out.extend(nets.iter().map(|(net, list)| Call::Add(*net, list.clone())));
        for (net, list) in nets {
            out.extend([Call::drop_one(net), Call::Add(net, list)]);
        }
    }
    out
}

/// Histories of so many calls on boards of every kind with the shortest and the longest sides; large boards are filled first, and the
/// longest begin empty too, so that nets of the longest span find room.
fn board_histories(r: &mut Numbers) -> Vec<Call> {
    let (side, most) = (LONGEST_SIDE, MOST_TRUNK_LAYERS);
    let rows = [(1, 1, 12), (2, most, 40), (7, 1, 80), (16, 3, 70), (side, 1, 130)];
    let channels = [(1, 1, 40), (2, 2, 70), (8, 1, 80), (side, 1, 120)];
    let boxes = [(1, 1, 100), (1, 2, 80), (2, 1, 80), (2, 2, 90), (3, 5, 110), (9, 8, 90), (40, 12, 60)];
    let long_boxes = [(1, side, 120), (side, 1, 120), (2, side, 40), (side, side, 160)];
    let shapes = [(ROW, &rows[..]), (CHANNEL, &channels), (BOX, &boxes), (BOX, &long_boxes)];
    let mut out = Vec::new();
    for (kind, list) in shapes {
        for (n, byte2, calls) in list {
            let filled = slots(kind, *n, *byte2).len() > 60;
            out.extend(edits::history(r, (kind, *n, *byte2), filled, *calls, 5));
        }
    }
    for (kind, n, byte2) in [(ROW, side, most), (CHANNEL, side, most), (BOX, 1, side), (BOX, side, 1), (BOX, side, side)] {
        out.extend(edits::history(r, (kind, n, byte2), false, 65, 10));
    }
    for shape in [(ROW, 12, 2), (CHANNEL, 5, 1), (BOX, 1, 2), (BOX, 4, 3)] {
        out.extend(edits::dropped_lists(r, shape, 4, 8));
    }
    out
}

/// The calls of board_vectors. A record is a code of one byte, 1 start (kind, n, byte 2), 2 add (net, places), 3 drop (nets) or 4
/// the ticket into a buffer of so many bytes; how many numbers follow, two bytes; and these, two bytes each, or eight where bit 7 of
/// the code stands; all low byte first. A line has number, place, whether the first net is there, nets, across, up, floor, the ticket's
/// length, the hash of the stained buffer that it was written to and that of the counts at columns and tracks; for code 4 number, place,
/// length and the buffer's hash. `edits` has what else there is to say, what ends a run too.
fn board_calls() -> Vec<Call> {
    let r = &mut Numbers::new(73);
    [board_starts(), board_refusals(), board_lists(), board_moves(), board_spans(), full_boards(r), board_histories(r)].concat()
}

/// The records of the calls; then some with numbers of eight bytes though they need two, some with more numbers than they take, drops
/// with the fewest numbers and the most, and a record that ends the run, with a good one after it.
fn board_records(calls: &[Call]) -> Vec<u8> {
    let mut out: Vec<u8> = calls.iter().flat_map(Call::record).collect();
    let r = &mut Numbers::new(79);
    let last = edits::history(r, (BOX, 3, 2), false, 50, 3);
    out.extend(last.iter().flat_map(Call::wide_record));
    let longer = [(1, [2, 3, 1, 9]), (4, [7, 3, 2, 1]), (1, [3, 1, 1, 0])];
    for wide in [false, true] {
        out.extend(longer.iter().flat_map(|(code, numbers)| edits::record(*code, wide, numbers)));
        out.extend(edits::record(3, wide, &[]));
    }
    out.extend(Call::Add(8, vec![1, 257]).record());
    out.extend(Call::Drop(vec![8; edits::MOST_NUMBERS]).record());
    out.extend(edits::record(5, false, &[1]));
    out.extend(Call::drop_one(1).record());
    out
}

/// What each program reads and must print.
fn vectors() -> Vec<(&'static str, Vec<u8>, String)> {
    let (reads, surveys, checks, lays, boxes) = (read_tickets(), survey_tickets(), check_cases(), lay_cases(), hardest_cases());
    let (edges, turns) = (edge_floor_tickets(), flat_cases());
    let boards = board_records(&board_calls());
    let board_lines = edits::run(&boards);
    let records = |list: &[Vec<u8>]| list.iter().flat_map(|t| record(t)).collect();
    let verdict = |c: &Case| row(&judge::answer(&c.ticket, c.w, c.k, c.first, &c.wiring, c.scratch));
    let hardest_rows: String = boxes.iter().map(hardest_row).collect();
    vec![
        ("read_vectors", records(&reads), reads.iter().map(|t| row(&read::answer(t))).collect()),
        ("survey_vectors", records(&surveys), surveys.iter().map(|t| survey::line(t)).collect()),
        ("edge_floor_vectors", records(&edges), edges.iter().map(|t| row(&edge::answer(t))).collect()),
        ("check_vectors", checks.iter().flat_map(check_record).collect(), checks.iter().map(verdict).collect()),
        ("lay_vectors", lays.iter().flat_map(lay_record).collect(), lays.iter().map(lay_row).collect()),
        ("hardest_vectors", boxes.iter().flat_map(hardest_record).collect(), every_hardest() + &hardest_rows),
        ("flat_vectors", turns.iter().flat_map(flat_record).collect(), turns.iter().map(flat_rows).collect()),
        ("board_vectors", boards, board_lines),
    ]
}

/// How many bytes a program reads at most; `check_vectors` has a longer buffer.
const LONGEST_INPUT: usize = 65536;

fn main() {
    let crates = Path::new(env!("CARGO_MANIFEST_DIR")).join("../../crates");
    let only_check = std::env::args().any(|a| a == "--check");
    let mut bad = 0;
    for (name, stdin, stdout) in vectors() {
        assert!(stdin.len() <= LONGEST_INPUT || name == "check_vectors", "{name} reads {LONGEST_INPUT} bytes of {}", stdin.len());
        for (file, content) in [("stdin", stdin), ("stdout", stdout.into_bytes())] {
            let path = crates.join(name).join(file);
            if only_check {
                let same = std::fs::read(&path).is_ok_and(|stored| stored == content);
                println!("{}: {name}/{file} is what tests/slow generates", if same { "ok" } else { "FAILED" });
                bad += !same as i32;
            } else if crates.join(name).is_dir() {
                std::fs::write(&path, content).expect("the file is written");
            }
        }
    }
    std::process::exit(bad.min(1));
}
