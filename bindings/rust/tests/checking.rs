//! Check says what the independent union-find says of wirings by a maze router, by the slow router and by Lay, whole and
//! spoiled, and alters the scratch only where it looks at the points.

mod common;

use common::{answered, extremes, ticket, Lent};
use slow::judge;
use slow::tickets::{encode, of_shape, random, solid, two_layer, Numbers, Places};
use slow::two_layer::is_solid;
use slow::wirings::{case, layered, spoiled, wired, Case};
use slow::{widest, BOX, CHANNEL, EAST, LARGEST_NET, LONGEST_SIDE, MOST_LAYERS, MOST_TRUNK_LAYERS, NORTH, SOUTH, TWO_LAYER, WEST};
use slow::{WIDEST_CHANNEL, WIDEST_GRID};

fn same_verdict(c: &Case) -> u64 {
    let mut scratch = Lent::new(c.scratch, c.wiring.len() as u8);
    let answer: [u64; 2] = answered(|a| common::check(&c.ticket, c.w, c.k, c.first, &c.wiring, scratch.part(), a));
    let expected = judge::answer(&c.ticket, c.w, c.k, c.first, &c.wiring, c.scratch);
    assert_eq!(answer, expected, "{:?} w {} k {} first {} {:?}", c.ticket, c.w, c.k, c.first, &c.wiring[..c.wiring.len().min(3000)]);
    let used = if (1..=13).contains(&answer[0]) { 0 } else { c.wiring.len() };
    assert!(scratch.kept_past(used), "the scratch of {:?}", c.ticket);
    answer[0]
}

fn nets(ticket: &[u8]) -> Vec<u8> {
    slow::read::read(ticket).map_or(vec![], |t| t.nets())
}

/// The wiring itself, spoiled twice, with the other first direction, and with a scratch that is longer.
fn and_spoiled(r: &mut Numbers, c: Case) -> u64 {
    let nets = nets(&c.ticket);
    for _ in 0..2 {
        let x = spoiled(r, &c.wiring, &nets);
        same_verdict(&case(&c.ticket, c.w, c.k, c.first, x));
    }
    same_verdict(&case(&c.ticket, c.w, c.k, !c.first, c.wiring.clone()));
    same_verdict(&Case { scratch: c.scratch + r.below(9), ..c })
}

#[test]
fn maze_wirings() {
    let r = &mut Numbers::new(301);
    for _ in 0..30_000 {
        let c = wired(r);
        assert_eq!(and_spoiled(r, c), 0);
    }
}

#[test]
fn slow_wirings() {
    let r = &mut Numbers::new(303);
    for _ in 0..6_000 {
        let t = random(r);
        if let Ok((g, x)) = slow::lay::lay(&slow::read::read(&t).expect("a good ticket")) {
            assert_eq!(and_spoiled(r, case(&t, g.w, g.k, g.first, x)), 0);
        }
    }
}

/// Of any width that Check takes: plain tracks before those that the slow router needs.
#[test]
fn two_layer_wirings() {
    let r = &mut Numbers::new(313);
    for _ in 0..1_500 {
        let longest = r.pick(&[4, 12, LONGEST_SIDE]);
        let n = 1 + r.below(longest);
        let t = two_layer(r, n);
        let ticket = slow::read::read(&t).expect("a good ticket");
        if is_solid(&ticket) {
            continue;
        }
        let needed = slow::two_layer::lay(&ticket, 0).0.w;
        let most = WIDEST_GRID - needed;
        for spare in [r.below(most + 1), most] {
            let (g, x) = slow::two_layer::lay(&ticket, spare);
            assert_eq!(and_spoiled(r, case(&t, g.w, g.k, g.first, x)), 0);
        }
    }
}

/// A solid one has legal wirings on three layers, those of a channel.
#[test]
fn two_layer_tickets_on_three_layers() {
    let r = &mut Numbers::new(315);
    for _ in 0..300 {
        let n = 2 + r.below(20);
        let t = solid(r, n);
        let as_channel = slow::read::read(&[&[CHANNEL], &t[1..]].concat()).expect("a good ticket");
        let (g, x) = slow::lay::lay(&as_channel).expect("a channel's wiring");
        assert_eq!(and_spoiled(r, case(&t, g.w, g.k, g.first, x)), 0);
    }
}

#[test]
fn our_wirings() {
    let r = &mut Numbers::new(305);
    let mut tickets = extremes();
    tickets.extend((0..6_000).map(|_| random(r)));
    for t in tickets {
        if let Ok((laid, x)) = pozqaben::lay(&t) {
            assert_eq!(and_spoiled(r, case(&t, laid.w, laid.k, laid.first, x)), 0);
        }
    }
}

/// Points at random, with few nets, so that pieces grow large; and any bytes at all.
#[test]
fn noise() {
    let r = &mut Numbers::new(307);
    for _ in 0..20_000 {
        let t = ticket(r);
        let (w, k) = (t.get(2).map_or(1, |b| *b as usize), 1 + r.below(6));
        let size = t.get(1).map_or(0, |n| *n as usize) * w * k;
        let mut palette = nets(&t);
        palette.truncate(1 + r.below(3));
        palette.push(r.pick(&[0, 0, 0, 1, 255]));
        let x = (0..size).map(|_| r.pick(&palette)).collect();
        same_verdict(&case(&t, w, k, r.below(2) == 1, x));
    }
}

#[test]
fn refusals_before_the_points() {
    let r = &mut Numbers::new(309);
    for _ in 0..60 {
        let c = wired(r);
        let size = c.wiring.len();
        for w in [0, 1, c.w, WIDEST_CHANNEL, WIDEST_CHANNEL + 1, WIDEST_GRID, WIDEST_GRID + 1, 256, 1 << 32, usize::MAX] {
            for k in [0, 1, c.k, MOST_LAYERS, MOST_LAYERS + 1, 1 << 32, usize::MAX] {
                same_verdict(&case(&c.ticket, w, k, c.first, c.wiring.clone()));
            }
        }
        let with = |scratch: usize, x: &[u8]| Case { scratch, ..case(&c.ticket, c.w, c.k, c.first, x.to_vec()) };
        let longer = [&c.wiring[..], &[0]].concat();
        for x in [&c.wiring[..], &c.wiring[1..], &longer, &[]] {
            for scratch in [0, size - 1, size, size + 7] {
                same_verdict(&with(scratch, x));
            }
        }
        for cut in 0..c.ticket.len() {
            same_verdict(&Case { ticket: c.ticket[..cut].to_vec(), ..with(size, &c.wiring) });
        }
    }
}

/// As many tracks as Check takes for the kind, and one more.
#[test]
fn two_layer_and_channel_widths() {
    let straight = Places::from([((NORTH, 1), 3), ((SOUTH, 1), 3)]);
    for kind in [CHANNEL, TWO_LAYER] {
        let t = encode(kind, 1, 1, &straight);
        for w in [WIDEST_CHANNEL, WIDEST_CHANNEL + 1, WIDEST_GRID, WIDEST_GRID + 1] {
            let expected = if w <= widest(kind) { 0 } else { 11 };
            assert_eq!(same_verdict(&case(&t, w, 1, false, vec![3; w])), expected, "{kind} {w}");
        }
    }
}

/// The most points that Check takes of a box and of a channel: full lines, one of them cut, one net everywhere, noise, nothing.
#[test]
fn largest_wirings() {
    let r = &mut Numbers::new(311);
    let (n, w, k) = (LONGEST_SIDE, LONGEST_SIDE, MOST_LAYERS);
    let (area, size) = (n * w, n * w * k);
    let sides = [(NORTH, 0), (SOUTH, 0), (WEST, n), (EAST, n)];
    let pins: Places = sides.iter().flat_map(|(s, add)| (1..=n).map(move |i| ((*s, i), (i + add) as u8))).collect();
    let t = encode(BOX, n, w, &pins);
    let with = |x: Vec<u8>| case(&t, w, k, false, x);
    let lines = layered(n, w, k, |i, j, l| if l % 2 == 1 { i } else { n + j } as u8);
    assert_eq!(same_verdict(&with(lines.clone())), 0);
    same_verdict(&case(&t, w, k, true, lines.clone()));
    let mut cut = lines.clone();
    let (south_end, north_end) = (size - area + n / 2, size - n / 2);
    cut[south_end] = 0;
    assert_eq!(same_verdict(&with(cut.clone())), 0);
    cut[north_end] = 0;
    assert_eq!(same_verdict(&with(cut)), 15);
    let mut foreign = lines;
    foreign[size - 1] = LARGEST_NET + 1;
    assert_eq!(same_verdict(&with(foreign)), 14);
    assert_eq!(same_verdict(&with(vec![0; size])), 15);
    let few = of_shape(r, BOX, n, w, 10);
    let names = nets(&few);
    same_verdict(&case(&few, w, k, true, (0..size).map(|_| r.pick(&names[..2])).collect()));
    let one: Places = (1..=n).map(|i| ((NORTH, i), 7)).collect();
    let (w, size) = (WIDEST_CHANNEL, n * WIDEST_CHANNEL * k);
    let channel = |pins: &Places| encode(CHANNEL, n, MOST_TRUNK_LAYERS, pins);
    assert_eq!(same_verdict(&case(&channel(&one), w, k, true, vec![7; size])), 0);
    assert_eq!(same_verdict(&case(&channel(&Places::new()), w, k, true, vec![0; size])), 0);
}

/// The most points that Check takes at all: full columns, one of them cut, one net everywhere, noise, nothing.
#[test]
fn two_layer_largest_wirings() {
    let r = &mut Numbers::new(317);
    let (n, w, k) = (LONGEST_SIDE, WIDEST_GRID, MOST_LAYERS);
    let size = n * w * k;
    let straight: Places = [NORTH, SOUTH].into_iter().flat_map(|s| (1..=n).map(move |i| ((s, i), i as u8))).collect();
    let t = encode(TWO_LAYER, n, 1, &straight);
    let with = |x: Vec<u8>| case(&t, w, k, false, x);
    let columns = layered(n, w, k, |i, _, l| if l % 2 == 1 { i as u8 } else { 0 });
    assert_eq!(same_verdict(&with(columns.clone())), 0);
    let mut cut = columns.clone();
    let (south_end, north_end) = (size - n * w + n / 2, size - n + n / 2);
    cut[south_end] = 0;
    assert_eq!(same_verdict(&with(cut.clone())), 0);
    cut[north_end] = 0;
    assert_eq!(same_verdict(&with(cut)), 15);
    let mut foreign = columns;
    foreign[size - 1] = LARGEST_NET;
    assert_eq!(same_verdict(&with(foreign)), 14);
    assert_eq!(same_verdict(&with(vec![0; size])), 15);
    same_verdict(&with((0..size).map(|_| 1 + r.below(2) as u8).collect()));
    let one: Places = straight.into_keys().map(|place| (place, 7)).collect();
    assert_eq!(same_verdict(&case(&encode(TWO_LAYER, n, 1, &one), w, k, true, vec![7; size])), 0);
}
