//! Wirings of 90 × 90 × 255 points, layer 1 vertical, that try a checker in different ways.

use slow::tickets::{encode, of_shape, Numbers, Places};
use slow::wirings::layered;
use slow::{read, BOX, EAST, LONGEST_SIDE, MOST_LAYERS, NORTH, SOUTH, WEST};

const N: usize = LONGEST_SIDE;
const K: usize = MOST_LAYERS;

type Wiring = (&'static str, Vec<u8>, Vec<u8>);

/// A ticket with net 1 all along one side.
fn one_net(side: usize) -> Vec<u8> {
    encode(BOX, N, N, &(1..=N).map(|i| ((side, i), 1)).collect::<Places>())
}

/// Every column and every track is one net from end to end: 180 nets, no point empty.
fn combs() -> Wiring {
    let sides = [(NORTH, 0), (SOUTH, 0), (WEST, N), (EAST, N)];
    let pins: Places = sides.iter().flat_map(|(s, add)| (1..=N).map(move |i| ((*s, i), (i + add) as u8))).collect();
    let lines = layered(N, N, K, |i, j, l| if l % 2 == 1 { i } else { N + j } as u8);
    ("combs, 180 nets", encode(BOX, N, N, &pins), lines)
}

/// One path through 64 levels of four layers: columns, tracks, and two layers with the way up alone, at the end of one
/// level and at the start of the next. Its pins touch it on layers 1 and 253 alone, so that no level is cut short.
fn levels(
    columns: impl Fn(usize, usize) -> bool,
    tracks: impl Fn(usize, usize) -> bool,
    start: (usize, usize),
    end: (usize, usize),
) -> Vec<u8> {
    layered(N, N, K, |i, j, l| {
        let level = (l - 1) / 4;
        let (came, leaves) = if level % 2 == 0 { (start, end) } else { (end, start) };
        let stub = j >= N - 1 && ((l == 1 && i == 45) || (l == K - 2 && i == 47));
        let here = match (l - 1) % 4 {
            0 => columns(i, j) || stub || (level > 0 && (i, j) == came),
            1 => tracks(i, j),
            _ => (i, j) == leaves && level < 63,
        };
        here as u8
    })
}

fn path_ticket() -> Vec<u8> {
    encode(BOX, N, N, &Places::from([((NORTH, 45), 1), ((NORTH, 47), 1)]))
}

/// Tracks 1, 3, 5 .. to and fro.
fn snake() -> Wiring {
    let turns = |i: usize, j: usize| (i == N && !j.is_multiple_of(4) && j <= N - 3) || (i == 1 && j % 4 != 2 && (3..N).contains(&j));
    ("a snake", path_ticket(), levels(turns, |_, j| j % 2 == 1, (1, 1), (N, N - 1)))
}

/// Round and round from column 2, track 2 to the middle: ring r is track r, column 89 - r, track 89 - r and column r of the
/// inner 88 × 88 points.
fn spiral() -> Wiring {
    let inner = |i: usize| (2..N).contains(&i);
    let columns = move |i: usize, j: usize| {
        let (a, b, r) = (i - 1, j - 1, (i - 1).min(N - i));
        inner(i) && inner(j) && (if a == r { r + 1 } else { r }..=N - 1 - r).contains(&b)
    };
    let tracks = move |i: usize, j: usize| {
        let (a, b, r) = (i - 1, j - 1, (j - 1).min(N - j));
        inner(i) && inner(j) && (if b == r { r.max(2) - 1 } else { r }..=N - 1 - r).contains(&a)
    };
    ("a spiral", path_ticket(), levels(columns, tracks, (2, 2), (45, 46)))
}

pub fn all(r: &mut Numbers) -> Vec<Wiring> {
    let size = N * N * K;
    let full = of_shape(r, BOX, N, N, 10);
    let names = read::read(&full).expect("a good ticket").nets();
    let few = encode(BOX, N, N, &Places::from([((NORTH, 1), 1), ((SOUTH, 1), 1), ((WEST, N), 2), ((EAST, N), 2)]));
    vec![
        combs(),
        ("one net at every point", one_net(NORTH), vec![1; size]),
        snake(),
        spiral(),
        ("noise, all nets", full.clone(), (0..size).map(|_| r.pick(&names)).collect()),
        ("noise, two nets", few.clone(), (0..size).map(|_| 1 + r.below(2) as u8).collect()),
        ("noise, a net or nothing", few, (0..size).map(|_| r.below(2) as u8).collect()),
        ("all zeros", full, vec![0; size]),
    ]
}
