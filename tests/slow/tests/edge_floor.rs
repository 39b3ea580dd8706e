//! The edge floor of a box: counted by hand, held against the floor, against what is laid and against wirings that a maze router
//! found; what other tickets answer; and that the stored vectors tell wrong counts from the right one.

use slow::edge::{answer, edge_floor, must_pass, needs, pins_of_nets, turned};
use slow::flat::a_box;
use slow::hardest::{self, highest_floor};
use slow::read::read;
use slow::survey::{figures, floor};
use slow::tickets::{corner, damaged, few_nets, of_shape, random, side_nets, Numbers, DOCUMENT};
use slow::wirings::wired;
use slow::{Pin, Ticket, BOX, CHANNEL, EAST, LONGEST_SIDE, NORTH, ROW, SOUTH, TWO_LAYER, WEST};

/// The needs of columns 1 to n and of tracks 1 to w, the floor, and the edge floor.
fn counts(t: &Ticket) -> (Vec<usize>, Vec<usize>, usize, usize) {
    (needs(t), needs(&turned(t)), figures(t).floor, edge_floor(t))
}

fn document(name: &str) -> Ticket {
    let (_, bytes) = DOCUMENT.iter().find(|(n, _)| *n == name).expect("a ticket of the documents");
    read(bytes).expect("a good ticket")
}

/// The pins of a side find room on as many layers as the nets that the line there must pass.
#[test]
fn boxes_where_the_floors_agree() {
    assert_eq!(counts(&a_box(&[0], &[0], &[0], &[0])), (vec![0], vec![0], 1, 1));
    assert_eq!(counts(&a_box(&[0, 0, 0], &[0, 0, 0], &[0, 0], &[0, 0])), (vec![0, 0, 0], vec![0, 0], 1, 1));
    // The documents' boxes.
    assert_eq!(counts(&document("B1")), (vec![1], vec![1], 2, 2));
    assert_eq!(counts(&document("B2")), (vec![2, 2], vec![2, 2], 2, 2));
    assert_eq!(counts(&document("box")), (vec![2, 4, 4, 2], vec![8], 7, 7));
    assert_eq!(counts(&document("west net")), (vec![2], vec![1, 1], 2, 2));
    // A net with pins all along a side goes on past the line there: it is counted by them, and not once more.
    assert_eq!(counts(&a_box(&[0, 0, 1], &[0, 0, 0], &[1, 1, 1], &[0, 0, 0])), (vec![3, 1, 1], vec![1, 1, 1], 2, 2));
    assert_eq!(counts(&a_box(&[1, 0, 0], &[0, 0, 0], &[0, 0, 0], &[1, 1, 1])), (vec![1, 1, 3], vec![1, 1, 1], 2, 2));
    assert_eq!(counts(&a_box(&[0, 0, 0], &[1, 1, 1], &[0, 0, 0], &[0, 0, 1])), (vec![1, 1, 1], vec![3, 1, 1], 2, 2));
    assert_eq!(counts(&a_box(&[1, 1, 1], &[0, 0, 0], &[0, 0, 0], &[1, 0, 0])), (vec![1, 1, 1], vec![1, 1, 3], 2, 2));
    // Of two columns, each has the pins of its own side.
    assert_eq!(counts(&a_box(&[0, 0], &[0, 0], &[1, 0], &[1, 1])), (vec![1, 2], vec![1, 1], 2, 2));
    assert_eq!(counts(&a_box(&[1, 1], &[1, 0], &[0, 0], &[0, 0])), (vec![1, 1], vec![1, 2], 2, 2));
}

/// A track with a west and an east pin of one net counts once at the one column, and a column with a south and a north pin of one
/// net once at the one track.
#[test]
fn one_column_or_one_track() {
    assert_eq!(counts(&a_box(&[0], &[0], &[1], &[1])), (vec![1], vec![0], 1, 1));
    assert_eq!(counts(&a_box(&[1], &[1], &[0], &[0])), (vec![0], vec![1], 1, 1));
    assert_eq!(counts(&a_box(&[0], &[0], &[1, 2], &[1, 2])), (vec![2], vec![0, 0], 1, 1));
    assert_eq!(counts(&a_box(&[1, 2], &[1, 2], &[0], &[0])), (vec![0, 0], vec![2], 1, 1));
    assert_eq!(counts(&a_box(&[0], &[0], &[1, 1], &[1, 0])), (vec![2], vec![1, 1], 2, 2));
    assert_eq!(counts(&a_box(&[1, 0], &[1, 1], &[0], &[0])), (vec![1, 1], vec![2], 2, 2));
    assert_eq!(counts(&a_box(&[0], &[0], &[1, 1, 3], &[3, 2, 2])), (vec![6], vec![2, 3, 2], 5, 5));
    assert_eq!(counts(&a_box(&[3, 2, 2], &[1, 1, 3], &[0], &[0])), (vec![2, 3, 2], vec![6], 5, 5));
    // At different tracks, or of different nets, both count.
    assert_eq!(counts(&a_box(&[0], &[0], &[1, 2], &[2, 1])), (vec![4], vec![2, 2], 3, 4));
    assert_eq!(counts(&a_box(&[2, 1], &[1, 2], &[0], &[0])), (vec![2, 2], vec![4], 3, 4));
    assert_eq!(counts(&a_box(&[0], &[0], &[1, 1], &[2, 2])), (vec![4], vec![2, 2], 3, 4));
    assert_eq!(counts(&a_box(&[2, 2], &[1, 1], &[0], &[0])), (vec![2, 2], vec![4], 3, 4));
}

/// The pins of one side leave no room for a net that crosses the line there and has no pin beside it.
#[test]
fn boxes_with_a_higher_edge_floor() {
    // On account of column 1, and of the last one.
    assert_eq!(counts(&a_box(&[2, 0], &[0, 2], &[1, 1], &[0, 0])), (vec![3, 1], vec![2, 2], 2, 3));
    assert_eq!(counts(&a_box(&[0, 2, 0], &[0, 0, 2], &[0, 0], &[1, 1])), (vec![0, 1, 3], vec![2, 2], 2, 3));
    // On account of track 1, and of the last one.
    assert_eq!(counts(&a_box(&[0, 0], &[1, 1], &[0, 2], &[2, 0])), (vec![2, 2], vec![3, 1], 2, 3));
    assert_eq!(counts(&a_box(&[1, 1], &[0, 0], &[0, 0, 2], &[0, 2, 0])), (vec![2, 2], vec![0, 1, 3], 2, 3));
    // Of both.
    assert_eq!(counts(&a_box(&[2, 2], &[0, 0], &[1, 1], &[0, 0])), (vec![3, 1], vec![1, 3], 2, 4));
    // The net with the pins crosses the column too.
    assert_eq!(counts(&a_box(&[2, 1], &[0, 2], &[1, 1], &[0, 0])), (vec![3, 2], vec![2, 2], 2, 3));
}

/// All places of a side of the longest are one net's.
#[test]
fn longest_boxes() {
    let (all, none) = ([1; LONGEST_SIDE], [0; LONGEST_SIDE]);
    let most = |t: &Ticket| {
        let (columns, tracks, floor, edge_floor) = counts(t);
        [columns.into_iter().max().unwrap_or(0), tracks.into_iter().max().unwrap_or(0), floor, edge_floor]
    };
    assert_eq!(most(&a_box(&none, &none, &all, &none)), [90, 1, 2, 2]);
    assert_eq!(most(&a_box(&[0], &[0], &all, &none)), [90, 1, 2, 2]);
    assert_eq!(most(&a_box(&none, &all, &[0], &[0])), [1, 90, 2, 2]);
    assert_eq!(most(&a_box(&[0], &[0], &all, &[2; LONGEST_SIDE])), [180, 2, 3, 4]);
    assert_eq!(most(&a_box(&[2; LONGEST_SIDE], &all, &[0], &[0])), [2, 180, 3, 4]);
    // One net more in column 1.
    let mut north = none;
    (north[0], north[1]) = (2, 2);
    assert_eq!(most(&a_box(&north, &none, &all, &none)), [91, 3, 2, 3]);
    assert_eq!(most(&a_box(&none, &all, &north, &none)), [3, 91, 2, 3]);
    assert_eq!(most(&a_box(&all, &all, &all, &all)), [90, 90, 2, 2]);
}

#[test]
fn kinds_that_are_no_box_answer_nothing() {
    for name in ["R1", "R2", "R3", "C1", "C2", "C3", "T4 passes"] {
        let (_, t) = DOCUMENT.iter().find(|(n, _)| *n == name).expect("a ticket of the documents");
        assert_eq!(answer(t), [0; 4], "{name}");
    }
    let r = &mut Numbers::new(83);
    for _ in 0..1000 {
        let t = random(r);
        let is_box = t[0] == BOX;
        assert!(is_box || [ROW, CHANNEL, TWO_LAYER].contains(&t[0]) && answer(&t) == [0; 4], "{t:?}");
        assert_eq!(answer(&t)[3] > 0, is_box, "{t:?}");
    }
}

#[test]
fn refused_tickets_answer_the_refusal_of_read() {
    assert_eq!(answer(&[]), [1, 0, 0, 0]);
    assert_eq!(answer(&[BOX, 1, 1, 4, 1]), [1, 5, 0, 0]);
    assert_eq!(answer(&[0, 1, 1, 0]), [2, 0, 0, 0]);
    assert_eq!(answer(&[BOX, 91, 1, 0]), [3, 1, 0, 0]);
    assert_eq!(answer(&[BOX, 1, 91, 0]), [4, 2, 0, 0]);
    assert_eq!(answer(&[BOX, 1, 1, 16]), [5, 3, 0, 0]);
    assert_eq!(answer(&[BOX, 1, 2, 4, 4, 1]), [6, 4, 0, 0]);
    assert_eq!(answer(&[BOX, 1, 2, 4, 3, 1, 181]), [7, 6, 0, 0]);
    assert_eq!(answer(&[BOX, 1, 2, 4, 3, 1, 1, 0]), [8, 7, 0, 0]);
    assert_eq!(answer(&[BOX, 1, 2, 4, 3, 1, 2]), [9, 1, 0, 0]);
    let r = &mut Numbers::new(89);
    let mut refused = 0;
    for _ in 0..2000 {
        let good = few_nets(r);
        let t = damaged(r, &good);
        let [number, place, ..] = slow::read::answer(&t);
        if number != 0 {
            assert_eq!(answer(&t), [number, place, 0, 0], "{t:?}");
            refused += 1;
        }
    }
    assert!(refused > 1000, "{refused}");
}

/// The box with its last column first.
fn mirrored(t: &Ticket) -> Ticket {
    let moved = |p: &Pin| match p.side {
        WEST => Pin { side: EAST, ..*p },
        EAST => Pin { side: WEST, ..*p },
        _ => Pin { place: t.n + 1 - p.place, ..*p },
    };
    Ticket { pins: t.pins.iter().map(moved).collect(), ..t.clone() }
}

/// Whether the edge floor is above the floor. It is never below, nor above what is laid, nor above the highest floor of the shape; and
/// it is the same however the box is turned and mirrored. Only low floors are raised: of two columns or more, at most two nets cross
/// column 1 and have no west pin, since they have a pin in it; and of one column none, so that an end of two tracks or more never
/// needs a third layer.
fn is_higher(bytes: &[u8]) -> bool {
    let t = read(bytes).expect("a good ticket");
    let (f, edge) = (figures(&t), edge_floor(&t));
    assert!(f.floor <= edge && edge <= f.layers && edge <= highest_floor(t.n, t.byte2), "{edge} of {t:?}");
    for other in [turned(&t), mirrored(&t), turned(&mirrored(&t)), mirrored(&turned(&t))] {
        assert_eq!(edge_floor(&other), edge, "{other:?}");
    }
    let is_higher = edge > f.floor;
    assert!(!is_higher || [(2, 3), (2, 4), (3, 4)].contains(&(f.floor, edge)), "{edge} of {t:?}");
    is_higher
}

#[test]
fn between_the_floor_and_what_is_laid() {
    let r = &mut Numbers::new(91);
    let higher = (0..2000).filter(|_| is_higher(&few_nets(r))).count();
    assert!(higher > 700, "{higher} boxes of few nets");
    let higher = (0..1000).filter(|_| is_higher(&side_nets(r))).count();
    assert!(higher > 100, "{higher} boxes of side nets");
    for (n, w) in [(1, 1), (2, 3), (7, 1), (1, 7), (12, 12), (40, 12), (12, 40), (90, 1), (1, 90), (90, 90)] {
        is_higher(&hardest::ticket(n, w));
        for tenths in [0, 2, 5, 8, 10] {
            is_higher(&of_shape(r, BOX, n, w, tenths));
        }
        for (a, b) in [(NORTH, EAST), (NORTH, WEST), (SOUTH, EAST), (SOUTH, WEST)] {
            is_higher(&corner(r, n, w, a, b));
        }
    }
}

/// Counted are the boxes, those wired on as many layers as the edge floor says, and those on as many as the floor says.
#[test]
fn no_wiring_of_the_maze_router_has_fewer_layers() {
    let r = &mut Numbers::new(97);
    let [mut boxes, mut edge_floors, mut floors] = [0; 3];
    for _ in 0..20_000 {
        let c = wired(r);
        let t = read(&c.ticket).expect("a good ticket");
        if t.kind == BOX && !t.pins.is_empty() {
            let (floor, edge) = (figures(&t).floor, edge_floor(&t));
            assert!(edge <= c.k, "{} layers of {t:?}", c.k);
            boxes += 1;
            edge_floors += usize::from(edge == c.k);
            floors += usize::from(floor == c.k);
        }
    }
    assert_eq!([boxes, edge_floors, floors], [3144, 351, 338]);
}

/// What a wrong count gets wrong.
#[derive(Clone, Copy, Debug, PartialEq)]
enum Mistake {
    Nothing,
    /// West pins at the last column, and east pins at the first.
    OtherEnd,
    /// Pins of either side at both ends.
    BothEnds,
    /// No pins at the last column.
    FirstEndOnly,
    /// No pins at the first column.
    LastEndOnly,
    /// A net with pins beside a column once more, since the column must pass it.
    OnceMore,
    /// A track with a west and an east pin of one net twice at the one column.
    BothTwice,
    /// No net without a pin beside the column.
    PinsOnly,
    /// A net with pins beside the column once, as the floor has it.
    NetsOnly,
    /// No column between the first and the last.
    EndsOnly,
    /// The need of the columns is divided by the length, and that of the tracks by the width.
    OtherSide,
    /// The tracks as the floor has them.
    ColumnsOnly,
    /// The columns as the floor has them.
    TracksOnly,
}

/// What the columns need at most by a count with this mistake.
fn most_needed(t: &Ticket, mistake: Mistake) -> usize {
    let nets = pins_of_nets(t);
    let (is_first, is_last) = (|c: usize| c == 1, |c: usize| c == t.n);
    let ends = |c: usize| match mistake {
        Mistake::OtherEnd => [is_last(c), is_first(c)],
        Mistake::BothEnds => [is_first(c) || is_last(c); 2],
        Mistake::FirstEndOnly => [is_first(c), false],
        Mistake::LastEndOnly => [false, is_last(c)],
        _ => [is_first(c), is_last(c)],
    };
    let need = |pins: &[Pin], c: usize| {
        let [west, east] = ends(c);
        let mut tracks: Vec<usize> =
            pins.iter().filter(|p| (p.side == WEST && west) || (p.side == EAST && east)).map(|p| p.place).collect();
        tracks.sort_unstable();
        if mistake != Mistake::BothTwice {
            tracks.dedup();
        }
        let passes = usize::from(must_pass(t.n, pins, c));
        match mistake {
            Mistake::OnceMore => tracks.len() + passes,
            Mistake::PinsOnly => tracks.len(),
            Mistake::NetsOnly => passes,
            _ => tracks.len().max(passes),
        }
    };
    let is_counted = |c: &usize| mistake != Mistake::EndsOnly || is_first(*c) || is_last(*c);
    (1..=t.n).filter(is_counted).map(|c| nets.iter().map(|pins| need(pins, c)).sum()).max().unwrap_or(0)
}

/// The edge floor of a box by a count with this mistake.
fn mistaken(t: &Ticket, mistake: Mistake) -> usize {
    let most = |t: &Ticket, others: Mistake| most_needed(t, if mistake == others { Mistake::NetsOnly } else { mistake });
    let (columns, tracks) = (most(t, Mistake::TracksOnly), most(&turned(t), Mistake::ColumnsOnly));
    let (n, w) = if mistake == Mistake::OtherSide { (t.byte2, t.n) } else { (t.n, t.byte2) };
    floor(n, w, columns, tracks)
}

const STORED_TICKETS: &[u8] = include_bytes!("../../../crates/edge_floor_vectors/stdin");
const STORED_LINES: &str = include_str!("../../../crates/edge_floor_vectors/stdout");

/// The stored tickets, each with the line that is stored for it.
fn stored() -> Vec<(&'static [u8], &'static str)> {
    let mut rest = STORED_TICKETS;
    let mut tickets = Vec::new();
    while let [low, high, more @ ..] = rest {
        let (ticket, after) = more.split_at(u16::from_le_bytes([*low, *high]) as usize);
        tickets.push(ticket);
        rest = after;
    }
    assert_eq!((rest.len(), tickets.len()), (0, STORED_LINES.lines().count()));
    tickets.into_iter().zip(STORED_LINES.lines()).collect()
}

/// A program with one of these mistakes prints another line for some stored ticket; a right one does not.
#[test]
fn stored_vectors_tell_wrong_counts() {
    let boxes: Vec<(Ticket, usize)> = stored()
        .into_iter()
        .filter_map(|(bytes, line)| Some((read(bytes).ok().filter(|t| t.kind == BOX)?, line)))
        .map(|(t, line)| (t, line.rsplit(' ').next().and_then(|word| word.parse().ok()).expect("four numbers")))
        .collect();
    let told = |mistake: Mistake| boxes.iter().filter(|(t, edge)| mistaken(t, mistake) != *edge).count();
    assert_eq!(told(Mistake::Nothing), 0, "the right count");
    let ends = [Mistake::OtherEnd, Mistake::BothEnds, Mistake::FirstEndOnly, Mistake::LastEndOnly, Mistake::EndsOnly];
    let nets = [Mistake::OnceMore, Mistake::BothTwice, Mistake::PinsOnly, Mistake::NetsOnly];
    let lines = [Mistake::OtherSide, Mistake::ColumnsOnly, Mistake::TracksOnly];
    for mistake in [&ends[..], &nets, &lines].concat() {
        assert!(told(mistake) > 0, "{mistake:?}");
    }
}
