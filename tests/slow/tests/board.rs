//! Boards that are edited: every refusal worked by hand from the documents; counts at columns and tracks worked by hand; lists of nets
//! against the same nets dropped singly; and the board against a second one, an array of places with counts that are kept, over random
//! histories and over every short list of places and of nets on small boards. After every call both boards' counts are held against the
//! definition in the request's own words.

use slow::board::{place_number, place_numbers, Board};
use slow::edits::{self, line, of_ticket, random_shape, record, run, Call, HASHED_COUNTS, MOST_NUMBERS};
use slow::flat::unflatten;
use slow::read::read;
use slow::records::{hash, RECORD_BUFFER, STAIN};
use slow::survey::{figures, floor};
use slow::tickets::{encode, random, slots, Numbers, DOCUMENT};
use slow::{hardest, places, Refusal, BOX, CHANNEL, EAST, LARGEST_NET, LONGEST_SIDE, LONGEST_TICKET, NORTH, ROW, SOUTH, TWO_LAYER, WEST};
use std::collections::BTreeMap;

const MAX: u64 = u64::MAX;

fn started(kind: u8, n: usize, byte2: usize) -> Board {
    let (board, outcome) = Board::start(kind as u64, n as u64, byte2 as u64);
    assert_eq!(outcome, Ok(()));
    board
}

/// The counts at columns 0, 1, .. and at tracks 0, 1, .., past the longest side.
fn counts(board: &Board) -> [Vec<u8>; 2] {
    let lines = || 0..HASHED_COUNTS;
    [lines().map(|c| board.count_at_column(c)).collect(), lines().map(|c| board.count_at_track(c)).collect()]
}

/// The board's counts are these at columns and tracks 1 and on, and 0 at every other number.
fn counts_are(board: &Board, columns: &[u8], tracks: &[u8]) {
    let with_zeros = |counts: &[u8]| [&[0], counts, &vec![0; HASHED_COUNTS - 1 - counts.len()]].concat();
    assert_eq!(counts(board), [with_zeros(columns), with_zeros(tracks)]);
    for c in [HASHED_COUNTS, 255, 256, 257, 1 << 16, (1 << 16) + 1, 1 << 32, (1 << 32) + 1, (1 << 63) + 1, usize::MAX] {
        assert_eq!((board.count_at_column(c), board.count_at_track(c)), (0, 0), "{c}");
    }
    let most = |counts: &[u8]| counts.iter().max().map_or(0, |count| *count as u64);
    assert_eq!(board.figures()[..2], [most(columns), most(tracks)]);
}

/// An add that is refused leaves the board as it was.
fn add_refused(board: &Board, net: u64, places: &[u64], number: u8, place: usize) {
    let mut after = board.clone();
    assert_eq!(after.add(net, places), Err(Refusal(number, place)), "{net} at {places:?}");
    assert_eq!((counts(&after), &after), (counts(board), board));
}

/// So does a drop; the place may be any number.
fn drop_refused(board: &Board, nets: &[u64], number: u8, place: u64) {
    let mut after = board.clone();
    assert_eq!(after.drop(nets), Err(Refusal(number, place as usize)), "{nets:?}");
    assert_eq!((counts(&after), &after), (counts(board), board));
}

#[test]
fn starts() {
    let refused = |kind: u64, n: u64, byte2: u64, number: u8| {
        let (board, outcome) = Board::start(kind, n, byte2);
        assert_eq!(outcome, Err(Refusal(number, 0)), "{kind}, {n}, {byte2}");
        counts_are(&board, &[0], &[]);
        assert_eq!((board.ticket(), board), (vec![ROW, 1, 1, 0], Board::fresh()));
    };
    for kind in [0, 4, 5, 129, 131, 255, 256 + 1, (1 << 16) + 2, (1 << 32) + 3, MAX] {
        refused(kind, 1, 1, 2);
        refused(kind, 0, 0, 2);
    }
    for kind in [1, 2, 3] {
        for n in [0, 91, 255, 256 + 1, (1 << 32) + 1, MAX] {
            refused(kind, n, 1, 3);
            refused(kind, n, 0, 3);
        }
        for byte2 in [0, if kind == 3 { 91 } else { 9 }, 256 + 1, (1 << 16) + 1, (1 << 32) + 1, MAX] {
            refused(kind, 1, byte2, 4);
            refused(kind, 90, byte2, 4);
        }
    }
    for (kind, n, byte2) in [(ROW, 1, 1), (ROW, 90, 8), (CHANNEL, 90, 1), (CHANNEL, 1, 8), (BOX, 1, 90), (BOX, 90, 1), (BOX, 90, 90)] {
        let board = started(kind, n, byte2);
        assert_eq!((board.shape(), board.nets().len()), ((kind, n, byte2), 0));
        assert_eq!(board.ticket(), [kind, n as u8, byte2 as u8, 0]);
        assert_eq!(board.figures(), [0, 0, (kind == BOX) as u64]);
        counts_are(&board, &vec![0; n], &if kind == BOX { vec![0; byte2] } else { vec![] });
    }
}

/// A box 3 long and 2 wide, which has net 5 at north 2 and west 1.
fn small_box() -> Board {
    let mut board = started(BOX, 3, 2);
    assert_eq!(board.add(5, &[513, 2]), Ok(()));
    board
}

#[test]
fn an_impossible_net_number_comes_first() {
    let board = small_box();
    for net in [0, 181, 255, 256, 256 + 5, (1 << 16) + 5, (1 << 32) + 5, (1 << 63) + 5, MAX] {
        for list in [&[][..], &[1], &[0, 0], &[2, 513], &[1, 3]] {
            add_refused(&board, net, list, 7, 0);
        }
        assert!(!board.has(net));
    }
}

#[test]
fn a_net_that_is_there_comes_before_its_list() {
    let board = small_box();
    for list in [&[][..], &[1], &[0], &[0, 0], &[2, 513], &[1, 3]] {
        add_refused(&board, 5, list, 20, 5);
    }
    assert!(board.has(5));
}

#[test]
fn fewer_than_two_places() {
    let board = small_box();
    add_refused(&board, 6, &[], 21, 0);
    for place in [1, 2, 0, 1025, MAX] {
        add_refused(&board, 6, &[place], 21, 1);
    }
}

#[test]
fn places_that_are_none() {
    let board = small_box();
    // Place 0 and the first past the end of each side, and sides that are none.
    let none = [0, 4, 255, 256, 260, 511, 512, 515, 767, 768, 771, 1023, 1024, 1025, 1280 + 1, 255 * 256 + 1, 65535];
    let wide = [(1 << 16) + 1, (1 << 32) + 1, (1 << 63) + 1, MAX - 255, MAX];
    for place in none.into_iter().chain(wide) {
        add_refused(&board, 6, &[place, 1], 21, 0);
        add_refused(&board, 6, &[1, place], 21, 1);
        add_refused(&board, 6, &[1, 3, 257, 258, place, place, 0], 21, 4);
    }
    // Sides that the kind lacks; byte 2 makes no places there.
    for (kind, n, byte2, sides) in [(ROW, 3, 3, &[SOUTH, WEST, EAST][..]), (CHANNEL, 3, 8, &[WEST, EAST])] {
        for (side, place) in sides.iter().flat_map(|side| [1, 2, 3, 8].map(|place| (*side, place))) {
            add_refused(&started(kind, n, byte2), 1, &[2, place_number(side, place)], 21, 1);
        }
    }
    assert_eq!(started(CHANNEL, 3, 8).add(1, &[2, 258, 259]), Ok(()));
}

#[test]
fn filled_places_and_repeats() {
    let board = small_box();
    for place in [2, 513] {
        add_refused(&board, 6, &[place, 1], 21, 0);
        add_refused(&board, 6, &[1, place], 21, 1);
    }
    add_refused(&board, 6, &[1, 1], 21, 1);
    add_refused(&board, 6, &[1, 3, 1, 3], 21, 2);
    add_refused(&board, 6, &[1, 3, 3, 2], 21, 2);
    add_refused(&board, 6, &[1, 3, 2, 3], 21, 2);
    // The first of several, whatever they are.
    add_refused(&board, 6, &[1, 0, 1, 2], 21, 1);
    add_refused(&board, 6, &[2, 1, 1, 0], 21, 0);
    add_refused(&board, 6, &[1, 1, 0, 2], 21, 1);
    assert_eq!(board.clone().add(6, &[3, 1, 770]), Ok(()));
}

#[test]
fn drops_of_one_net() {
    let mut board = small_box();
    drop_refused(&board, &[6], 22, 6);
    drop_refused(&board, &[180], 22, 180);
    assert_eq!(board.drop(&[5]), Ok(()));
    assert_eq!(board, started(BOX, 3, 2));
    drop_refused(&board, &[5], 22, 5);
    // Again, elsewhere; its former places are free.
    assert_eq!(board.add(5, &[1, 3]), Ok(()));
    assert_eq!(board.add(6, &[2, 513]), Ok(()));
    assert_eq!(board.ticket(), [3, 3, 2, 5, 7, 5, 6, 5, 1, 6]);
}

/// The box 3 long and 2 wide with two nets more: 180 at north 1 and north 3, and 1 at south 1 and east 2.
fn three_nets() -> Board {
    let mut board = small_box();
    assert_eq!((board.add(180, &[3, 1]), board.add(1, &[257, 770])), (Ok(()), Ok(())));
    board
}

#[test]
fn an_empty_list_changes_nothing() {
    for board in [Board::fresh(), small_box(), three_nets(), started(CHANNEL, 90, 8)] {
        let mut after = board.clone();
        assert_eq!(after.drop(&[]), Ok(()));
        assert_eq!((counts(&after), &after), (counts(&board), &board));
    }
}

/// A number outside 1 to 180 is absent like a net that is not there; the low bytes of some are those of net 5.
#[test]
fn the_first_absent_net_comes_before_every_repeat() {
    let board = three_nets();
    let wide = [(1 << 16) - 1, 1 << 16, (1 << 16) + 5, (1 << 32) + 5, (1 << 63) + 5, MAX - 250, MAX];
    for x in [0, 2, 6, 179, 181, 182, 255, 256, 256 + 5].into_iter().chain(wide) {
        let lists: [&[u64]; 14] = [
            &[x],
            &[x, 5, 180, 1],
            &[5, x, 180, 1],
            &[5, 180, x, 1],
            &[5, 180, 1, x],
            &[x, x],
            &[5, x, x],
            &[x, 5, 5],
            &[5, x, 5],
            &[5, 5, x],
            &[5, 1, 5, 1, 180, x],
            &[1, 1, 1, x, 1, 183],
            // Another absent one after it, smaller or larger.
            &[180, x, 3, 5],
            &[x, 0, 184, MAX],
        ];
        lists.iter().for_each(|list| drop_refused(&board, list, 22, x));
        drop_refused(&board, &[5, 3, x, 1], 22, 3);
        drop_refused(&board, &[185, x], 22, 185);
        drop_refused(&started(BOX, 3, 2), &[x, 5], 22, x);
    }
    drop_refused(&started(BOX, 3, 2), &[5, 5], 22, 5);
    drop_refused(&Board::fresh(), &[180, 1], 22, 180);
}

#[test]
fn the_first_repeat() {
    let board = three_nets();
    let lists: [(&[u64], u64); 12] = [
        (&[5, 5], 1),
        (&[180, 180], 1),
        (&[1, 1, 1], 1),
        (&[5, 5, 1, 180], 1),
        (&[5, 1, 5], 2),
        (&[5, 1, 1], 2),
        (&[5, 1, 5, 1], 2),
        (&[5, 1, 1, 5], 2),
        (&[180, 5, 1, 1], 3),
        (&[180, 5, 1, 180], 3),
        (&[1, 5, 180, 5, 1], 3),
        (&[1, 5, 180, 1, 5, 180, 1, 5, 180], 3),
    ];
    lists.iter().for_each(|(list, place)| drop_refused(&board, list, 23, *place));
    for size in [2, 180, 181, 182, 256, 257, 512, 1000] {
        drop_refused(&board, &vec![1; size], 23, 1);
        drop_refused(&board, &[&[180, 5][..], &vec![1; size]].concat(), 23, 3);
        drop_refused(&board, &[&vec![1; size][..], &[2]].concat(), 22, 2);
    }
}

/// What is left is what was added but for the list's nets, and the places are free.
#[test]
fn lists_of_the_box_with_three_nets() {
    let nets: [(u64, &[u64]); 3] = [(5, &[513, 2]), (180, &[3, 1]), (1, &[257, 770])];
    for list in [&[5][..], &[180], &[1], &[5, 180], &[180, 5], &[5, 1], &[1, 5], &[180, 1], &[1, 180], &[5, 180, 1], &[1, 180, 5]] {
        let (mut board, mut left) = (three_nets(), started(BOX, 3, 2));
        assert_eq!(board.drop(list), Ok(()));
        for (net, places) in nets {
            assert!(list.contains(&net) || left.add(net, places).is_ok());
        }
        assert_eq!((counts(&board), &board), (counts(&left), &left), "{list:?}");
        drop_refused(&board, list, 22, list[0]);
        for (net, places) in nets {
            assert!(!list.contains(&net) || board.add(net, places).is_ok());
        }
        assert_eq!((counts(&board), &board), (counts(&three_nets()), &three_nets()));
    }
    let mut board = three_nets();
    counts_are(&board, &[3, 3, 2], &[2, 3]);
    assert_eq!(board.drop(&[1, 5]), Ok(()));
    counts_are(&board, &[1, 1, 1], &[0, 1]);
    assert_eq!((board.ticket(), board.figures()), (vec![3, 3, 2, 1, 5, 180, 180], [1, 1, 2]));
    assert_eq!(board.drop(&[180]), Ok(()));
    assert_eq!(board, started(BOX, 3, 2));
}

/// The box 90 long and 90 wide with 180 nets.
fn full_box() -> Board {
    let mut board = Board::fresh();
    of_ticket(&hardest::ticket(LONGEST_SIDE, LONGEST_SIDE)).iter().for_each(|call| drop(line(&mut board, call)));
    board
}

fn shuffled(r: &mut Numbers, list: &[u64]) -> Vec<u64> {
    let mut out = list.to_vec();
    r.shuffle(&mut out);
    out
}

#[test]
fn lists_of_the_full_box() {
    let (board, r) = (full_box(), &mut Numbers::new(107));
    let rising: Vec<u64> = (1..=180).collect();
    let falling: Vec<u64> = (1..=180).rev().collect();
    for list in [rising.clone(), falling, shuffled(r, &rising), shuffled(r, &rising)] {
        let mut after = board.clone();
        assert_eq!((after.drop(&list), &after), (Ok(()), &started(BOX, 90, 90)));
        counts_are(&after, &[0; 90], &[0; 90]);
        // Longer than any list of different nets: one of them again, or an absent one, anywhere.
        for at in [0, 1, 90, 179, 180] {
            let with = |x: u64| [&list[..at], &[x], &list[at..]].concat();
            drop_refused(&board, &with(list[0]), 23, at.max(1) as u64);
            drop_refused(&board, &with(list[179]), 23, 180);
            [0, 181, 256 + 1, MAX].iter().for_each(|x| drop_refused(&board, &with(*x), 22, *x));
        }
        drop_refused(&board, &list.repeat(3), 23, 180);
        drop_refused(&board, &[list.repeat(2), vec![0]].concat(), 22, 0);
        // All but the last, and then all.
        let (mut most, last) = (board.clone(), list[179]);
        assert_eq!((most.drop(&list[..179]), most.nets().len(), most.has(last)), (Ok(()), 1, true));
        drop_refused(&most, &list, 22, list[0]);
        drop_refused(&most, &[&[last, last], &list[..]].concat(), 22, list[0]);
        assert_eq!((most.drop(&[last]), most), (Ok(()), after));
    }
}

/// The list in each of these orders, and its nets singly in each, leave the same board.
fn same_in_any_order(board: &Board, list: &[u64], orders: &[Vec<u64>]) {
    let mut right = board.clone();
    assert_eq!(right.drop(list), Ok(()));
    assert_eq!(right.nets().len(), board.nets().len() - list.len());
    for order in orders {
        let (mut at_once, mut singly) = (board.clone(), board.clone());
        assert_eq!(at_once.drop(order), Ok(()));
        order.iter().for_each(|net| assert_eq!(singly.drop(&[*net]), Ok(())));
        assert_eq!((counts(&at_once), &at_once), (counts(&right), &right), "{order:?}");
        assert_eq!((counts(&singly), &singly), (counts(&right), &right), "{order:?}");
        // A list after a list.
        let (first, rest) = order.split_at(order.len() / 2);
        let mut in_two = board.clone();
        assert_eq!((in_two.drop(first), in_two.drop(rest)), (Ok(()), Ok(())));
        assert_eq!(in_two, right, "{order:?}");
    }
}

/// Every order of a list.
fn all_orders(list: &[u64]) -> Vec<Vec<u64>> {
    match list {
        [] => vec![vec![]],
        [first, rest @ ..] => {
            let with_first = |order: Vec<u64>| (0..=order.len()).map(move |i| [&order[..i], &[*first], &order[i..]].concat());
            all_orders(rest).into_iter().flat_map(with_first).collect()
        }
    }
}

#[test]
fn a_list_is_its_nets_singly_in_any_order() {
    assert_eq!(all_orders(&[1, 2, 3]), [[1, 2, 3], [2, 1, 3], [2, 3, 1], [1, 3, 2], [3, 1, 2], [3, 2, 1]]);
    let r = &mut Numbers::new(109);
    let mut longest = 0;
    for round in 0..150 {
        let shape = if round < 3 { (BOX, LONGEST_SIDE, LONGEST_SIDE) } else { random_shape(r) };
        let mut board = Board::fresh();
        edits::history(r, shape, true, 20, 5).iter().for_each(|call| drop(line(&mut board, call)));
        let mut nets: Vec<u64> = board.nets().keys().map(|net| *net as u64).collect();
        r.shuffle(&mut nets);
        for size in [nets.len().min(4), r.below(nets.len() + 1), nets.len()] {
            let list = &nets[..size];
            let orders = if size <= 4 { all_orders(list) } else { (0..3).map(|_| shuffled(r, list)).collect() };
            same_in_any_order(&board, list, &orders);
            longest = longest.max(size);
        }
    }
    assert!(longest > 100, "{longest}");
}

/// The order of a list is no part of the ticket.
#[test]
fn tickets_and_figures_of_the_documents() {
    let mut board = started(BOX, 1, 2);
    assert_eq!(board.figures(), [0, 0, 1]);
    assert_eq!(board.add(1, &[514, 513]), Ok(()));
    assert_eq!((board.ticket(), board.figures()), (vec![3, 1, 2, 4, 3, 1, 1], [1, 1, 2]));
    counts_are(&board, &[1], &[1, 1]);
    let figures_of = |name: &str| {
        let (_, t) = DOCUMENT.iter().find(|(n, _)| *n == name).expect("a ticket of the document");
        let mut board = Board::fresh();
        of_ticket(t).iter().for_each(|call| drop(line(&mut board, call)));
        assert_eq!(board.ticket(), *t, "{name}");
        board.figures()
    };
    assert_eq!(["R1", "R2", "R3"].map(figures_of), [[2, 0, 0], [2, 0, 0], [0, 0, 0]]);
    assert_eq!(["C1", "C2", "C3"].map(figures_of), [[2, 0, 0], [2, 0, 0], [0, 0, 0]]);
    assert_eq!(["B1", "B2", "box", "west net"].map(figures_of), [[1, 1, 2], [2, 2, 2], [4, 4, 7], [1, 1, 2]]);
}

/// Net 1 of the channel has both places of column 1: no column must pass it.
#[test]
fn a_channel_and_its_figures_call_by_call() {
    let mut board = started(CHANNEL, 4, 1);
    let mut figures = Vec::new();
    let calls: [(u64, &[u64]); 4] = [(1, &[257, 1]), (2, &[2, 260]), (3, &[258, 3, 259]), (4, &[4, 1])];
    for (net, places) in calls {
        figures.push((board.add(net, places), board.figures()));
    }
    assert_eq!(figures, [(Ok(()), [0; 3]), (Ok(()), [1, 0, 0]), (Ok(()), [2, 0, 0]), (Err(Refusal(21, 1)), [2, 0, 0])]);
    assert_eq!((board.drop(&[2]), board.figures(), board.nets().len()), (Ok(()), [1, 0, 0], 2));
    assert_eq!(board.ticket(), [2, 4, 1, 3, 5, 1, 3, 7, 1, 3, 3]);
}

/// A board of this shape with these nets, numbered from 1.
fn with_nets(kind: u8, n: usize, byte2: usize, nets: &[&[u64]]) -> Board {
    let mut board = started(kind, n, byte2);
    for (net, places) in (1..).zip(nets) {
        assert_eq!(board.add(net, places), Ok(()), "{places:?}");
    }
    board
}

/// Place numbers: north from 1, south from 257, west from 513, east from 769.
#[test]
fn counts_of_one_column_and_of_one_track() {
    // Both west pins: tracks 1 and 2 lie between them, and column 1 is beside them.
    counts_are(&with_nets(BOX, 1, 2, &[&[513, 514]]), &[1], &[1, 1]);
    counts_are(&with_nets(BOX, 1, 2, &[&[513, 514], &[770, 769]]), &[2], &[2, 2]);
    // Column 1 is the last one too: it is beside west nets and beside east ones, and passes those from west to east.
    counts_are(&with_nets(BOX, 1, 3, &[&[513, 515], &[769, 770, 771]]), &[2], &[2, 2, 2]);
    counts_are(&with_nets(BOX, 1, 3, &[&[514, 770]]), &[1], &[0, 0, 0]);
    counts_are(&with_nets(BOX, 1, 3, &[&[514, 771]]), &[1], &[0, 1, 1]);
    // North 1 and south 1: all at column 1, and every track lies between them.
    counts_are(&with_nets(BOX, 1, 3, &[&[1, 257]]), &[0], &[1, 1, 1]);
    counts_are(&with_nets(BOX, 1, 3, &[&[1, 514]]), &[1], &[0, 1, 1]);
    counts_are(&with_nets(BOX, 1, 3, &[&[257, 770]]), &[1], &[1, 1, 0]);
    // One track.
    counts_are(&with_nets(BOX, 3, 1, &[&[1, 3]]), &[1, 1, 1], &[1]);
    counts_are(&with_nets(BOX, 3, 1, &[&[1, 3], &[258, 259]]), &[1, 2, 2], &[2]);
    counts_are(&with_nets(BOX, 3, 1, &[&[2, 258]]), &[0, 0, 0], &[1]);
    counts_are(&with_nets(BOX, 3, 1, &[&[513, 769]]), &[1, 1, 1], &[0]);
    counts_are(&with_nets(BOX, 3, 1, &[&[2, 513], &[258, 769]]), &[1, 2, 1], &[2]);
    // One place on each side: no net is all on one.
    counts_are(&with_nets(BOX, 1, 1, &[&[1, 257]]), &[0], &[1]);
    counts_are(&with_nets(BOX, 1, 1, &[&[513, 769]]), &[1], &[0]);
    counts_are(&with_nets(BOX, 1, 1, &[&[1, 257], &[513, 769]]), &[1], &[1]);
    counts_are(&with_nets(BOX, 1, 1, &[&[1, 513], &[257, 769]]), &[2], &[2]);
    counts_are(&with_nets(BOX, 1, 1, &[&[1, 257, 513, 769]]), &[1], &[1]);
}

#[test]
fn counts_of_nets_on_one_side() {
    let (north, south, west, east) = (&[1, 3][..], &[259, 257][..], &[513, 514][..], &[770, 769][..]);
    counts_are(&with_nets(BOX, 3, 2, &[north]), &[1, 1, 1], &[0, 1]);
    counts_are(&with_nets(BOX, 3, 2, &[south]), &[1, 1, 1], &[1, 0]);
    counts_are(&with_nets(BOX, 3, 2, &[west]), &[1, 0, 0], &[1, 1]);
    counts_are(&with_nets(BOX, 3, 2, &[east]), &[0, 0, 1], &[1, 1]);
    let mut board = with_nets(BOX, 3, 2, &[north, south, west, east]);
    counts_are(&board, &[3, 2, 3], &[3, 3]);
    // Each leaves, and comes again.
    for (net, places, columns, tracks) in
        [(1, north, [2, 1, 2], [3, 2]), (2, south, [2, 1, 2], [2, 3]), (3, west, [2, 2, 3], [2, 2]), (4, east, [3, 2, 2], [2, 2])]
    {
        assert_eq!(board.drop(&[net]), Ok(()));
        counts_are(&board, &columns, &tracks);
        assert_eq!(board.add(net, places), Ok(()));
        counts_are(&board, &[3, 2, 3], &[3, 3]);
    }
    // Two pins of a side that do not reach its ends; one on another side, and it is no side's net.
    counts_are(&with_nets(BOX, 3, 2, &[&[2, 3]]), &[0, 1, 1], &[0, 1]);
    counts_are(&with_nets(BOX, 3, 2, &[&[2, 3, 513]]), &[1, 1, 1], &[1, 1]);
    counts_are(&with_nets(BOX, 3, 2, &[&[513, 514, 3]]), &[1, 1, 1], &[1, 1]);
    counts_are(&with_nets(BOX, 3, 2, &[&[513, 514, 769]]), &[1, 1, 1], &[1, 1]);
}

/// Rows and channels have no sides beside their columns, and no counts of tracks, whatever byte 2 is.
#[test]
fn counts_of_rows_and_channels() {
    counts_are(&with_nets(CHANNEL, 3, 8, &[&[2, 258]]), &[0, 0, 0], &[]);
    counts_are(&with_nets(CHANNEL, 3, 2, &[&[257, 1], &[2, 258], &[3, 259]]), &[0, 0, 0], &[]);
    counts_are(&with_nets(CHANNEL, 1, 8, &[&[1, 257]]), &[0], &[]);
    counts_are(&with_nets(CHANNEL, 3, 3, &[&[2, 258, 3], &[1, 257]]), &[0, 1, 1], &[]);
    counts_are(&with_nets(CHANNEL, 4, 1, &[&[1, 258], &[2, 260], &[3, 259]]), &[1, 2, 1, 1], &[]);
    counts_are(&with_nets(ROW, 6, 8, &[&[1, 3], &[2, 5], &[4, 6]]), &[1, 2, 2, 2, 2, 1], &[]);
    counts_are(&with_nets(ROW, 2, 2, &[&[2, 1]]), &[1, 1], &[]);
    let all: Vec<u64> = (1..=90).collect();
    counts_are(&with_nets(ROW, 90, 8, &[&all]), &[1; 90], &[]);
    counts_are(&with_nets(ROW, 90, 1, &[&[1, 90], &[2, 89]]), &[&[1][..], &[2; 88], &[1]].concat(), &[]);
}

#[test]
fn counts_of_the_longest_spans() {
    let mut board = with_nets(BOX, 90, 90, &[&[513, 768 + 90]]);
    counts_are(&board, &[1; 90], &[1; 90]);
    assert_eq!(board.add(2, &[90, 257]), Ok(()));
    counts_are(&board, &[2; 90], &[2; 90]);
    assert_eq!(board.drop(&[1]), Ok(()));
    counts_are(&board, &[1; 90], &[1; 90]);
    let (board, _) = Board::start(3, 90, 90);
    counts_are(&board, &[0; 90], &[0; 90]);
    counts_are(&with_nets(BOX, 90, 1, &[&[513, 769]]), &[1; 90], &[0]);
    counts_are(&with_nets(BOX, 1, 90, &[&[1, 257]]), &[0], &[1; 90]);
    // Net m at north m and south 91 - m, net 90 + j at west j and east 91 - j: column c passes the 90 from west to east, and 2 c or
    // 2 (91 - c) of the others.
    let ends: Vec<[u64; 2]> = (1..=90).map(|m| [m, 256 + 91 - m]).chain((1..=90).map(|j| [512 + j, 768 + 91 - j])).collect();
    let nets: Vec<&[u64]> = ends.iter().map(|net| &net[..]).collect();
    let lines: Vec<u8> = (1..=90).map(|c: u8| 90 + 2 * c.min(91 - c)).collect();
    counts_are(&with_nets(BOX, 90, 90, &nets), &lines, &lines);
    assert_eq!((lines[0], lines[44], lines[45], lines[89]), (92, 180, 180, 92));
}

#[test]
fn full_boards() {
    let side = LONGEST_SIDE;
    let board = full_box();
    assert_eq!((board.nets().len(), board.ticket().len(), board.figures()), (180, LONGEST_TICKET, [180, 180, 4]));
    assert_eq!((board.count_at_column(45), board.count_at_track(45)), (180, 180));
    for net in 1..=LARGEST_NET {
        add_refused(&board, net as u64, &[1, 2], 20, net as usize);
    }
    let mut board = started(BOX, side, side);
    let all = place_numbers(BOX, side, side);
    add_refused(&board, 180, &[&all[..], &all].concat(), 21, 360);
    assert_eq!(board.add(180, &all), Ok(()));
    for place in all {
        add_refused(&board, 1, &[place, 0], 21, 0);
    }
    assert_eq!((board.ticket().len(), board.figures()), (LONGEST_TICKET, [1, 1, 2]));
    counts_are(&board, &[1; 90], &[1; 90]);
    assert_eq!((board.drop(&[180]), board), (Ok(()), started(BOX, side, side)));
}

#[test]
fn buffers_around_the_length_needed() {
    let board = small_box();
    let ticket = board.ticket();
    assert_eq!(ticket, [3, 3, 2, 5, 2, 5, 1, 5]);
    for size in [0, 1, 7] {
        let mut buffer = vec![STAIN; size];
        assert_eq!((board.write_ticket(&mut buffer), buffer), ([19, 8, 0], vec![STAIN; size]));
    }
    for size in [8, 9, 600] {
        let mut buffer = vec![STAIN; size];
        assert_eq!(board.write_ticket(&mut buffer), [0, 0, 8]);
        assert_eq!(buffer, [&ticket[..], &vec![STAIN; size - 8]].concat());
    }
}

/// A second board: the net at each place number, and what each column and each track must pass, kept through every edit.
#[derive(Clone)]
struct Kept {
    kind: u8,
    n: usize,
    byte2: usize,
    at: [u8; 1024],
    columns: Vec<i32>,
    tracks: Vec<i32>,
}

/// Counts the lines from the first to the last of a net, unless they are one; a net all before line 1, or all past the last, at that
/// one if `beside`.
fn count(lines: &mut [i32], by: i32, at: impl Iterator<Item = usize> + Clone, beside: bool) {
    let (first, last) = (at.clone().min().expect("a pin"), at.max().expect("a pin"));
    let size = lines.len();
    if first < last {
        lines[first.max(1) - 1..last.min(size)].iter_mut().for_each(|x| *x += by);
    } else if beside && (first == 0 || first == size + 1) {
        lines[first.clamp(1, size) - 1] += by;
    }
}

impl Kept {
    fn start(kind: u64, n: u64, byte2: u64) -> (Kept, [u64; 2]) {
        let number = match (kind, n, byte2) {
            (0 | 4.., _, _) => 2,
            (_, 0 | 91.., _) => 3,
            (_, _, 0) | (1 | 2, _, 9..) | (3, _, 91..) => 4,
            _ => 0,
        };
        let (kind, n, byte2) = if number == 0 { (kind as u8, n as usize, byte2 as usize) } else { (ROW, 1, 1) };
        (Kept { kind, n, byte2, at: [0; 1024], columns: vec![0; n], tracks: vec![0; byte2] }, [number, 0])
    }

    fn is_place(&self, place: u64) -> bool {
        let last = match (place / 256, self.kind) {
            (0, _) | (1, CHANNEL | BOX) => self.n,
            (2 | 3, BOX) => self.byte2,
            _ => 0,
        };
        (1..=last as u64).contains(&(place % 256))
    }

    fn has(&self, net: u64) -> bool {
        net > 0 && self.at.iter().any(|m| *m as u64 == net)
    }

    fn recount(&mut self, net: u8, by: i32) {
        let pins = self.at.iter().enumerate().filter(|(_, m)| **m == net).map(|(place, _)| (place / 256, place % 256));
        let (n, w) = (self.n, self.byte2);
        let line = move |side: usize, place: usize, across: bool| match side {
            NORTH | SOUTH if across => place,
            WEST | EAST if !across => place,
            WEST | SOUTH => 0,
            _ => 1 + if across { n } else { w },
        };
        count(&mut self.columns, by, pins.clone().map(|(side, place)| line(side, place, true)), self.kind == BOX);
        if self.kind == BOX {
            count(&mut self.tracks, by, pins.map(|(side, place)| line(side, place, false)), true);
        }
    }

    fn add(&mut self, net: u64, places: &[u64]) -> [u64; 2] {
        if !(1..=180).contains(&net) {
            return [7, 0];
        }
        if self.has(net) {
            return [20, net];
        }
        if places.len() < 2 {
            return [21, places.len() as u64];
        }
        let before = self.at;
        for (i, place) in places.iter().enumerate() {
            if !self.is_place(*place) || self.at[*place as usize] != 0 {
                self.at = before;
                return [21, i as u64];
            }
            self.at[*place as usize] = net as u8;
        }
        self.recount(net as u8, 1);
        [0, 0]
    }

    /// Whether the net was there to be dropped.
    fn drop_one(&mut self, net: u64) -> bool {
        let there = self.has(net);
        if there {
            self.recount(net as u8, -1);
            self.at.iter_mut().filter(|m| **m as u64 == net).for_each(|m| *m = 0);
        }
        there
    }

    /// One net after the other: one that has gone, and was there before, is a repeat. All come back if one of them can't be dropped.
    fn drop(&mut self, nets: &[u64]) -> [u64; 2] {
        let before = self.clone();
        let mut outcome = [0, 0];
        for (i, net) in nets.iter().enumerate() {
            if !before.has(*net) {
                outcome = [22, *net];
                break;
            }
            if !self.drop_one(*net) && outcome == [0, 0] {
                outcome = [23, i as u64];
            }
        }
        if outcome != [0, 0] {
            *self = before;
        }
        outcome
    }

    fn make(&mut self, call: &Call) -> [u64; 2] {
        match call {
            Call::Start(kind, n, byte2) => {
                let (board, outcome) = Kept::start(*kind, *n, *byte2);
                *self = board;
                outcome
            }
            Call::Add(net, places) => self.add(*net, places),
            Call::Drop(nets) => self.drop(nets),
            Call::Write(size) => match self.ticket().len() {
                length if length > *size => [19, length as u64],
                _ => [0, 0],
            },
        }
    }

    /// By way of the flat ticket.
    fn ticket(&self) -> Vec<u8> {
        let mut flat = vec![self.kind, self.n as u8, self.byte2 as u8];
        flat.extend((0..1024).filter(|place| self.is_place(*place)).map(|place| self.at[place as usize]));
        unflatten(&flat).expect("a good flat ticket")
    }

    /// The counts at columns 0, 1, .. and at tracks 0, 1, .. as they were kept.
    fn counts(&self) -> [Vec<u8>; 2] {
        [&self.columns, &self.tracks].map(|lines| {
            let kept = |c: usize| if (1..=lines.len()).contains(&c) { lines[c - 1] } else { 0 };
            (0..HASHED_COUNTS).map(|c| kept(c).try_into().expect("at most 180")).collect()
        })
    }

    /// The sides and places of each net's pins.
    fn pins(&self) -> Vec<Vec<(usize, usize)>> {
        let mut nets: BTreeMap<u8, Vec<(usize, usize)>> = BTreeMap::new();
        for (place, net) in self.at.iter().enumerate().filter(|(_, net)| **net != 0) {
            nets.entry(*net).or_default().push((place / 256, place % 256));
        }
        nets.into_values().collect()
    }

    /// The same counts by the definition. Column c passes a net with a pin at column c or less and a pin at column c or more, not all its
    /// pins at column c; in a box column 1 also passes each net all west, and column n each net all east. Tracks likewise, in boxes only.
    fn counts_by_definition(&self) -> [Vec<u8>; 2] {
        let (n, w, is_box, nets) = (self.n, self.byte2, self.kind == BOX, self.pins());
        let column = |(side, place): (usize, usize)| [place, place, 0, n + 1][side];
        let track = |(side, place): (usize, usize)| [w + 1, 0, place, place][side];
        let passes_column = |c: usize, net: &[(usize, usize)]| {
            let one_at_or_before = net.iter().any(|pin| column(*pin) <= c);
            let one_at_or_after = net.iter().any(|pin| column(*pin) >= c);
            let all_there = net.iter().all(|pin| column(*pin) == c);
            let all_west = net.iter().all(|(side, _)| *side == WEST);
            let all_east = net.iter().all(|(side, _)| *side == EAST);
            one_at_or_before && one_at_or_after && !all_there || is_box && (c == 1 && all_west || c == n && all_east)
        };
        let passes_track = |c: usize, net: &[(usize, usize)]| {
            let one_at_or_below = net.iter().any(|pin| track(*pin) <= c);
            let one_at_or_above = net.iter().any(|pin| track(*pin) >= c);
            let all_there = net.iter().all(|pin| track(*pin) == c);
            let all_south = net.iter().all(|(side, _)| *side == SOUTH);
            let all_north = net.iter().all(|(side, _)| *side == NORTH);
            one_at_or_below && one_at_or_above && !all_there || c == 1 && all_south || c == w && all_north
        };
        let is_column = |c: usize| 1 <= c && c <= n;
        let is_track = |c: usize| is_box && 1 <= c && c <= w;
        let lines = || 0..HASHED_COUNTS;
        let columns = lines().map(|c| nets.iter().filter(|net| is_column(c) && passes_column(c, net)).count() as u8).collect();
        let tracks = lines().map(|c| nets.iter().filter(|net| is_track(c) && passes_track(c, net)).count() as u8).collect();
        [columns, tracks]
    }

    fn figures(&self) -> [u64; 3] {
        let [across, up] = [&self.columns, &self.tracks].map(|lines| *lines.iter().max().expect("a line") as usize);
        let floor = if self.kind == BOX { floor(self.n, self.byte2, across, up) } else { 0 };
        [across, up, floor].map(|x| x as u64)
    }
}

fn numbers(line: &str) -> Vec<u64> {
    line.split(' ').map(|word| word.trim_end().parse().expect("a number")).collect()
}

/// Both boards' counts are those of the definition, and their largest are the figures; a start has cleared them.
fn same_counts(board: &Board, kept: &Kept, call: &Call) {
    let defined = kept.counts_by_definition();
    assert_eq!((&counts(board), &kept.counts()), (&defined, &defined), "{call:?}");
    let most = [0, 1].map(|i| *defined[i].iter().max().expect("a count") as u64);
    assert_eq!(board.figures()[..2], most, "{call:?}");
    if matches!(call, Call::Start(..)) {
        assert_eq!(counts(board), [[0; HASHED_COUNTS]; 2], "{call:?}");
    }
}

/// Both boards after a call: the line is what the second board says, and of a refused edit the board and its counts are as they were.
fn same_after(board: &mut Board, kept: &mut Kept, call: &Call) -> [u64; 2] {
    let before = (board.clone(), counts(board));
    let printed = numbers(&line(board, call));
    let outcome = kept.make(call);
    assert_eq!(printed[..2], outcome, "{call:?}");
    if outcome != [0, 0] && !matches!(call, Call::Start(..)) || matches!(call, Call::Write(_)) {
        assert_eq!((board.clone(), counts(board)), before, "{call:?}");
    }
    same_counts(board, kept, call);
    let ticket = kept.ticket();
    assert_eq!(board.ticket(), ticket, "{call:?}");
    let t = read(&ticket).expect("a board's ticket is a good one");
    let f = figures(&t);
    assert_eq!((board.figures(), [f.across, f.up, f.floor].map(|x| x as u64)), (kept.figures(), kept.figures()), "{ticket:?}");
    assert_eq!(t.nets(), board.nets().keys().copied().collect::<Vec<u8>>());
    assert!(board.nets().values().all(|places| places.len() >= 2));
    let mut buffer = [STAIN; RECORD_BUFFER];
    if !matches!(call, Call::Write(size) if *size < ticket.len()) {
        buffer[..ticket.len()].copy_from_slice(&ticket);
    }
    let written = [if outcome[0] == 19 { 0 } else { ticket.len() as u64 }, hash(0, &buffer)];
    let first = match call {
        Call::Start(first, ..) | Call::Add(first, _) => Some(*first),
        Call::Drop(nets) => nets.first().copied(),
        Call::Write(_) => {
            assert_eq!(printed[2..], written, "{call:?}");
            return outcome;
        }
    };
    let there = first.is_some_and(|net| kept.has(net)) as u64;
    let hashed = hash(0, &kept.counts_by_definition().concat());
    let right = [&[there, f.nets as u64], &kept.figures()[..], &written, &[hashed]].concat();
    assert_eq!(printed[2..], right, "{call:?}");
    outcome
}

/// How many calls of the histories gave each number.
fn histories(r: &mut Numbers, many: usize, calls: usize) -> [usize; 256] {
    let mut given = [0; 256];
    for _ in 0..many {
        let shape = random_shape(r);
        let filled = r.below(2) == 0;
        let history = edits::history(r, shape, filled, calls, 4);
        let (mut board, (mut kept, _)) = (Board::fresh(), Kept::start(1, 1, 1));
        let mut survivors: Vec<&Call> = Vec::new();
        for call in &history {
            let [number, _] = same_after(&mut board, &mut kept, call);
            given[number as usize] += 1;
            match call {
                Call::Add(..) if number == 0 => survivors.push(call),
                Call::Drop(nets) if number == 0 => survivors.retain(|add| !matches!(add, Call::Add(m, _) if nets.contains(m))),
                _ => {}
            }
        }
        let mut again = started(shape.0, shape.1, shape.2);
        survivors.iter().for_each(|add| drop(line(&mut again, add)));
        assert_eq!(again, board, "the nets added and not since dropped");
    }
    given
}

#[test]
fn random_histories() {
    let given = histories(&mut Numbers::new(83), 120, 120);
    assert!(given[0] > 8_000, "{}", given[0]);
    for number in [7, 19, 20, 21, 22, 23] {
        assert!(given[number] > 120, "{number}: {}", given[number]);
    }
}

#[test]
fn long_histories_of_small_boards() {
    let r = &mut Numbers::new(89);
    for (kind, n, byte2) in [(ROW, 5, 2), (CHANNEL, 3, 1), (BOX, 1, 1), (BOX, 1, 3), (BOX, 3, 1), (BOX, 2, 2), (BOX, 5, 4)] {
        let (mut board, (mut kept, _)) = (Board::fresh(), Kept::start(1, 1, 1));
        for call in edits::history(r, (kind, n, byte2), false, 3000, 6) {
            same_after(&mut board, &mut kept, &call);
        }
    }
}

/// One board throughout: each start, some of them refused, takes the pins and the counts of the board before it away. Of the longest box
/// the nets added are of every sort.
#[test]
fn histories_of_the_shortest_and_the_longest_boards() {
    let r = &mut Numbers::new(103);
    let side = LONGEST_SIDE;
    let rows = [(ROW, 1, 1), (ROW, 2, 8), (ROW, side, 1), (ROW, side, 8)];
    let channels = [(CHANNEL, 1, 8), (CHANNEL, 2, 1), (CHANNEL, side, 1), (CHANNEL, side, 8)];
    let boxes = [(BOX, 1, 1), (BOX, 1, 2), (BOX, 2, 1), (BOX, 1, side), (BOX, side, 1), (BOX, 2, side), (BOX, side, 2), (BOX, side, side)];
    let refused = [Call::Start(4, 90, 90), Call::Start(3, 91, 90), Call::Start(3, 90, 91), Call::Start(2, 90, 9)];
    let (mut board, (mut kept, _)) = (Board::fresh(), Kept::start(1, 1, 1));
    let (mut all_columns, mut all_tracks, mut no_column, mut no_track, mut of_side) = (0, 0, 0, 0, [0; 4]);
    for shape in [&rows[..], &channels, &boxes].concat() {
        for filled in [false, true] {
            for call in edits::history(r, shape, filled, 150, 6) {
                let outcome = same_after(&mut board, &mut kept, &call);
                let Call::Add(_, list) = call else { continue };
                if outcome != [0, 0] || shape != (BOX, side, side) {
                    continue;
                }
                let alone = with_nets(BOX, side, side, &[&list]);
                let (columns, tracks) = (alone.columns(), alone.tracks());
                all_columns += columns.iter().all(|count| *count == 1) as usize;
                all_tracks += tracks.iter().all(|count| *count == 1) as usize;
                no_column += columns.iter().all(|count| *count == 0) as usize;
                no_track += tracks.iter().all(|count| *count == 0) as usize;
                (0..4).for_each(|side| of_side[side] += list.iter().all(|place| *place as usize / 256 == side) as usize);
            }
            same_after(&mut board, &mut kept, &refused[r.below(refused.len())]);
        }
    }
    let least = [all_columns, all_tracks, no_column, no_track].into_iter().chain(of_side).min();
    assert!(least > Some(2), "{all_columns} {all_tracks} {no_column} {no_track} {of_side:?}");
}

/// Boards that are filled again and again, and lists of every sort that are dropped from them.
#[test]
fn lists_of_every_sort() {
    let r = &mut Numbers::new(113);
    let mut sorts: BTreeMap<&str, usize> = BTreeMap::new();
    for _ in 0..80 {
        let shape = random_shape(r);
        let (mut board, (mut kept, _)) = (Board::fresh(), Kept::start(1, 1, 1));
        for call in edits::dropped_lists(r, shape, 3, 12) {
            let nets = board.nets().len();
            let outcome = same_after(&mut board, &mut kept, &call);
            let Call::Drop(list) = call else { continue };
            let (size, at) = (list.len(), list.iter().position(|x| outcome == [22, *x]).unwrap_or(0));
            let sort = match outcome {
                [0, _] if size < 2 => ["no net", "one net"][size],
                [0, _] if size < nets => "several nets",
                [0, _] => "all nets",
                [22, _] if (1..at).any(|i| list[..i].contains(&list[i])) => "an absent net after a repeat",
                [22, _] if at == 0 => "an absent net first",
                [22, _] if at + 1 == size => "an absent net last",
                [22, 1..=180] => "an absent net in the middle",
                [22, _] => "no net's number in the middle",
                [_, 1] => "a repeat at index 1",
                _ if size > nets => "a repeat in a list longer than all nets",
                _ => "a repeat",
            };
            *sorts.entry(sort).or_default() += 1;
        }
    }
    assert_eq!(sorts.len(), 12, "{sorts:?}");
    assert!(sorts.values().all(|many| *many > 20), "{sorts:?}");
}

/// Every list of so many of these numbers or fewer.
fn lists_of(numbers: &[u64], most: usize) -> Vec<Vec<u64>> {
    let mut lists: Vec<Vec<u64>> = vec![vec![]];
    for i in 0..most {
        let longest: Vec<Vec<u64>> = lists.iter().filter(|list| list.len() == i).cloned().collect();
        lists.extend(longest.iter().flat_map(|list| numbers.iter().map(move |x| [&list[..], &[*x]].concat())));
    }
    lists
}

/// Every list of three places or fewer out of all those near the sides, on an empty board and on one with a net.
#[test]
fn every_short_list_on_small_boards() {
    let (mut accepted, mut right) = (0, 0);
    for (kind, n, byte2) in [(ROW, 3, 1), (CHANNEL, 2, 1), (BOX, 1, 1), (BOX, 1, 2), (BOX, 2, 1)] {
        let last = n.max(byte2) + 1;
        let mut near: Vec<u64> = (NORTH..=EAST).flat_map(|side| (0..=last).map(move |i| place_number(side, i))).collect();
        near.extend([255, 1025]);
        let lists = lists_of(&near, 3);
        let all = place_numbers(kind, n, byte2);
        for first in [vec![], vec![Call::Add(9, vec![all[0], all[2]])]] {
            // Two or three of the free places, in any order.
            let free = all.len() - 2 * first.len();
            right += free * (free - 1) + free * (free - 1) * free.saturating_sub(2);
            for list in &lists {
                let (mut board, (mut kept, _)) = (Board::fresh(), Kept::start(1, 1, 1));
                let calls = [vec![Call::Start(kind as u64, n as u64, byte2 as u64)], first.clone()].concat();
                calls.iter().for_each(|call| drop((line(&mut board, call), kept.make(call))));
                let outcome = same_after(&mut board, &mut kept, &Call::Add(7, list.clone()));
                accepted += (outcome == [0, 0]) as usize;
            }
        }
    }
    assert_eq!((accepted, right), (460, 460));
}

/// Every list of four numbers or fewer out of those of the nets that are there, of a net that is not, and of some that are no net's.
#[test]
fn every_short_list_of_nets_on_small_boards() {
    let mut given = [0; 24];
    for (kind, n, byte2) in [(ROW, 6, 1), (CHANNEL, 2, 1), (BOX, 1, 1), (BOX, 1, 2), (BOX, 2, 1)] {
        let all = place_numbers(kind, n, byte2);
        let adds: Vec<Call> = [180, 1, 9].into_iter().zip(all.chunks(2)).map(|(net, list)| Call::Add(net, list.to_vec())).collect();
        for there in 0..=adds.len() {
            let (mut board, (mut kept, _)) = (Board::fresh(), Kept::start(1, 1, 1));
            let calls = [&[Call::Start(kind as u64, n as u64, byte2 as u64)], &adds[..there]].concat();
            calls.iter().for_each(|call| drop((line(&mut board, call), kept.make(call))));
            let numbers: Vec<u64> = board.nets().keys().map(|net| *net as u64).chain([7, 0, 181, 256 + 180, MAX]).collect();
            for list in lists_of(&numbers, 4) {
                let [number, _] = same_after(&mut board.clone(), &mut kept.clone(), &Call::Drop(list));
                given[number as usize] += 1;
            }
        }
    }
    // All lists, those accepted, and those with a repeat and nothing absent; each with no net, one, two and three there. Three boards have
    // room for three nets, and two for two.
    let sum = |by_nets: [usize; 4]| 5 * (by_nets[0] + by_nets[1] + by_nets[2]) + 3 * by_nets[3];
    let (all, accepted, with_repeat) = (sum([781, 1555, 2801, 4681]), sum([1, 2, 5, 16]), sum([0, 3, 26, 105]));
    assert_eq!([given[0], given[22], given[23]], [accepted, all - accepted - with_repeat, with_repeat]);
}

/// A ticket's nets, added in any order, make that ticket.
#[test]
fn boards_of_random_tickets() {
    let r = &mut Numbers::new(97);
    for _ in 0..400 {
        let t = random(r);
        if t[0] == TWO_LAYER {
            continue;
        }
        let mut calls = of_ticket(&t);
        r.shuffle(&mut calls[1..]);
        let mut board = Board::fresh();
        calls.iter().for_each(|call| drop(line(&mut board, call)));
        assert_eq!(board.ticket(), t);
    }
    let one_net = encode(ROW, 90, 8, &slots(ROW, 90, 8).into_iter().map(|place| (place, LARGEST_NET)).collect());
    assert_eq!(of_ticket(&one_net), [Call::Start(1, 90, 8), Call::Add(180, (1..=90).collect())]);
}

#[test]
fn place_numbers_of_the_sides() {
    assert_eq!(place_numbers(ROW, 2, 8), [1, 2]);
    assert_eq!(place_numbers(CHANNEL, 2, 8), [1, 2, 257, 258]);
    assert_eq!(place_numbers(BOX, 1, 2), [1, 257, 513, 514, 769, 770]);
    assert_eq!(place_numbers(BOX, 90, 90).len(), (NORTH..=EAST).map(|side| places(side, 90, 90)).sum());
}

#[test]
fn records_by_hand() {
    assert_eq!(Call::Start(3, 1, 2).record(), [1, 3, 0, 3, 0, 1, 0, 2, 0]);
    assert_eq!(Call::Add(9, vec![513, 514]).record(), [2, 3, 0, 9, 0, 1, 2, 2, 2]);
    assert_eq!(Call::Add(9, vec![]).record(), [2, 1, 0, 9, 0]);
    assert_eq!(Call::drop_one(65536).record(), [131, 1, 0, 0, 0, 1, 0, 0, 0, 0, 0]);
    assert_eq!((Call::Drop(vec![]).record(), Call::Drop(vec![9, 300]).record()), (vec![3, 0, 0], vec![3, 2, 0, 9, 0, 44, 1]));
    assert_eq!(Call::Write(300).record(), [4, 1, 0, 44, 1]);
    let made = [Call::Start(3, 1, 2), Call::Add(9, vec![513, 514]), Call::Write(6)];
    let drops = [vec![], vec![65536], vec![9, 9], vec![9]].map(Call::Drop);
    let input: Vec<u8> = made.iter().chain(&drops).flat_map(Call::record).collect();
    let stained = |front: &[u8]| hash(0, &[front, &vec![STAIN; RECORD_BUFFER - front.len()]].concat());
    let (empty, full, none) = (stained(&[3, 1, 2, 0]), stained(&[3, 1, 2, 4, 3, 9, 9]), stained(&[]));
    // Column 1 and tracks 1 and 2 count the net; the bytes of the tracks begin at 98.
    let mut counts = [0; 196];
    let fresh = hash(0, &counts);
    [1, 99, 100].iter().for_each(|i| counts[*i] = 1);
    let with_net = hash(0, &counts);
    assert_eq!((fresh, with_net), (281_399, 633_937), "worked out apart from this code");
    let lines = [
        format!("0 0 0 0 0 0 1 4 {empty} {fresh}\n"),
        format!("0 0 1 1 1 1 2 7 {full} {with_net}\n"),
        format!("19 7 0 {none}\n"),
        format!("0 0 0 1 1 1 2 7 {full} {with_net}\n"),
        format!("22 65536 0 1 1 1 2 7 {full} {with_net}\n"),
        format!("23 1 1 1 1 1 2 7 {full} {with_net}\n"),
        format!("0 0 0 0 0 0 1 4 {empty} {fresh}\n"),
    ];
    assert_eq!(run(&input), lines.concat());
}

#[test]
fn runs_are_the_lines_of_their_calls() {
    let r = &mut Numbers::new(101);
    for _ in 0..40 {
        let shape = random_shape(r);
        let calls = edits::history(r, shape, false, 40, 2);
        let mut board = Board::fresh();
        let right: String = calls.iter().map(|call| line(&mut board, call)).collect();
        let [narrow, wide] = [Call::record, Call::wide_record].map(|to| calls.iter().flat_map(to).collect::<Vec<u8>>());
        assert_eq!((run(&narrow), run(&wide)), (right.clone(), right.clone()));
        let cut = run(&narrow[..narrow.len() - 1]);
        assert_eq!((right.starts_with(&cut), right.lines().count()), (true, cut.lines().count() + 1));
    }
}

#[test]
fn what_ends_a_run() {
    let drop = Call::drop_one(1).record();
    let lines = |middle: Vec<u8>| run(&[&drop[..], &middle, &drop].concat()).lines().count();
    for wide in [false, true] {
        for (code, numbers) in [(0, 0), (0, 1), (5, 0), (5, 1), (127, 3), (1, 0), (1, 2), (2, 0), (4, 0)] {
            assert_eq!(lines(record(code, wide, &vec![1; numbers])), 1, "{code}");
        }
        assert_eq!(lines(record(4, wide, &[513])), 1);
        for (code, numbers) in [(1, 3), (1, 9), (2, 1), (2, MOST_NUMBERS), (3, 0), (3, 1), (3, MOST_NUMBERS), (4, MOST_NUMBERS)] {
            assert_eq!(lines(record(code, wide, &vec![1; numbers])), 3, "{code}");
            assert_eq!(lines(record(code, wide, &[1; MOST_NUMBERS + 1])), 1, "{code}");
        }
    }
    assert_eq!(lines(record(4, true, &[MAX])), 1);
    assert_eq!((run(&[]), run(&drop[..4])), (String::new(), String::new()));
}
