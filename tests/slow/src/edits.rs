//! Calls on a board to try: the records of them that board_vectors reads, the lines that it prints, and random histories.
//!
//! A record is a code of one byte; how many numbers follow, two bytes, low byte first; and these numbers, two bytes each, low byte
//! first, or eight bytes each where bit 7 of the code stands. The codes, without bit 7:
//!
//! 1. start: kind, n, byte 2;
//! 2. add: the net, then the places;
//! 3. drop: the nets, none or more;
//! 4. the board's ticket is written into a buffer of so many bytes, at most 512.
//!
//! The run begins with a fresh row board, n 1, h 1. Numbers past those that a code takes are passed over. A record of another code,
//! one cut short, with fewer numbers than its code takes or with more than 512, or a buffer of more than 512 bytes ends the run.
//!
//! A line has, for codes 1 to 3, the refusal's number and place, 0 and 0 if there is none; then of the board after the call: 1 or 0,
//! whether the net with the record's first number is there, 0 if the record has no numbers; the number of nets; across; up; floor; the
//! ticket's length; the hash of a stained buffer of 512 bytes that the ticket was written to; and the hash of the stored figures, 196
//! bytes: the count at columns 0, 1, .. 97 and then the count at tracks 0, 1, .. 97. For code 4: number, place and length, and the hash
//! of the whole stained buffer of 512 bytes, only the first of which were lent.

use crate::board::{place_number, Board};
use crate::read::read;
use crate::records::{hash, row, RECORD_BUFFER, STAIN};
use crate::tickets::Numbers;
use crate::{places, rules, BOX, CHANNEL, EAST, LARGEST_NET, LONGEST_SIDE, NORTH, ROW, SOUTH, WEST};

/// The most numbers of a record.
pub const MOST_NUMBERS: usize = 512;

/// How many columns, and how many tracks, a line's hash of the counts has: from 0, which there is none of, to some past the longest side.
pub const HASHED_COUNTS: usize = 98;

#[derive(Clone, Debug, PartialEq, Eq)]
pub enum Call {
    Start(u64, u64, u64),
    Add(u64, Vec<u64>),
    Drop(Vec<u64>),
    /// The ticket is written into a buffer of so many bytes.
    Write(usize),
}

impl Call {
    /// The drop of one net.
    pub fn drop_one(net: u64) -> Self {
        Call::Drop(vec![net])
    }

    fn code(&self) -> u8 {
        match self {
            Call::Start(..) => 1,
            Call::Add(..) => 2,
            Call::Drop(_) => 3,
            Call::Write(_) => 4,
        }
    }

    fn numbers(&self) -> Vec<u64> {
        match self {
            Call::Start(kind, n, byte2) => vec![*kind, *n, *byte2],
            Call::Add(net, places) => [&[*net], &places[..]].concat(),
            Call::Drop(nets) => nets.clone(),
            Call::Write(size) => vec![*size as u64],
        }
    }

    /// Its record; with numbers of eight bytes where one of them needs it.
    pub fn record(&self) -> Vec<u8> {
        let numbers = self.numbers();
        record(self.code(), numbers.iter().any(|x| *x > u16::MAX as u64), &numbers)
    }

    /// Its record with numbers of eight bytes.
    pub fn wide_record(&self) -> Vec<u8> {
        record(self.code(), true, &self.numbers())
    }
}

/// A record of any code and numbers.
pub fn record(code: u8, wide: bool, numbers: &[u64]) -> Vec<u8> {
    let size = if wide { 8 } else { 2 };
    let mut out = vec![code | (wide as u8) << 7];
    out.extend((numbers.len() as u16).to_le_bytes());
    out.extend(numbers.iter().flat_map(|x| x.to_le_bytes().into_iter().take(size)));
    out
}

/// The call of the first record, and the bytes after it; nothing where it ends the run.
fn cut(bytes: &[u8]) -> Option<(Call, &[u8])> {
    let (head, rest) = bytes.split_at_checked(3)?;
    let count = u16::from_le_bytes([head[1], head[2]]) as usize;
    if count > MOST_NUMBERS {
        return None;
    }
    let size = if head[0] >> 7 == 1 { 8 } else { 2 };
    let (body, rest) = rest.split_at_checked(size * count)?;
    let numbers: Vec<u64> = body.chunks(size).map(|b| b.iter().rfold(0, |x, byte| x << 8 | *byte as u64)).collect();
    let call = match (head[0] & 127, &numbers[..]) {
        (1, [kind, n, byte2, ..]) => Call::Start(*kind, *n, *byte2),
        (2, [net, places @ ..]) => Call::Add(*net, places.to_vec()),
        (3, nets) => Call::Drop(nets.to_vec()),
        (4, [size, ..]) if *size <= RECORD_BUFFER as u64 => Call::Write(*size as usize),
        _ => return None,
    };
    Some((call, rest))
}

/// Makes an edit; the first two numbers of its line.
fn make(board: &mut Board, call: &Call) -> [u64; 2] {
    let outcome = match call {
        Call::Start(kind, n, byte2) => {
            let (fresh, outcome) = Board::start(*kind, *n, *byte2);
            *board = fresh;
            outcome
        }
        Call::Add(net, places) => board.add(*net, places),
        Call::Drop(nets) => board.drop(nets),
        Call::Write(_) => unreachable!("no edit"),
    };
    outcome.map_or_else(|refusal| [refusal.0 as u64, refusal.1 as u64], |_| [0, 0])
}

/// The hash of the counts at columns 0, 1, .. 97 and then at tracks 0, 1, .. 97.
fn hash_of_counts(board: &Board) -> u64 {
    let mut bytes = [0; 2 * HASHED_COUNTS];
    for (counts, zero) in [(board.columns(), 0), (board.tracks(), HASHED_COUNTS)] {
        bytes[zero + 1..][..counts.len()].copy_from_slice(&counts);
    }
    hash(0, &bytes)
}

/// Makes the call; its line.
pub fn line(board: &mut Board, call: &Call) -> String {
    let mut buffer = [STAIN; RECORD_BUFFER];
    if let Call::Write(size) = call {
        let [number, place, length] = board.write_ticket(&mut buffer[..*size]);
        return row(&[number, place, length, hash(0, &buffer)]);
    }
    let [number, place] = make(board, call);
    let there = call.numbers().first().is_some_and(|net| board.has(*net)) as u64;
    let [across, up, floor] = board.figures();
    let [_, _, length] = board.write_ticket(&mut buffer);
    let counts = hash_of_counts(board);
    row(&[number, place, there, board.nets().len() as u64, across, up, floor, length, hash(0, &buffer), counts])
}

/// The calls of an input's records, up to one that ends the run.
pub fn calls(input: &[u8]) -> Vec<Call> {
    let (mut rest, mut out) = (input, Vec::new());
    while let Some((call, after)) = cut(rest) {
        out.push(call);
        rest = after;
    }
    out
}

/// What board_vectors prints of an input.
pub fn run(input: &[u8]) -> String {
    let mut board = Board::fresh();
    calls(input).iter().map(|call| line(&mut board, call)).collect()
}

/// The start of a board and its nets, in rising order, that make this ticket; it is a row, a channel or a box.
pub fn of_ticket(ticket: &[u8]) -> Vec<Call> {
    let t = read(ticket).expect("a good ticket");
    let mut out = vec![Call::Start(t.kind as u64, t.n as u64, t.byte2 as u64)];
    for net in t.nets() {
        let pins = t.pins.iter().filter(|p| p.net == net);
        out.push(Call::Add(net as u64, pins.map(|p| place_number(p.side, p.place)).collect()));
    }
    out
}

/// A number that is no net's; the low bytes of some are the net's.
fn no_net(r: &mut Numbers, net: u64) -> u64 {
    r.pick(&[0, 181, 182, 255, 256, 256 + net, (1 << 16) - 1, (1 << 16) + net, (1 << 32) + net, (1 << 63) + net, u64::MAX])
}

/// A number that is no place of the board; the low bits of some are a place's.
fn no_place(r: &mut Numbers, board: &Board) -> u64 {
    let (kind, n, byte2) = board.shape();
    let (sides, _) = rules(kind).expect("a kind");
    let side = r.below(4);
    let last = if sides.contains(&side) { places(side, n, byte2) } else { 0 };
    let on_side = [0, last + 1, last + 2, 255].map(|i| place_number(side, i));
    let far = [4, 5, 255].map(|side| place_number(side, 1));
    let place = place_number(r.pick(sides), 1);
    match r.below(4) {
        0 => r.pick(&far),
        1 => r.pick(&[1024 + place, (1 << 16) + place, (1 << 32) + place, (1 << 63) + place, u64::MAX]),
        _ => r.pick(&on_side),
    }
}

/// The places without a pin, in any order.
fn free_places(r: &mut Numbers, board: &Board) -> Vec<u64> {
    let filled = board.filled();
    let mut out = board.places();
    out.retain(|place| !filled.contains(place));
    r.shuffle(&mut out);
    out
}

/// A net that is not there, if there is one; often the smallest, so that dropped ones come again.
fn absent_net(r: &mut Numbers, board: &Board) -> Option<u64> {
    let absent: Vec<u64> = (1..=LARGEST_NET as u64).filter(|net| !board.has(*net)).collect();
    match r.below(2) {
        _ if absent.is_empty() => None,
        0 => Some(absent[0]),
        _ => Some(r.pick(&absent)),
    }
}

fn present_net(r: &mut Numbers, board: &Board) -> Option<u64> {
    board.nets().keys().nth(r.below(board.nets().len().max(1))).map(|net| *net as u64)
}

/// The nets that are there, in any order.
fn present_nets(r: &mut Numbers, board: &Board) -> Vec<u64> {
    let mut out: Vec<u64> = board.nets().keys().map(|net| *net as u64).collect();
    r.shuffle(&mut out);
    out
}

/// A number that no net of the board has; the low bytes of some are those of one that is there.
fn absent_number(r: &mut Numbers, board: &Board) -> u64 {
    match absent_net(r, board) {
        Some(net) if r.below(2) == 0 => net,
        _ => {
            let there = present_net(r, board).unwrap_or(1);
            no_net(r, there)
        }
    }
}

/// Where a place stands in the order of the columns, or of the tracks: the side before the first comes first, and the one past the last
/// comes last.
fn order_of(place: u64, tracks: bool) -> u64 {
    match ((place / 256) as usize, tracks) {
        (NORTH | SOUTH, false) | (WEST | EAST, true) => place % 256,
        (WEST, false) | (SOUTH, true) => 0,
        _ => 255,
    }
}

/// Two or more of these free places, if there are as many: any, some of one side, some of one column or track and of those next to it, or
/// two that are farthest apart and any others.
fn some_of(r: &mut Numbers, mut free: Vec<u64>) -> Vec<u64> {
    match r.below(6) {
        0 if !free.is_empty() => {
            let side = free[0] / 256;
            if free.iter().filter(|place| **place / 256 == side).count() >= 2 {
                free.retain(|place| place / 256 == side);
            }
        }
        1 if !free.is_empty() => {
            let (sides, line) = (free[0] / 512, free[0] % 256);
            free.sort_by_key(|place| (place / 512 != sides, line.abs_diff(place % 256)));
        }
        2 if free.len() > 1 => {
            let tracks = r.below(2) == 0;
            free.sort_by_key(|place| order_of(*place, tracks));
            free.rotate_right(1);
            r.shuffle(&mut free[2..]);
        }
        _ => {}
    }
    let size = match r.below(36) {
        0 => r.below(free.len() + 1).max(2),
        1..=9 => 2 + r.below(4),
        _ => 2,
    };
    free.truncate(size);
    free
}

/// An add that is accepted, if there is one.
fn good_add(r: &mut Numbers, board: &Board) -> Option<Call> {
    let free = free_places(r, board);
    if free.len() < 2 {
        return None;
    }
    Some(Call::Add(absent_net(r, board)?, some_of(r, free)))
}

/// A list of places with one or more that are filled, no places, or there before.
fn bad_list(r: &mut Numbers, board: &Board) -> Vec<u64> {
    let filled = board.filled();
    let free = free_places(r, board);
    let mut list = some_of(r, free);
    while list.len() < 2 {
        let all = board.places();
        list.push(r.pick(&all));
    }
    for _ in 0..1 + r.below(2) {
        let at = r.below(list.len());
        list[at] = match r.below(4) {
            0 => r.pick(&list),
            1 if !filled.is_empty() => r.pick(&filled),
            _ => no_place(r, board),
        };
    }
    list
}

/// A drop that is accepted, if there is a net: of one, of several, or now and then, more seldom where there are many, of all.
fn good_drop(r: &mut Numbers, board: &Board) -> Option<Call> {
    let mut nets = present_nets(r, board);
    if nets.is_empty() {
        return None;
    }
    let size = match r.below(5) {
        0 => 2 + r.below(4),
        1 if r.below(6 + nets.len()) == 0 => nets.len(),
        _ => 1,
    };
    nets.truncate(size);
    Some(Call::Drop(nets))
}

/// A drop that is mostly refused: a few nets that are there, or all of them; and anywhere in the list some of these again, or numbers that
/// are absent, or both. One without either is accepted, an empty one too.
fn odd_drop(r: &mut Numbers, board: &Board) -> Call {
    let mut list = present_nets(r, board);
    if r.below(25) > 0 {
        list.truncate(r.below(5));
    }
    let (repeats, absent) = r.pick(&[(0, 0), (1, 0), (1, 0), (2, 0), (0, 1), (0, 2), (1, 1), (2, 1)]);
    for _ in 0..if list.is_empty() { 0 } else { repeats } {
        let again = r.pick(&list);
        list.insert(r.below(list.len() + 1), again);
    }
    for _ in 0..absent {
        let number = absent_number(r, board);
        list.insert(r.below(list.len() + 1), number);
    }
    Call::Drop(list)
}

/// Mostly refused, for any of the causes, or the ticket into a buffer of any length.
pub fn odd_call(r: &mut Numbers, board: &Board) -> Call {
    let net = absent_net(r, board).or_else(|| present_net(r, board)).expect("a net is there or not");
    let list = bad_list(r, board);
    let short = |r: &mut Numbers| list[..r.below(2)].to_vec();
    match r.below(13) {
        0 => Call::Add(no_net(r, net), if r.below(2) == 0 { short(r) } else { list }),
        1..=3 => odd_drop(r, board),
        4 => Call::Add(present_net(r, board).unwrap_or(net), if r.below(2) == 0 { short(r) } else { list }),
        5 => match (good_add(r, board), present_net(r, board)) {
            (Some(Call::Add(_, list)), Some(there)) => Call::Add(there, list),
            _ => Call::Add(net, list),
        },
        6 => Call::Add(net, short(r)),
        7 | 8 => {
            let (length, any) = (board.ticket().len(), r.below(RECORD_BUFFER + 1));
            Call::Write(r.pick(&[0, length - 1, length, length + 1, RECORD_BUFFER, any]))
        }
        _ => Call::Add(net, list),
    }
}

/// Adds until there is no more place, or no more net.
pub fn fill(r: &mut Numbers, board: &mut Board) -> Vec<Call> {
    let mut out = Vec::new();
    while let Some(call) = good_add(r, board) {
        make(board, &call);
        out.push(call);
    }
    out
}

/// So many calls that keep a board busy: mostly near full, now and then drained. One in so many of them is odd.
pub fn edits(r: &mut Numbers, board: &mut Board, calls: usize, odd_in: usize) -> Vec<Call> {
    let mut draining = false;
    let mut out = Vec::new();
    for _ in 0..calls {
        if r.below(if draining { 15 } else { 60 }) == 0 {
            draining = !draining;
        }
        let adds = r.below(3) > draining as usize;
        let edit = if adds { good_add(r, board) } else { None };
        let edit = edit.or_else(|| good_drop(r, board));
        let call = edit.filter(|_| r.below(odd_in) > 0).unwrap_or_else(|| odd_call(r, board));
        if !matches!(call, Call::Write(_)) {
            make(board, &call);
        }
        out.push(call);
    }
    out
}

/// The start of a board of this kind and shape, and the board.
fn start((kind, n, byte2): (u8, usize, usize)) -> (Vec<Call>, Board) {
    let call = Call::Start(kind as u64, n as u64, byte2 as u64);
    let mut board = Board::fresh();
    make(&mut board, &call);
    (vec![call], board)
}

/// A start of this kind and shape, and so many edits; of a board that is first filled, where that is asked for.
pub fn history(r: &mut Numbers, shape: (u8, usize, usize), filled: bool, calls: usize, odd_in: usize) -> Vec<Call> {
    let (mut out, mut board) = start(shape);
    if filled {
        out.extend(fill(r, &mut board));
    }
    out.extend(edits(r, &mut board, calls, odd_in));
    out
}

/// A start of this kind and shape, and so many rounds: the board is filled; so many odd lists are dropped; and one of any of its nets, in
/// the last round of all.
pub fn dropped_lists(r: &mut Numbers, shape: (u8, usize, usize), rounds: usize, odd: usize) -> Vec<Call> {
    let (mut out, mut board) = start(shape);
    for round in 1..=rounds {
        out.extend(fill(r, &mut board));
        for _ in 0..odd {
            let call = odd_drop(r, &board);
            make(&mut board, &call);
            out.push(call);
        }
        let mut nets = present_nets(r, &board);
        if round < rounds {
            nets.truncate(r.below(nets.len() + 1));
        }
        let call = Call::Drop(nets);
        make(&mut board, &call);
        out.push(call);
    }
    out
}

/// A shape of any kind, with few places or many.
pub fn random_shape(r: &mut Numbers) -> (u8, usize, usize) {
    let kind = r.pick(&[ROW, CHANNEL, BOX]);
    let (_, largest) = rules(kind).expect("a kind");
    let (longest, widest) = (r.pick(&[1, 3, 12, LONGEST_SIDE]), r.pick(&[1, 3, 12, LONGEST_SIDE]));
    (kind, 1 + r.below(longest), 1 + r.below(widest.min(largest)))
}
